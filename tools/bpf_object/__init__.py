"""Reads BPF objects as clang and bpf-gcc write them: ELF of 64 bits, little-endian, relocatable, with the line table of DWARF 4
or 5 if they were compiled with -g. Both compilers write .debug_line with -g; clang's .BTF.ext, which has the lines too, isn't read.

Nothing in a file is taken as right: whatever leads outside it is a `Damaged` object, and a line table that can't be read is none.
"""
import bisect
import collections
import struct

RELOCATABLE, BPF = 1, 247
SYMBOL_TABLE, RELOCATIONS_WITH_ADDENDS, NO_BYTES, RELOCATIONS = 2, 4, 8, 9
WRITABLE, ALLOCATED, EXECUTABLE = 1, 2, 4
NO_TYPE, DATA_OBJECT, FUNCTION, SECTION_NAME = 0, 1, 2, 3
UNDEFINED, COMMON = 0, 0xFFF2

Section = collections.namedtuple("Section", "number name kind flags data link info entry_size")
Symbol = collections.namedtuple("Symbol", "name kind section value size")
Relocation = collections.namedtuple("Relocation", "offset kind symbol addend")
Line = collections.namedtuple("Line", "file line")


class Damaged(Exception):
    """Why bytes are no BPF object."""


def part(data, start, length):
    if start + length > len(data):
        raise Damaged(f"is cut: bytes {start} to {start + length - 1} are wanted, and it has {len(data)}")
    return data[start:start + length]


def fields(layout, data, start):
    return struct.unpack(layout, part(data, start, struct.calcsize(layout)))


def text_at(data, start):
    end = data.find(b"\0", start)
    if not 0 <= start < len(data) or end < 0:
        raise Damaged(f"has no name at byte {start} of its names")
    return data[start:end].decode("utf-8", "replace")


class Object:
    """The sections and symbols of an object."""

    def __init__(self, data):
        if data[:4] != b"\x7fELF":
            raise Damaged("is no ELF file: give the object that `clang -target bpf -c` wrote")
        klass, order = fields("<BB", data, 4)
        if (klass, order) != (2, 1):
            raise Damaged("is no ELF file of 64 bits, little-endian: compile with `-target bpf`")
        kind, machine = fields("<HH", data, 16)
        if machine != BPF:
            raise Damaged(f"is of machine {machine}, not of BPF ({BPF}): compile with `-target bpf`")
        if kind != RELOCATABLE:
            raise Damaged("is linked: give the object that `-c` writes")
        self.sections = read_sections(data)
        self.symbols = self._symbols()

    def _symbols(self):
        tables = [s for s in self.sections if s.kind == SYMBOL_TABLE]
        if not tables:
            raise Damaged("has no symbols: don't strip it")
        names = self.section(tables[0].link).data
        symbols = []
        for start in range(0, len(tables[0].data) - 23, 24):
            name, info, _, section, value, size = fields("<IBBHQQ", tables[0].data, start)
            symbols.append(Symbol(text_at(names, name) if name else "", info & 15, section, value, size))
        return symbols

    def section(self, number):
        if number >= len(self.sections):
            raise Damaged(f"has no section {number}")
        return self.sections[number]

    def named(self, name):
        return next((s for s in self.sections if s.name == name), None)

    def functions(self):
        """The functions, of which an assembler may have left the type out."""
        code = {s.number for s in self.sections if s.flags & EXECUTABLE}
        kinds = (FUNCTION,) if any(s.kind == FUNCTION for s in self.symbols) else (FUNCTION, NO_TYPE)
        return [s for s in self.symbols if s.section in code and s.kind in kinds and s.name]

    def relocations(self, section):
        """The relocations of a section; an addend is None where the bytes there hold it."""
        found = []
        for table in self.sections:
            if table.kind not in (RELOCATIONS, RELOCATIONS_WITH_ADDENDS) or table.info != section.number:
                continue
            layout = "<QIIq" if table.kind == RELOCATIONS_WITH_ADDENDS else "<QII"
            size = struct.calcsize(layout)
            for start in range(0, len(table.data) - size + 1, size):
                offset, kind, symbol, *addend = fields(layout, table.data, start)
                if symbol >= len(self.symbols):
                    raise Damaged(f"has no symbol {symbol}")
                found.append(Relocation(offset, kind, self.symbols[symbol], addend[0] if addend else None))
        return sorted(found, key=lambda r: r.offset)


def read_sections(data):
    at, = fields("<Q", data, 40)
    size, count, names = fields("<HHH", data, 58)
    if at == 0 or count == 0 or size != 64:
        raise Damaged("has no sections")
    rows = [fields("<IIQQQQIIQQ", data, at + 64 * k) for k in range(count)]
    if names >= count:
        raise Damaged(f"has no section {names}")
    held = [b"" if row[1] == NO_BYTES else part(data, row[4], row[5]) for row in rows]
    return [Section(k, text_at(held[names], row[0]) if row[0] else "", row[1], row[2], held[k], row[6], row[7], row[9])
            for k, row in enumerate(rows)]


# ---- the line table: DWARF 5, section 6.2, and DWARF 4, section 6.2

class Cursor:
    """Reads numbers and strings one after the other."""

    def __init__(self, data, at=0):
        self.data, self.at = data, at

    def number(self, size, signed=False):
        self.at += size
        return int.from_bytes(part(self.data, self.at - size, size), "little", signed=signed)

    def uleb(self):
        value = shift = 0
        while True:
            byte = self.number(1)
            value |= (byte & 127) << shift
            shift += 7
            if byte < 128:
                return value

    def sleb(self):
        start = self.at
        value = self.uleb()
        bits = 7 * (self.at - start)
        return value - (1 << bits) if value >> (bits - 1) else value

    def text(self):
        found = text_at(self.data, self.at)
        self.at = self.data.index(b"\0", self.at) + 1
        return found


NUMBER_FORMS = {0x0B: 1, 0x05: 2, 0x06: 4, 0x07: 8, 0x1E: 16}
PATH = 1


def strings_of(obj, relocations, c, section):
    """The string in another section that an offset names."""
    place = c.at
    offset = c.number(4)
    moved = relocations.get(place)
    if moved is not None and moved.addend is not None:
        offset = moved.addend
    held = obj.named(section)
    return text_at(held.data if held else b"", offset)


def entry_value(obj, relocations, c, form):
    if form in (0x0E, 0x1F):
        return strings_of(obj, relocations, c, ".debug_str" if form == 0x0E else ".debug_line_str")
    if form == 0x08:
        return c.text()
    if form == 0x0F:
        return c.uleb()
    if form in NUMBER_FORMS:
        return c.number(NUMBER_FORMS[form])
    raise Damaged(f"has a form {form} that its line table should not have")


def entries(obj, relocations, c):
    """The paths of a table of directories or files of DWARF 5."""
    layout = [(c.uleb(), c.uleb()) for _ in range(c.number(1))]
    count, paths = c.uleb(), []
    if count and not layout:
        raise Damaged("has a table of files without a form")
    for _ in range(count):
        row = {content: entry_value(obj, relocations, c, form) for content, form in layout}
        path = row.get(PATH)
        paths.append(path if isinstance(path, str) else "?")
    return paths


def old_entries(c):
    """The files of DWARF 4, which count from 1."""
    while c.text():
        pass
    files = ["?"]
    while True:
        name = c.text()
        if not name:
            return files
        files.append(name)
        for _ in range(3):
            c.uleb()


Rules = collections.namedtuple("Rules", "step base span lengths files")


def read_rules(obj, relocations, c, version):
    """What the header of a line program says of it."""
    if version == 5:
        c.number(2)
    program = c.number(4) + c.at
    step = c.number(1)
    c.number(2)
    base, span, first = c.number(1, True), c.number(1), c.number(1)
    lengths = [c.number(1) for _ in range(first - 1)]
    if version == 5:
        entries(obj, relocations, c)
        files = entries(obj, relocations, c)
    else:
        files = old_entries(c)
    c.at = program
    return Rules(step, base, span, lengths, files)


class Rows:
    """Runs a line program; `found` has the section, the address and the line of each row, or no line at the end of a sequence."""

    def __init__(self, rules, relocations):
        self.rules, self.relocations, self.found, self.sequence = rules, relocations, [], []
        self.reset()

    def reset(self):
        self.section, self.address, self.file, self.line = None, 0, 1, 1

    def push(self):
        files = self.rules.files
        name = files[self.file] if self.file < len(files) else "?"
        self.sequence.append((self.section, self.address, Line(name.rsplit("/", 1)[-1], self.line)))

    def end_sequence(self):
        rows = [row for row in self.sequence if row[1] < self.address]
        self.found += rows + [(self.section, self.address, None)] if rows else []
        self.sequence = []
        self.reset()

    def extended(self, c):
        length = c.uleb()
        end = c.at + length
        code = c.number(1)
        if code == 1:
            self.end_sequence()
        elif code == 2:
            place, self.address = c.at, c.number(length - 1)
            moved = self.relocations.get(place)
            if moved is not None:
                addend = self.address if moved.addend is None else moved.addend
                self.section, self.address = moved.symbol.section, moved.symbol.value + addend
        c.at = end

    def standard(self, code, c):
        rules = self.rules
        if code == 1:
            self.push()
        elif code == 2:
            self.address += rules.step * c.uleb()
        elif code == 3:
            self.line += c.sleb()
        elif code == 4:
            self.file = c.uleb()
        elif code == 8:
            self.address += rules.step * ((255 - len(rules.lengths) - 1) // rules.span)
        elif code == 9:
            self.address += c.number(2)
        else:
            for _ in range(rules.lengths[code - 1]):
                c.uleb()

    def special(self, code):
        code -= len(self.rules.lengths) + 1
        self.address += self.rules.step * (code // self.rules.span)
        self.line += self.rules.base + code % self.rules.span
        self.push()

    def run(self, c, end):
        while c.at < end:
            code = c.number(1)
            if code == 0:
                self.extended(c)
            elif code <= len(self.rules.lengths):
                self.standard(code, c)
            else:
                self.special(code)


def rows_of(obj):
    held = obj.named(".debug_line")
    if held is None:
        return []
    relocations, c, found = {r.offset: r for r in obj.relocations(held)}, Cursor(held.data), []
    while c.at < len(held.data):
        end = c.number(4) + c.at
        version = c.number(2)
        if version in (4, 5):
            program = Rows(read_rules(obj, relocations, c, version), relocations)
            program.run(c, end)
            found += program.found
        c.at = end
    return found


class Lines:
    """The source lines of a section's code."""

    def __init__(self, obj, section):
        try:
            rows = [(address, line) for number, address, line in rows_of(obj) if number == section.number]
        except (Damaged, ZeroDivisionError, ValueError, IndexError, OverflowError):
            rows = []
        # Where a sequence ends and another begins at one address, the beginning counts.
        rows.sort(key=lambda row: (row[0], row[1] is not None))
        self.addresses, self.lines = [row[0] for row in rows], [row[1] for row in rows]

    def at(self, address):
        """The line of the instruction at an address, if it is known. A line 0 is code of no line."""
        k = bisect.bisect_right(self.addresses, address) - 1
        line = self.lines[k] if k >= 0 else None
        return line if line is not None and line.line > 0 else None
