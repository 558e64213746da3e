"""The object's code as blocks: calls of its own functions are followed into a copy of them for each call."""
import collections
import copy
import struct
from typing import NamedTuple

from bpf_object import COMMON, DATA_OBJECT, EXECUTABLE, FUNCTION, NO_BYTES, SECTION_NAME, UNDEFINED, WRITABLE, Damaged, Lines, Object
from second_machine import Refused as BadForm, form

from .liveness import liveness
from .loops import ordered

# What runtime.h and the compiler's part put in place of what BPF lacks.
INTRINSICS = {f"__klog_{name}{width}": (name, width) for name in ("sdiv", "smod") for width in (32, 64)}
RUNTIME = "runtime.h"
RUNTIME_NAMES = {"memcmp", "bcmp", "memcpy", "memmove", "memset", "memchr", "strlen", "strcmp", "strncmp", "klog_memcpy", "klog_memmove", "klog_memset", "klog_memcmp", "klog_bcmp"}
RUNTIME_SECTION = "klog_runtime"
STACK = 512
MOST_CALLS = 8
NEAR = 32
CALL, CALL_REGISTER, WIDE = 0x85, 0x8D, 0x18


class Refused(Exception):
    """Why there is no program: where, if that is known, and a sentence."""

    def __init__(self, text, place=None):
        super().__init__(text)
        self.text, self.place = text, place

    def __str__(self):
        return f"{self.place}: {self.text}" if self.place else self.text


# A place of the code: the calls that lead to it, each as (section, slot), and its own section and slot.
Place = collections.namedtuple("Place", "path section slot")


class Block(NamedTuple):
    """Instructions that run one after the other, as (slot, instruction), and the blocks that may follow; of a jump first the
    one that does if the test does not hold. An instruction has second_machine's form, or is one of
        ("local", section, slot)            a call of a function of the object
        ("intrinsic", name)                 a call of what INTRINSICS has
        ("constants", dst, section, place)  the address of a constant
        ("bad", text)                       what can't run, and why
    """
    path: tuple
    section: int
    first: int
    instructions: list
    next: list

    def places(self):
        """The instructions, each with its place."""
        return [(Place(self.path, self.section, slot), i) for slot, i in self.instructions]


class Program:
    """The code that is reached from the function of a name, by its blocks."""

    def __init__(self, data, name="transform"):
        try:
            self._read(data, name)
        except Damaged as fault:
            raise Refused(str(fault)) from None

    def _read(self, data, name):
        self.obj = Object(data)
        self.functions = {(s.section, s.value // 8): s for s in self.obj.functions()}
        self.sections, self.lines, self.held = {}, {}, {}
        self.functions_of = {}  # what meaning.py makes of the sections
        self.lines_at = {}  # the C lines that were looked for
        self._reach(name)

    def beside(self, name):
        """The program of another function of the same object, which is not read again."""
        other = copy.copy(self)
        other._reach(name)
        return other

    def _reach(self, name):
        found = [s for s in self.obj.functions() if s.name == name]
        if not found:
            raise Refused(f"there is no function `{name}`; {known_functions(self.obj)}")
        self.entry = Place((), found[0].section, found[0].value // 8)
        self.blocks = {}
        left = [self.entry]
        while left:
            place = left.pop()
            if place not in self.blocks:
                self.blocks[place] = self._block(place)
                left += self.blocks[place].next

    # ---- code

    def code(self, number):
        """The instructions of a section as (instruction, slots) by slot, and the slots at which blocks begin."""
        if number not in self.sections:
            section = self.obj.section(number)
            relocations = {r.offset // 8: r for r in self.obj.relocations(section)}
            listed, starts, slot = {}, set(), 0
            while slot < len(section.data) // 8:
                made = self._instruction(section, slot, relocations.get(slot))
                if made[0] in ("jump", "ja"):
                    starts |= {slot + 1 + made[4 if made[0] == "jump" else 1], slot + 1}
                elif made[0] == "local":
                    starts.add(slot + 1)
                length = 2 if section.data[8 * slot] == WIDE else 1
                listed[slot] = made, length
                slot += length
            self.sections[number] = listed, starts
            self.lines[number] = Lines(self.obj, section)
        return self.sections[number]

    def _instruction(self, section, slot, moved):
        opcode, registers, _, imm = struct.unpack_from("<BBhi", section.data, 8 * slot)
        if opcode == CALL_REGISTER:
            return "bad", "a function is called by an address in a variable: call it by its name"
        if opcode == CALL and (registers >> 4 == 1 or moved is not None):
            return self._callee(section.number, slot, imm, moved)
        if opcode == WIDE and moved is not None:
            return self._constant(registers & 15, imm, moved)
        try:
            return form(section.data, slot)
        except BadForm as fault:
            return "bad", f"clang wrote what klog's machine does not have ({fault})"

    def _callee(self, number, slot, imm, moved):
        if moved is None:
            return "local", number, slot + 1 + imm
        symbol = moved.symbol
        if symbol.section == UNDEFINED and symbol.name in INTRINSICS:
            return "intrinsic", symbol.name
        if symbol.section == UNDEFINED:
            return "bad", f"`{symbol.name}` is called, which is not here: klog has the helpers of klog.h, and of C's library memcmp, memcpy and the like"
        return "local", symbol.section, symbol.value // 8 + (imm + 1 if symbol.kind == SECTION_NAME else 0)

    def _constant(self, dst, imm, moved):
        symbol, at = moved.symbol, imm if moved.addend is None else moved.addend
        section = None if symbol.section in (UNDEFINED, COMMON) else self.obj.section(symbol.section)
        name = symbol.name if symbol.kind != SECTION_NAME else self._data_name(symbol.section, symbol.value + at)
        if section is not None and section.flags & EXECUTABLE:
            return "bad", f"the address of the function `{name or section.name}` is taken: call it by its name"
        is_const = section is not None and (not section.flags & WRITABLE or section.name.startswith(".data.rel.ro"))
        if not is_const or section.kind == NO_BYTES:
            return "bad", f"`{name or (section.name if section else 'a global')}` is a global: klog has no memory between records; make it a variable of the function, or `const`"
        return "constants", dst, symbol.section, symbol.value + at

    def _data_name(self, section, at):
        return next((s.name for s in self.obj.symbols if s.kind in (DATA_OBJECT, FUNCTION) and s.section == section and s.value <= at < s.value + s.size), None)

    def constants(self, number):
        """The bytes of a section of constants, and of the addresses in it the section and the offset there, by place. The bytes
        of an address are the offset."""
        if number not in self.held:
            section = self.obj.section(number)
            data, addresses = bytearray(section.data), {}
            for r in self.obj.relocations(section):
                if r.offset + 8 <= len(data):
                    addend = int.from_bytes(data[r.offset:r.offset + 8], "little") if r.addend is None else r.addend
                    at = r.symbol.value + addend
                    addresses[r.offset] = r.symbol.section, at
                    data[r.offset:r.offset + 8] = at.to_bytes(8, "little")
            self.held[number] = bytes(data), addresses
        return self.held[number]

    # ---- blocks

    def _block(self, place):
        path, section, first = place
        listed, starts = self.code(section)
        found, slot = [], first
        while True:
            if slot not in listed or slot != first and (section, slot) in self.functions:
                raise Refused("the function has no end here: the compiler takes what follows for impossible (a way without"
                              " `return`, or what C leaves undefined)", self.line(Place(path, section, max(slot - 1, first))))
            made, length = listed[slot]
            found.append((slot, made))
            following = self._following(path, section, slot, made)
            if following is None and slot + length in starts:
                following = [Place(path, section, slot + length)]
            if following is not None:
                return Block(path, section, first, found, following)
            slot += length

    def _following(self, path, section, slot, made):
        """The places after an instruction that ends a block, or None."""
        match made:
            case ("exit",):
                return [Place(path[:-1], path[-1][0], path[-1][1] + 1)] if path else []
            case ("ja", distance):
                return [Place(path, section, slot + 1 + distance)]
            case ("jump", _, _, _, distance, _):
                return [Place(path, section, slot + 1), Place(path, section, slot + 1 + distance)]
            case ("local", to, at):
                if len(path) >= MOST_CALLS or (section, slot) in path:
                    raise Refused("a function calls itself, or calls are more than eight deep: each call is copied in", self.line(Place(path, section, slot)))
                return [Place(path + ((section, slot),), to, at)]
        return None

    def runtime_function(self, section, slot):
        """The name of the function of runtime.h that begins at a slot, or None."""
        symbol = self.functions.get((section, slot))
        return symbol.name if symbol and self.obj.section(section).name == RUNTIME_SECTION else None

    def line(self, place):
        """The C line of a place: of what runtime.h has, that of the call, and of what has none, the last one before it."""
        if place not in self.lines_at:
            self.lines_at[place] = self._line(place)
        return self.lines_at[place]

    def _line(self, place):
        path, section, slot = place
        for number, at in [(section, slot), *reversed(path)]:
            near = range(at, max(at - NEAR, -1), -1) if number in self.lines and self.lines[number].addresses else ()
            line = next(filter(None, (self.lines[number].at(8 * back) for back in near)), None)
            if line and line.file != RUNTIME:
                return f"{line.file}:{line.line}"
        return None

    # ---- the blocks as a whole

    def order(self, flat=False):
        """The order of the blocks, by its loops."""
        return ordered(self.blocks, self.entry, flat)

    def liveness(self):
        return liveness(self.blocks)

    # ---- the stack

    def tops(self):
        """The top of the stack of each copy of a function, from the least byte of all that they use, and how many these are."""
        ends = {}
        for path in {place.path for place in self.blocks}:
            depths = [self._depth(*self.entry[1:])] + [self._depth(*self._target(call)) for call in path]
            ends[path] = sum(depths[:-1]), sum(depths)
        total = (max(end for _, end in ends.values()) + 63) // 64 * 64
        return {path: total - at for path, (at, _) in ends.items()}, total

    def _target(self, call):
        made = self.sections[call[0]][0][call[1]][0]
        return made[1], made[2]

    def _depth(self, section, entry):
        """How much of the stack a function uses, in whole words: the least offset from its end at which it has an address."""
        listed, _ = self.code(section)
        symbol = self.functions.get((section, entry))
        end = max(listed, default=-1) + 1
        if symbol and symbol.size:
            end = min(end, entry + symbol.size // 8)
        least, frames = 0, {10}
        for slot in range(entry, end):
            match listed.get(slot, (("none",), 1))[0]:
                case ("load", _, _, 10, offset, _) | ("store", _, 10, _, offset):
                    least = min(least, offset)
                case ("mov", dst, ("reg", 10), _):
                    frames.add(dst)
                case ("alu", dst, ("imm", n), _, "add") if dst in frames and -STACK <= n < 0:
                    least = min(least, n)
        return (-least + 7) // 8 * 8


def known_functions(obj):
    names = [f"`{s.name}`" for s in obj.functions() if s.name not in RUNTIME_NAMES]
    return "the source has " + ", ".join(names[:10]) + (", .." if len(names) > 10 else "") if names else "the source has no function"
