"""From an object to an image: the lowering, registers and layout, run again until they agree on the stack and on loops' rounds."""
from typing import NamedTuple

import program_files
import second_machine as machine

from .code import TRAPS
from .layout import SLOTS, filled, laid_out, shortened, view
from .lowering import Lowering
from .program import STACK, Program, Refused
from .registers import Allocator
from .trim import trimmed
from .writer import Learned, Settings, TooLong

MOST_RUNS, MOST_TRIES, MOST_FILLS = 200, 40, 4
ROUNDS = 64
FEW_SLOTS = 2048
# How many ways are apart, one after the other, until a program is accepted.
WAYS = (0, 8, 32)
LARGEST_TABLE = max(machine.TABLES)


class Lowered(NamedTuple):
    """An image: its bytes, its helper table, the C line of each instruction or None, the lines at which it may reject by each of the
    codes that the pass adds, and the rounds of each loop by its line, with whether its end is proved."""
    data: bytes
    table: int
    lines: list
    codes: dict
    loops: dict

    def file(self):
        """The program file: a line at each slot at which the C line changes."""
        lines, last = [], None
        for slot, line in zip(machine.decode(self.data).slots, self.lines):
            if line not in (None, last):
                lines.append(f"{slot} {line}\n")
                last = line
        return program_files.written(self.table, self.data, "".join(lines).encode("utf-8", "replace"))


def table_of(code):
    """The least helper table that has the helpers of a program."""
    called = {i[1] for i in code if i[0] == "call"}
    return next(table for table, helpers in sorted(machine.TABLES.items()) if called <= set(helpers))


def lower(program: Program, rounds=ROUNDS, strict=True, slots=SLOTS) -> Lowered:
    """Lowers a program. Loops are copied round by round until their end is proved; where that has no end, or takes more slots
    than an image has, the loops with the most rounds get `rounds`, and then fewer. A program that is refused is tried with more copies,
    and then with loops as one with those in them, but with few slots alone."""
    for ways in WAYS:
        try:
            return lowered(program, rounds, strict, slots, ways)
        except Refused as fault:
            refusal = fault
    made = flattened(program, strict, slots)
    if made is None:
        raise refusal
    return made


def has_nested_loops(program):
    return any(len(heads) > 1 for heads in program.order().heads.values())


def flattened(program, strict, slots):
    """Lowers a program with loops as one with those in them, or gives None where that is refused or takes more than a few slots."""
    if not has_nested_loops(program):
        return None
    try:
        lowering, image = tried(program, Settings({}, min(FEW_SLOTS, slots), strict, True, 0), Learned())
    except Refused:
        return None
    return report(lowering, image) if image else None


def lowered(program, rounds, strict, slots, ways) -> Lowered:
    """Lowers a program, perhaps with the ways apart on which a variable is another text, or -1.

    Of a loop in a loop the copies are many, and few where both are one; but then less is known of where each of them is. So both
    forms are tried, with few slots first, and without ways apart."""
    learned = {False: Learned()}
    if not ways and has_nested_loops(program):
        learned[True] = Learned()
    stopped = {}
    for most in sorted({min(FEW_SLOTS, slots), slots}):
        for flat in sorted(learned):
            try:
                lowering, image = tried(program, Settings({}, most, strict, flat, ways), learned[flat], stopped.get(flat))
            except Refused:
                if not flat:
                    raise
                del learned[flat]
                continue
            if image:
                return report(lowering, image)
            stopped[flat] = lowering
    return limited(program, rounds, stopped[False])


def limited(program, rounds, lowering):
    """Lowers a program with loops of which the end is not proved, where that took too many slots."""
    caps = {}
    for _ in range(MOST_TRIES):
        limit_longest_loops(lowering, caps, rounds)
        lowering, image = tried(program, lowering.settings._replace(rounds=caps), lowering.learned)
        if image:
            return report(lowering, image)
    raise Refused("the program has more than 16,384 slots even with few rounds of its loops", program.line(program.entry))


def tried(program, settings, learned, stopped=None):
    """The pass and its image, with as many places on the stack as its variables take; no image where it has too many slots."""
    while True:
        lowering, blocks = attempt(program, settings, learned, stopped)
        stopped = None
        if blocks is None:
            return lowering, None
        try:
            image = finished(lowering, blocks)
        except TooLong:
            return lowering, None
        if image:
            return lowering, image


def attempt(program, settings, learned, stopped=None):
    """One run of the lowering, begun again with what it learned of the stack; no blocks where they are too many. The first goes on
    with a run that was stopped because it had too many, if there is one that knew all of the stack."""
    for _ in range(MOST_RUNS):
        lowering, blocks = stopped if stopped and not stopped.again else Lowering(program, settings, learned), None
        stopped = None
        try:
            blocks = lowering.run(settings)
        except Refused:
            if not lowering.again:
                raise
        except TooLong:
            if settings.slots <= FEW_SLOTS:
                return lowering, None
        if not lowering.again:
            return lowering, blocks
    raise Refused("the function uses the stack in too many ways", program.line(program.entry))


def limit_longest_loops(lowering, caps, rounds):
    """The loops with the most rounds, and those with at least half as many, get `rounds`, or half of what they had."""
    able = {head: n for head, n in lowering.deepest.items() if n >= 2 and caps.get(head, 1 << 30) > 2}
    if not able:
        raise Refused("the program has more than 16,384 slots", lowering.program.line(lowering.program.entry))
    most = max(able.values())
    for head, n in able.items():
        if 2 * n >= most:
            caps[head] = caps[head] // 2 if head in caps else min(rounds, n)


def finished(lowering, blocks):
    """The image, with tests that never hold left out and with the stack's bytes set that may not be; None where the variables'
    places were too few."""
    learned, program = lowering.learned, lowering.program
    code, wanted = trimmed(blocks)
    allocator = Allocator(code, wanted, lowering)
    items = allocator.run()
    if allocator.most > learned.spills:
        learned.spills = allocator.most
        if learned.rooms:
            return None
    if lowering.spill_at + 8 * allocator.most > STACK:
        raise Refused(f"the functions' variables, and what has no register, take more than the stack's {STACK} bytes", program.line(program.entry))
    data = constant_bytes(lowering)
    for _ in range(MOST_FILLS):
        items = shortened(items)
        image = laid_out(filled(data) + items)
        seen = view(image.data, LARGEST_TABLE)
        if seen.fault:
            place = image.items[seen.at].place
            raise Refused(f"klog's verifier does not follow this: {seen.fault}", program.line(place) if place else None)
        if lowering.scratch + 8 > STACK and any(b >= lowering.scratch for b in seen.unset):
            raise Refused(f"the function takes more than the stack's {STACK} bytes", program.line(program.entry))
        if not seen.unset and not seen.never:
            break
        data |= {b: 0 for b in seen.unset if b not in data}
        gone = {image.items[k].number for k in seen.never} - {-1}
        items = [item for item in items if item.number not in gone or item.kind == "label"]
    return image


def constant_bytes(lowering):
    """The constants that are put on the stack, by its bytes."""
    data = {}
    for section, (first, last) in lowering.learned.constants.items():
        held = lowering.program.constants(section)[0]
        data |= {lowering.constants_at[section] + k: held[k] for k in range(first, last)}
    return data


def report(lowering, image):
    program = lowering.program
    line = lambda place: program.line(place) if place else None
    codes = {TRAPS[trap]: sorted(lines) for trap, lines in lowering.rejects.items() if lines}
    loops = {}
    for head, n in lowering.deepest.items():
        at = next(filter(None, (line(head._replace(slot=slot)) for slot, _ in program.blocks[head].instructions)), "?")
        most, proved = loops.get(at, (0, True))
        loops[at] = max(most, n + 1), proved and head not in lowering.unproved
    code = machine.decode(image.data)
    return Lowered(image.data, table_of(code), [line(item.place) for item in image.items], codes, loops)
