"""The ground of the lowering: what it was told and learned, the code that it writes, and operands."""
import dataclasses
from typing import NamedTuple

from .code import FRAME, LENGTH, OUTSIDE, TRAPS, Goto, Move, Operand, Variable, register
from .program import STACK, Place, Program, Refused
from .state import State
from .terms import region_of
from .values import MIXED, Value, const


class TooLong(Exception):
    """The code has more slots than an image may have."""


class Ended(Exception):
    """The way ends here in any case; its end is written."""


class Settings(NamedTuple):
    """How many rounds of which loops are copied, by their heads, if not all; how many slots there may be; whether a program is
    refused that may read outside its bytes, or has a test for it; whether loops are one with those in them (Program.order); and how many
    ways are apart at most on which a variable is another text, or -1."""
    rounds: dict
    slots: int
    strict: bool
    flat: bool
    ways: int


@dataclasses.dataclass
class Learned:
    """What one run of the pass tells the next: the stack's bytes that are variables, by their sizes, and those that are not;
    the first and the last bytes of constants that are read at unknown places; and how many variables have a place on the
    stack, and how many parts of the record are copied there at once."""
    variables: dict[int, int] = dataclasses.field(default_factory=dict)
    memory: set[int] = dataclasses.field(default_factory=set)
    constants: dict[int, tuple[int, int]] = dataclasses.field(default_factory=dict)
    spills: int = 4
    rooms: int = 0


class Given(NamedTuple):
    """An operand: what is known of it, and what to write for it."""
    value: Value
    written: Operand


class Writer:
    def __init__(self, program: Program, settings: Settings, learned: Learned):
        self.program, self.settings, self.learned = program, settings, learned
        self.blocks, self.size, self.made = [], 0, 0
        self.forks: list = []  # ways on from an instruction: their labels, what is known there, and what a register has
        self.again = False  # whether it learned what it did not know from the beginning; then it goes on only to learn more
        self.rejects: dict[str, set] = {trap: set() for trap in TRAPS}
        self.here: Place = program.entry
        self.out: list = []
        self.tops, self.used = program.tops()
        if self.used > STACK:
            raise Refused(f"the functions' variables take {self.used} bytes, and the stack has {STACK}", program.line(program.entry))
        self.copies = {path: k for k, path in enumerate(sorted(self.tops, key=lambda p: (len(p), p)))}
        self.names = self.names_of(program.entry.path)  # of the function that is written
        self._lay_out_stack()

    def _lay_out_stack(self):
        """The functions' own bytes, 8 of scratch, constants, variables without a register, and room for parts of the record."""
        at = min(self.used + 8, STACK)
        self.constants_at = {}
        for section, (first, last) in sorted(self.learned.constants.items()):
            first &= -8
            self.constants_at[section] = at - first
            at += (last - first + 7) // 8 * 8
        if at > STACK:
            raise Refused(f"the functions' variables and the constants that are read at places that are not known take {at} bytes,"
                          f" and the stack has {STACK}")
        self.scratch, self.spill_at = self.used, at
        self.room_at = min(STACK, at + 8 * self.learned.spills)
        self.room_size = (STACK - self.room_at) // max(1, self.learned.rooms) // 8 * 8

    # ---- what is written

    def emit(self, instruction):
        self.out.append((self.here, instruction))
        self.size += 1

    def start(self, label):
        self.out = []
        self.blocks.append((label, self.out))

    def _next(self):
        self.made += 1
        return self.made

    def temp(self):
        return Variable("temp", self._next())

    def argument(self, number):
        """A variable that is in a register when a helper is called."""
        return Variable("argument", self._next(), number)

    def label(self):
        return "inner", self._next()

    def line(self):
        return self.program.line(self.here)

    def fail(self, text):
        raise Refused(text, self.line())

    def may_fault(self, text):
        """What the object may do on some record and must not: refused, or tested for."""
        if self.settings.strict:
            self.fail(text)
        self.may_reject(OUTSIDE)

    def never(self, text):
        """What the object does here on every record, and must not."""
        self.may_fault(text)
        self.end()

    def end(self):
        self.emit(Goto(OUTSIDE))
        raise Ended

    def may_reject(self, trap):
        self.rejects[trap].add(self.line() or "?")

    # ---- operands

    def names_of(self, path):
        """The variables of the registers in a copy of a function."""
        return [register(r) if r < 6 else register(r, self.copies[path]) for r in range(11)]

    def name(self, r):
        return self.names[r]

    def known(self, s: State, r):
        """What is known of a register."""
        if r == 10:
            return const(self.tops[self.here.path], "stack")
        v = s.variables.get(self.names[r])
        if v is None:
            self.fail("a variable is read that may not be set: give it a value where it is declared")
        return s.settled(v)

    def operand(self, s: State, source, width=64):
        """A register or an immediate."""
        if source[0] == "imm":
            return Given(const(source[1] % (1 << width)), source[1] % (1 << width))
        v = self.known(s, source[1])
        return Given(v, self.spelled(v, self.name(source[1]) if source[1] != 10 else FRAME))

    @staticmethod
    def spelled(v, name):
        """A number that is known, a length, or a variable."""
        if v.is_const():
            return v.lo
        region = region_of(v.terms) if v.c == 0 else None
        return LENGTH[region] if region else name

    def set(self, s: State, r, v):
        s.variables[self.name(r)] = v

    def define(self, s: State, r, v, a):
        self.emit(Move(self.name(r), a, 64))
        self.set(s, r, v)

    def number(self, v):
        if v.region == MIXED:
            self.fail("a variable is a number on one way and an address on another, or addresses of two kinds: use two variables")
        if v.region is not None:
            self.fail("an address is used as a number, which klog does not have: pass on the place in it")


def region_text(region):
    """A region in words."""
    if isinstance(region, tuple):
        return "a constant" if region[0] == "constants" else "a negated address"
    return {"stack": "a variable of the function"}.get(region, f"the {region}")


