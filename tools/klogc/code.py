"""The code that the pass writes: instructions over variables, before they have registers."""
import functools
from typing import NamedTuple


class Variable(NamedTuple):
    """A number that the code keeps. `kind` says of what sort it is:
    register  one of the object's: r0 to r5 (copy 0), or r6 to r9 of one copy of a function
    temp      lives between two instructions of one block
    argument  as temp, and must be in the register `copy` when a helper is called
    slot      8 or 4 bytes of the object's stack that are used as a variable, from byte `number` on
    entry     one of the two addresses and the two lengths with which the program begins
    frame     the address of the stack's end
    """
    kind: str
    number: int = 0
    copy: int = 0

    def is_temporary(self):
        return self.kind in ("temp", "argument")

    def home(self):
        """The register that the compiler gave it, if it did."""
        return self.number if self.kind == "register" else None


@functools.cache
def register(number, copy=0):
    return Variable("register", number, copy)


FRAME = Variable("frame", 10)
VALUE, VALUE_LENGTH, KEY, KEY_LENGTH = (Variable("entry", number) for number in (1, 2, 3, 4))
ENTRY = (VALUE, VALUE_LENGTH, KEY, KEY_LENGTH)
BASE = {"value": VALUE, "key": KEY, "stack": FRAME}
LENGTH = {"value": VALUE_LENGTH, "key": KEY_LENGTH}

# An operand: a variable, or a number below 2^64.
Operand = Variable | int


class Entry(NamedTuple):
    """The beginning, where the record's addresses and lengths are in r1 to r5."""


class Move(NamedTuple):
    to: Variable
    source: Operand
    width: int


class Alu(NamedTuple):
    name: str
    width: int
    to: Variable
    a: Operand
    b: Operand


class Change(NamedTuple):
    """A negation, a byte order or a sign extension, as second_machine names them."""
    change: tuple
    to: Variable
    source: Operand


class PointAt(NamedTuple):
    """An address with a constant added."""
    to: Variable
    base: Variable
    add: int


class Point(NamedTuple):
    """An address with an index added, which is tested to be from lo to hi, and a constant."""
    to: Variable
    base: Variable
    index: Variable
    lo: int
    hi: int
    add: int


class Load(NamedTuple):
    size: int
    signed: bool
    to: Variable
    base: Variable
    offset: int


class Store(NamedTuple):
    size: int
    base: Variable
    offset: int
    source: Operand


class Bound(NamedTuple):
    """A test that a number is from lo to hi, else the program ends at a trap."""
    index: Operand
    lo: int
    hi: int
    trap: str


class Test(NamedTuple):
    """A jump to a block or a trap if a test holds. A guard is one that the pass added."""
    name: str
    width: int
    a: Operand
    b: Operand
    target: object
    guard: bool


class Goto(NamedTuple):
    target: object


class Call(NamedTuple):
    helper: int
    arguments: tuple
    answer: Variable


class Exit(NamedTuple):
    source: Operand


Instruction = Entry | Move | Alu | Change | PointAt | Point | Load | Store | Bound | Test | Goto | Call | Exit

READ = {Entry: (), Move: (1,), Alu: (3, 4), Change: (2,), PointAt: (1,), Point: (1, 2), Load: (3,), Store: (1, 3), Bound: (0,),
        Test: (2, 3), Goto: (), Call: (), Exit: (0,)}
WRITTEN = {Move: 0, Alu: 2, Change: 1, PointAt: 0, Point: 0, Load: 2, Call: 2}
# What nothing but its result tells: left out where nobody reads that.
PURE = {Move, Alu, Change, PointAt, Point, Load}

# The ends that the pass adds, with their reject codes.
ROOM, LOOP, OUTSIDE = "room", "loop", "outside"
TRAPS = {ROOM: 250, LOOP: 251, OUTSIDE: 252}


def is_variable(x):
    return isinstance(x, Variable) and x != FRAME


def reads(i):
    """The variables that an instruction reads."""
    operands = i.arguments if type(i) is Call else [i[k] for k in READ[type(i)]]
    return [x for x in operands if is_variable(x)]


def written(i):
    """The variable that an instruction writes, or None."""
    place = WRITTEN.get(type(i))
    return None if place is None else i[place]


def target(i):
    return i.target if type(i) in (Test, Goto) else None
