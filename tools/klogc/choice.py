"""Chooses registers for the variables of the lowered code."""
from .code import FRAME, Call, Variable, reads
from .places import CONSTANT, MOVE, Places
from .program import Refused
from .trim import Line

NEAR, SOON, FAR = 40, 60, 1 << 20
SPARE = Variable("temp", -1)


class Choice(Places):
    """Which register a variable is read or written in, by what the code needs later. What was there is moved."""

    def __init__(self, spill_at, spills, variables):
        super().__init__(spill_at, spills, variables)
        self.code: list[Line] = []
        self.k = 0                                     # the instruction of the code that is written
        self.after = self.wanted_last = frozenset()
        self.addresses: set[Variable] = set()
        self.busy: set[int] = set()
        self.keep: dict[Variable, int] = {}            # addresses and lengths of the record with a register of their own

    def preferred(self, v):
        """Registers for a variable, the best first."""
        if v.kind == "entry":
            return [self.keep.get(v, v.number)]
        if v.kind == "argument":
            return [v.copy]
        first = [v.number] if v.kind == "register" else []
        for line in self.code[self.k + 1:self.k + NEAR]:
            is_call = type(line.instruction) is Call
            if is_call and v in line.after:
                return first + [6, 7, 8, 9, 0, 5, 4, 3, 2, 1]
            if is_call or v not in line.after:
                break
        return first + [0, 5, 4, 3, 2, 1, 9, 8, 7, 6]

    def next_use(self, v):
        for at in range(self.k, min(self.k + SOON, len(self.code))):
            if v in reads(self.code[at].instruction):
                return at
        return FAR if v in self.wanted_last else FAR // 2

    def can_spill(self, v):
        return v.kind not in ("entry", "argument") and v not in self.addresses

    def take(self, v, avoid, among=range(10)):
        """A register for a variable: a free one, or one from which another is moved to the stack."""
        free = [p for p in among if p not in self.held and p not in avoid]
        reserved = set() if v in self.keep else set(self.keep.values())
        for p in self.preferred(v):
            if p in free and p not in reserved:
                return p
        if v in self.keep and self.keep[v] in among:
            self.make_free(self.keep[v], avoid)
            return self.keep[v]
        for p in (5, 4, 3, 2, 1, 0, 9, 8, 7, 6):
            if p in free and p not in reserved:
                return p
        for p in (9, 8, 7, 6):
            if p in free:
                return p
        able = [p for p in self.held if p in among and p not in avoid and self.can_spill(self.held[p])]
        if not able:
            raise Refused("the code has more addresses at hand than there are registers")
        p = max(able, key=lambda p: self.next_use(self.held[p]))
        self.spill(p)
        return p

    def make_free(self, p, avoid=(), among=range(10)):
        """Moves what is in a register elsewhere."""
        if p not in self.held:
            return
        v = self.held[p]
        free = [q for q in (6, 7, 8, 9, 0, 5, 4, 3, 2, 1) if q not in self.held and q in among and q not in avoid and q != p and q not in self.keep.values()]
        if not free and self.can_spill(v):
            self.spill(p)
            return
        q = free[0] if free else self.take(v, set(avoid) | {p}, [q for q in among if q != p])
        self.op(MOVE, q, p)
        del self.held[p]
        self.put(v, q)

    def use(self, v, avoid=()):
        """The register in which a variable is read."""
        if v == FRAME:
            return 10
        p = self.at.get(v)
        if isinstance(p, int):
            return p
        q = self.take(v, set(avoid) | self.busy)
        if p == "stack":
            self.restore(v, q)
            self.at.pop(v)
            if v.is_temporary():
                self.free_slots.append(self.slots.pop(v))
        else:
            self.op(CONSTANT, q)
        self.put(v, q)
        self.busy.add(q)
        return q

    def define(self, v, avoid=()):
        """The register in which a variable is written."""
        p = self.at.get(v)
        if v.kind == "argument":
            if p is None:
                self.make_free(v.copy, set(avoid))
                self.put(v, v.copy)
            return v.copy
        if isinstance(p, int):
            return p
        if p == "stack":
            self.drop(v)
        q = self.take(v, set(avoid))
        self.put(v, q)
        return q

    def may_stay(self, to, p):
        """Whether a result may take an operand's register: not if the register that the compiler gave it is free, where other
        ways expect it."""
        home = to.home()
        return home is None or home == p or home in self.held or home in self.keep.values()

    def is_done_with(self, v):
        return v not in self.after and v.kind != "entry"

    def result(self, to, a, p, avoid=()):
        """The register of a result: that of an operand which is wanted no more, if it can be."""
        if self.in_register(to):
            return self.at[to]
        if self.is_done_with(a) and to.kind != "argument" and p not in avoid and self.may_stay(to, p):
            self.drop(to)
            self.drop(a)
            self.put(to, p)
            return p
        return self.define(to, set(avoid) | {p})

    @staticmethod
    def immediate(n, width):
        """The field for a constant operand, or None if it doesn't fit."""
        n &= (1 << width) - 1
        s = n - (1 << width) if n >> (width - 1) else n
        return s if -1 << 31 <= s < 1 << 31 else None

    def spare(self, n, avoid):
        """A register with a constant, for one instruction."""
        p = self.take(SPARE, avoid)
        self.constant(p, n)
        return p
