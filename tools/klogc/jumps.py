"""Lowers tests: what each side knows afterwards, and which of them are possible."""
from typing import NamedTuple

from .code import LENGTH, OUTSIDE, Exit, Goto, Test, Variable
from .numbers import Numbers
from .state import State
from .values import FARTHEST, M64, MIXED, Value, low32, signed, signed32, small, unsigned
from .writer import Given

MIRRORED = {"eq": "eq", "ne": "ne", "gt": "lt", "ge": "le", "lt": "gt", "le": "ge", "set": "set", "sgt": "slt", "sge": "sle", "slt": "sgt", "sle": "sge"}
OPPOSITE = {"eq": "ne", "ne": "eq", "gt": "le", "ge": "lt", "lt": "ge", "le": "gt", "sgt": "sle", "sge": "slt", "slt": "sge", "sle": "sgt"}


class Comparison(NamedTuple):
    name: str
    width: int
    v: Value
    w: Value

    def is_signed(self):
        return self.name[0] == "s" and self.name != "set"

    def plain(self):
        """The name without the sign."""
        return self.name[1:] if self.is_signed() else self.name

    def simpler(self):
        """The same test as one of 64 bits or of unsigned numbers, where it gives the same."""
        name, width, v, w = self
        if width == 32 and low32(v) == v and low32(w) == w:
            if not self.is_signed():
                width = 64
            elif v.hi < 1 << 31 and w.hi < 1 << 31:
                name, width = self.plain(), 64
        if width == 64 and self.is_signed() and min(v.lo, w.lo) >= 0 and max(v.hi, w.hi) < 1 << 63:
            name = self.plain()
        return Comparison(name, width, v, w)

    def whole(self, s: State):
        """A signed test of 32 bits as one of 64, of the numbers that these are the low halves of, where they are known."""
        if self.width == 32 and self.is_signed():
            v, w = s.signed_whole(self.v, 32), s.signed_whole(self.w, 32)
            if v is not None and w is not None:
                return Comparison(self.name, 64, v, w).simpler()
        return self

    def interval(self, v):
        """A number's interval as the test reads it."""
        if self.width == 64:
            return signed(v) if self.is_signed() else unsigned(v)
        return signed32(v) if self.is_signed() else (low32(v).lo, low32(v).hi)

    def sides(self):
        """By whether the test holds: the intervals of both numbers then, where that is possible."""
        x, y, name = self.interval(self.v), self.interval(self.w), self.plain()
        if name == "set":
            if self.v.is_const() and self.w.is_const():
                return {bool(self.v.lo & self.w.lo): (x, y)}
            return {False: (x, y)} if self.v.mask & self.w.mask == 0 else {True: (x, y), False: (x, y)}
        if self.v.terms is not None and (self.v.terms, self.v.c) == (self.w.terms, self.w.c):
            return {name in ("eq", "ge", "le"): (x, y)}
        both = {True: halves(name, x, y), False: halves(OPPOSITE[name], x, y)}
        return {side: pair for side, pair in both.items() if all(lo <= hi for lo, hi in pair)}


def halves(name, x, y):
    """The intervals of two numbers for which a test holds."""
    (a, b), (c, d) = x, y
    match name:
        case "eq":
            return ((max(a, c), min(b, d)),) * 2
        case "ne":
            p = (a + (a == c), b - (b == c)) if c == d else x
            q = (c + (a == c), d - (d == a)) if a == b else y
            return p, q
        case "lt":
            return (a, min(b, d - 1)), (max(c, a + 1), d)
        case "le":
            return (a, min(b, d)), (max(c, a), d)
        case "gt":
            return (max(a, c + 1), b), (c, min(d, b - 1))
    return (max(a, c), b), (c, min(d, b))


class Jumps(Numbers):
    def jump(self, s: State, i, taken, on):
        _, name, dst, source, _, width = i
        x, y = self.operand(s, ("reg", dst)), self.operand(s, source, width)
        if x.value.region != y.value.region or x.value.region == MIXED:
            self.null_test(s, name, (x.value, y.value), taken, on)
            return
        if x.value.region is not None and width == 32:
            self.fail("32 bits of addresses are compared: compare the places in the record, or the whole addresses")
        test = Comparison(name, width, x.value, y.value).simpler()
        tests = self.length_tests(s, test, x, y)
        ends = self.ends(s, test.whole(s))
        if not ends:
            self.emit(Goto(OUTSIDE))
        elif len(ends) == 1:
            side, end = next(iter(ends.items()))
            self.emit(Goto(self.edge(taken if side else on, end)))
        else:
            self.write_jump(tests or [plain_test(test, x, y)], s, ends, (taken, on))

    def null_test(self, s: State, name, values, taken, on):
        """A test of an address against a number: only of whether it is null, which none is."""
        v, w = values
        other = w if w.region is None else v if v.region is None else None
        if MIXED in (v.region, w.region) or name not in ("eq", "ne") or other is None or not (other.is_const() and other.lo == 0):
            self.fail("addresses of different things are compared, or an address with a number: compare places or lengths")
        self.emit(Goto(self.edge(taken if name == "ne" else on, s)))

    @staticmethod
    def ends(s: State, test: Comparison):
        """What is known where the test holds, and where it doesn't, if that is possible. The last of them is s, changed."""
        sides, ends = test.sides(), {}
        if len(sides) == 1:
            return dict.fromkeys(sides, s)
        for side, (p, q) in sides.items():
            holds = test.plain() if side else OPPOSITE.get(test.plain())
            if test.width == 64 and is_impossible(s, holds, test):
                continue
            t = s.copy() if side else s
            if test.width == 64:
                if not (t.narrow(test.v, *p) and t.narrow(test.w, *q)):
                    continue
                learn(t, holds, test._replace(v=t.resolved(test.v), w=t.resolved(test.w)))
                if not side and test.name == "set" and test.v.length_region() and test.w.is_const() and test.w.lo & test.w.lo + 1 == 0:
                    t.divide_length(test.v.length_region(), small(test.v.c), test.w.lo + 1, 0)
            elif not (narrow_low(t, test, test.v, p) and narrow_low(t, test, test.w, q)):
                continue
            ends[side] = t
        return ends

    def write_jump(self, tests, s: State, ends, ways):
        for region, length in LENGTH.items():
            if all(is_length_test(each, length) for each in tests):
                sure = s.sure[region]
                ends[True].sure[region] = max(sure, min(least_of(name, k, sure) for name, _, _, k in tests))
                ends[False].sure[region] = max(sure, *(least_of(OPPOSITE[name], k, sure) for name, _, _, k in tests))
        taken, on = ways
        label = self.edge(taken, ends[True])
        for each in tests:
            self.emit(Test(*each, label, False))
        self.emit(Goto(self.edge(on, ends[False])))

    @staticmethod
    def length_tests(s: State, test: Comparison, x: Given, y: Given):
        """Tests of a length, of which one holds if a test does of what differs from the length by a constant; or None."""
        if test.width != 64 or test.is_signed():
            return None
        if x.value.length_region() and x.value.c and y.value.is_const():
            return ranges_of(s, test.name, x.value, y.value.lo)
        if y.value.length_region() and y.value.c and x.value.is_const():
            return ranges_of(s, MIRRORED[test.name], y.value, x.value.lo)
        return None

    def leave(self, s: State, block):
        """The end of a function."""
        v = s.variables.get(self.name(0))
        if v is None:
            self.fail("a function ends without a result: give one by `return`")
        if block.path:
            self.clobber(s)
            self.emit(Goto(self.edge(block.next[0], s)))
            return
        self.number(v)
        self.emit(Exit(self.spelled(s.current(v), self.name(0))))


def plain_test(test: Comparison, x: Given, y: Given):
    """The test as it is, or mirrored if its first number is a constant."""
    if x.value.is_const():
        return MIRRORED[test.name], test.width, y.written, x.written
    return test.name, test.width, x.written, y.written


def narrow_low(t: State, test: Comparison, v, interval):
    """Learns what a test of 32 bits says of a number that has no more. False where that can't be."""
    lo, hi = interval
    if low32(v) != v or lo < 0 <= hi:
        return True
    return t.narrow(v, lo, hi) if lo >= 0 else t.narrow(v, lo + (1 << 32), hi + (1 << 32))


def learn(t: State, holds, test: Comparison):
    """The facts of a test of 64 bits that holds. A signed one says them too of numbers that are not negative."""
    if test.v.region == test.w.region:
        if holds in ("lt", "le", "eq"):
            t.learn(test.v, test.w, holds == "lt")
        if holds in ("gt", "ge", "eq"):
            t.learn(test.w, test.v, holds == "gt")
        if holds == "ne":
            for v, w in ((test.v, test.w), (test.w, test.v)):
                if t.gap(v, w) == 0 or are_places(v, w) and t.least_difference(w, v) == 0:
                    t.learn(v, w, True)


def are_places(v, w):
    return v.terms is not None and w.terms is not None and min(v.lo, w.lo) >= 0 and max(v.hi, w.hi) <= FARTHEST


def is_impossible(s: State, holds, test: Comparison):
    """Whether facts of numbers that are not negative say that a test can't hold."""
    if test.v.region != test.w.region or min(test.v.lo, test.w.lo) < 0 or max(test.v.hi, test.w.hi) >> 63:
        return False
    if holds in ("lt", "le", "eq") and is_above(s, test.v, test.w, holds == "lt"):
        return True
    return holds in ("gt", "ge", "eq") and is_above(s, test.w, test.v, holds == "gt")


def is_above(s: State, v, w, or_equal):
    """Whether v is known to be more than w, or perhaps equal to it. Both have the bounds that they have in this state."""
    if v.terms and w.terms and max(v.hi, w.hi) <= FARTHEST and s.least_difference(v, w, v.lo - w.hi) > -or_equal:
        return True
    gap = s.gap(w, v)
    return gap is not None and gap > -or_equal


def is_length_test(test, length):
    """Whether the verifier learns a length's bounds from a test."""
    name, width, a, b = test
    return a == length and not isinstance(b, Variable) and width == 64 and name in OPPOSITE and name[0] != "s"


def least_of(name, k, least):
    """The least length that the verifier knows where a test of it against k holds, and it was `least` before."""
    return {"eq": k, "ge": k, "gt": k + 1, "ne": k + 1 if k == least else least}.get(name, least)


def ranges_of(s: State, name, v, k):
    """Tests of a length for a test of v, which is the length and a constant, against k."""
    region, length = v.length_region(), LENGTH[v.length_region()]
    ranges = {"eq": [(k, k)], "ne": [(0, k - 1), (k + 1, M64)], "lt": [(0, k - 1)], "le": [(0, k)], "gt": [(k + 1, M64)], "ge": [(k, M64)]}.get(name)
    if ranges is None:
        return None
    least, most, tests = s.least[region], s.most[region], []
    for lo, hi in ((lo - v.c + m, hi - v.c + m) for lo, hi in ranges for m in (0, 1 << 64)):
        low, high = max(lo, least), min(hi, most)
        if low > high:
            continue
        if low == high:
            tests.append(("eq", 64, length, low))
        elif low == least:
            tests.append(("le", 64, length, high))
        elif high == most:
            tests.append(("ge", 64, length, low))
        else:
            return None
    return tests
