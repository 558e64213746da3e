"""Lowers moves and operations on numbers and addresses."""
from .code import LENGTH, OUTSIDE, Alu, Change, Move, Test
from .halves import is_low
from .program import INTRINSICS
from .state import State
from .terms import region_of
from .values import LIMIT, M32, M64, MIXED, added, changed, const, low32, number, result, signed, signed32, signed_quotient, small, unsigned
from .writer import Given, Writer

MANY_TERMS = 4
COMMUTATIVE = {"add", "mul", "and", "or", "xor"}


class Numbers(Writer):
    def mov(self, s: State, i):
        _, dst, source, width = i
        v, a = self.operand(s, source, width)
        if width == 32:
            self.number(v)
            cut = low32(v)
            if cut != v:
                self.emit(Move(self.name(dst), a, 32))
                s.note_cut(cut, v, M32)
                self.set(s, dst, cut)
                return
        self.define(s, dst, v, a)

    def wide(self, s: State, i):
        self.define(s, i[1], const(i[2]), i[2])

    def constants(self, s: State, i):
        _, dst, section, at = i
        self.define(s, dst, const(at, ("constants", section)), at & M64)

    def change(self, s: State, i):
        _, dst, src, change = i
        v, a = self.operand(s, ("reg", src))
        self.number(v)
        known = changed(change, v)
        if change[0] == "movsx" and change[1] == 64:
            known = s.signed_whole(v, change[2]) or known
        elif change == ("neg", 32):
            known = s.low_half(known, added(const(0), s.whole(v), -1))
        if known.is_const():
            self.define(s, dst, known, known.lo)
        elif change[0] == "movsx" and known == v:
            self.define(s, dst, known, a)
        else:
            self.emit(Change(change, self.name(dst), a))
            self.set(s, dst, known)

    def alu(self, s: State, i):
        _, dst, source, width, name = i
        x, y = self.operand(s, ("reg", dst)), self.operand(s, source, width)
        if name in ("add", "sub") and x.value.terms and y.value.terms and max(len(x.value.terms), len(y.value.terms)) >= MANY_TERMS:
            s.name_sum(max(x.value.terms, y.value.terms, key=len))
            x, y = self.operand(s, ("reg", dst)), self.operand(s, source, width)
        v, w, region = x.value, y.value, None
        if v.region is not None or w.region is not None:
            region = self.result_region(name, width, v, w)
            if name == "or" and v.mask & w.mask:
                self.or_address(s, dst, x, y, region)
                return
        known = result(name, width, v.in_region(None), w.in_region(None)).in_region(region)
        if region is None and v.region is None and not known.is_const():
            known = related(s, name, width, (v, w), known)
        self.set(s, dst, known)
        if known.is_const():
            self.emit(Move(self.name(dst), known.lo, 64))
        elif known in (v, w):
            self.emit(Move(self.name(dst), x.written if known == v else y.written, 64))
        elif known.c == 0 and region_of(known.terms):
            self.emit(Move(self.name(dst), LENGTH[region_of(known.terms)], 64))
        else:
            self.write_alu(name, width, self.name(dst), x, y)

    # ---- operations on addresses

    def result_region(self, name, width, v, w):
        """The region of an operation on an address, or None where it gives a number."""
        if MIXED in (v.region, w.region):
            self.number(v if v.region == MIXED else w)
        if width == 32:
            self.fail("32 bits of an address are used as a number")
        if v.region is None and name in ("add", "or") or w.region is None and name in ("add", "sub", "or", "and"):
            region = v.region or w.region
            if name in ("add", "sub") or region[0] != "minus":
                return region
        elif name == "xor" and w.region is None and w.is_const() and w.lo == M64:
            return negated(v.region)
        elif name == "sub" and v.region is None:
            return negated(w.region)
        elif name == "sub" and v.region == w.region:
            return None
        elif name == "add" and v.region == negated(w.region):
            return None
        return self.fail("an address is multiplied, shifted, or added to one of something else: klog's addresses are not numbers")

    def or_address(self, s: State, dst, x: Given, y: Given, region):
        """An `or` by which the compiler adds, since it knew that they have no bit in common: that is tested, and they are added."""
        at, other = (x, y) if x.value.region is not None else (y, x)
        if not at.value.is_const() or other.value.is_const() or at.value.lo > 512:
            self.fail("the compiler joined bits of an address with a number, of which too little is known")
        self.emit(Test("set", 64, other.written, at.value.lo, OUTSIDE, True))
        self.set(s, dst, added(x.value.in_region(None), y.value.in_region(None)).in_region(region))
        self.emit(Alu("add", 64, self.name(dst), other.written, at.value.lo))

    # ---- what is written for an operation

    def write_alu(self, name, width, d, x: Given, y: Given):
        """An operation of 32 bits is written as one of 64 where that gives the same, since the verifier knows more of it."""
        (v, a), (w, b) = x, y
        if width == 32:
            if any(low32(u) != u and not u.is_const() for u in (v, w)):
                self.emit(Alu(name, 32, d, a, b))
                return
            v, w = low32(v), low32(w)
            a, b = (v.lo if v.is_const() else a), (w.lo if w.is_const() else b)
        if name in ("or", "xor") and v.mask & w.mask == 0:
            name = "add"
        if name in ("add", "sub") and w.is_const():
            name, b, width = step(name, v, w, width)
        elif width == 32 and fits(name, v, w):
            width = 64
        if v.is_const() and name in COMMUTATIVE:
            a, b = b, a
        self.emit(Alu(name, width, d, a, b))

    def intrinsic(self, s: State, i):
        name, width = INTRINSICS[i[1]]
        (v, a), (w, b) = self.operand(s, ("reg", 1)), self.operand(s, ("reg", 2))
        if width == 32:
            v, w = low32(v), low32(w)
        known = result(name, width, v, w)
        if width == 32:
            a, b = (v.lo if v.is_const() else a), (w.lo if w.is_const() else b)
        if width == 32 and w.lo == w.hi != 0 and not known.is_const():
            of = signed_quotient(name, signed32(s.signed_whole(v, 32) or v), signed32(w)[0])
            known = of if of.lo >= 0 and of.hi <= M32 else s.low_half(known, of)
        self.clobber(s)
        self.emit(Alu(name, width, self.name(0), a, b))
        self.set(s, 0, known)

    def clobber(self, s: State):
        """What a call leaves in r1 to r5: nothing."""
        for r in range(1, 6):
            s.variables.pop(self.name(r), None)


def related(s: State, name, width, operands, known):
    """What is known of a result by how its operands came about."""
    v, w = operands
    if width == 32 and name in ("add", "sub"):
        known = s.low_half(known, added(*[const(signed32(n)[0]) if n.is_const() else s.whole(n) for n in operands], 1 if name == "add" else -1))
    elif width == 32 and w.is_const() and name in ("mul", "lsh"):
        known = s.low_half(known, times(s.whole(v), signed32(w)[0] if name == "mul" else power(w, width).lo))
    if width == 32 and (low32(v) != v or low32(w) != w):
        return known
    if width == 32 and name == "sub" and known.lo == 0:
        apart = s.settled(added(v, w, -1))
        known = apart if 0 <= apart.lo and apart.hi <= M32 else known
    if width == 64 and w.is_const() and name in ("lsh", "rsh", "arsh"):
        known = shifted_back(s, name, v, w.lo, known)
    if known.c == 0 and (name == "div" or name == "rsh" and w.is_const()):
        divisor = w if name == "div" else power(w, width)
        s.note("quotients", known.terms, (v, divisor))
        if divisor.is_const() and v.length_region() and v.c == 0:
            s.note("scales", known.terms, (v.length_region(), divisor.lo, 0))
    elif name == "mul":
        multiplied(s, (v, w), known, width)
        multiplied(s, (w, v), known, width)
        note_product(s, *((w, v) if v.is_const() else (v, w)), known)
    elif name == "lsh" and w.is_const():
        multiplied(s, (v, power(w, width)), known, width)
        note_product(s, v, power(w, width), known)
    elif name == "sub":
        known = remainder(s, v, s.multiples.get(w.terms) if w.c == 0 else None, known)
        known = s.difference(known, v, w) if width == 64 else known
    elif name == "add":
        for n, less in ((v, w), (w, v)):
            known = remainder(s, n, s.complements.get((less.terms, width)) if less.c == 0 else None, known)
            known = s.difference(known, n, added(const(0), less, -1)) if width == 64 and signed(less)[1] < 0 else known
    elif name == "mod" and w.lo > 0:
        s.learn(known, w, True)
    if name in ("and", "or") and w.is_const() and v.length_region() and known.c == 0 and known.terms not in (None, v.terms):
        s.note("masks", known.terms, (v, name, w.lo))
    elif name == "and" and w.is_const() and is_low(w.lo) and known.terms != v.terms:
        s.note_cut(known, s.whole(v, w.lo), w.lo)
    divisor = w.lo + (name == "and") if w.is_const() and name in ("and", "mod") else 0
    if v.length_region() and v.lo >= 0 and known.terms is not None and known.c == 0 and divisor and (name == "mod" or divisor & w.lo == 0):
        s.note("remainders", known.terms, (v.length_region(), small(v.c), divisor))
    return known


def times(v, factor):
    """A multiple of a number."""
    return number(*sorted((v.lo * factor, v.hi * factor)))


def power(count, width):
    """What a shift by a constant multiplies or divides by."""
    return const(1 << count.lo % width)


def multiplied(s: State, factors, known, width):
    """A quotient times its divisor is the dividend without the remainder. Times the negated divisor it is what that lacks to 2^width."""
    quotient, factor = factors
    of, by = s.quotients.get(quotient.terms, (None, None)) if quotient.c == 0 else (None, None)
    if of is None or known.c:
        return
    if same(by, factor):
        s.note("multiples", known.terms, (of, by))
    elif by.is_const() and factor.is_const() and factor.lo == -by.lo % (1 << width):
        s.note("complements", (known.terms, width), (of, by))


def note_product(s: State, v, factor, known):
    """A multiple of a number that is not negative, with no loss."""
    if known.c == 0 and factor.is_const() and v.lo >= 0 and v.hi * factor.lo <= LIMIT["value"] and -LIMIT["value"] <= small(v.c) <= LIMIT["value"]:
        s.note("products", known.terms, (v, factor.lo))


def remainder(s: State, v, multiple, known):
    """What is known of v less a multiple of a divisor, or with what that lacks to 2^width: if that was made of v, the remainder."""
    of, by = multiple or (None, None)
    if of is None or not same(of, v) or by.lo <= 0:
        return known
    known = number(0, min(unsigned(v)[1], unsigned(by)[1] - 1))
    s.learn(known, s.current(by), True)
    return known


def same(v, w):
    return v.lo == w.lo if v.is_const() and w.is_const() else v.terms is not None and (v.terms, v.c) == (w.terms, w.c)


def shifted_back(s: State, name, v, count, known):
    """What is known of a shift's result: where a number was shifted to the left and is shifted back, as compilers do to cut a number
    and to extend its sign, it is the number again if nothing of it was lost, or its low bits."""
    mask = M64 >> count
    if name == "lsh":
        s.note("shifts", known.terms, (count, v))
    elif name in ("rsh", "arsh") and v.c == 0 and s.shifts.get(v.terms, (None,))[0] == count:
        of = s.settled(s.shifts[v.terms][1])
        if 0 <= of.lo and of.hi <= mask >> (name == "arsh"):
            return of
        if name == "arsh":
            return s.signed_whole(of, 64 - count) or known
        s.note_cut(known, s.whole(of, mask), mask)
    return known


def negated(region):
    return region[1] if isinstance(region, tuple) and region[0] == "minus" else ("minus", region)


def step(name, v, w, width):
    """An addition or a subtraction of a constant, by its magnitude, and the width in which it is exact."""
    k = w.lo - (1 << width) if w.lo >> (width - 1) else w.lo
    if k < 0:
        name, k = ("sub" if name == "add" else "add"), -k
    sign = 1 if name == "add" else -1
    exact = v.lo + sign * k >= 0 and v.hi + sign * k <= M32
    return name, k, 64 if exact else width


def fits(name, v, w):
    """Whether an operation of 32 bits on these numbers gives what that of 64 bits does."""
    if name == "add":
        return v.hi + w.hi <= M32
    if name == "sub":
        return v.lo >= w.hi
    if name == "mul":
        return v.hi * w.hi <= M32
    if name == "lsh":
        return w.is_const() and w.lo < 32 and v.hi << w.lo <= M32
    return name in ("and", "or", "xor", "div", "mod") or name == "rsh" and w.hi < 32
