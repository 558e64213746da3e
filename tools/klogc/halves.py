"""What is known of numbers that are the low bits of others: of a sum cut to 32 bits, as `c - 'A'` is, of an `and`, and of what they are
cut from. A test of such a number says something of the other, and where that is within one multiple of the cut's size, the number is
the other but for a constant."""
from typing import Callable, NamedTuple

from .code import Variable
from .values import M32, M64, Value, added, const, joined, low32, made, number, small

FAR, HALF = 1 << 62, 1 << 63


class Held(NamedTuple):
    """What a store left on the stack: how many bytes, and what is known of them, if anything is."""
    size: int
    value: Value | None


class Halves:
    """The part of State that knows of low bits; its fields are told there."""
    __slots__ = ()
    variables: dict[Variable, Value]
    memory: dict[int, Held]
    facts: dict[tuple, int]
    floors: dict[tuple, int]
    masks: dict[tuple, tuple[Value, str, int]]
    note: Callable
    narrow: Callable
    settled: Callable
    renamed: Callable

    def note_cut(self, known, of, mask):
        """A new number is the low bits of another one."""
        if known.terms and known.c == 0 and of.terms and known.terms != of.terms and of.region is None and of.hi - of.lo <= 2 * mask:
            self.note("masks", known.terms, (of, "and", mask))

    def low_half(self, known, of):
        """What is known of a new number that is the low 32 bits of another, where nothing is known of it by itself."""
        if (known.lo, known.hi) != (0, M32):
            return known
        low = low32(of)
        self.note_cut(low, of, M32)
        return low

    def whole(self, v, mask=M32):
        """A number that has the same low bits: the one that v is cut from, if that is known, else v."""
        if v.c == 0 and v.terms in self.masks:
            of, name, cut = self.masks[v.terms]
            if name == "and" and is_low(cut) and cut >= mask:
                return self.settled(of)
        return v

    def signed_whole(self, v, bits):
        """The number that the low bits of v are, read as signed, or None where that isn't known."""
        half = 1 << bits - 1
        if v.is_const():
            low = v.lo % (2 * half)
            return const(low - 2 * half if low >= half else low)
        of = self.whole(v, 2 * half - 1)
        return of if of.region is None and -half <= of.lo and of.hi < half else None

    def resolved(self, v):
        """A number, as the one that it is cut from, where that has no more."""
        v = self.renamed(v)
        if v.terms not in self.masks:
            return v
        of, name, mask = self.masks[v.terms]
        return uncut(v, of, mask) if name == "and" and is_low(mask) and is_one_part(of, mask) else v

    def narrow_masked(self, v, lo, hi):
        """What it says of a number that its `and` or its `or` with a mask is from lo to hi. False where that can't be."""
        of, name, mask = self.masks[v.terms]
        if name == "or":
            return self.narrow(of, lo & ~mask if lo == hi else 0, hi)
        if not is_low(mask):
            return self.narrow(of, lo, lo | M64 & ~mask if lo == hi else M64)
        of = self.settled(of)
        first, last = of.lo, of.hi
        if not lo <= first & mask <= hi:
            first += (lo - first) & mask
        if not lo <= last & mask <= hi:
            last -= (last - hi) & mask
        return first <= last and self.narrow(of, first, last)

    def narrow_cut(self, v, lo, hi):
        """What it says of the numbers that are cut from v that v is from lo to hi."""
        for terms, (of, name, mask) in self.masks.items():
            if of.terms == v.terms and name == "and" and is_low(mask):
                new = narrowed(of, v, lo, hi)
                if new is not of:
                    self.note("masks", terms, (new, name, mask))
                    if is_one_part(new, mask):
                        self._replace(terms, new, mask)

    def _replace(self, terms, of, mask):
        """Numbers of these terms are known by those of another."""
        for name, x in self.variables.items():
            if x.terms == terms:
                self.variables[name] = uncut(x, of, mask)
        for at, (size, x) in self.memory.items():
            if x is not None and x.terms == terms:
                self.memory[at] = Held(size, uncut(x, of, mask))
        if of.lo < 0 or of.hi >= HALF or of.hi > mask or of.is_const() or abs(small(of.c)) >= FAR:
            return
        for region in ("value", "key"):
            if (terms, region) in self.facts:
                k = self.facts[terms, region] + small(of.c)
                self.facts[of.terms, region] = max(k, self.facts.get((of.terms, region), k))
        if terms in self.floors:
            k = self.floors[terms] - small(of.c)
            self.floors[of.terms] = max(k, self.floors.get(of.terms, k))


def is_low(mask):
    """Whether a mask has the lowest bits, and no others."""
    return mask & (mask + 1) == 0


def is_one_part(of, mask):
    """Whether the bits above the mask are the same of all that a number may be."""
    return of.lo & ~mask == of.hi & ~mask


def uncut(x, of, mask):
    """x, which differs by a constant from what is cut from another number, by that one, of which all bits above the mask are known."""
    new = added(of, const(x.c - (of.lo & ~mask)))
    if new.is_const():
        return const(new.lo, x.region)
    if new.lo <= x.lo and x.hi <= new.hi:
        return made((*x[:4], new.terms, new.c))
    return new.in_region(x.region)


def narrowed(x, v, lo, hi):
    """x, which differs from v by a constant, where v is from lo to hi."""
    low, high = lo + x.c - v.c, hi + x.c - v.c
    if 0 <= low <= x.lo < x.hi <= high < HALF and x.hi <= x.mask < 1 << x.hi.bit_length():
        return x
    both = [(max(low + k, x.lo), min(high + k, x.hi)) for k in (0, 1 << 64, -1 << 64) if low + k <= x.hi and x.lo <= high + k]
    if not both:
        return x
    a, b = min(a for a, _ in both), max(b for _, b in both)
    if a == b:
        # It keeps its terms, which others have.
        return made((x.region, a, a, a, x.terms, x.c)) if a >= 0 else const(a, x.region)
    return number(a, b, x.mask, x.terms, x.c, x.region)


def joined_cuts(mine, theirs):
    """What numbers are cut from on both ways."""
    if mine is theirs:
        return mine
    found = {}
    for terms, (of, name, mask) in mine.items():
        other = theirs.get(terms)
        if other is not None and other[1:] == (name, mask) and (other[0].terms, other[0].c) == (of.terms, of.c):
            found[terms] = joined(of, other[0]), name, mask
    return found
