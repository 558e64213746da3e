"""What the pass knows of a number: an interval, the bits that may be set, and the sum of unknown numbers that it is.

Numbers are taken modulo 2^64, so an interval may begin below 0: -2 to 3 is 2^64 - 2 to 2^64 - 1 and 0 to 3. Of an address the region
is known, and the number is the offset in it."""
import functools
from typing import NamedTuple

from second_machine import computed

from .terms import LENGTH_TERMS, MOST_TERMS, Terms, fresh, plus, region_of, turned

M64 = (1 << 64) - 1
M32 = (1 << 32) - 1
LIMIT = {"key": 4096, "value": 1048576}
# Places in the record, and sums of a few, are at most this; differences of such numbers are known.
FARTHEST = 4 * LIMIT["value"]

# A region: "value", "key" or "stack"; ("constants", section); ("minus", region) of a negated address; MIXED of one of several.
MIXED = "mixed"


class Value(NamedTuple):
    """`terms` are the unknown numbers with their factors whose sum it is with `c`; a constant has none."""
    region: object
    lo: int
    hi: int
    mask: int
    terms: Terms | None
    c: int

    def is_const(self):
        return self.lo == self.hi

    def length_region(self):
        """The region whose length it is but for a constant, or None."""
        return region_of(self.terms)

    def in_region(self, region):
        return self if self.region is region else made((region, *self[1:]))


# A value of its six parts in a tuple, which takes half the time that a call of Value does.
made = functools.partial(tuple.__new__, Value)


def window(lo, hi, bits=64):
    """An interval moved by multiples of 2^bits so that it has no wrap, or all numbers."""
    size = 1 << bits
    if hi - lo >= size:
        return 0, size - 1
    if lo >= size or hi < 0:
        k = lo // size
        lo, hi = lo - k * size, hi - k * size
    if hi >= size:
        lo, hi = lo - size, hi - size
    return (lo, hi) if lo >= -(size >> 1) else (0, size - 1)


def small(c):
    """A number modulo 2^64, read as signed."""
    return c - (1 << 64) if c >> 63 else c


def const(n, region=None):
    n &= M64
    return made((region, n, n, n, None, n))


def number(lo, hi, mask=None, terms=None, c=0, region=None):
    """A number of an interval; a new unknown one, if it is not said of which terms it is."""
    if lo < 0 or hi > M64:
        lo, hi = window(lo, hi)
    if lo == hi:
        return const(lo, region)
    if lo >= 0:
        most = (1 << hi.bit_length()) - 1
        mask = most if mask is None else mask & most
        if mask < hi:
            hi = mask
    elif mask is None:
        mask = M64
    else:
        mask &= M64
    return made((region, lo, hi, mask, ((fresh(), 1),) if terms is None else terms, c))


def length(region):
    return Value(None, 0, LIMIT[region], M64, LENGTH_TERMS[region], 0)


def unsigned(v):
    return (v.lo, v.hi) if v.lo >= 0 else (0, M64)


def signed(v):
    if v.hi < 1 << 63:
        return v.lo, v.hi
    if v.lo >= 1 << 63:
        return v.lo - (1 << 64), v.hi - (1 << 64)
    return -(1 << 63), (1 << 63) - 1


def low32(v):
    """A number cut to 32 bits."""
    if 0 <= v.lo and v.hi <= M32:
        return v
    lo, hi = window(v.lo, v.hi, 32) if v.hi - v.lo <= M32 else (0, M32)
    return number(lo, hi, v.mask & M32) if lo >= 0 else number(0, M32, v.mask & M32)


def signed32(v):
    """The interval of the low 32 bits read as signed."""
    lo, hi = window(v.lo, v.hi, 32) if v.hi - v.lo <= M32 else (0, M32)
    if hi < 1 << 31:
        return lo, hi
    if lo >= 1 << 31:
        return lo - (1 << 32), hi - (1 << 32)
    return -(1 << 31), (1 << 31) - 1


# ---- operations

def summed(a, b, sign):
    """The terms of a sum or a difference: none if they cancel, a new one if they are too many."""
    x, y = a.terms, b.terms
    if not y:
        return x or ()
    if sign < 0:
        y = turned(y)
    if not x:
        return y
    terms = plus(x, y)
    if len(terms) < len(x) + len(y):
        # Factors are added, modulo 2^64 too.
        terms = tuple([(term, low) for term, factor in terms if (low := small(factor & M64))])
    return terms if len(terms) <= MOST_TERMS else ((fresh(), 1),)


def added(a, b, sign=1):
    """a + b, or a - b, in 64 bits."""
    lo, hi = (a.lo + b.lo, a.hi + b.hi) if sign > 0 else (a.lo - b.hi, a.hi - b.lo)
    both = a.mask | b.mask
    zeros = M64 & -(both & -both) if both else M64  # the low bits that are 0 in both are 0 in the sum
    terms, c = summed(a, b, sign), (a.c + sign * b.c) & M64
    if lo == hi and terms:
        # It is known in whole, and keeps its terms, which others have.
        return made((None, lo & M64, lo & M64, lo & M64, terms, c))
    return number(lo, hi, zeros, terms, c) if terms else const(c)


def added32(a, b, sign=1):
    """a + b, or a - b, in 32 bits, of numbers that have no more."""
    if b.is_const():
        step = sign * signed32(b)[0]
        if a.lo + step >= 0 and a.hi + step <= M32:
            return added(a, const(step))
    lo, hi = (a.lo + b.lo, a.hi + b.hi) if sign > 0 else (a.lo - b.hi, a.hi - b.lo)
    if 0 <= lo and hi <= M32:
        return added(a, b, sign)
    lo, hi = window(lo, hi, 32)
    return number(0, M32) if lo < 0 else number(lo, hi)


def anded(a, b):
    for x, y in ((a, b), (b, a)):
        if y.is_const() and x.mask & ~y.lo == 0:
            return x
    mask = a.mask & b.mask
    return number(0, min(unsigned(a)[1], unsigned(b)[1], mask), mask)


def ored(name, a, b):
    mask = a.mask | b.mask
    if a.mask & b.mask == 0:
        return added(a, b)._replace(mask=mask)
    return number(max(unsigned(a)[0], unsigned(b)[0]) if name == "or" else 0, mask, mask)


def shifted(name, bits, a, b):
    end, (lo, hi) = 1 << bits, unsigned(a)
    if not b.is_const():
        return number(0, hi) if name == "rsh" else number(0, end - 1)
    s = b.lo % bits
    if name == "lsh":
        return number(lo << s, hi << s, a.mask << s) if hi << s < end else number(0, end - 1, (a.mask << s) & (end - 1))
    if name == "rsh" or hi < end >> 1:
        return number(lo >> s, hi >> s, a.mask >> s)
    if bits == 64:
        lo, hi = signed(a)
        return number(lo >> s, hi >> s)
    return number(0, end - 1)


def divided(name, a, b):
    (lo, hi), (least, most) = unsigned(a), unsigned(b)
    if name == "div":
        return number(lo // most if least else 0, hi // least if least else hi)
    if not least:
        return number(0, hi)
    return a if hi < least else number(0, min(hi, most - 1))


def result(name, bits, a, b):
    """What is known of an operation's result."""
    end = 1 << bits
    if bits == 32:
        a, b = low32(a), low32(b)
    if name in ("add", "sub"):
        sign = 1 if name == "add" else -1
        return added(a, b, sign) if bits == 64 else added32(a, b, sign)
    if a.is_const() and b.is_const():
        return const(computed(bits, name, a.lo, b.lo))
    if name == "mul":
        (al, ah), (bl, bh) = unsigned(a), unsigned(b)
        step = (a.mask & -a.mask) * (b.mask & -b.mask)  # what both are multiples of
        return number(al * bl, ah * bh, -step & M64) if ah * bh < end else number(0, end - 1, -step & (end - 1))
    if name == "and":
        return anded(a, b)
    if name == "xor" and bits == 64 and b.is_const() and b.lo == M64:
        return added(b, a, -1)
    if name in ("or", "xor"):
        return ored(name, a, b)
    if name in ("lsh", "rsh", "arsh"):
        return shifted(name, bits, a, b)
    if name in ("sdiv", "smod") and max(unsigned(a)[1], unsigned(b)[1]) < end >> 1:
        name = name[1:]
    return divided(name, a, b) if name in ("div", "mod") else number(0, end - 1)


def changed(change, a):
    """What is known after a negation, a byte order or a sign extension."""
    kind, *words = change
    if kind == "neg":
        return added(const(0), a, -1) if words[0] == 64 else result("sub", 32, const(0), low32(a))
    if kind == "order":
        order, width = words
        if a.is_const():
            low = a.lo % (1 << width)
            return const(low if order == "le" else int.from_bytes(low.to_bytes(width // 8, "little"), "big"))
        return number(int(a.lo > 0 and a.hi >> width == 0), (1 << width) - 1)
    width, bits = words
    half = 1 << bits - 1
    if a.is_const():
        low = a.lo % (2 * half)
        return const((low - 2 * half if low >= half else low) % (1 << width))
    if 0 <= a.lo and a.hi < half:
        return a
    return number(-half, half - 1) if width == 64 else number(0, M32)


def signed_quotient(name, ends, divisor):
    """What is known of a signed quotient or remainder of a number between two ends by a constant, which is rounded towards zero."""
    (lo, hi), most = ends, abs(divisor) - 1
    if name == "smod":
        return number(max(lo, -most) if lo < 0 else 0, min(hi, most) if hi > 0 else 0)
    ends = [abs(end) // abs(divisor) * (1 if (end < 0) == (divisor < 0) else -1) for end in ends]
    return number(min(ends), max(ends))


def joined(a, b):
    """What is known of a number that is one or the other."""
    if a is None or b is None:
        return None
    if a == b:
        return a
    if a.region != b.region:
        return Value(MIXED, 0, M64, M64, ((fresh(), 1),), 0)
    lo, hi = min(a.lo, b.lo), max(a.hi, b.hi)
    if lo < 0:
        # One of the intervals may be the same numbers 2^64 further on.
        x, y = ((v.lo - (1 << 64), v.hi - (1 << 64)) if v.lo >= 1 << 63 else (v.lo, v.hi) for v in (a, b))
        lo, hi = min(x[0], y[0]), max(x[1], y[1])
    elif hi >= 1 << 63:
        x, y = signed(a), signed(b)
        if max(x[1], y[1]) - min(x[0], y[0]) < hi - lo:
            lo, hi = min(x[0], y[0]), max(x[1], y[1])
    same = a.terms is not None and (a.terms, a.c) == (b.terms, b.c)
    return number(lo, hi, a.mask | b.mask, a.terms if same else None, a.c if same else 0, a.region)
