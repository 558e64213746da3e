"""What is known of numbers by what they are sums of: bounds of the record's lengths, of sums, and of how far sums are from a length."""
from typing import Callable

from .code import Variable
from .branches import Branches
from .halves import FAR, HALF, Held, narrowed
from .terms import LENGTH_TERMS, MOST_TERMS, has_length, plus, region_of, sum_in, turned
from .values import FARTHEST, LIMIT, M64, Value, added, const, number, signed, small, summed, window

NEGATED_LENGTHS = {turned(terms): region for region, terms in LENGTH_TERMS.items()}


class Bounds(Branches):
    """The part of State that knows of sums; its fields are told there."""
    __slots__ = ()
    variables: dict[Variable, Value]
    memory: dict[int, Held]
    least: dict[str, int]
    most: dict[str, int]
    facts: dict[tuple, int]
    floors: dict[tuple, int]
    products: dict[tuple, tuple[Value, int]]
    scales: dict[tuple, tuple[str, int, int]]
    remainders: dict[tuple, tuple[str, int, int]]
    masks: dict[tuple, tuple[Value, str, int]]
    answers: dict[tuple, tuple]
    grid: dict[str, tuple[int, int]]
    note: Callable

    def keep_fact(self, terms, region, slacks, c):
        """What may be added on both ways to terms and a constant, which are not negative then, is a fact of the terms."""
        if terms and None not in slacks and (slack := min(slacks)) > -LIMIT[region]:
            self.facts[terms, region] = slack + c
            self.floors[terms] = max(-c, self.floors.get(terms, -c))

    def least_difference(self, v, w, least=None, parts=None):
        """The least that v - w is known to be, of two that are not negative. For who asks often: `least` is what it is by their ends,
        and `parts` are parts_of the floors."""
        if least is None:
            least = self.ends(v)[0] - self.ends(w)[1]
        c = small(v.c) - small(w.c)
        if v.terms == w.terms:
            return max(least, c)
        floor = self.floors.get(sum_in(v.terms, turned(w.terms), parts))
        if floor is not None and floor + c > least:
            least = floor + c
        region = v.length_region()
        slack = self.slack(w, region) if region else None
        return least if slack is None else max(least, slack + small(v.c))

    def ends(self, v):
        """The bounds of current(v)."""
        if not has_length(v.terms):
            return v.lo, v.hi
        now = self.current(v)
        return now.lo, now.hi

    def current(self, v):
        """A number that is a length but for a constant, with the bounds that the length has here."""
        region = region_of(v.terms)
        if region is None or v.lo == v.hi:
            return v
        lo, hi = window(self.least[region] + small(v.c), self.most[region] + small(v.c))
        return const(lo, v.region) if lo == hi else number(lo, hi, None, v.terms, v.c, v.region)

    def learn(self, v, w, less):
        """v is at most w, or below it. Where a sum of w and others is known to be at most a length, that is a fact of the sum of v and
        these: of v itself, where w is at most a length."""
        v, w = self.settled(self.renamed(v)), self.settled(self.renamed(w))
        if not (is_whole(v) and is_whole(w)) or w.terms is None:
            return
        if v.terms is not None and max(v.hi, w.hi) <= FARTHEST and (apart := summed(w, v, -1)):
            least = small(v.c) - small(w.c) + less
            self.floors[apart] = max(least, self.floors.get(apart, least))
        first, last, known = w.terms[0], w.terms[-1], []
        if has_length(v.terms) or has_length(w.terms):
            known = [(terms, region, 0) for region, terms in LENGTH_TERMS.items()]
        known += [(terms, region, k) for (terms, region), k in self.facts.items() if first in terms or last is not first and last in terms]
        for terms, region, k in known:
            if (terms, region) != (v.terms, region):
                self._learn_sum(v, w, less, (terms, region, k))

    def _learn_sum(self, v, w, less, known):
        """Terms and k are at most a region's length together, and v at most w, or below it."""
        terms, region, k = known
        left = plus(plus(v.terms, terms), turned(w.terms))
        if not left:
            self.least[region] = max(self.least[region], k + small(v.c) - small(w.c) + less)
            return
        if len(left) > MOST_TERMS or left != v.terms and any(factor < 0 or term == LENGTH_TERMS[region][0][0] for term, factor in left):
            return
        k += small(v.c) - small(w.c) + less
        self.facts[left, region] = max(k, self.facts.get((left, region), k))
        if left in self.products:
            of, factor = self.products[left]
            self.note("scales", of.terms, (region, factor, k + factor * small(of.c)))
        if left == v.terms:
            self.floors[left] = max(v.lo - small(v.c), self.floors.get(left, -FAR))
            self._raise_least(v, v.lo)

    def difference(self, known, v, w):
        """v - w, where v is a length but for a constant and w is known to be at most that."""
        region, w = v.length_region(), self.settled(w)
        slack = self.slack(w, region) if region and known.terms is not None and abs(small(v.c)) < FAR else None
        if slack is None or slack + small(v.c) < 0:
            return known
        lo, hi = slack + small(v.c), self.most[region] + small(v.c) - w.lo
        if lo >= hi:
            return known
        less = small(known.c) + w.lo - small(v.c)
        self.facts[known.terms, region] = max(less, self.facts.get((known.terms, region), less))
        self.floors[known.terms] = max(lo - small(known.c), self.floors.get(known.terms, -FAR))
        return number(lo, hi, None, known.terms, known.c)

    def _raise_least(self, v, lo):
        """A number is at least lo, and so are the lengths that it is known to be within."""
        if lo >= 0 and v.lo >= 0 and v.hi >> 63 == 0 and abs(small(v.c)) < FAR:
            for region in LIMIT:
                fact = self.facts.get((v.terms, region))
                if fact is not None:
                    self.least[region] = max(self.least[region], lo - small(v.c) + fact)
            if v.terms in self.scales:
                region, factor, more = self.scales[v.terms]
                self.least[region] = max(self.least[region], (lo - small(v.c)) * factor + more)

    def gap(self, v, w):
        """The most that is known to be possible to add to v so that it is still at most w, a length but for a constant; or None."""
        region = w.length_region()
        slack = self.slack(v, region) if region and not w.is_const() and w.lo >= 0 and abs(small(w.c)) < FAR else None
        return None if slack is None else slack + small(w.c)

    def settled(self, v):
        """A number with the bounds that its terms are known to have."""
        terms = v.terms
        if terms and terms[0][0] < 0 and region_of(terms):
            return self.current(v)
        is_whole = 0 <= v.lo and v.hi < HALF
        if not terms or is_whole and (len(terms) == 1 or turned(terms) not in self.floors) or abs(small(v.c)) >= FAR:
            return v
        if not is_whole and terms not in self.floors:
            return v
        lo, hi = self.floors.get(terms, -FAR) + small(v.c), min(v.hi, HALF - 1)
        if is_whole:
            lo = max(lo, v.lo)
        if turned(v.terms) in self.floors:
            hi = min(hi, small(v.c) - self.floors[turned(v.terms)])
        return v._replace(lo=lo, hi=max(lo, hi)) if lo >= 0 else v

    def total(self, v, w):
        """What is known of the sum of two numbers, or of a place and a length."""
        return self.settled(added(v.in_region(None), w.in_region(None)))

    def slack(self, v, region):
        """The most that is known to be possible to add to v, which is not negative, so that it is still at most the region's
        length; or None."""
        return self.settled_slack(self.settled(v), region)

    def settled_slack(self, v, region):
        """The same of a number that has the bounds that its terms are known to have."""
        if v.lo < 0 or v.hi >= HALF:
            return None
        slack, terms, c = self.least[region] - v.hi, v.terms, small(v.c)
        if terms is not None and -FAR < c < FAR:
            if terms == LENGTH_TERMS[region]:
                slack = max(slack, -c)
            fact = self.facts.get((terms, region))
            if fact is not None and fact - c > slack:
                slack = fact - c
        return slack

    def turned_slack(self, v, region):
        """The same of the negated number: of one that is not 0 it is known only where its bounds are told otherwise than by itself."""
        if 0 <= v.lo and 0 < v.hi < HALF and not has_length(v.terms) and turned(v.terms) not in self.floors:
            return None
        return self.slack(negated(v), region)

    def is_inside(self, v, more, region):
        """Whether v and `more` are known to be at most the region's length together."""
        slack = self.slack(v, region)
        if slack is None or self.settled(v).lo + more < 0:
            return False
        return more <= slack or more <= self.whole_slack(v, region)

    def whole_slack(self, v, region, ranges=None):
        """As slack, by all sums that v is a part of and that are known to be at most the length. For who asks often: `ranges` are
        whole_ranges()."""
        slack = self.slack(v, region)
        if slack is None or v.terms is None:
            return slack
        parts, without, count = dict(v.terms), turned(v.terms), len(v.terms)
        for (terms, which), k in self.facts.items():
            if which != region or cancelled(parts, terms) < count:
                continue
            rest = plus(terms, without)
            if not rest:
                continue
            ranges = self.whole_ranges() if ranges is None else ranges
            known = ranges.get(rest) or self.floor_range(rest)
            if known is not None:
                slack = max(slack, k + known[0] - small(v.c))
        return slack

    def narrow(self, v, lo, hi):
        """Learns that v is from lo to hi, and so of all that differ from it by a constant. False where that can't be."""
        if lo > hi:
            return False
        if v.terms is None:
            return True
        v = self.renamed(v)
        if v.terms is None:
            return True
        region = v.length_region()
        if region is not None:
            return self._narrow_length(region, small(v.c), lo, hi)
        if v.terms in NEGATED_LENGTHS and not self._narrow_length(NEGATED_LENGTHS[v.terms], -small(v.c), -hi, -lo):
            return False
        if lo == hi and v.c == 0 and v.terms in self.remainders:
            self.divide_length(*self.remainders[v.terms], lo)
        if v.terms in self.masks and v.c == 0 <= lo and not self.narrow_masked(v, lo, hi):
            return False
        self._raise_least(v, lo)
        if len(v.terms) > 1:
            self._narrow_sum(v, lo, hi)
        self._narrow_difference(v, lo, hi)
        self._narrow_rest(v, lo)
        for name, x in self.variables.items():
            if x.terms == v.terms:
                self.variables[name] = narrowed(x, v, lo, hi)
        for at, (size, x) in self.memory.items():
            if x is not None and x.terms == v.terms:
                self.memory[at] = Held(size, narrowed(x, v, lo, hi))
        if self.masks:
            self.narrow_cut(v, lo, hi)
        if v.terms in self.choices:
            self.choose(v, lo, hi)
        if v.terms in self.answers:
            self.hear(v, lo, hi)
        return self._settle_lengths()

    def hear(self, answer, lo, hi):
        """Learns what a helper's answer tells, which is from lo to hi."""
        first, last, same, *numbers = self.answers[answer.terms]
        if first <= lo - small(answer.c) and hi - small(answer.c) <= last:
            if same is not None:
                self._replace(answer.terms, same, M64)
                self.narrow(added(same, const(answer.c)), lo, hi)
            numbers = [narrowed(v, answer, lo, hi) if v.terms == answer.terms else v for v in numbers]
            for v, w in zip(numbers[::2], numbers[1::2]):
                self.learn(v, w, False)

    def divide_length(self, region, c, divisor, remainder):
        """A length and a constant have a remainder by a divisor."""
        if divisor > self.grid[region][0]:
            self.grid = {**self.grid, region: (divisor, (remainder - c) % divisor)}

    def _settle_lengths(self):
        """Takes the bounds of the lengths to what their remainders allow. False where they have none."""
        least, most = self.least, self.most
        for region, (divisor, remainder) in self.grid.items():
            if divisor > 1:
                least[region] += (remainder - least[region]) % divisor
                most[region] -= (most[region] - remainder) % divisor
        return least["value"] <= most["value"] and least["key"] <= most["key"]

    def _narrow_sum(self, v, lo, hi):
        """A sum of several numbers is from lo to hi, which is known when nothing has it any more."""
        (lo, hi), c = signed(narrowed(v, v, lo, hi)), small(v.c)
        if -FAR < lo and hi < FAR and -FAR < c < FAR:
            for terms, least in ((v.terms, lo - c), (turned(v.terms), c - hi)):
                self.floors[terms] = max(least, self.floors.get(terms, least))

    def _narrow_difference(self, v, lo, hi):
        """What it says of a number and of a length that their difference is from lo to hi."""
        if not has_length(v.terms):
            return
        for region, ((length, _),) in LENGTH_TERMS.items():
            sign = dict(v.terms).get(length)
            if sign not in (1, -1) or len(v.terms) == 1:
                continue
            other = tuple((term, -sign * factor) for term, factor in v.terms if term != length)
            known = self.whole_range(other)
            if known is None or abs(small(v.c)) >= FAR:
                continue
            # The length less the other number, as a whole number.
            least, most = self.least[region] - known[1], self.most[region] - known[0]
            ends = [sorted((sign * (end - small(v.c) + k) for end in (lo, hi))) for k in (0, 1 << 64, -1 << 64)]
            ends = [(max(low, least), min(high, most)) for low, high in ends if low <= most and high >= least]
            if not ends:
                continue
            low, high = min(low for low, _ in ends), max(high for _, high in ends)
            self.facts[other, region] = max(low, self.facts.get((other, region), low))
            self.floors[other] = max(known[0], self.floors.get(other, known[0]))
            apart = v.terms if sign > 0 else turned(v.terms)
            self.floors[apart] = max(low, self.floors.get(apart, low))
            self.least[region], self.most[region] = max(self.least[region], low + known[0]), min(self.most[region], high + known[1])

    def _narrow_rest(self, v, lo):
        """A number is at least lo: where a sum that it is part of is at most a length, the rest of the sum is that much less."""
        if not is_whole(v) or lo < 0 or lo <= v.lo:
            return
        parts = {term for term, factor in v.terms if factor > 0}
        for (terms, region), k in list(self.facts.items()):
            if terms == v.terms or not shares(parts, terms):
                continue
            rest = plus(terms, turned(v.terms))
            known = self.whole_range(rest) if 0 < len(rest) < len(terms) + len(v.terms) else None
            if known is None:
                continue
            k += lo - small(v.c)
            self.facts[rest, region] = max(k, self.facts.get((rest, region), k))
            self.floors[rest] = max(known[0], self.floors.get(rest, known[0]))
            self.least[region] = max(self.least[region], known[0] + k)

    def whole_range(self, terms):
        """Between which whole numbers a sum of terms is known to be, if it is."""
        for v in (*self.variables.values(), *[held.value for held in self.memory.values() if held.value is not None]):
            if v.terms == terms and v.hi >> 40 == 0 and is_whole(v := self.settled(v)):
                return v.lo - small(v.c), v.hi - small(v.c)
        return self.floor_range(terms)

    def floor_range(self, terms):
        """The same of a sum that nothing has."""
        if terms in self.floors:
            ends = [self.most[region] - self.facts[terms, region] for region in LIMIT if (terms, region) in self.facts]
            if ends:
                return self.floors[terms], min(ends)
        return None

    def whole_ranges(self):
        """The same of all sums that variables and the stack have."""
        found = {}
        for v in (*self.variables.values(), *[held.value for held in self.memory.values() if held.value is not None]):
            if v.terms and v.terms not in found and v.hi >> 40 == 0 and is_whole(v := self.settled(v)):
                found[v.terms] = v.lo - small(v.c), v.hi - small(v.c)
        return found

    def _narrow_length(self, region, c, lo, hi):
        least, most = self.least[region], self.most[region]
        ends = [(max(lo - c + k, least), min(hi - c + k, most)) for k in ((0,) if -FAR < lo - c and hi - c < FAR else (0, 1 << 64, -1 << 64))]
        ends = [(low, high) for low, high in ends if low <= high]
        if not ends:
            return False
        self.least[region], self.most[region] = min(low for low, _ in ends), max(high for _, high in ends)
        for one, other in (("value", "key"), ("key", "value")):
            fact = self.facts.get((LENGTH_TERMS[one], other))
            if fact is not None:
                self.least[other] = max(self.least[other], self.least[one] + fact)
                self.most[one] = min(self.most[one], self.most[other] - fact)
        return self._settle_lengths()


def cancelled(parts, terms):
    """By how many terms the difference of a sum and of the sum of some parts is shorter than both."""
    count = 0
    for term, factor in terms:
        if term in parts:
            count += 2 if parts[term] == factor else 1
    return count


def shares(parts, terms):
    """Whether one of the parts is in a sum with a factor above 0."""
    for term, factor in terms:
        if factor > 0 and term in parts:
            return True
    return False


def negated(v):
    return added(const(0), v, -1)


def is_whole(v):
    """Whether a number and its terms' sum are the same modulo 2^64 and as whole numbers."""
    return 0 <= v.lo and v.hi < HALF and -FAR < small(v.c) < FAR
