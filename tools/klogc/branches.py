"""What is known on only one of two ways that met. A number may tell later which of them was taken: a flag that is set on one of them, a
result that is -1, or a length that is 0. Then what was known on that way is known again."""
from typing import Callable, NamedTuple

from .halves import Halves, Held, narrowed
from .terms import LENGTH_TERMS, LENGTHS, Terms, plus
from .values import LIMIT, M64, Value, const, small

# Ways that met before such a way are known too, but no more than so many, one before the other.
MOST_MEETINGS = 3


class Way(NamedTuple):
    """What was known on a way, and of the numbers that got a new name where it met the other one what they were."""
    variables: dict
    facts: dict
    floors: dict
    least: dict
    origins: dict
    renamed: list


class Choice(NamedTuple):
    """A number on each of two ways that met, and these. `depth` is how many meetings are known, one before the other."""
    numbers: tuple[Value, Value]
    ways: tuple[Way, Way]
    depth: int

    def taken(self, lo, hi):
        """The way on which the number is from lo to hi, if that is possible on one of them alone."""
        able = [way for v, way in zip(self.numbers, self.ways) if meets(v, lo, hi)]
        return able[0] if len(able) == 1 else None


def meets(v, lo, hi):
    """Whether a number may be from lo to hi, modulo 2^64."""
    return any(v.lo <= hi + k and lo + k <= v.hi for k in (0, 1 << 64, -1 << 64))


def has(terms, term):
    return any(number == term for number, _ in terms or ())


def put_in(terms, term, v):
    """A sum in which another number is in the place of one of its own, and the constant that this adds."""
    factor = dict(terms)[term]
    rest = tuple([pair for pair in terms if pair[0] != term])
    return plus(rest, tuple([(number, factor * each) for number, each in v.terms or ()])), factor * small(v.c)


def put(x, term, v):
    """A number with another in the place of one of those that it is the sum of."""
    if not has(x.terms, term):
        return x
    terms, c = put_in(x.terms, term, v)
    new = x._replace(terms=terms or None, c=(x.c + c) & M64)
    if not terms:
        return const(new.c, x.region)
    if len(x.terms) == 1 and x.terms[0][1] == 1:
        low, high = v.lo + small(x.c), v.hi + small(x.c)
        return narrowed(new, new, low, high)
    return new


def tells(v, w):
    """Whether a number that is v on one way and w on another may tell which of them was taken."""
    return v.region is None and w.region is None and (v.lo == v.hi or w.lo == w.hi) and (v.lo, v.hi) != (w.lo, w.hi)


def choices_of(telling, sides, renamed, origins):
    """The choices that numbers give, each on both ways together and on each of these two sides."""
    known = [{terms: choice for terms, choice in side.choices.items() if choice.depth < MOST_MEETINGS} for side in sides]
    depth = 1 + max([choice.depth for held in known for choice in held.values()], default=0)
    ways = tuple([Way(side.variables, side.facts, side.floors, side.least,
                      {origin: held if origin == "choices" else getattr(side, origin) for origin in origins},
                      [(both.terms, each[at]) for both, each in renamed]) for at, (side, held) in enumerate(zip(sides, known))])
    found = {}
    for both, *numbers in telling:
        c = small(both.c)
        found[both.terms] = Choice(tuple([v._replace(lo=v.lo - c, hi=v.hi - c) for v in numbers]), ways, depth)
    return found


class Branches(Halves):
    """The part of State that knows of ways that met; its fields are told there."""
    __slots__ = ()
    facts: dict[tuple, int]
    floors: dict[tuple, int]
    choices: dict[Terms, Choice]
    names: dict[int, Value]
    note: Callable
    narrow: Callable
    least: dict[str, int]

    def renamed(self, v):
        """A number by the names that its parts have now."""
        while self.names and v.terms and (old := next((term for term, _ in v.terms if term in self.names), None)) is not None:
            v = put(v, old, self.names[old])
        return v

    def choose(self, v, lo, hi):
        """Learns of a number that is from lo to hi on which way it came."""
        while v.terms in self.choices:
            way = self.choices[v.terms].taken(lo - small(v.c), hi - small(v.c))
            if way is None:
                return
            self.choices = {terms: choice for terms, choice in self.choices.items() if terms != v.terms}
            self._take(way)

    def _rename(self, term, v):
        """An unknown number is another number, in all sums that it is in."""
        self.note("names", term, v)
        self.variables = {name: put(x, term, v) for name, x in self.variables.items()}
        self.memory = {at: held if held.value is None else Held(held.size, put(held.value, term, v)) for at, held in self.memory.items()}
        for (terms, region), k in list(self.facts.items()):
            if has(terms, term):
                terms, c = put_in(terms, term, v)
                if terms and terms != LENGTH_TERMS[region]:
                    self.facts[terms, region] = max(k + c, self.facts.get((terms, region), k + c))
        for terms, k in list(self.floors.items()):
            if has(terms, term):
                terms, c = put_in(terms, term, v)
                if terms:
                    self.floors[terms] = max(k - c, self.floors.get(terms, k - c))

    def _take(self, way: Way):
        """What was known on a way is known again."""
        for ((term, _),), v in way.renamed:
            self._rename(term, v)
        sums = {x.terms: x for x in (*self.variables.values(), *[held.value for held in self.memory.values() if held.value]) if x.terms}
        used = LENGTHS.union([term for terms in sums for term, _ in terms])
        for origin, held in way.origins.items():
            mine = getattr(self, origin)
            if held is not mine:
                setattr(self, origin, {**held, **mine})
        for (terms, region), k in way.facts.items():
            if k > self.facts.get((terms, region), -LIMIT[region] - 1) and used.issuperset([term for term, _ in terms]):
                self.facts[terms, region] = k
        for terms, k in way.floors.items():
            if (terms not in self.floors or k > self.floors[terms]) and used.issuperset([term for term, _ in terms]):
                self.floors[terms] = k
        for region in LIMIT:
            self.least[region] = max(self.least[region], way.least[region])
        for v in way.variables.values():
            x = sums.get(v.terms)
            if x is not None and (v.lo, v.hi, v.c) != (x.lo, x.hi, x.c):
                self.narrow(v, v.lo, v.hi)
