"""What is known where two ways of the code meet."""
from .branches import choices_of, tells
from .halves import FAR, Held, joined_cuts
from .terms import parts_of, plus, sum_in, turned
from .values import FARTHEST, LIMIT, M32, M64, MIXED, added, const, joined, made, small, summed

# A number is known by at most so many others; then it gets a name of its own.
MOST_PARTS = 4


class Meeting:
    """Two states, and the one in which what is known on both ways is put."""

    def __init__(self, one, other, both):
        self.one, self.other, self.both = one, other, both
        # Of numbers that are not the same on both ways: of their terms that are not and the difference of their constants the new
        # terms for these and the first one's constant.
        self.related = {}

    def state(self, origins):
        one, other, both = self.one, self.other, self.both
        both.facts, both.floors = least_of(one.facts, other.facts), least_of(one.floors, other.floors)
        both.shifts, both.quotients, both.multiples = same(one.shifts, other.shifts), same(one.quotients, other.quotients), same(one.multiples, other.multiples)
        both.complements, both.products = same(one.complements, other.complements), same(one.products, other.products)
        both.scales, both.remainders, both.masks = same(one.scales, other.scales), same(one.remainders, other.remainders), joined_cuts(one.masks, other.masks)
        both.answers, both.choices = same(one.answers, other.answers), same_objects(one.choices, other.choices)
        self._set_numbers()
        new, telling = self._variables()
        if telling:
            both.choices |= choices_of(telling, (one, other), self._renamed(new), origins)
        if new:
            self._parts(new)
            self._order(new)
            self._sums(new)
        for at, (size, mine) in one.memory.items():
            theirs = other.memory.get(at)
            if theirs and theirs.size == size:
                both.memory[at] = Held(size, self._number(mine, theirs.value))
        both.least = {r: min(one.least[r], other.least[r]) for r in LIMIT}
        both.most = {r: max(one.most[r], other.most[r]) for r in LIMIT}
        both.sure = {r: min(one.sure[r], other.sure[r]) for r in LIMIT}
        if one.grid != other.grid:
            both.grid = {r: one.grid[r] if one.grid[r] == other.grid[r] else (1, 0) for r in LIMIT}
        else:
            both.grid = one.grid
        both.words = {at: self._word(at) for at in one.words.keys() | other.words.keys()} if one.words or other.words else {}
        return both

    def _set_numbers(self):
        """A number that is set on one of the ways alone is 0 on the other."""
        for mine, theirs in ((self.one.variables, self.other.variables), (self.other.variables, self.one.variables)):
            theirs.update([(name, const(0)) for name, v in mine.items() if v.region is None and name not in theirs])

    def _variables(self):
        """Joins the variables. The result are the names of those whose terms are others now than on the first way, and those that may
        tell later which way was taken, with what they are on each."""
        theirs, variables, new, telling = self.other.variables, self.both.variables, set(), []
        for name, mine in self.one.variables.items():
            v = theirs.get(name)
            if v is mine:
                variables[name] = mine
            elif v is not None:
                variables[name] = both = self._number(mine, v)
                if both.terms is not None:
                    if both.terms != mine.terms:
                        new.add(name)
                    if tells(mine, v):
                        telling.append((both, mine, v))
        return new, telling

    def _renamed(self, new):
        """The variables that have a new number of their own, with what they are on each way."""
        both, sides = self.both.variables, (self.one.variables, self.other.variables)
        return [(both[name], [side[name] for side in sides]) for name in new if len(both[name].terms) == 1 and both[name].c == 0]

    def _word(self, at):
        mine, theirs = self.one.words, self.other.words
        first, second = mine.get(at, theirs.get(at)), theirs.get(at, mine.get(at))
        return first if first == second else MIXED

    # ---- a number

    def _number(self, mine, theirs):
        """What is known of a number on both ways. Where it is new, so are its terms; but numbers that differ on both ways by the
        same numbers and constant still do, and so do those whose sum is the same on both ways."""
        if mine is None or theirs is None:
            return None
        if mine == theirs:
            return mine
        if (mine.terms, mine.c) != (theirs.terms, theirs.c):
            mine, theirs = self.one.current(mine), self.other.current(theirs)
        both = joined(mine, theirs)
        if both.region != mine.region or both.terms is None:
            return both
        if both.terms in (mine.terms, theirs.terms):
            for region in LIMIT:
                if (both.terms, region) in self.one.facts or (both.terms, region) in self.other.facts:
                    self._keep_fact(both, region, mine, theirs)
            return both
        base, first, second = apart(mine.terms or (), theirs.terms or ())
        found = self._relative((first, second, (mine.c - theirs.c) & M64), plus(both.terms, turned(base)), mine.c)
        if found and len(terms := plus(found[0], base)) <= MOST_PARTS:
            both = made((*both[:4], terms, (mine.c - found[1]) & M64))
            for region in LIMIT if base else ():
                self._keep_fact(both, region, mine, theirs)
            return both
        for region in LIMIT:
            self._keep_fact(both, region, mine, theirs)
            self.both.keep_fact(turned(both.terms), region, (self.one.turned_slack(mine, region), self.other.turned_slack(theirs, region)), 0)
        if 0 <= both.lo and both.hi <= FARTHEST:
            # Of sums that it becomes a part of this is asked when nothing has it any more.
            self.both.floors[turned(both.terms)] = -both.hi
        if (self.one.masks or self.other.masks) and 0 <= both.lo and both.hi <= M32:
            of = joined(self.one.whole(mine), self.other.whole(theirs))
            if of.lo < 0:
                self.both.note_cut(both, of, M32)
        return both

    def _keep_fact(self, both, region, mine, theirs):
        """How far a number is from the record's end on both ways."""
        self.both.keep_fact(both.terms, region, (self.one.slack(mine, region), self.other.slack(theirs, region)), small(both.c))

    def _relative(self, key, terms, c):
        """The new terms and the constant of an earlier number of which what is not the same on both ways differs by a constant, or None;
        then it is kept with its own and negated, for those that come."""
        found = self.related.get(key)
        if found is None:
            first, second, step = key
            self.related[key] = terms, c
            self.related[turned(first), turned(second), -step & M64] = turned(terms), -c & M64
        return found

    # ---- two numbers

    def _parts(self, new):
        """Of two numbers of which one is not the same on both ways, as the place and the length of a part of the record: how far their
        sum is from the record's end."""
        one, other = self.one, self.other
        known = [(name, v, one.variables[name], other.variables[name]) for name, v in self.both.variables.items() if v.terms is not None and v.region in (None, *LIMIT)]
        parts, others = (parts_of([terms for terms, _ in side.facts]) for side in (one, other))
        ranges = None
        for (_, x, *first), (_, y, *second) in pairs_with(new, known):
            if x.region is not None and y.region is not None:
                continue
            mine, theirs = sum_in(first[0].terms, second[0].terms, parts), sum_in(first[1].terms, second[1].terms, others)
            if mine is None is theirs:
                continue
            sums = None
            for region in LIMIT if x.region is None is y.region else (x.region or y.region,):
                here, there = (mine, region) in one.facts, (theirs, region) in other.facts
                if not here and not there:
                    continue
                if sums is None:
                    sums, terms, c = (one.total(first[0], second[0]), other.total(first[1], second[1])), summed(x, y, 1), small((x.c + y.c) & M64)
                if here and there:
                    # By the sums themselves, which say it sooner.
                    slacks = one.settled_slack(sums[0], region), other.settled_slack(sums[1], region)
                else:
                    ranges = ranges or (one.whole_ranges(), other.whole_ranges())
                    slacks = one.whole_slack(sums[0], region, ranges[0]), other.whole_slack(sums[1], region, ranges[1])
                self.both.keep_fact(terms, region, slacks, c)

    def _order(self, new):
        """Of numbers of which one is not the same on both ways: how much at least the one is more than the other."""
        variables, floors = self.both.variables, self.both.floors
        known = [(name, v) for name, v in variables.items() if v.terms is not None and 0 <= v.lo and v.hi <= FARTHEST]
        sides = []
        for side in (self.one, self.other):
            sides.append((side.variables, {name: side.ends(side.variables[name]) for name, _ in known}, side.least_difference, parts_of(side.floors)))
        for v, w in pairs_with(new, known):
            if v[1].terms == w[1].terms or v[1].region != w[1].region:
                continue
            for (first, p), (then, q) in ((v, w), (w, v)):
                least = FAR
                for held, ends, difference, parts in sides:
                    least = min(least, difference(held[first], held[then], ends[first][0] - ends[then][1], parts))
                    if least <= p.lo - q.hi:
                        break
                else:
                    terms, least = summed(p, q, -1), least - small(p.c) + small(q.c)
                    floors[terms] = max(least, floors.get(terms, least))

    def _sums(self, new):
        """Of two numbers of which one is not the same on both ways: between which bounds both are together. So is the length of a text
        with that of what is put at its end, and a digit with what its number lacks, which is a constant for each kind of digits."""
        one, other, floors, known = self.one, self.other, self.both.floors, []
        for name, v in self.both.variables.items():
            if v.terms is not None and v.region is None:
                mine, theirs = one.settled(one.variables[name]), other.settled(other.variables[name])
                if min(mine.lo, theirs.lo) >= 0 and max(mine.hi, theirs.hi) <= M32:
                    known.append((name, v, mine, theirs))
        for (_, x, *first), (_, y, *second) in pairs_with(new, known):
            is_told = any(turned(sum_in(v.terms, w.terms)) in side.floors for side, v, w in zip((one, other), first, second))
            if not (is_told or is_chosen_by(first, second) or is_chosen_by(second, first)):
                continue
            mine, theirs = one.total(first[0], second[0]), other.total(first[1], second[1])
            terms, c, least, most = summed(x, y, 1), small(x.c) + small(y.c), min(mine.lo, theirs.lo), max(mine.hi, theirs.hi)
            if terms and least > x.lo + y.lo:
                floors[terms] = max(least - c, floors.get(terms, least - c))
            if terms and most < x.hi + y.hi:
                floors[turned(terms)] = max(c - most, floors.get(turned(terms), c - most))


def is_chosen_by(numbers, others):
    """Whether numbers on two ways are constants, and others say which."""
    return all(v.is_const() for v in numbers) and others[0][1:3] != others[1][1:3]


def pairs_with(new, known):
    """The pairs of numbers, each with its name first, of which one is new."""
    for at, first in enumerate(known):
        if first[0] in new:
            yield from [(first, second) for second in known[:at] if second[0] not in new]
            yield from [(first, second) for second in known[at:]]


def apart(x, y):
    """What two sums have in common, and the rest of each."""
    common = set(x).intersection(y)
    if not common:
        return (), x, y
    return tuple([pair for pair in x if pair in common]), tuple([pair for pair in x if pair not in common]), tuple([pair for pair in y if pair not in common])


def least_of(mine, theirs):
    """Of numbers that both have the lesser."""
    found = {}
    for key, k in mine.items():
        other = theirs.get(key)
        if other is not None:
            found[key] = k if k < other else other
    return found


def same(mine, theirs):
    """What is the same in both."""
    return mine if mine is theirs else {key: what for key, what in mine.items() if theirs.get(key) == what}


def same_objects(mine, theirs):
    """What is the same object in both."""
    return mine.copy() if mine is theirs else {key: what for key, what in mine.items() if theirs.get(key) is what}
