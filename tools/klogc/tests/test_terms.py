"""Sums of unknown numbers are what they are for each choice of these, and what is known of two states holds where they meet."""
import random
import unittest

from klogc.code import register
from klogc.state import State
from klogc.terms import LENGTH_TERMS, parts_of, plus, sum_in, turned
from klogc.values import LIMIT, const, number, summed


def some_terms(r):
    return tuple(sorted({r.randrange(-2, 8): r.choice((-2, -1, 1, 2)) for _ in range(r.randrange(4))}.items()))


def value_of(terms):
    return sum(factor * (term + 5) ** 3 for term, factor in terms)


class Terms(unittest.TestCase):
    def setUp(self):
        self.r = random.Random(11)

    def test_sums(self):
        for _ in range(4000):
            x, y = some_terms(self.r), some_terms(self.r)
            both = plus(x, y)
            self.assertEqual(value_of(both), value_of(x) + value_of(y))
            self.assertEqual(list(both), sorted(both))
            self.assertNotIn(0, [factor for _, factor in both])
            self.assertEqual(value_of(turned(x)), -value_of(x))
            self.assertEqual(plus(x, turned(x)), ())

    def test_sums_that_are_looked_for(self):
        """No sum is left out that is one of those that are looked for."""
        for _ in range(4000):
            x, y = some_terms(self.r), some_terms(self.r)
            keys = [plus(x, y), *(some_terms(self.r) for _ in range(3))]
            self.assertEqual(sum_in(x, y, parts_of(keys)), plus(x, y))

    def test_factors_are_modulo(self):
        v, w = (number(0, 9, None, ((3, 1 << 62),)) for _ in range(2))
        twice = number(0, 9, None, summed(v, w, 1))
        self.assertEqual(twice.terms, ((3, -1 << 63),))
        self.assertEqual(summed(twice, twice, 1), ())


class Meetings(unittest.TestCase):
    def states(self, *rows):
        """A state for each row of what two registers are."""
        made = []
        for a, b in rows:
            s = State()
            s.variables = {register(1): a, register(2): b}
            made.append(s)
        return made

    def test_differences_stay(self):
        """Numbers that differ by a constant on both ways, or are a length less each other, still do where the ways meet."""
        n, m = number(0, 9), number(3, 7)
        length = number(0, LIMIT["value"], None, LENGTH_TERMS["value"])
        apart = lambda v, k: v._replace(lo=v.lo + k, hi=v.hi + k, c=k)
        for first, second in ((apart(n, 5), apart(m, 5)), (number(-9, 0, None, turned(n.terms)), number(-7, -3, None, turned(m.terms)))):
            one, other = self.states((n, first), (m, second))
            both = one.join(other).variables
            a, b = both[register(1)], both[register(2)]
            self.assertNotIn(a.terms, (n.terms, m.terms))
            self.assertIn(b.terms, (a.terms, turned(a.terms)))
        rest = [number(0, LIMIT["value"], None, summed(length, v, -1)) for v in (n, m)]
        one, other = self.states((n, rest[0]), (m, rest[1]))
        both = one.join(other).variables
        self.assertEqual(plus(both[register(1)].terms, both[register(2)].terms), LENGTH_TERMS["value"])

    def test_order_stays(self):
        """What is before another on both ways is where they meet."""
        one, other = self.states((number(2, 4), number(5, 9)), (number(10, 12), number(14, 19)))
        both = one.join(other)
        v, w = both.variables[register(1)], both.variables[register(2)]
        self.assertEqual(both.least_difference(w, v), 1)

    def test_states_apart(self):
        """A copy of a state and what is noted of it are its own."""
        s, = self.states((number(0, 9), const(3)))
        t = s.copy()
        t.note("shifts", ((1, 1),), (3, const(1)))
        t.narrow(t.variables[register(1)], 2, 5)
        self.assertEqual((s.shifts, s.variables[register(1)].hi), ({}, 9))


if __name__ == "__main__":
    unittest.main()
