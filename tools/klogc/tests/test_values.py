"""What is known of a number holds of every number that it is known of."""
import random
import unittest

from second_machine import changed as really_changed, computed

from klogc.values import M64, Value, changed, const, joined, low32, number, result, signed, signed32, unsigned

OPERATIONS = ("add", "sub", "mul", "div", "mod", "or", "and", "xor", "lsh", "rsh", "arsh", "sdiv", "smod")
ENDS = (0, 1, 2, 3, 7, 8, 63, 64, 255, 256, 65535, (1 << 31) - 1, 1 << 31, (1 << 32) - 1, 1 << 32, (1 << 63) - 1, 1 << 63, M64 - 1, M64)


def holds(v: Value, n):
    """Whether a number may be what is known."""
    return any(v.lo <= n + k <= v.hi for k in (0, -1 << 64)) and n & ~v.mask == 0


def some_interval(r):
    """An interval, and a number of it."""
    lo = r.choice(ENDS) if r.random() < 0.7 else r.randrange(1 << r.randrange(1, 64))
    hi = min(lo + r.choice((0, 1, 5, 100, 1 << 20, 1 << 33)), M64)
    if r.random() < 0.2:
        lo, hi = -r.randrange(1, 300), r.randrange(300)
    n = r.choice((lo, hi, r.randint(lo, hi)))
    return number(lo, hi), n & M64


class Values(unittest.TestCase):
    def setUp(self):
        self.r = random.Random(7)

    def test_operations(self):
        for _ in range(6000):
            (a, x), (b, y) = some_interval(self.r), some_interval(self.r)
            name, bits = self.r.choice(OPERATIONS), self.r.choice((32, 64))
            known, n = result(name, bits, a, b), computed(bits, name, x, y)
            self.assertTrue(holds(known, n), (name, bits, a, x, b, y, known, n))

    def test_changes(self):
        for _ in range(2000):
            a, x = some_interval(self.r)
            change = self.r.choice((("neg", 64), ("neg", 32), ("order", "le", 16), ("order", "be", 32), ("order", "swap", 64), ("movsx", 64, 8), ("movsx", 64, 32),
                                    ("movsx", 32, 16)))
            self.assertTrue(holds(changed(change, a), really_changed(change, x)), (change, a, x))

    def test_joins(self):
        for _ in range(2000):
            (a, x), (b, y) = some_interval(self.r), some_interval(self.r)
            both = joined(a, b)
            self.assertTrue(holds(both, x) and holds(both, y), (a, x, b, y, both))

    def test_readings(self):
        for _ in range(2000):
            a, x = some_interval(self.r)
            lo, hi = unsigned(a)
            self.assertTrue(lo <= x <= hi, (a, x))
            lo, hi = signed(a)
            self.assertTrue(lo <= (x - (1 << 64) if x >> 63 else x) <= hi, (a, x))
            cut = x & 0xFFFFFFFF
            self.assertTrue(holds(low32(a), cut), (a, x))
            lo, hi = signed32(a)
            self.assertTrue(lo <= (cut - (1 << 32) if cut >> 31 else cut) <= hi, (a, x))

    def test_sums_cancel(self):
        a, b = number(0, 100), number(0, 1 << 40)
        self.assertEqual(result("sub", 64, result("add", 64, a, b), b).terms, a.terms)
        self.assertEqual(result("sub", 64, result("add", 64, a, const(5)), a), const(5))


if __name__ == "__main__":
    unittest.main()
