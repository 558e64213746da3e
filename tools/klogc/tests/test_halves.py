"""What is known of a number's low bits, and by a test of them of the number, holds of every number that it is known of; and jumps that
are led on need nothing of what they led over."""
import random
import unittest

from second_machine import computed

from klogc.code import register
from klogc.layout import shortened
from klogc.numbers import times
from klogc.places import EXIT, JUMP, MOVE, Item
from klogc.state import State
from klogc.values import M32, M64, number, signed_quotient

MASKS = (1, 7, 255, 65535, (1 << 32) - 1)
WHOLE, CUT = register(1), register(2)


def holds(v, n):
    """Whether a number may be what is known."""
    return any(v.lo <= n + k <= v.hi for k in (0, -1 << 64)) and n & ~v.mask == 0


class Halves(unittest.TestCase):
    def setUp(self):
        self.r = random.Random(11)

    def known(self, mask):
        """A state with a number that begins below 0 or not and with its low bits, and the number."""
        lo = self.r.choice((0, 3, mask - 2, -1, -65, -mask, mask + 1, 5 * mask))
        hi = lo + self.r.choice((0, 1, 25, mask // 2, mask, 2 * mask))
        s, n = State(), self.r.randint(lo, hi) & M64
        s.variables = {WHOLE: number(lo, hi), CUT: number(0, mask)}
        s.note_cut(s.variables[CUT], s.variables[WHOLE], mask)
        return s, n

    def test_low_bits_say_something_of_the_number(self):
        closer = 0
        for _ in range(4000):
            mask = self.r.choice(MASKS)
            s, n = self.known(mask)
            low, before = n & mask, s.variables[WHOLE]
            lo, hi = max(low - self.r.choice((0, 1, 30)), 0), min(low + self.r.choice((0, 1, 30)), mask)
            if not s.variables[CUT].is_const():
                self.assertTrue(s.narrow(s.variables[CUT], lo, hi), (before, mask, n, lo, hi))
                self.assertTrue(holds(s.variables[WHOLE], n), (before, mask, n, lo, hi))
                self.assertTrue(holds(s.variables[CUT], low), (before, mask, n, lo, hi))
                closer += s.variables[WHOLE].hi - s.variables[WHOLE].lo < before.hi - before.lo
        self.assertGreater(closer, 1000)

    def test_signed_operations(self):
        """What is known of the low 32 bits of a multiple, a quotient and a remainder holds, and of the number that they are of."""
        cut = 0
        for _ in range(4000):
            lo = self.r.choice((0, 3, -1, -65, -9999, -(1 << 31)))
            hi = min(lo + self.r.choice((0, 1, 25, 64, 20000, 1 << 31)), (1 << 31) - 1)
            n, k, name, s = self.r.randint(lo, hi), self.r.choice((1, 3, 10, -1, -7, 1 << 30)), self.r.choice(("mul", "sdiv", "smod")), State()
            of = times(number(lo, hi), k) if name == "mul" else signed_quotient(name, (lo, hi), k)
            known, is_it = s.low_half(number(0, M32), of), computed(32, name, n & M32, k & M32)
            self.assertTrue(holds(known, is_it), (name, lo, hi, n, k, known))
            whole = s.signed_whole(known, 32)
            if whole is not None:
                self.assertTrue(holds(whole, is_it - (is_it >> 31 << 32) & M64), (name, lo, hi, n, k, whole))
                cut += whole.hi - whole.lo < M32
        self.assertGreater(cut, 2000)

    def test_the_number_says_something_of_its_low_bits(self):
        joined = 0
        for _ in range(4000):
            mask = self.r.choice(MASKS)
            s, n = self.known(mask)
            v = s.variables[WHOLE]
            at = n if n <= v.hi else n - (1 << 64)
            lo, hi = max(v.lo, at - self.r.choice((0, 1, 30))), min(v.hi, at + self.r.choice((0, 1, 30)))
            self.assertTrue(s.narrow(v, lo, hi))
            self.assertTrue(holds(s.variables[WHOLE], n) and holds(s.variables[CUT], n & mask), (v, mask, n, lo, hi))
            joined += s.variables[CUT].terms == s.variables[WHOLE].terms
        self.assertGreater(joined, 1000)

    def test_signed(self):
        for lo, hi, bits, known in ((-65, 190, 32, (-65, 190)), (0, 127, 8, (0, 127)), (0, 128, 8, None), (-128, 5, 8, (-128, 5)), (-129, 5, 8, None)):
            found = State().signed_whole(number(lo, hi), bits)
            self.assertEqual(known, found and (found.lo, found.hi))


class Jumps(unittest.TestCase):
    def test_what_was_led_over_can_be_left_out(self):
        """The first jump leads to `a`, from where another leads on; without that one it must still lead to the end."""
        items = [Item("jump", 0x25, 1, imm=6, label="a", number=1), Item("slot", MOVE, 2, 3, number=2), Item("jump", JUMP, label="end", number=3), Item("label", label="a"),
                 Item("jump", JUMP, label="end", number=4), Item("label", label="b"), Item("slot", MOVE, 4, 5, number=5), Item("label", label="end"), Item("slot", EXIT, number=6)]
        left = [item for item in shortened(items) if item.number != 4]
        self.assertEqual(["end"], [item.label for item in left if item.opcode == 0x25])
        self.assertEqual([1, 2, 6], [item.number for item in shortened(left) if item.kind != "label"])


if __name__ == "__main__":
    unittest.main()
