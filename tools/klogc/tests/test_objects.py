"""Objects: random programs of every form of instruction mean the same after the pass; damaged objects are refused by a sentence."""
import random
import struct
import time
import unittest

import random_images
import second_machine
from bpf_object import Damaged, Lines, Object

from klogc.lower import lower
from klogc.meaning import Emission, Record, Run
from klogc.program import Program, Refused

PROGRAMS, DAMAGED = 25, 150
GOOD = random_images.slot(0xB7) + random_images.slot(0x95)


def refusal(data, name="transform"):
    try:
        lower(Program(data, name))
    except Refused as fault:
        return str(fault)
    return "made"


class Objects(unittest.TestCase):
    def setUp(self):
        self.rng = random.Random(3)

    def packed(self, code=GOOD, **words):
        return random_images.packed(self.rng, code, **words)

    def test_random_programs(self):
        """A program that the verifier accepts as it is gives the same, shuffled and lowered, on every record; so does its meaning."""
        for n in range(PROGRAMS):
            blocks = random_images.some_program(self.rng)
            straight, _ = random_images.assembled(list(range(len(blocks))), blocks)
            data = self.packed(random_images.shuffled(blocks, self.rng))
            program = Program(data)
            image = lower(program)
            first, made = second_machine.decode(straight), second_machine.decode(image.data)
            self.assertIsNone(second_machine.verify(made))
            for record in random_images.some_records(self.rng, 5):
                want = random_images.outcome(first, record)
                self.assertEqual(random_images.outcome(made, record), want, (n, record))
                meant = Run(program, Record(record.key, record.value, (), 1700000000000, 5, 3), 2, fill=None).outcome()
                if isinstance(want, list):
                    want = [Emission(output, key, value, tuple(headers)) for output, key, value, headers in want]
                self.assertEqual(meant, want, (n, record))

    def test_faults(self):
        slot, wide, good = random_images.slot, random_images.wide, self.packed()
        for data, said in (
                (b"", "is no ELF file: give the object that `clang -target bpf -c` wrote"),
                (b"\x7fELF", "is cut: bytes 4 to 5 are wanted, and it has 4"),
                (b"\x7fELF\x01\x01" + bytes(60), "is no ELF file of 64 bits, little-endian: compile with `-target bpf`"),
                (self.packed(machine=62), "is of machine 62, not of BPF (247): compile with `-target bpf`"),
                (good[:16] + b"\2\0" + good[18:], "is linked: give the object that `-c` writes"),
                (good[:40] + bytes(8) + good[48:], "has no sections"),
                (self.packed(name="main"), "there is no function `transform`; the source has `main`"),
                (self.packed(slot(0x05, 0, 0, 4) + slot(0x95)), "the function has no end here"),
                (self.packed(slot(0xB7) + slot(0xB7, 1)), "the function has no end here"),
                (self.packed(slot(0x05, 0, 0, 1) + wide(1, 1) + slot(0x95)), "the function has no end here"),
                (self.packed(slot(0xC3, 10) + slot(0x95)), "clang wrote what klog's machine does not have (I6 NotInProfile slot")):
            with self.subTest(said):
                self.assertIn(said, refusal(data))

    def test_long_symbol(self):
        """A function that is said to be longer than its section ends with it."""
        data = self.packed()
        size_at = data.index(struct.pack("<IBBH", 1, 0x12, 0, 1)) + 16
        start = time.process_time()
        self.assertEqual(refusal(data[:size_at] + struct.pack("<Q", 1 << 29) + data[size_at + 8:]), "made")
        self.assertLess(time.process_time() - start, 5)

    def test_damage(self):
        """Whatever is changed in an object, it is refused or gives an image; nothing else ends the pass."""
        good = [self.packed(random_images.shuffled(random_images.some_program(self.rng), self.rng)) for _ in range(4)]
        for _ in range(DAMAGED):
            data = bytearray(self.rng.choice(good))
            if self.rng.random() < 0.2:
                data = data[:self.rng.randrange(len(data))]
            for _ in range(self.rng.choice([1, 1, 2, 8])):
                at = self.rng.randrange(max(len(data), 1))
                data[at:at + 1] = bytes([self.rng.choice([0, 1, 255, self.rng.randrange(256)])])
            refusal(bytes(data))
            self.lines_are_read(bytes(data))

    @staticmethod
    def lines_are_read(data):
        try:
            obj = Object(data)
            for section in obj.sections[:4]:
                Lines(obj, section)
        except Damaged:
            pass


if __name__ == "__main__":
    unittest.main()
