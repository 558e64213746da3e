"""The grammar of examples."""
import unittest

from klogc.examples import Malformed, description, examples, record_of, shown_record, shown_wanted, some_bytes, wanted_of
from klogc.meaning import Emission, Record
from klogc.program import Refused


class Bytes(unittest.TestCase):
    def test_words(self):
        for text, wanted in (("abc", b"abc"), ("", b""), ("null", None), ("hex:00fF", b"\0\xff"), ("hex:", b""), (r"\n\t\\\"\x41\0\101", b'\n\t\\"A\0A'),
                             (r"\u00e9", "é".encode()), ("é", "é".encode()), ("ab*3", b"ababab"), (r"\0*4", bytes(4)), (" a b ", b"a b"), (r"\x20a", b" a")):
            with self.subTest(text):
                self.assertEqual(some_bytes(text), wanted)

    def test_faults(self):
        for text, said in ((r"\q", "is no escape"), ("a\\", "at the end"), ("hex:0", "two digits"), (r"\777", "more than a byte"), ("a*9999999", "more than 1048576"), ("null*2", "is no bytes")):
            with self.subTest(text), self.assertRaisesRegex(Malformed, said.replace("*", r"\*")):
                some_bytes(text)


class Records(unittest.TestCase):
    def test_records(self):
        self.assertEqual(record_of("k | v"), Record(b"k", b"v"))
        self.assertEqual(record_of("null | null at 17"), Record(None, None, (), 17))
        self.assertEqual(record_of("k | v with a=1, b=null at 17"), Record(b"k", b"v", ((b"a", b"1"), (b"b", None)), 17))
        self.assertEqual(record_of("k | v at 17 with a=1"), Record(b"k", b"v", ((b"a", b"1"),), 17))
        self.assertEqual(record_of("|"), Record(b"", b""))

    def test_faults(self):
        for text, said in (("k", "has no `|`"), ("k | v with a", "is no header"), ("k | v with " + ", ".join(["a=1"] * 17), "at most 16 headers"), (f"k | v at {1 << 62}", "is no timestamp")):
            with self.subTest(text), self.assertRaisesRegex(Malformed, said):
                record_of(text)

    def test_wanted(self):
        self.assertEqual(wanted_of("reject 7"), 7)
        self.assertEqual(wanted_of("nothing"), [])
        self.assertEqual(wanted_of("0 k | v + 3 null | null"), [Emission(0, b"k", b"v"), Emission(3, None, None)])
        for text, said in (("reject 0", "at least 1"), ("k | v", "is no emission"), ("64 k | v", "is no emission"), ("0 k", "has no `|`"), ("reject x", "is no emission")):
            with self.subTest(text), self.assertRaisesRegex(Malformed, said):
                wanted_of(text)

    def test_printed_is_read(self):
        for data in (None, b"", b"null", b"hex:", b" a ", b"a|b*3", bytes(range(256)), b"a, b + 1 c"):
            record = Record(data, data, ((b"n", data),), 5)
            self.assertEqual(record_of(shown_record(record)), record)
            self.assertEqual(wanted_of(shown_wanted([Emission(1, data, data)])), [Emission(1, data, data)])


class Sources(unittest.TestCase):
    TEXT = "/* Keeps all.\n * And so on.\n *\n * k | v -> 0 k | v\n * k | -> reject 1 */\nint x;\n"

    def test_comment(self):
        self.assertEqual(description(self.TEXT), "Keeps all. And so on.")
        self.assertEqual([(e.line, e.wanted) for e in examples("a.c", self.TEXT)], [(4, [Emission(0, b"k", b"v")]), (5, 1)])
        self.assertEqual([e.line for e in examples("a.c", "// Keeps.\n//\n// k | v -> nothing\nint x; // a | b -> nothing\n")], [3])
        self.assertEqual(examples("a.c", "int x; /* a | b -> nothing */"), [])

    def test_faults(self):
        with self.assertRaisesRegex(Refused, r"^a\.c:2: no example: `k` has no `\|`"):
            examples("a.c", "/*\n * k -> nothing */")


if __name__ == "__main__":
    unittest.main()
