"""The helpers over parts of a record, program files, and klog_parts.h."""
import glob
import os
import tempfile
import unittest

import program_files
import second_machine
import second_parts
from second_broker import Record as Spelled

from klogc.compiler import Compiler
from klogc.examples import examples
from klogc.lower import lower
from klogc.meaning import Emission, Record, Run
from klogc.program import Program
from klogc.table import plain

TOP = os.path.dirname(os.path.dirname(os.path.dirname(os.path.dirname(os.path.abspath(__file__)))))
HEAD = '#include "klog_parts.h"\n'
ENTRY = "u64 %s(const u8 *value, u64 value_length, const u8 *key, u64 key_length, u64 nulls)\n{\n%s\n}\n"
OUTPUTS = 4
WITH = Record(b"k", b'a,bc,,d {"x": "yz"}', ((b"n", b"text"), (b"m", None), (b"n", b"second")))
LONG = Record(b"", b"-" * 5000 + b",end")

# A name, what the function has, and pairs of a record and an outcome.
CASES = [
    ("lengths", "\treturn part_length(VALUE) * 1000000 + part_length(HEADER_VALUE(0)) * 10000 + part_length(HEADER_VALUE(1)) * 100 + part_length(HEADER_KEY(5)) + 1;",
     [(WITH, 21 * 1000000 + 6 * 10000 + 101), (Record(None, None), 1000001)]),
    ("third_field", "\tstruct span s = field(VALUE, ',', 2);\n\treturn s.is_there * 1000 + s.at * 10 + s.length + 1;", [(WITH, 1051), (Record(b"", b"a,b"), 1), (Record(b"", b",,"), 1021)]),
    ("first_field", "\tstruct span s = field(VALUE, ',', 0);\n\treturn s.is_there * 100000 + s.at * 10 + s.length + 1;", [(WITH, 100002), (LONG, 1), (Record(b"", b""), 100001), (Record(b"", None), 1)]),
    ("copied", "\tu8 room[4] = {9, 9, 9, 9};\n\tu64 code = load_part(room, 1, 3, HEADER_VALUE(0));\n\treturn emit_value(code, room, 4);", [(WITH, [Emission(0, b"k", b"ext\x09")]), (LONG, [Emission(1, b"", b"\0\0\0\x09")])]),
    ("copied_none", "\tu8 room[4];\n\tu64 n = header_count();\n\tif (n > 3)\n\t\treturn 9;\n\treturn 2 + load_part(room, 4, n, HEADER_VALUE(0));", [(LONG, 3), (Record(b"", b"", ((b"a", b"1234567"),)), 2)]),
    ("json", '\tstruct span s = json_text("x");\n\treturn s.is_there ? s.at * 10 + s.length : 1;', [(WITH, 142 + 10), (LONG, 1)]),
    ("headers", '\treturn header_is("n", "text") * 4 + header_is("n", "second") * 2 + header_is("m", "") + 1;', [(WITH, 5), (LONG, 1)]),
    ("changed", "\treturn emit_changed(0, 1, 2, key, key_length);", [(Record(b"KEY", b"abcde", ((b"h", b""),)), [Emission(0, b"KEY", b"aKEYde", ((b"h", b""),))]), (Record(b"", b"ab"), 4)]),
    ("added", '\tu64 code = add_header("n", 1, value, value_length);\n\treturn code ? code : emit_record(0);',
     [(Record(b"k", b"v", ((b"h", None),)), [Emission(0, b"k", b"v", ((b"h", None), (b"n", b"v")))]), (Record(b"", b"", ((b"h", None),) * 15), [Emission(0, b"", b"", ((b"h", None),) * 15 + ((b"n", b""),))]),
      (Record(b"", bytes(4097), ((b"h", None),) * 16), 1), (Record(b"", bytes(4097), ((b"h", None),) * 15), 3)]),
    ("added_text", '\tu64 first = emit_null(0), code = add_header(key, key_length, "", 0);\n\treturn first * 10 + (code ? code : emit_null(1));',
     [(Record("ä".encode(), None), [Emission(0, "ä".encode(), None), Emission(1, "ä".encode(), None, (("ä".encode(), b""),))]), (Record(b"\xff", b""), 2), (Record(b"a" * 256, b""), 2),
      (Record(b"a" * 255, b"", ((b"h", b""),)), [Emission(0, b"a" * 255, None), Emission(1, b"a" * 255, None, ((b"a" * 255, b""),))])]),
    ("compared", '\tif (value_length < 1)\n\t\treturn 9;\n\tu64 at = value[0] & 15;\n\tif (at + 13 > value_length)\n\t\treturn 8;\n\treturn memcmp(value + at, "Hello, World!", 13) ? 1 : 2;',
     [(Record(b"", b"\x02.Hello, World!"), 2), (Record(b"", b"\x02.Hello, World?"), 1), (Record(b"", b"\x02.Hello, World"), 8), (Record(b"", b"\x12xHello, World!"), 2), (LONG, 1)]),
    ("compared_stack", "\tu8 room[24];\n\tu64 n = key_length;\n\tif (value_length < 40 || n > 24)\n\t\treturn 9;\n\tload_key(room, 0, n);\n\tif (n == 0 || room[0] > 16)\n\t\tn = 0;\n\treturn 1 + !memcmp(value + (n & 15), room, n);",
     [(Record(b"", bytes(40)), 2), (Record(b"\x03bc", b"...\x03bcd" + bytes(33)), 2), (Record(b"\x03bc", b"...\x03bd" + bytes(34)), 1), (Record(b"\x11", bytes(40)), 2)]),
    ("compared_parts", "\tu64 at = nulls & KEY_IS_NULL ? 3 : key_length & 1;\n\tif (value_length < at + key_length)\n\t\treturn 9;\n\treturn 1 + (memcmp(value + at, key, key_length) != 0);",
     [(Record(b"abc", b".abc"), 1), (Record(b"abc", b".abd"), 2), (Record(b"ab", b"abc"), 1), (Record(None, b"abc"), 1), (Record(None, b"ab"), 9), (Record(b"-" * 3000, b"-" * 3001), 1),
      (Record(b"-" * 3000, b"-" * 2999 + b"x"), 2)]),
    ("texts", '\treturn starts_with(VALUE, "a,") * 4 + contains(VALUE, "yz") * 2 + contains(KEY, "z") + 1;', [(WITH, 7), (LONG, 1)]),
]


class Answers(unittest.TestCase):
    def test_murmur2(self):
        """The values that the test of Kafka's own client has (UtilsTest, testMurmur2)."""
        for key, wanted in ((b"21", -973932308), (b"foobar", -790332482), (b"a-little-bit-long-string", -985981536), (b"a-little-bit-longer-string", -1486304829),
                            (b"lkjh234lh9fiuh90y23oiuhsafujhadof229phr9h19h89h8", -58897971), (b"abc", 479470107)):
            self.assertEqual(second_parts.murmur2(key), wanted % (1 << 32))

    def test_find(self):
        data = b"-" * 4096 + b"ab"
        self.assertEqual([second_parts.find(data, at, b"ab") for at in (0, 1, 4096, 4097, 4098, 9999)], [0, 4097, 4097, 0, 0, 0])
        self.assertEqual([second_parts.find(b"abc", at, b"") for at in (0, 3, 4)], [1, 4, 0])

    def test_decimal(self):
        self.assertEqual([second_parts.decimal(b"x12345678901234567890", *words) for words in ((1, 1), (1, 18), (1, 19), (0, 1), (1, 0), (19, 3), (1 << 60, 2))],
                         [2, 123456789012345679, 0, 0, 0, 0, 0])

    def test_cut(self):
        record = Record(b"k", b"abcdef", ((b"h", b"xyz"),))
        self.assertEqual(second_parts.emission(20, record, [0, 3, 1, 2], []), ((b"k", b"yz", record.headers), 0))
        self.assertEqual(second_parts.emission(20, record, [0, 0, 7, 0], [])[1], 4)
        self.assertEqual(second_parts.emission(21, record, [0, 0, 0], [bytes(1048571)])[1], 5)


class Programs(unittest.TestCase):
    def assert_same(self, program, image, record, wanted):
        code = second_machine.decode(image.data)
        got = second_machine.run(code, Spelled(0, *record[:3]), OUTPUTS, (0, record.timestamp, 0))
        got = got if isinstance(got, int) else [Emission(*e[:3], tuple(e[3])) for e in got]
        self.assertEqual((Run(program, record, OUTPUTS).outcome(), got), (wanted, wanted))

    def test_helpers(self):
        with tempfile.TemporaryDirectory(prefix="klogc-") as folder:
            path = os.path.join(folder, "it.c")
            with open(path, "w", encoding="utf-8") as it:
                it.write(HEAD + "".join(ENTRY % (name, body) for name, body, _ in CASES))
            data = Compiler().object_of(path)
        for name, _, cases in CASES:
            with self.subTest(name):
                program = Program(data, name)
                image = lower(program)
                self.assertEqual(image.table, 3)
                self.assertIsNone(second_machine.verify(second_machine.decode(image.data), 3))
                for record, wanted in cases:
                    self.assert_same(program, image, record, wanted)

    def test_examples(self):
        paths = sorted(glob.glob(os.path.join(TOP, "examples", "c", "parts", "*.c")))
        self.assertEqual(len(paths), 7)
        for path in paths:
            with self.subTest(path), open(path, encoding="utf-8") as it:
                cases, program = examples(path, it.read()), Program(Compiler().object_of(path))
                image = lower(program)
                self.assertEqual(image.codes, {})
                self.assertGreater(len(cases), 2)
                for case in cases:
                    self.assertEqual(plain(Run(program, case.record, OUTPUTS).outcome()), plain(case.wanted), case.line)

    def test_file(self):
        """A program file has the image, its table, and a line where the C line changes."""
        path = os.path.join(TOP, "examples", "c", "parts", "cut_long.c")
        image = lower(Program(Compiler().object_of(path)))
        table, data, places = program_files.read(image.file())
        self.assertEqual((table, data), (3, image.data))
        self.assertEqual([slot for slot, _ in places], sorted({slot for slot, _ in places}))
        self.assertEqual({line for _, line in places}, set(image.lines) - {None})
        self.assertTrue(all(a != b for (_, a), (_, b) in zip(places, places[1:])))


if __name__ == "__main__":
    unittest.main()
