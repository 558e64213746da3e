"""What klogc builds, what it refuses and at which line, and what it says: each source has a function for each case."""
import os
import subprocess
import sys
import tempfile
import unittest

import second_machine
from second_broker import Record as Spelled

from klogc.compiler import Compiler, Text, arguments_from, operand_of
from klogc.lower import lower
from klogc.meaning import Emission, Record, Run, Trap
from klogc.program import Program, Refused

KLOGC = os.path.join(os.path.dirname(os.path.dirname(os.path.abspath(__file__))), "klogc")
TOP = os.path.dirname(os.path.dirname(os.path.dirname(KLOGC)))
HEAD = '#include "klog.h"\n#include <string.h>\n'
ENTRY = "u64 %s(const u8 *value, u64 value_length, const u8 *key, u64 key_length, u64 nulls)\n{\n%s\n}\n"

# A name, what the function has, with a mark at the line that is refused, and what is said of it.
REFUSED = [
    ("byte", "\tif (value_length < 3)\n\t\treturn 1;\n\treturn value[3]; /*!*/", "byte 3 of the value is read, and the value may have 3 bytes: test first that value_length is at least 4"),
    ("compared", '\tif (value_length < 1)\n\t\treturn 1;\n\treturn memcmp(value + value[0], "abc", 3) ? 2 : 3; /*!*/', "a part of the value is compared that may end outside: test first that its end is at most value_length"),
    ("bytes_of_key", "\treturn *(const u32 *)(key + 4); /*!*/", "bytes 4 to 7 of the key are read, and the key may have 0 bytes: test first that key_length is at least 8"),
    ("before", "\treturn value[-1]; /*!*/", "a byte before the value's first is read"),
    ("place", "\tif (value_length < 1)\n\t\treturn 1;\n\treturn value[value[0]]; /*!*/", "a byte of the value is read at a place that may be outside: test first that the place is below value_length"),
    ("part", "\tif (value_length < 1)\n\t\treturn 1;\n\treturn emit_value(0, value, value[0]); /*!*/", "a part of the value is emitted that may end outside: test first that its end is at most value_length"),
    ("index", "\tu64 w[4] = {1, 2, 3, 4};\n\tw[value_length] = 7; /*!*/\n\treturn emit_value(0, w, 32);", "an index may lead outside the variable: test first that it is below the number of elements"),
    ("written", "\t((u8 *)value)[0] = 1; /*!*/\n\treturn 0;", "the value is written: it can be read alone; copy what is changed to a variable"),
    ("global", "\tstatic u64 count;\n\treturn ++count > value_length; /*!*/", "is a global: klog has no memory between records; make it a variable of the function, or `const`"),
    ("unknown", "\textern u64 lookup(u64 n);\n\treturn lookup(value_length); /*!*/", "`lookup` is called, which is not here: klog has the helpers of klog.h, and of C's library memcmp, memcpy and the like"),
    ("number", "\treturn (u64)value >> 3; /*!*/", "an address is multiplied, shifted, or added to one of something else: klog's addresses are not numbers"),
    ("length", "\tu8 text[8] = {0};\n\treturn emit_value(0, text, value_length); /*!*/", "a length of up to 1048576 is passed on with a variable of at most 8 bytes: test the length first"),
    ("address", "\tconst u8 *volatile at = value;\n\treturn ((volatile u8 *)&at)[3]; /*!*/", "a part of an address is used as a number"),
    ("address_emitted", "\tconst u8 *volatile at = value;\n\treturn emit_value(0, (const void *)&at, 8); /*!*/", "a part of an address is used as a number"),
    ("room", "\tload_value((void *)key, 0, 4); /*!*/\n\treturn 0;", "a helper writes to the key: give it a variable of the function"),
]

# A name, what the function has, and pairs of a record and an outcome.
ACCEPTED = [
    ("sum", "\tu64 all = 0;\n\tfor (u64 i = 0; i < value_length && i < 20; i++)\n\t\tall += value[i];\n\treturn all;", [(Record(b"k", b"\1\2\3"), 6), (Record(b"k", bytes([1]) * 30), 20)]),
    ("signed_division", "\tint n = (int)value_length - 9;\n\treturn n / 4 + 100;", [(Record(b"k", b""), 98), (Record(b"k", bytes(20)), 102)]),
    ("texts", '\tif (key_length == 3 && memcmp(key, "abc", 3) == 0)\n\t\treturn 7;\n\treturn 8;', [(Record(b"abc", b""), 7), (Record(b"abd", b""), 8), (Record(b"ab", b""), 8)]),
    ("table", "\tstatic const u8 primes[8] = {2, 3, 5, 7, 11, 13, 17, 19};\n\treturn primes[value_length & 7];", [(Record(b"k", b"abc"), 7), (Record(b"k", b""), 2)]),
    ("chosen", "\tconst u8 *from = key_length > value_length ? key : value;\n\tu64 n = key_length > value_length ? key_length : value_length;\n\treturn n ? from[n - 1] : 1;",
     [(Record(b"abc", b"xy"), 99), (Record(b"a", b"xy"), 121), (Record(None, None), 1)]),
    ("copied", "\tu8 to[16] = {0};\n\tu64 n = value_length < 16 ? value_length : 16;\n\tfor (u64 i = 0; i < n; i++)\n\t\tto[i] = value[n - 1 - i];\n\treturn to[0];", [(Record(b"k", b"abc"), 99), (Record(b"k", b"b" + b"a" * 20), 97)]),
    ("switched", "\tswitch (value_length) { case 0: return 5; case 1: return 9; case 2: return 4; case 3: return 44; case 4: return 3; case 5: return 70; }\n\treturn 1;",
     [(Record(b"k", b"abc"), 44), (Record(b"k", b"abcdef"), 1)]),
    ("after_last", "\tu64 at = 0, all = 0;\n\tif (key_length > 9)\n\t\treturn 1;\n\tfor (u64 i = key_length; i > 0; i--)\n\t\tif (key[i - 1] == '@') {\n\t\t\tat = i;\n\t\t\tbreak;\n\t\t}"
     "\n\tif (at == 0 || at == key_length)\n\t\treturn 2;\n\tfor (u64 i = at; i < key_length; i++)\n\t\tall = all * 3 + key[i];\n\treturn all;", [(Record(b"a@bc", b""), 98 * 3 + 99), (Record(b"ab@", b""), 2), (Record(b"@@b", b""), 98)]),
    ("turned", "\tu64 all = 0;\n\tif (key_length < 3 || key_length > 9)\n\t\treturn 1;\n\tfor (u32 i = 0; i < key_length; i++)\n\t\tall = all * 3 + key[(i + 4) % key_length];\n\treturn all;",
     [(Record(b"abc", b""), (98 * 3 + 99) * 3 + 97), (Record(b"ab", b""), 1)]),
    ("pairs", "\tu64 all = 0;\n\tif (value_length > 8 || value_length & 1)\n\t\treturn 1;\n\tfor (u64 i = 0; i < value_length / 2; i++)\n\t\tall = all * 5 + value[2 * i] * 2 + value[2 * i + 1];\n\treturn all + 2;",
     [(Record(b"k", b"abcd"), (97 * 2 + 98) * 5 + 99 * 2 + 100 + 2), (Record(b"k", b""), 2), (Record(b"k", b"abc"), 1)]),
    ("month", "\tstatic const u16 days[4] = {31, 28, 310, 30};\n\tint month = key_length ? key[0] - '0' : -1;\n\tif (month < 1 || month > 4)\n\t\treturn 1;\n\treturn days[month - 1];",
     [(Record(b"3", b""), 310), (Record(b"0", b""), 1), (Record(b"", b""), 1)]),
    ("letters", "\tstatic const u8 worth[26] = {1, 3, 3, 2, 1, 4};\n\tu8 c = key_length ? key[0] : 0;\n\tif (c >= 'a' && c <= 'z')\n\t\tc -= 32;\n\tif (c < 'A' || c > 'Z')\n\t\treturn 50;\n\treturn worth[c - 'A'] + 9;",
     [(Record(b"F", b""), 13), (Record(b"b", b""), 12), (Record(b"z", b""), 9), (Record(b"@", b""), 50), (Record(b"[", b""), 50), (Record(b"\xc1", b""), 50)]),
    ("none_compared", "\tu64 n = key_length & 0;\n\tif (value_length < 4)\n\t\treturn 1;\n\treturn memcmp(value + (value[0] & 3), key, n) == 0 ? 6 : 7;", [(Record(b"ab", b"abcd"), 6), (Record(b"", b""), 1)]),
    ("sum_at_end", "\tu64 star = 0;\n\tif (value_length > 9)\n\t\treturn 1;\n\tfor (u64 i = 1; i < value_length; i++)\n\t\tif (value[i] == '*') {\n\t\t\tstar = i;\n\t\t\tbreak;\n\t\t}\n\tif (star == 0 || star + 3 != value_length)"
     "\n\t\treturn 2;\n\treturn value[star + 1] * 3 + value[star + 2];", [(Record(b"k", b"$a*bc"), 98 * 3 + 99), (Record(b"k", b"$a*b"), 2), (Record(b"k", b"*"), 2)]),
    ("escapes", "\tu64 all = 0, i = 0;\n\tif (value_length > 24)\n\t\treturn 1;\n\twhile (i < value_length) {\n\t\tif (value[i] == '%') {\n\t\t\tif (i + 2 >= value_length)\n\t\t\t\treturn 2;\n\t\t\tall += value[i + 1] * value[i + 2];\n\t\t\ti += 3;"
     "\n\t\t} else {\n\t\t\tall++;\n\t\t\ti++;\n\t\t}\n\t}\n\treturn all + 3;", [(Record(b"k", b"a%bcd"), 98 * 99 + 5), (Record(b"k", b"a%b"), 2), (Record(b"k", b"a" * 20), 23)]),
    ("smaller_end", "\tu64 start = 0;\n\tfor (u64 i = 0; i < 4 && i + 2 <= value_length; i++)\n\t\tif (value[i] == ':') {\n\t\t\tstart = i + 1;\n\t\t\tbreak;\n\t\t}\n\tif (!start)\n\t\treturn 1;\n\tu64 end = value_length < start + 6 ? value_length : start + 6;"
     "\n\tfor (u64 i = start; i < end; i++)\n\t\tif (value[i] == '/')\n\t\t\treturn i;\n\treturn 99;", [(Record(b"k", b"ab:c/"), 4), (Record(b"k", b":aaaaaaaaaaa/"), 99), (Record(b"k", b"a:"), 1)]),
    ("base58", "\tstatic const char digits[] = \"123456789ABCDEFGHJKLMNPQRSTUVWXYZabcdefghijkmnopqrstuvwxyz\";\n\tif (value_length < 4)\n\t\treturn 1;\n\tu64 all = 0;"
     "\n\tfor (u32 n = *(const u32 *)value; n; n /= 58)\n\t\tall = all * 256 + digits[n % 58];\n\treturn all;", [(Record(b"k", (58 * 57 + 9).to_bytes(4, "little")), 256 * ord("A") + ord("z")), (Record(b"k", bytes(4)), [])]),
    ("words", '\tu32 n;\n\tu64 copy[2] = {0};\n\tif (value_length < 20)\n\t\treturn 1;\n\tmemcpy(&n, value + 1, 4);\n\tmemcpy((u8 *)copy + 3, value + 2, 13);\n\tif (memcmp(value + 7, "abcdefg", 7) || memcmp(copy, value + 2, 16) > 0)\n\t\treturn 2;\n\treturn __builtin_bswap32(n) + ((u8 *)copy)[15];',
     [(Record(b"k", b"-\0\0\1\2--abcdefg......"), 258 + ord(".")), (Record(b"k", b"-\0\0\1\2--abcdefG......"), 2), (Record(b"k", b"---abcdefg---------"), 1)]),
    ("rows", '\tconst u32 *row = (const u32 *)(value + 2);\n\tu64 all = 1;\n\tif (value_length < 2)\n\t\treturn 1;\n\tu16 rows = __builtin_bswap16(*(const u16 *)value);\n\tif (rows < 1 || rows > 5 || value_length != 2 + rows * 12)\n\t\treturn 2;'
     '\n\tfor (int i = 0; i < rows; i++)\n\t\tall += row[3 * i] + row[3 * i + 2];\n\treturn all;', [(Record(b"k", b"\0\2" + bytes(8) + b"\1\0\0\0\7" + bytes(7) + b"\2\0\0\0"), 11), (Record(b"k", b"\0\2" + bytes(23)), 2), (Record(b"k", b"\0\0"), 2)]),
    ("at_least", "\tif (value_length < 1 || value[0] > 8)\n\t\treturn 1;\n\tu64 n = value[0];\n\tif (value_length < 1 + n * 12)\n\t\treturn 2;\n\treturn n ? 3 + value[12 * n] : 4;",
     [(Record(b"k", b"\2" + bytes(23) + b"\5"), 8), (Record(b"k", b"\2" + bytes(23)), 2), (Record(b"k", b"\0"), 4)]),
    ("either_length", "\tu64 all = 1;\n\tif (key_length != 32 && key_length != 36)\n\t\treturn 2;\n\tfor (u64 i = 0; i < key_length; i++)\n\t\tall += key[i];\n\treturn all + key[31];", [(Record(b"a" * 32, b""), 33 * 97 + 1), (Record(b"b" * 36, b""), 37 * 98 + 1), (Record(b"a" * 33, b""), 2)]),
    ("messages", "\tconst u8 *p = value, *end = value + value_length;\n\tu64 all = 1;\n\tfor (int n = 0; p < end; n++) {\n\t\tif (n == 4 || end - p < 2)\n\t\t\treturn 2;\n\t\tu16 length = p[0] << 8 | p[1];\n\t\tp += 2;\n\t\tif (end - p < length)\n\t\t\treturn 3;"
     "\n\t\tall += length ? p[length - 1] : 0;\n\t\tp += length;\n\t}\n\treturn all;", [(Record(b"k", b"\0\3abc\0\0\0\1d"), 200), (Record(b"k", b"\0\3ab"), 3), (Record(b"k", b"\0"), 2)]),
    ("from_the_end", "\tu64 start = key_length;\n\tif (key_length > 24)\n\t\treturn 1;\n\twhile (start > 0 && key[start - 1] != '/')\n\t\tstart--;\n\treturn start + 2;", [(Record(b"a/b/cd", b""), 6), (Record(b"abc", b""), 2), (Record(b"", b""), 2)]),
    ("shorter", "\tu64 n = key_length < value_length ? key_length : value_length, head = 0;\n\tif (value_length > 9 || key_length > 9)\n\t\treturn 99;\n\twhile (head < n && key[head] == value[head])\n\t\thead++;\n\treturn head + 1;",
     [(Record(b"abcd", b"abd"), 3), (Record(b"ab", b"abd"), 3), (Record(b"", b"abd"), 1)]),
    ("table_of_both", "\tstatic const struct { const char *text; u64 length, answer; } rows[] = {{\"order-\", 6, 1}, {\"user-\", 5, 2}, {\"log-\", 4, 3}};\n\tfor (int i = 0; i < 3; i++)\n\t\tif (key_length >= rows[i].length && !memcmp(key, rows[i].text, rows[i].length))\n\t\t\treturn rows[i].answer;\n\treturn 4;",
     [(Record(b"order-1", b""), 1), (Record(b"user-", b""), 2), (Record(b"log-", b""), 3), (Record(b"log", b""), 4)]),
    ("texts_by_index", '\tstatic const char *const names[] = {"Sunday", "Monday", "Tuesday"};\n\tconst char *name = names[value_length % 3];\n\treturn emit_value(0, name, strlen(name));', [(Record(b"k", b""), [Emission(0, b"k", b"Sunday")]), (Record(b"k", b"ab"), [Emission(0, b"k", b"Tuesday")])]),
    ("below_zero", "\tint n = 0, at = 8;\n\tu8 text[8] = {0};\n\tif (value_length > 4)\n\t\treturn 1;\n\tfor (u64 i = 0; i < value_length; i++) {\n\t\tif (value[i] < '0' || value[i] > '9')\n\t\t\treturn 2;\n\t\tn = n * 10 + value[i] - '0';\n\t}"
     "\n\tif (key_length)\n\t\tn = -n;\n\tn = n * 9 / 5 + 32;\n\tint rest = n < 0 ? -n : n;\n\tdo {\n\t\ttext[--at] = '0' + rest % 10;\n\t\trest /= 10;\n\t} while (rest);\n\tif (n < 0)\n\t\ttext[--at] = '-';\n\treturn emit_value(0, text, 8);",
     [(Record(b"", b"33"), [Emission(0, b"", bytes(6) + b"91")]), (Record(b"k", b"33"), [Emission(0, b"k", bytes(5) + b"-27")]), (Record(b"k", b"17"), [Emission(0, b"k", bytes(7) + b"2")]), (Record(b"k", b"9999"), [Emission(0, b"k", bytes(2) + b"-17966")]), (Record(b"k", b"3x"), 2)]),
    ("no_bytes", "\tu64 row[2] = {value_length, 7};\n\treturn emit_value(0, (u8 *)row + 4, 0);", [(Record(b"k", b"ab"), [Emission(0, b"k", b"")])]),
    ("no_room", "\tu8 to[4] = {0};\n\treturn 5 + load_value(to, 3, value_length & 0);", [(Record(b"k", b"ab"), 6), (Record(b"k", b"abc"), 5)]),
]


def functions(cases):
    return HEAD + "".join(ENTRY % (name, body) for name, body, *_ in cases)


class Lowering(unittest.TestCase):
    @classmethod
    def setUpClass(cls):
        cls.folder = tempfile.TemporaryDirectory(prefix="klogc-")
        cls.compiler = Compiler()

    @classmethod
    def tearDownClass(cls):
        cls.folder.cleanup()

    def compiled(self, text, name="it.c"):
        path = os.path.join(self.folder.name, name)
        with open(path, "w", encoding="utf-8") as it:
            it.write(text)
        return self.compiler.object_of(path)

    def test_refused(self):
        text = functions(REFUSED)
        data, marked = self.compiled(text), [k for k, line in enumerate(text.split("\n"), 1) if "/*!*/" in line]
        for (name, _, said), line in zip(REFUSED, marked, strict=True):
            with self.subTest(name), self.assertRaises(Refused) as raised:
                lower(Program(data, name))
            with self.subTest(name):
                self.assertEqual(raised.exception.place, f"it.c:{line}")
                self.assertIn(said, raised.exception.text)

    def test_accepted(self):
        data = self.compiled(functions(ACCEPTED))
        for name, _, cases in ACCEPTED:
            with self.subTest(name):
                program = Program(data, name)
                image = lower(program)
                code = second_machine.decode(image.data)
                self.assertIsNone(second_machine.verify(code, image.table))
                self.assertEqual(image.codes, {})
                for record, wanted in cases:
                    self.assertEqual(Run(program, record, 4).outcome(), wanted)
                    got = second_machine.run(code, Spelled(0, *record[:3]), 4, (0, 0, 0))
                    self.assertEqual(got if isinstance(got, int) else [Emission(*e[:3], tuple(e[3])) for e in got], wanted)

    def test_few_loads(self):
        """Bytes at a known place are compared and copied by words, and those at another place by one call of a helper."""
        data = self.compiled(HEAD + ENTRY % ("known", '\treturn value_length < 13 ? 1 : memcmp(value, "Hello, World!", 13) ? 2 : 3;')
                             + ENTRY % ("part", '\tu64 at = key_length & 7;\n\treturn value_length < at + 13 ? 1 : memcmp(value + at, "Hello, World!", 13) ? 2 : 3;')
                             + ENTRY % ("copy", '\tu8 copy[15], other[12];\n\tif (value_length < (key_length & 7) + 18)\n\t\treturn 1;\n\tmemcpy(copy, value + 3, 15);\n\tmemcpy(other, value + (key_length & 7), 12);\n\treturn emit(0, copy, 15, other, 12);'))
        codes = {name: second_machine.decode(lower(Program(data, name)).data) for name in ("known", "part", "copy")}
        self.assertEqual([i[1] for i in codes["known"] if i[0] == "load"], [8, 4, 1])
        self.assertEqual([i[1] for i in codes["part"] if i[0] == "call"], [16])
        self.assertEqual([i[1] for i in codes["copy"] if i[0] in ("load", "call")], [8, 4, 2, 1, 1, 5])

    def test_own_functions(self):
        """A source may have a memcmp of its own, which is not taken for that of C's library."""
        own = ("int memcmp(const void *a, const void *b, unsigned long n)\n{\n\tconst u8 *x = a, *y = b;\n\tfor (unsigned long i = 0; i < n; i++)\n\t\tif (x[i] != y[i])"
               "\n\t\t\treturn 5;\n\treturn 0;\n}\n")
        data = self.compiled(HEAD + own + ENTRY % ("it", '\tu8 copy[16];\n\tif (value_length > 16)\n\t\treturn 1;\n\tmemcpy(copy, value, value_length);\n\tif (value_length < 3 || memcmp(copy, "abc", 3) == 5)\n\t\treturn 2;\n\treturn emit_value(0, copy, value_length);'))
        program = Program(data, "it")
        self.assertEqual([Run(program, Record(b"k", value), 4).outcome() for value in (b"abd", b"abcd")], [2, [Emission(0, b"k", b"abcd")]])
        self.assertEqual(lower(program).codes, {})

    def test_codes(self):
        data = self.compiled(HEAD + ENTRY % ("it", "\treturn value[2]; /* line 5 */") + ENTRY % ("part", '\treturn value_length < 1 ? 1 : memcmp(value + value[0], "abc", 3) ? 2 : 3; /* line 9 */')
                             + ENTRY % ("endless", "\tu64 n = value_length, steps = 1;\n\tfor (; n != 1; steps++)\n\t\tn = n & 1 ? 3 * n + 1 : n / 2;\n\treturn steps;"))
        image = lower(Program(data, "it"), strict=False)
        self.assertEqual(image.codes, {252: ["it.c:5"]})
        run = lambda image, record: second_machine.run(second_machine.decode(image.data), Spelled(0, *record[:3]), 4, (0, 0, 0))
        self.assertEqual([run(image, Record(b"k", value)) for value in (b"", b"ab", b"abc")], [252, 252, 99])
        image = lower(Program(data, "part"), strict=False)
        self.assertEqual(image.codes, {252: ["it.c:9"]})
        self.assertEqual([run(image, Record(b"k", value)) for value in (b"\1abc", b"\1abd", b"\1ab", b"\xffabc", b"\4abc")], [3, 2, 252, 252, 252])
        image = lower(Program(data, "endless"), rounds=20, slots=500)
        self.assertEqual(list(image.codes), [251])
        self.assertEqual([proved for _, proved in image.loops.values()], [False])
        # From 6 it is 8 steps to 1, from 27 they are 111.
        self.assertEqual([run(image, Record(b"k", bytes(n))) for n in (1, 6, 27)], [1, 9, 251])


    def test_bytes_of_addresses(self):
        """Bytes at an unknown place of the stack are read where they are no address's; the others end the program."""
        held = "\tstruct { u8 bytes[8]; const u8 *volatile from; u8 more[8]; } it = {{1, 2, 3}, value, {4, 5, 6}};\n"
        use = "\treturn %s; /*!*/"
        cases = [("byte", "it.bytes[value_length % 24]", lambda n: (1, 2, 3)[n] if n < 3 else 252 if 8 <= n < 16 else [], range(16)),
                 ("pair", "*(u16 *)(it.bytes + value_length % 23) ? 3 : 4", lambda n: 3 if n < 3 or 16 <= n < 19 else 252 if 7 <= n < 16 else 4, range(23)),
                 ("first", "emit_value(0, it.bytes, value_length & 15)", lambda n: 252 if n > 8 else [Emission(0, b"k", b"\1\2\3\0\0\0\0\0"[:n])], range(16)),
                 ("four", "emit_value(0, it.bytes + value_length % 20, 4)", lambda n: 252 if 4 < n < 16 else [Emission(0, b"k", (b"\1\2\3" + bytes(13) + b"\4\5\6\0\0\0\0\0")[n:n + 4])], range(20)),
                 ("part", "emit_value(0, it.bytes + value_length / 8, value_length & 7)", lambda n: 252 if n // 8 + n % 8 > 8 else [Emission(0, b"k", (b"\1\2\3" + bytes(8))[n // 8:n // 8 + n % 8])], range(64))]
        data = self.compiled(HEAD + "".join(ENTRY % (name, ("\tif (value_length > 63)\n\t\treturn 9;\n" if name == "part" else "") + held + use % text) for name, text, _, _ in cases))
        for name, _, wanted, lengths in cases:
            program = Program(data, name)
            image = lower(program)
            self.assertEqual(list(image.codes), [252])
            code = second_machine.decode(image.data)
            self.assertIsNone(second_machine.verify(code, image.table))
            for n in lengths:
                with self.subTest(name, length=n):
                    record, want = Record(b"k", bytes(n)), wanted(n)
                    got = second_machine.run(code, Spelled(0, *record[:3]), 4, (0, 0, 0))
                    self.assertEqual(got if isinstance(got, int) else [Emission(*e[:3]) for e in got], want)
                    if want == 252:
                        self.assertRaisesRegex(Trap, "a part of an address", Run(program, record, 4).outcome)
                    else:
                        self.assertEqual(Run(program, record, 4).outcome(), want)


class Words(unittest.TestCase):
    """The program's own words, and LLVM's text."""

    def call(self, *words, given=""):
        return subprocess.run([sys.executable, KLOGC, *words], input=given, capture_output=True, text=True, check=False)

    def test_same_each_time(self):
        """An image doesn't depend on the order in which Python has the elements of a set."""
        source, images = os.path.join(TOP, "examples", "c", "natural", "geohash.c"), set()
        with tempfile.TemporaryDirectory() as folder:
            target = os.path.join(folder, "it.bin")
            for seed in ("1", "2", "3"):
                subprocess.run([sys.executable, KLOGC, "build", source, "--image", "-o", target], env={**os.environ, "PYTHONHASHSEED": seed}, capture_output=True, check=True)
                with open(target, "rb") as it:
                    images.add(it.read())
        self.assertEqual(len(images), 1)

    def test_no_traceback(self):
        with tempfile.TemporaryDirectory() as folder:
            path = os.path.join(folder, "it.c")
            for text, said in (("u64 x", r"it\.c:1: "), ('#include "klog.h"\nint other(void) { return 1; }\n', r"it\.c: there is no function `transform`; the source has `other`"),
                               ('#include "none.h"\n', r"it\.c:1: 'none\.h' file not found"), ("\0\1", "it.c")):
                with open(path, "w", encoding="utf-8") as it:
                    it.write(text)
                done = self.call("build", path)
                with self.subTest(text):
                    self.assertEqual(done.returncode, 1)
                    self.assertRegex(done.stderr, said)
                    self.assertEqual(done.stderr.count("\n"), 1, done.stderr)
            for body, said in (("u8 big[600];\n\tload_value(big, 0, 512);\n\treturn emit_value(0, big, 512);", r"it\.c: the variables of `transform` take more than the stack's 512 bytes: "),
                               ("double x = value_length * 1.5;\n\treturn x > 3;", r"it\.c:4: floating point is used, "), ("return (__int128)value_length * key_length >> 64;", r"it\.c:4: numbers of 128 bits are "),
                               ("u8 b[value_length];\n\tload_value(b, 0, value_length);\n\treturn emit_value(0, b, value_length);", r"it\.c(:4)?: an array has a length that is not known: ")):
                with open(path, "w", encoding="utf-8") as it:
                    it.write(HEAD.replace("#include <string.h>\n", "") + ENTRY % ("transform", "\t" + body))
                done = self.call("build", path)
                with self.subTest(body):
                    self.assertEqual(done.returncode, 1)
                    self.assertRegex(done.stderr, f"^{said}")
                    self.assertEqual(done.stderr.count("\n"), 1, done.stderr)
        done = self.call("build", "/nowhere/it.c")
        self.assertEqual((done.returncode, done.stderr), (1, "/nowhere/it.c: No such file or directory\n"))

    def test_llvm_text(self):
        text = ("  %q = sdiv exact i32 %a, 4, !dbg !7\n  %r = srem i16 %a, %b\n"
                "  call void @llvm.memcpy.p0.p0.i64(ptr nonnull align 1 %to, ptr align 1 getelementptr inbounds ([5 x i8], ptr @t, i64 0, i64 1), i64 %n, i1 false), !dbg !8\n"
                "  tail call void @llvm.memset.p0i8.i64(i8* noundef nonnull align 8 dereferenceable(16) %to, i8 %b, i64 %n, i1 false)\n"
                "  call void @llvm.memcpy.p0i8.p0i8.i64(i8* %a, i8* align 8 %b, i64 8, i1 false)\n")
        changed = Text(text).changed()
        self.assertIn("  %q = call i32 @__klog_sdiv32(i32 %a, i32 4), !dbg !7\n", changed)
        self.assertIn("  %r = trunc i32 %klog2c to i16\n", changed)
        self.assertIn("= call ptr @klog_memcpy(ptr %to, ptr getelementptr inbounds ([5 x i8], ptr @t, i64 0, i64 1), i64 %n), !dbg !8\n", changed)
        self.assertIn("= call i8* @klog_memset(i8* %to, i8 %b, i64 %n)\n", changed)
        self.assertIn("  call void @llvm.memcpy.p0i8.p0i8.i64(i8* %a, i8* align 8 %b, i64 8, i1 false)\n", changed)
        self.assertIsNone(Text("  %q = udiv i32 %a, 4\n").changed())
        self.assertEqual(arguments_from("(a, f(b, c)) rest", 1), (["a", "f(b, c)"], 12))
        self.assertEqual(operand_of("i8* noundef align 1 %x"), "%x")


if __name__ == "__main__":
    unittest.main()
