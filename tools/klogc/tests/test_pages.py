"""What the pages say of refusals and of images is so."""
import os
import re
import tempfile
import unittest

import second_machine

from klogc.compiler import Compiler
from klogc.lower import lower
from klogc.program import Program, Refused

TOP = os.path.dirname(os.path.dirname(os.path.dirname(os.path.dirname(os.path.abspath(__file__)))))
HEAD = '#include "klog.h"\n#include <string.h>\n'
ENTRY = "%su64 transform(const u8 *value, u64 value_length, const u8 *key, u64 key_length, u64 nulls)\n{\n\t%s\n}\n"
SOME = "if (value_length < 1) return 1; "

# Of each row of the page's table: its C; what stands before the function, where something does; a function with it, and the mended one.
ROWS = [
    ("`value[3]`", "", "if (value_length < 3) return 1; return value[3];", "if (value_length < 4) return 1; return value[3];"),
    ("`value[value[0]]`", "", SOME + "return value[value[0]];", SOME + "u64 at = value[0]; if (at >= value_length) return 1; return value[at];"),
    ("`emit_value(0, value, value[0])`", "", SOME + "return emit_value(0, value, value[0]);", SOME + "u64 n = value[0]; if (n > value_length) return 1; return emit_value(0, value, n);"),
    ("`value[-1]`", "", "return value[-1];", SOME + "return value[value_length - 1];"),
    ("`w[value_length] = 7`, of `u64 w[4]`", "", "u64 w[4] = {0}; w[value_length] = 7; return emit_value(0, w, sizeof w);", "u64 w[4] = {0}; w[value_length & 3] = 7; return emit_value(0, w, sizeof w);"),
    ("`emit_value(0, text, value_length)`, of `u8 text[8]`", "", "u8 text[8] = {0}; return emit_value(0, text, value_length);",
     "u8 text[8] = {0}; if (value_length > sizeof text) return 1; return emit_value(0, text, value_length);"),
    ("`((u8 *)value)[0] = 1`", "", "((u8 *)value)[0] = 1; return 0;", "u8 copy[16]; load_value(copy, 0, sizeof copy); copy[0] = 1; return emit_value(0, copy, sizeof copy);"),
    ("`static u64 count; count++`", "static u64 count;\n", "count++; return count > value_length;", "u64 count = 0; count++; return count > value_length;"),
    ("`lookup(value_length)`, of another file", "u64 lookup(u64 n);\n", "return lookup(value_length);", "return lookup(value_length);"),
    ("`(u64)value >> 3`", "", "return (u64)value >> 3;", "u64 at = value_length; return at >> 3;"),
]
MENDED_HEADS = {"u64 lookup(u64 n);\n": "static u64 lookup(u64 n)\n{\n\treturn n * 3;\n}\n", "static u64 count;\n": ""}


def page(name):
    with open(os.path.join(TOP, "docs", *name.split("/")), encoding="utf-8") as it:
        return it.read()


class Pages(unittest.TestCase):
    def setUp(self):
        self.folder = tempfile.TemporaryDirectory(prefix="klogc-")
        self.compiler = Compiler()

    def tearDown(self):
        self.folder.cleanup()

    def lowered(self, head, body):
        path = os.path.join(self.folder.name, "route.c")
        with open(path, "w", encoding="utf-8") as it:
            it.write(HEAD + ENTRY % (head, body))
        return lower(Program(self.compiler.object_of(path)))

    def test_refusals(self):
        """Each row's C is refused at its line with what the row says, and accepted as it is mended."""
        rows = re.findall(r"^\| (`.*?) \| (.*?) \| .*? \|$", page("guide/klogc.md").split("| C | said at its line | mended |")[1].split("\n\n")[0], re.M)
        self.assertEqual([row[0] for row in ROWS], [c for c, _ in rows])
        for (_, said), (c, head, refused, mended) in zip(rows, ROWS):
            with self.subTest(c):
                with self.assertRaises(Refused) as raised:
                    self.lowered(head, refused)
                self.assertEqual(str(raised.exception), f"route.c:{(HEAD + head).count(chr(10)) + 3}: {said}")
                image = self.lowered(MENDED_HEADS.get(head, head), mended)
                self.assertIsNone(second_machine.verify(second_machine.decode(image.data), image.table))

    def test_counts(self):
        """An image of examples/c has as many instructions as the page of benchmarks says."""
        counts = re.findall(r"^\| `(\w+)`, (\d+)", page("inside/benchmarks.md"), re.M)
        images = [(name, int(n)) for name, n in counts if os.path.exists(self.image(name))]
        self.assertTrue(images)
        for name, n in images:
            with open(self.image(name), "rb") as it:
                self.assertEqual((name, len(second_machine.decode(it.read()))), (name, n))

    @staticmethod
    def image(name):
        return os.path.join(TOP, "examples", "c", f"{name}.bin")


if __name__ == "__main__":
    unittest.main()
