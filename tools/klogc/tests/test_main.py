"""The calls of klogc that need klog: skipped where there is none."""
import os
import subprocess
import sys
import tempfile
import unittest

import program_files

from klogc.klog import found_klog

KLOGC = os.path.join(os.path.dirname(os.path.dirname(os.path.abspath(__file__))), "klogc")
SOURCE = """/* Keeps the values that begin with a.
 *
 * k | abc -> 0 k | abc
 * k | b -> nothing
 * k | -> reject 1
 * k | a -> %s */
#include "klog.h"

u64 transform(const u8 *value, u64 value_length, const u8 *key, u64 key_length, u64 nulls)
{
	if (value_length < 1)
		return 1;
	if (value[0] == 'a')
		emit_record(0);
	return 0;
}
"""


@unittest.skipUnless(found_klog(), "there is no klog")
class Calls(unittest.TestCase):
    def setUp(self):
        self.folder = tempfile.TemporaryDirectory(prefix="klogc-")
        self.addCleanup(self.folder.cleanup)

    def path(self, name="keep.c"):
        return os.path.join(self.folder.name, name)

    def write(self, wanted="0 k | a"):
        with open(self.path(), "w", encoding="utf-8") as it:
            it.write(SOURCE % wanted)

    def call(self, *words, given=""):
        done = subprocess.run([sys.executable, KLOGC, *words], input=given, capture_output=True, text=True, check=False)
        return done.returncode, done.stdout, done.stderr

    def test_good(self):
        self.write()
        status, out, err = self.call("test", self.path())
        self.assertEqual((status, err), (0, ""))
        self.assertRegex(out, r"^keep\.c: 4 examples, all as they say; \d+ instructions, helper table 1\n$")
        status, out, err = self.call("build", self.path())
        self.assertEqual((status, err), (0, ""))
        self.assertRegex(out, r"^.*/keep\.bin: \d+ instructions, helper table 1\n$")
        with open(self.path("keep.bin"), "rb") as it:
            table, image, places = program_files.read(it.read())
        self.assertEqual(table, 1)
        self.assertIn("keep.c:13", dict(places).values())
        self.assertEqual(self.call("run", self.path("keep.bin"), given="k | ax\nk | bx\nnull | \n"), (0, "0 k | ax\nnothing\nreject 1\n", ""))
        self.assertEqual(self.call("build", self.path(), "--image", "-o", self.path("image"))[0], 0)
        with open(self.path("image"), "rb") as it:
            self.assertEqual(it.read(), image)
        self.assertEqual(self.call("run", self.path("image"), given="k | ax\n"), (0, "0 k | ax\n", ""))
        self.assertEqual(self.call("run", self.path("keep.bin"), given="k\n"), (1, "", "line 1: no record: `k` has no `|` between the key and the value; a record is KEY | VALUE\n"))

    def test_wrong(self):
        self.write("1 k | a")
        status, out, err = self.call("test", self.path())
        self.assertEqual((status, err), (1, ""))
        self.assertIn("keep.c:6: example 4: 1 k | a is wanted, and 0 k | a comes of the C code\n", out)
        status, out, err = self.call("test", self.path(), "--trace", "4")
        self.assertEqual((status, err), (0, ""))
        self.assertIn("keep.c:13: if (value[0] == 'a')\n", out)
        self.assertTrue(out.endswith("-> 0 k | a\n"), out)
        self.assertEqual(self.call("test", self.path(), "--trace", "5"), (1, "", "keep.c: there is no example 5: there are 1 to 4\n"))


if __name__ == "__main__":
    unittest.main()
