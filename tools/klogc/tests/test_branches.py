"""Programs that are followed only by what is known on one of two ways that met, by what a helper's answer tells, or by a sum of two
numbers: each is accepted strictly, and does on records what its C does."""
import os
import tempfile
import unittest

from klogc.compiler import Compiler
from klogc.lower import lower
from klogc.program import Program
from klogc.tests.compare import compared

RECORDS = 60
PARAMETERS = "(const u8 *value, u64 value_length, const u8 *key, u64 key_length, u64 nulls)"
HEAD = """#include "klog_parts.h"
static int hex_digit(u8 c)
{
	if (c >= '0' && c <= '9')
		return c - '0';
	if (c >= 'a' && c <= 'f')
		return c - 'a' + 10;
	if (c >= 'A' && c <= 'F')
		return c - 'A' + 10;
	return -1;
}
"""
BODIES = {
    "flag": """
	int is_long = value_length > 5;
	u64 more = record_partition() + emit_null(1);

	return is_long ? value[5] + more : 300;""",
    "place_or_none": """
	int at = -1;

	for (u64 i = 0; i < value_length && i < 40; i++)
		if (value[i] == ',') {
			at = i;
			break;
		}
	emit_null(1);
	return at < 0 ? 300 : value[at] + at;""",
    "set_on_one_way": """
	u64 first;
	int is_there = key_length > 2;

	if (is_there)
		first = key[2];
	emit_null(1);
	return is_there ? first : 300;""",
    "digits": """
	int digit = value_length ? hex_digit(value[0]) : -1;

	return digit < 0 ? 300 : "fedcba9876543210"[digit];""",
    "found": """
	u64 comma = find(VALUE, 0, ",", 1);

	return comma ? value[comma - 1] + comma : 300;""",
    "between": """
	u64 comma = find(VALUE, 0, ",", 1), next, sum = 0;

	if (!comma)
		return 300;
	next = find(VALUE, comma, ",", 1);
	next = next ? next - 1 : value_length;
	if (next - comma > 9)
		return 301;
	for (u64 i = comma; i < next; i++)
		sum += value[i];
	return sum;""",
    "length": """
	u64 length = part_length(VALUE);

	return length < 4 ? 300 : value[1] + value[length - 3];""",
    "same": """
	u64 place = key_length & 7;

	return equals(VALUE, place, "a,b", 3) ? value[place + 2] : 300;""",
    "number": """
	u64 place = key_length & 7;

	return decimal(VALUE, place, 2) ? value[place + 1] : 300;""",
    "copied": """
	u8 room[4];
	u64 place = key_length & 7;

	return load_part(room, place, 4, VALUE) ? 300 : value[place + 3] + room[0];""",
    "joined_fields": """
	char line[200];
	u64 length = 0;

	for (int i = 0; i < 3; i++) {
		struct span f = field(VALUE, ',', i);

		if (length + f.length + 1 > sizeof line)
			return 300;
		if (i > 0)
			line[length++] = ';';
		load_part(line + length, f.at, f.length, VALUE);
		length += f.length;
	}
	return emit_value(0, line, length);""",
    "wide_room": """
	u8 room[300];
	u64 place = value_length * 7, count = key_length * 3;

	for (int i = 0; i < 300; i++)
		room[i] = i;
	if (place > 300 || count > 300 - place)
		return 300;
	return emit_value(0, room + place, count);""",
}


class Branches(unittest.TestCase):
    @classmethod
    def setUpClass(cls):
        with tempfile.TemporaryDirectory(prefix="klogc-") as folder:
            path = os.path.join(folder, "branches.c")
            with open(path, "w", encoding="utf-8") as it:
                it.write(HEAD + "".join(f"u64 {name}{PARAMETERS}\n{{{body}\n}}\n" for name, body in BODIES.items()))
            cls.first = Program(Compiler().object_of(path), next(iter(BODIES)))

    def test_accepted(self):
        for name in BODIES:
            with self.subTest(name):
                image = lower(self.first.beside(name))
                self.assertEqual(image.codes, {})

    def test_meaning(self):
        for name in BODIES:
            with self.subTest(name):
                counts, wrong = compared(self.first.beside(name), name, RECORDS)
                self.assertIsNone(wrong)
                self.assertEqual(counts["same"], RECORDS)


if __name__ == "__main__":
    unittest.main()
