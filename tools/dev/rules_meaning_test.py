#!/usr/bin/env python3
"""Tests rules_meaning.py and rules_text.py. Not part of the build.

    tools/dev/rules_meaning_test.py

The rows are those of crates/program_tests/src/rule_texts.rt and of crates/rules/proofs/WorkedOutcomes.antt, and a few
with values that are too long for a proof by computing.
"""
import re
import sys
from pathlib import Path

from rules_meaning import MAX_VALUE, Emission, Header, Place, Record, chosen, outcome
from rules_text import Fault, parse

REGION: Header = (b"region", b"eu")


def kept(out: int, key: bytes | None, value: bytes | None) -> list[Emission]:
    return [(out, key, value, [REGION])]


# A text of rules, a key, a value and headers, and what becomes of the record where there are two output partitions: the
# rows of WorkedOutcomes.antt, in its order.
OUTCOMES: list[tuple[str, bytes | None, bytes | None, list[Header], int | list[Emission]]] = [
    ('# nothing', b"k", b"v", [REGION], []),
    ('drop', b"k", b"v", [REGION], 10),
    ('drop 1\ndrop 2', b"k", b"v", [REGION], 1),
    ('drop 1 when offset = 6\ndrop 2 when offset = 5', b"k", b"v", [REGION], 2),
    ('drop 7 when key is null', None, b"v", [REGION], 7),
    ('drop 7 when key is null', b"k", b"v", [REGION], []),
    ('output 1', b"k", b"v", [REGION], kept(1, b"k", b"v")),
    ('output 1', None, None, [REGION], kept(1, None, None)),
    ('output 2', b"k", b"v", [REGION], 1),
    ('tombstone 0', b"k", b"v", [REGION], [(0, b"k", None, [])]),
    ('tombstone 63', b"k", b"v", [REGION], 1),
    ('output hash(key) % 2', b"abc", b"v", [REGION], kept(1, b"abc", b"v")),
    ('output hash(value) % 64', b"k", b"21", [REGION], 1),
    ('output hash(value) % 5', b"k", b"21", [REGION], kept(0, b"k", b"21")),
    ('output hash(key) % 64', None, b"v", [REGION], kept(0, None, b"v")),
    ('output 0 value[1..3]', b"k", b"abcd", [REGION], kept(0, b"k", b"bc")),
    ('output 0 value[1..]', b"k", b"abcd", [REGION], kept(0, b"k", b"bcd")),
    ('output 0 value[4..]', b"k", b"abcd", [REGION], kept(0, b"k", b"")),
    ('output 0 value[5..]', b"k", b"abcd", [REGION], 4),
    ('output 0 value[1..5]', b"k", b"abcd", [REGION], 4),
    ('output 2 value[1..5]', b"k", b"abcd", [REGION], 1),
    ('output 0 key[0..]', None, b"abcd", [REGION], kept(0, None, b"")),
    ('output 0 header "region"[0..1]', b"k", None, [REGION], kept(0, b"k", b"e")),
    ('output 0 with value[1..3] = "x"', b"k", b"abcd", [REGION], kept(0, b"k", b"axd")),
    ('output 0 with value[4..4] = "!"', b"k", b"abcd", [REGION], kept(0, b"k", b"abcd!")),
    ('output 0 with value[1..5] = "x"', b"k", b"abcd", [REGION], 4),
    ('output 0 with value[0..0] = "new"', b"k", None, [REGION], kept(0, b"k", b"new")),
    ('output 0 and header "by" = ""', b"k", b"v", [REGION], [(0, b"k", b"v", [REGION, (b"by", b"")])]),
    ('output 0 value[9..] and header "by" = ""', b"k", b"v", [REGION], 4),
    ('output 2 and header "\\xff" = ""', b"k", b"v", [REGION], 2),
    ('output 2 and header "by" = ""', b"k", b"v", [REGION] * 16, 1),
]
# the same with longer values
LONG: list[tuple[str, bytes | None, bytes | None, list[Header], int | list[Emission]]] = [
    ('output 0 with value[0..0] = "xy"', None, b"a" * (MAX_VALUE - 2), [], [(0, None, b"xy" + b"a" * (MAX_VALUE - 2), [])]),
    ('output 0 with value[0..0] = "xyz"', None, b"a" * (MAX_VALUE - 2), [], 5),
    ('output hash(value) % 64', None, b"a-little-bit-long-string", [], 1),
    ('output hash(value) % 2', None, b"a-little-bit-long-string", [], [(0, None, b"a-little-bit-long-string", [])]),
]
CRATES = Path(__file__).resolve().parents[2] / "crates"
ROW_TEXT = re.compile(r'^ {4}(?:∷ )?\(codes "((?:[^"\\]|\\.)*)"', re.MULTILINE)


def rust_rows(name: str) -> list[str]:
    """The rows of a table of program_tests, without its comments."""
    source = (CRATES / "program_tests/src/rule_texts.rt").read_text()
    body = source.split(f'static {name}: &str = "\\\n')[1].split('\n";')[0]
    rows = re.sub(r"\\(.)", lambda it: {"n": "\n", "t": "\t"}.get(it[1], it[1]), body).split("\n")
    return [it for it in rows if not it.startswith("# ") or "|" in it]


def lines_of(row: str) -> bytes:
    return row.replace(";", "\n").encode()


def fault_of(text: bytes) -> str:
    try:
        parse(text)
    except Fault as fault:
        return str(fault)
    return ""


def is_printed(row: str) -> bool:
    """Whether the text of a row has the rules of the text that is printed of them."""
    text, want = row.split(" |", 1)
    return parse(lines_of(text)) == parse(lines_of(want))


def is_refused(row: str) -> bool:
    text, want = row.split(" | ")
    return fault_of(lines_of(text)) == want


def is_limited(row: str) -> bool:
    text, want = row.split(" |")
    first, piece, count, last = text.split("/")
    return fault_of(lines_of(first + piece * int(count) + last)) == want.strip()


def given(words: str) -> Record:
    key, value = (None if it == "-" else bytes.fromhex(it.replace(".", "")) for it in words.split(" "))
    return Record(key, value, [REGION, (b"none", None), (b"region", b"us")])


def is_true(row: str) -> bool:
    words, condition, want = row.split(" | ")
    rules = parse(f"drop when {condition}".encode())
    return (chosen(rules, given(words), Place(5, 7, 3, 64)) is not None) == (want == "yes")


def is_chosen(row: str) -> bool:
    words, rest = row.split(" | ", 1)
    text, want = rest.split("|")
    rule = chosen(parse(lines_of(text)), given(words), Place(5, 7, 3, 64))
    return ([rule] if rule else []) == parse(lines_of(want))


def is_outcome(row: tuple) -> bool:
    text, key, value, headers, want = row
    return outcome(parse(text.encode()), Record(key, value, headers), Place(5, 7, 3, 2)) == want


def worked_texts() -> list[str]:
    """The texts of rules that are worked out beside the definitions."""
    source = (CRATES / "rules/proofs/WorkedOutcomes.antt").read_text()
    return [re.sub(r"\\(.)", lambda it: {"n": "\n"}.get(it[1], it[1]), it) for it in ROW_TEXT.findall(source)]


def main() -> int:
    tables = {"PRINTED": is_printed, "REFUSED": is_refused, "LIMITS": is_limited, "CONDITIONS": is_true,
              "CHOSEN": is_chosen}
    tests = [(test, row) for name, test in tables.items() for row in rust_rows(name)]
    tests += [(is_outcome, row) for row in OUTCOMES + LONG]
    wrong = [row for test, row in tests if not test(row)]
    for row in wrong:
        print(f"wrong: {str(row)[:300]}")
    if worked_texts() != [row[0] for row in OUTCOMES]:
        print("wrong: WorkedOutcomes.antt has other rows")
        wrong.append("")
    print(f"{len(tests)} rows, {len(wrong)} wrong")
    return 1 if wrong else 0


if __name__ == "__main__":
    sys.exit(main())
