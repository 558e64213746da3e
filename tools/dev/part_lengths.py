#!/usr/bin/env python3
"""Runs programs over parts of long values by the C library, beside the same as plain Python.

Not part of the build. It needs clang, and the library that tools/build_library.sh made:

    tools/dev/part_lengths.py FOLDER/libklog.so

Programs of examples/c/parts are compiled by klogc and loaded as they are written. Each runs on values of all lengths up to 300,
of those about each power of two and each limit, and of 1,048,576 bytes, with different bytes at the places that the programs look
at, and with up to sixteen headers. It prints the first difference and ends with status 1, else how many runs were compared.
"""
import os
import random
import re
import sys

TOP = os.path.dirname(os.path.dirname(os.path.dirname(os.path.abspath(__file__))))
sys.dont_write_bytecode = True
sys.path[:0] = [os.path.join(TOP, "tools"), os.path.join(TOP, "examples", "library")]

from klog_engine import Engine, Program
from klogc.compiler import Compiler
from klogc.lower import lower
from klogc.program import Program as Object

MOST = 1048576
NAME, CARD = b'"card":"', b"4111111111111234"


def forwarded(key, value, headers):
    return 0, [(0, key, value, headers)]


def strip_header(key, value, headers):
    return forwarded(key, value[5:], headers) if value and value[0] == 0 and len(value) >= 5 else (10, [])


def cut_long(key, value, headers):
    return forwarded(key, value and value[:100], headers)


def trim_line(key, value, headers):
    return forwarded(key, value and re.sub(rb"\r?\n\Z", b"", value), headers)


def mask_card(key, value, headers):
    at = (value or b"").find(NAME, 0, 4095 + len(NAME)) + len(NAME)
    if at >= len(NAME) and re.match(rb"[0-9]{16}", value[at:at + 16]):
        value = value[:at] + b"*" * 12 + value[at + 12:]
    return forwarded(key, value, headers)


def add_source(key, value, headers):
    return forwarded(key, value, headers + [(b"source", b"klog")] * (len(headers) < 16))


READINGS = (strip_header, cut_long, trim_line, mask_card, add_source)


def lengths():
    """All small lengths, and those about each power of two and about the places that the programs and their helpers look at."""
    about = {at + more for at in (1 << k for k in range(8, 21)) for more in range(-2, 3)}
    about |= {4095 + len(NAME) + len(CARD) + more for more in range(-2, 3)}
    return sorted({*range(301), *(at for at in about if at <= MOST)})


def with_bytes(value, at, those):
    """Bytes in which others stand at a place, so far as they reach."""
    return value[:at] + those[:max(len(value) - at, 0)] + value[at + len(those):] if 0 <= at <= len(value) else value


def values(rng, length):
    """Values of a length: any bytes, and those with a schema's zero, the ends of lines and a card's number at the places that matter."""
    some = rng.randbytes(length)
    yield some
    yield with_bytes(some, 0, b"\0")
    for end in (b"\n", b"\r\n", b"\n\n", b"\r"):
        yield with_bytes(some, length - len(end), end)
    card = NAME + CARD
    for at in {0, 1, length // 2, length - len(card), length - len(card) + 1, 4095, 4096}:
        yield with_bytes(some, at, card)
    yield with_bytes(some, length // 2, NAME + CARD[:15] + b"x")


def records(rng):
    for key in (None, b"", b"key"):
        yield key, None, []
    for length in lengths():
        for value in values(rng, length):
            yield rng.choice([None, b"", b"key"]), value, [(b"h", rng.choice([None, b"x"]))] * rng.choice([0, 0, 1, 15, 16])


def main():
    if len(sys.argv) != 2:
        sys.exit(__doc__)
    rng, compiler, engine, runs = random.Random(1), Compiler(), Engine(sys.argv[1]), 0
    programs = []
    for reading in READINGS:
        source = os.path.join(TOP, "examples", "c", "parts", f"{reading.__name__}.c")
        programs.append((reading, Program(engine, lower(Object(compiler.object_of(source))).file())))
    for key, value, headers in records(rng):
        for reading, program in programs:
            found, wanted = program.run(key, value, 0, 0, 0, 1, headers), reading(key, value, headers)
            runs += 1
            if found != wanted:
                shown = None if value is None else (len(value), value[:40], value[-40:])
                print(f"{reading.__name__}: key {key}, value {shown}, {len(headers)} headers: it differs")
                return 1
    print(f"{runs} runs of {len(programs)} programs on values of {len(lengths())} lengths up to {MOST} bytes: none different")
    return 0


if __name__ == "__main__":
    sys.exit(main())
