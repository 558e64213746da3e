#!/usr/bin/env python3
"""Times the dearest call of each helper, and the dearest records: the rows of docs/inside/hostile.md.

    tools/dev/helper_cost.py LIBRARY         the libklog.so of tools/build_library.sh

A program of one call again and again runs on a record of the greatest size with sixteen headers of the greatest size. What
its other instructions take is measured by the same program without the calls. Each figure is the least of a hundred runs,
by the processor's clock.
"""
import os
import struct
import sys
import time

sys.path.insert(0, os.path.join(os.path.dirname(os.path.abspath(__file__)), "..", "..", "examples", "library"))

from klog_engine import Engine, Program

SLOTS, RUNS = 16384, 100
KEY, VALUE, HEADERS = b"k" * 4096, b"v" * 1048576, [(b"h" * 255, b"w" * 4096)] * 16


def slot(opcode, dst=0, src=0, imm=0, offset=0):
    return struct.pack("<BBhi", opcode, dst | src << 4, offset, imm)


def call(helper):
    return slot(0x85, imm=helper)


def stack_at(register):
    return slot(0xBF, register, 10) + slot(0x07, register, imm=-512)


ROOM = stack_at(1) + slot(0xB7, 2) + slot(0xB7, 3, imm=512)
SET_STACK = b"".join(slot(0x7A, 10, offset=-8 * k) for k in range(1, 65))
KEEP = b"".join(slot(0xBF, 5 + it, it) for it in range(1, 5))
OUTPUT = slot(0xB7, 1)
END = slot(0xB7) + slot(0x95)
VALUE_PART = slot(0xBF, 2, 6) + slot(0xBF, 3, 7)
PLACE = slot(0xB7, 2)
ONE_BYTE = stack_at(3) + slot(0xB7, 4, imm=1)
WHOLE_VALUE = slot(0xBF, 3, 6) + slot(0xBF, 4, 7)
KEY_AND_VALUE = slot(0xBF, 2, 8) + slot(0xBF, 3, 9) + slot(0xBF, 4, 6) + slot(0xBF, 5, 7)
HEADER = stack_at(1) + slot(0xB7, 2, imm=255) + stack_at(3) + slot(0xB7, 4, imm=512)
STACK_TWICE = stack_at(2) + slot(0xB7, 3, imm=512) + stack_at(4) + slot(0xB7, 5, imm=512)

# What is timed: a name, what sets the arguments, the call, and how often; and the record's headers, where it has others.
CALLS = [
    ("load_value, 512 bytes", ROOM, call(1), 3000),
    ("load_key, 512 bytes", ROOM, call(2), 3000),
    ("emit_record", OUTPUT, call(3), 16),
    ("emit_record, refused: there are sixteen", OUTPUT, call(3), 4000),
    ("emit_value, 512 bytes of the stack", OUTPUT + stack_at(2) + slot(0xB7, 3, imm=512), call(4), 16),
    ("emit_value, 1,048,576 bytes of the value", OUTPUT + VALUE_PART, call(4), 16),
    ("emit, 512 and 512 bytes of the stack", OUTPUT + STACK_TWICE, call(5), 16),
    ("emit, the key and the value", OUTPUT + KEY_AND_VALUE, call(5), 16),
    ("emit_null", OUTPUT, call(6), 16),
    ("offset", b"", call(7), 8000),
    ("timestamp", b"", call(8), 8000),
    ("partition", b"", call(9), 8000),
    ("header_count", b"", call(10), 8000),
    ("header_key, 512 bytes", ROOM, call(11), 3000),
    ("header_value, 512 bytes", ROOM, call(12), 3000),
    ("part_length", OUTPUT, call(13), 8000),
    ("load_part, 512 bytes", ROOM + slot(0xB7, 4), call(14), 2500),
    ("find, a byte that is not in 4,096 places", OUTPUT + PLACE + ONE_BYTE, call(15), 1500),
    ("find, 1,048,576 bytes, found at once", OUTPUT + PLACE + WHOLE_VALUE, call(15), 20),
    ("equals, 1,048,576 bytes", OUTPUT + PLACE + WHOLE_VALUE, call(16), 200),
    ("decimal, 18 bytes", OUTPUT + PLACE + slot(0xB7, 3, imm=18), call(17), 2500),
    ("hash, 1,048,576 bytes", OUTPUT, call(18), 20),
    ("header, 255 bytes, none of 16", stack_at(1) + slot(0xB7, 2, imm=255), call(19), 2500),
    ("emit_part, 1,048,576 bytes", OUTPUT + PLACE + slot(0xB7, 3) + slot(0xB7, 4, imm=1048576), call(20), 16),
    ("emit_changed, 1,048,576 bytes", OUTPUT + PLACE + slot(0xB7, 3) + stack_at(4) + slot(0xB7, 5), call(21), 16),
    ("add_header, refused: there are sixteen", HEADER, call(22), 2000),
    ("add_header, 255 and 512 bytes of the stack", HEADER, call(22), 16, []),
    ("add_header, and emit_record with it", HEADER, call(22) + OUTPUT + call(3), 16, []),
]

# Instructions of one kind, as many as an image has room for.
RECORDS = [
    ("helper calls of 512 bytes", ROOM + call(12)),
    ("divisions of 64 bits", slot(0x3F, 7, 7)),
    ("loads of a byte of the stack", slot(0x71, 0, 10, offset=-1)),
    ("additions", slot(0x07, 7, imm=1)),
]


def file_of(image):
    """The program file of an image of table 3."""
    return b"KLOG" + struct.pack("<3I", 1, 3, len(image)) + image


def taken(engine, image, headers=HEADERS, runs=RUNS):
    """The least time of some runs, in nanoseconds."""
    with Program(engine, file_of(image), 0) as program:
        program.run(KEY, VALUE, headers=headers)
        least = None
        for _ in range(runs):
            start = time.process_time_ns()
            fault = program.library.klog_run(*program.run_words)
            span = time.process_time_ns() - start
            engine.check(fault)
            least = span if least is None else min(least, span)
    return least


def cost(engine, arguments, code, count, headers=HEADERS):
    """What one call takes: where it ends the run, r0 is 0."""
    begin = SET_STACK + KEEP
    return (taken(engine, begin + (arguments + code) * count + END, headers) - taken(engine, begin + arguments * count + END, headers)) / count


def main(name):
    engine = Engine(os.path.abspath(name))
    for what, *call_of in CALLS:
        print(f"{cost(engine, *call_of):10.0f} ns  {what}")
    begin = SET_STACK + KEEP + slot(0xB7, 7, imm=9)
    for what, part in RECORDS:
        rounds = (8 * SLOTS - len(begin) - len(END)) // len(part)
        print(f"{taken(engine, begin + part * rounds + END) / 1000:10.0f} µs  a record, by a program of {SLOTS:,} slots: {what}")
    begin, part = SET_STACK + KEEP, OUTPUT + PLACE + WHOLE_VALUE + call(15)
    rounds = (8 * SLOTS - len(begin) - len(END)) // len(part)
    print(f"{taken(engine, begin + part * rounds + END, runs=1) / 1000000:10.0f} ms  a record, by {rounds:,} searches for its whole value")


if __name__ == "__main__":
    if len(sys.argv) != 2:
        sys.exit(__doc__)
    try:
        main(sys.argv[1])
    except OSError as fault:
        sys.exit(f"helper_cost: {fault}")
