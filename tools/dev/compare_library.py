#!/usr/bin/env python3
"""Compares the C library with the second implementation (second_machine.py), or with `klog run`, on random programs.

Not part of the build. With a folder that tools/build_library.sh made:

    tools/dev/compare_library.py FOLDER/libklog.so [COUNT [SEED [KLOG]]]

Each program is loaded, and run on ten records with headers and on some record batches, some of them damaged. After each a
text of rules, some of them damaged, is compiled and run on ten records, beside rules_meaning.py. It prints the first image
or text on which the fault's text, an outcome, an output's batches or the counts differ, and ends with status 1; else how
many were compared. With KLOG, the program `klog`, each program is that of a script that appends some batches
to one input: klog_run's outcomes on their records are compared with the rows and the counts of `klog run`.
"""
import collections
import os
import random
import struct
import subprocess
import sys

sys.path.insert(0, os.path.join(os.path.dirname(os.path.abspath(__file__)), "..", "..", "examples", "library"))

import rules_meaning
import rules_text
from compare import accepted_image, some_batch, some_bytes, some_header, some_image
from compare_rules import Maker
from klog_engine import Engine, Fault, Program, Transformed
from second_broker import Record, fetched, read_batch, spell
from second_machine import HELPERS, Refused, decode, run, verify


def verdict(image, table):
    """The code of an image, and its fault, if it is refused by a helper table."""
    try:
        code = decode(image)
    except Refused as refused:
        return None, str(refused)
    return code, verify(code, table)


def header_image(rng):
    """An image that copies from headers, emits the record or not, and ends with what the last call answered."""
    slot = lambda opcode, imm: struct.pack("<BBhi", opcode, 1 if opcode == 0xB7 else 0, 0, imm)
    code = b"".join(some_header(rng) for _ in range(rng.choice([1, 1, 2])))
    if rng.random() < 0.7:
        code += slot(0xB7, rng.choice([0, 0, 1])) + slot(0x85, 3)
    return code + slot(0x95, 0)


def some_program(rng, table):
    if table == 3 and rng.random() < 0.8:
        return part_image(rng)
    if table >= 2 and rng.random() < 0.5:
        return header_image(rng)
    return accepted_image(rng, table) if rng.random() < 0.5 else some_image(rng)


def part_image(rng):
    """An image that calls helpers over parts of a record, and ends with what the last call answered."""
    slot = lambda opcode, dst, imm=0, src=0, offset=0: struct.pack("<BBhi", opcode, dst | src << 4, offset, imm)
    some_number = lambda most: rng.choice([0, 0, 1, 2, rng.randrange(most), -1])
    code = b""
    for _ in range(rng.choice([1, 1, 2, 3])):
        helper = rng.choice(range(13, 23))
        # up to eight bytes of a part are copied to the stack, of which some are given to the helper
        code += slot(0xBF, 1, src=10) + slot(0x07, 1, -8) + slot(0xB7, 2, rng.randrange(3)) + slot(0xB7, 3, rng.choice([1, 2, 8]))
        code += slot(0xB7, 4, rng.randrange(6)) + slot(0x85, 0, 14)
        numbers, pairs, rooms, _ = HELPERS[helper]
        for register in numbers:
            code += slot(0xB7, register, some_number(12))
        for address, count in pairs + rooms:
            code += slot(0xBF, address, src=10) + slot(0x07, address, -8) + slot(0xB7, count, rng.choice([1, 1, 2, 8]))
        code += slot(0x85, 0, helper)
        if rng.random() < 0.4:
            code += slot(0x15, 0, 0, offset=1) + slot(0x95, 0)
    if rng.random() < 0.5:
        code += slot(0xB7, 1) + slot(0x85, 0, rng.choice([3, 6]))
    return code + slot(0x95, 0)


def some_headers(rng):
    count = rng.choice([0, 0, 0, 1, 1, 2, 3, 16])
    return [(rng.choice([b"", b"h", "ä".encode(), b"name", b"n" * 255]), some_bytes(rng)) for _ in range(count)]


def some_place(rng):
    offset, timestamp = (rng.choice([0, 1, 999, (1 << 62) - 1, rng.randrange(1 << 62)]) for _ in range(2))
    return offset, timestamp, rng.choice([0, 1, 63])


def expected(code, record, place, outputs):
    end = run(code, record, outputs, place)
    return (end, []) if isinstance(end, int) else (0, [tuple(emitted) for emitted in end])


def compare_runs(rng, program, code):
    """How many records were kept, of ten; None where an outcome differs."""
    kept = 0
    for _ in range(10):
        record = Record(0, some_bytes(rng), some_bytes(rng), some_headers(rng))
        place, outputs = some_place(rng), rng.choice([1, 2, 64])
        found = program.run(record.key, record.value, *place, outputs, record.headers)
        wanted = expected(code, record, place, outputs)
        if found != wanted:
            print("%r place %r outputs %d: %r, not %r" % (record, place, outputs, found, wanted))
            return None
        kept += found[0] == 0
    return kept


def row_batches(rows):
    """The rows of an output as record batches, each with as many as it takes."""
    written, place = [], 0
    while place < len(rows):
        written.append(fetched(rows, place, 10000))
        place += int.from_bytes(written[-1][57:61], "big")
    return len(rows), len(written), b"".join(written)


def expected_batches(code, data, offset, partition, outputs):
    """What a program makes of the record batches that some bytes are, or why they are refused."""
    at, batches, records, rejects, rows = 0, 0, 0, {}, [[] for _ in range(outputs)]
    while at < len(data):
        try:
            base, given, used = read_batch(data[at:])
        except Refused as refused:
            return "batch %d at byte %d: %s" % (batches, at, refused)
        for record in given:
            time = base + record.delta
            end = run(code, record, outputs, (offset + records, time, partition))
            records += 1
            if isinstance(end, int):
                rejects[end] = rejects.get(end, 0) + 1
            else:
                for output, key, value, headers in end:
                    rows[output].append((time, key, value, headers))
        batches, at = batches + 1, at + used
    return Transformed(batches, records, records - sum(rejects.values()), sorted(rejects.items()),
                       [row_batches(some) for some in rows])


def compare_batches(rng, program, code):
    """How many records of some batches were compared; None where something differs."""
    data = b"".join(some_batch(rng) for _ in range(rng.choice([0, 1, 1, 2, 3])))
    offset, partition = rng.choice([0, 999, rng.randrange(1 << 61)]), rng.choice([0, 1, 63])
    outputs = rng.choice([1, 2, 64])
    wanted = expected_batches(code, data, offset, partition, outputs)
    try:
        found = program.transform(data, offset, partition, outputs)
    except Fault as told:
        found = str(told)
    if found != wanted:
        print("batches %s offset %d outputs %d: %r, not %r" % (data.hex(), offset, outputs, found, wanted))
        return None
    return 0 if isinstance(found, str) else found.records


def program_of(engine, image, table):
    """The program of an image, which is in a program file if its table is 3."""
    if table < 3:
        return Program(engine, image, table)
    return Program(engine, b"KLOG" + struct.pack("<3I", 1, table, len(image)) + image, 0)


def compare(rng, engine, image, table):
    """Whether an image was accepted, how many records it kept and had in batches; None where something differs."""
    code, fault = verdict(image, table)
    try:
        with program_of(engine, image, table) as program:
            if fault is not None:
                print("accepted, not %s" % fault)
                return None
            kept, records = compare_runs(rng, program, code), compare_batches(rng, program, code)
            return None if kept is None or records is None else (1, kept, records)
    except Fault as told:
        if str(told) != fault:
            print("%s, not %s" % (told, fault))
            return None
        return 0, 0, 0


# ---- rules

def some_rules(rng, maker):
    """A text of rules, of which some bytes may be lost or others."""
    text = bytearray(maker.rules(True).encode())
    for _ in range(rng.choice([0, 0, 0, 1, 2])):
        at = rng.randrange(len(text) + 1)
        text[at:at + rng.choice([0, 1, 1, 9])] = rng.choice([b"", rng.choice([b'"', b"\n", b"(", b"x", b"#", b"\xff", b"drop"])])
    return bytes(text)


def plain_rules(text):
    """The rules of a text, or what klog prints of its first fault."""
    try:
        return rules_text.parse(text), None
    except rules_text.Fault as fault:
        name, line, column = str(fault).rsplit(" ", 2)
        return None, "line %s: %s at column %s" % (line, name, column)


def some_record(maker):
    """A record, whose headers have keys of UTF-8."""
    record = maker.record()
    headers = [(key.decode("utf-8", "ignore").encode(), value) for key, value in record.headers]
    return rules_meaning.Record(record.key, record.value, headers)


def rules_differ(program, rules, cases):
    """Whether the program of rules and their plain reading give another outcome of a record."""
    for record, at in cases:
        end = rules_meaning.outcome(rules, record, at)
        wanted = (end, []) if isinstance(end, int) else (0, [tuple(emitted) for emitted in end])
        found = program.run(record.key, record.value, at.offset, at.timestamp, at.partition, at.outputs, record.headers)
        if found != wanted:
            print("%r at %r: %r, not %r" % (record, at, found, wanted))
            return True
    return False


def compare_text(rng, maker, engine):
    """Whether a text of rules was compiled, and the text; None in place of the first where something differs."""
    maker.cases = [(some_record(maker), maker.place()) for _ in range(10)]
    text = some_rules(rng, maker)
    rules, fault = plain_rules(text)
    try:
        file = engine.compile(text)
    except Fault as told:
        if str(told) != fault:
            print("%s, not %s" % (told, fault))
        return (0 if str(told) == fault else None), text
    if fault:
        print("compiled, not %s" % fault)
        return None, text
    with Program(engine, file) as program:
        return (None if rules_differ(program, rules, maker.cases) else 1), text


# ---- beside `klog run`

def broker(klog, image, table, batches, outputs):
    """The rows of each output and the counts of reject codes, by a script; or the fault of the image."""
    lines = ["partitions 1 %d 64" % outputs, "load a hex:%s%s" % (image.hex(), " 2" if table == 2 else ""), "deploy 0 a"]
    lines += ["append 0 hex:" + batch.hex() for batch in batches] + ["go"]
    lines += ["fetch %d 0 10000" % output for output in range(outputs)]
    ran = subprocess.run([klog, "run", "stdin"], input="\n".join(lines).encode(), capture_output=True, text=False)
    if ran.returncode:
        return ran.stderr.decode().rstrip("\n").removeprefix("line 2: ")
    printed = ran.stdout.decode().splitlines()
    rejects = {int(words[3]): int(words[5]) for words in map(str.split, printed) if words[2:3] == ["reject"]}
    rows = []
    for line in printed[len(printed) - outputs:]:
        base, records, _ = (0, [], 0) if line == "none" else read_batch(bytes.fromhex(line))
        rows.append([(base + record.delta, record.key, record.value, record.headers) for record in records])
    return rows, rejects


def library(engine, image, table, batches, outputs):
    """The same by klog_run on each record."""
    rows, rejects, offset = [[] for _ in range(outputs)], collections.Counter(), 0
    try:
        with Program(engine, image, table) as program:
            for base, records, _ in map(read_batch, batches):
                for record in records:
                    time = base + record.delta
                    code, emissions = program.run(record.key, record.value, offset, time, 0, outputs, record.headers)
                    offset += 1
                    if code:
                        rejects[code] += 1
                    for output, key, value, headers in emissions:
                        rows[output].append((time, key, value, headers))
    except Fault as fault:
        return str(fault)
    return rows, dict(rejects)


def compare_script(rng, engine, klog, image, table):
    """Whether an image was accepted, and its records and rows by one script; None where something differs."""
    outputs = rng.choice([1, 2, 5])
    batches = []
    for _ in range(rng.choice([1, 2, 3])):
        count = rng.choice([1, 2, 5, 10])
        records = [Record(rng.choice([0, 7]), some_bytes(rng), some_bytes(rng), some_headers(rng)) for _ in range(count)]
        batches.append(spell(records, rng.choice([0, 1000, (1 << 62) - 8]), -1, 0))
    wanted, found = broker(klog, image, table, batches, outputs), library(engine, image, table, batches, outputs)
    if found != wanted:
        print("batches %r outputs %d: %r, not %r" % ([batch.hex() for batch in batches], outputs, found, wanted))
        return None
    if isinstance(found, str):
        return 0, 0, 0
    return 1, sum(int.from_bytes(batch[57:61], "big") for batch in batches), sum(map(len, found[0]))


def main():
    if not 2 <= len(sys.argv) <= 5:
        sys.exit("usage: tools/dev/compare_library.py LIBRARY [COUNT [SEED [KLOG]]]")
    count = int(sys.argv[2]) if len(sys.argv) > 2 else 1000
    rng, engine = random.Random(int(sys.argv[3]) if len(sys.argv) > 3 else 1), Engine(sys.argv[1])
    klog = sys.argv[4] if len(sys.argv) > 4 else None
    maker, accepted, first, second, compiled = Maker(0), 0, 0, 0, 0
    maker.random = rng
    for _ in range(count):
        table = rng.choice([1, 2] if klog else [1, 2, 3, 3])
        image = some_program(rng, table)
        answer = compare_script(rng, engine, klog, image, table) if klog else compare(rng, engine, image, table)
        if answer is None:
            sys.exit("table %d image %s" % (table, image.hex()))
        accepted, first, second = accepted + answer[0], first + answer[1], second + answer[2]
        if not klog:
            is_compiled, text = compare_text(rng, maker, engine)
            if is_compiled is None:
                sys.exit("rules %r" % text)
            compiled += is_compiled
    what = "%d records and %d rows as `klog run` has them" if klog else "%d of their records kept, %d records in batches"
    print("%d programs, %d of them accepted, %s" % (count, accepted, what % (first, second)))
    if not klog:
        print("%d texts of rules, %d of them compiled" % (count, compiled))


if __name__ == "__main__":
    main()
