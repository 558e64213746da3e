#!/usr/bin/env python3
"""Compares random C programs with what klogc makes of them, on random records.

    tools/klogc/tests/compare.py [--seed SEED] [--programs N] [--records N] [--jobs N] [--level=-O1|-O2|-Os] [--compiler CLANG]
                                 [--option=OPTION] [--log FILE]

The object's code and the image run by klogc's interpreter (meaning.py), and with one record in ten the image runs on the machine of
tools/dev too. Where the object's code does what it must not, the image may do anything but trap, and where that is to use a part of an
address as a number, the image must end with a code of klogc's; a program that is refused for it is tried again with codes 252. The last line counts the programs and the runs, which are a program on a record each: those with the same
outcome, with a code of klogc's own instead of it, and with a trap of the object's code; those that differ; and the programs that are
refused. The status is 1 where an outcome differs."""
import argparse
import collections
import concurrent.futures
import json
import os
import random
import sys
import tempfile

if __name__ == "__main__":
    sys.path[0] = os.path.dirname(os.path.dirname(os.path.dirname(os.path.realpath(__file__))))

from klogc.compiler import Compiler
from klogc.lower import lower
from klogc.meaning import ADDRESS, Emission, Record, Run, Trap
from klogc.program import Place, Program, Refused
from klogc.tests.programs import source

import second_machine
from second_broker import Record as Spelled

OUTPUTS = 4
PROGRAMS_IN_ONE = 100
LEVELS = ("-O1", "-O2", "-Os")
LOOP, ROOM, OUTSIDE = 251, 250, 252
MACHINE_EVERY = 10
TEXTS = (b'{"id":1,"name":"x"}', b"a,b,c", b"key=value", b"4111111111111111", b"Hello, World\n", b"}", b"2026-11-26 x", b"heartbeat", b"07\x03abc", b"\x08\x96\x01")
EDGES = (0, 1, 2, 7, 8, 99, 127, 128, 255, 256, 32767, 32768, 65535)
HEADERS = ((), (), ((b"trace", b"eu"),), ((b"x", None), (b"region", b"")), ((b"a", b"1"),) * 16)


def some_bytes(r):
    match r.randrange(8):
        case 0:
            return r.choice((None, b""))
        case 1:
            return r.choice(TEXTS)
        case 2:
            return bytes(r.choice(b"a0,. \n\xff") for _ in range(r.randrange(40)))
        case 3:
            return r.randbytes(r.choice((1, 2, 3, 4, 7, 8, 9, 12, 16, 31, 32, 33)))
        case 6 | 7:
            return b"".join(n.to_bytes(r.choice((2, 4, 8)), "little") for n in r.choices(EDGES, k=r.choice((4, 6))))
        case 4:
            return b"".join(r.choice(TEXTS) for _ in range(r.randrange(1, 4)))
    return r.randbytes(r.randrange(24))


def records(seed, count):
    r = random.Random(seed)
    for _ in range(count):
        yield Record(some_bytes(r), some_bytes(r), r.choice(HEADERS), r.choice((0, 1000, 1772359200000, r.randrange(1 << 41))), r.randrange(1000), r.randrange(4))


class Image:
    """An image as meaning.py runs an object's code."""

    def __init__(self, code):
        self.entry, self.functions_of = Place((), 0, 0), {}
        ends = [*code.slots[1:], None]
        self.listed = {slot: (i, 2 if end is not None and end - slot == 2 else 1) for slot, end, i in zip(code.slots, ends, code)}

    def code(self, _):
        return self.listed, set()


def image_outcome(image, record):
    """What the image does, or the trap as a text."""
    try:
        return Run(image, record, OUTPUTS, fill=None).outcome()
    except Trap as trap:
        return f"trapped: {trap}"


def machine_outcome(code, record):
    """The same by the machine of tools/dev, which is slower."""
    try:
        got = second_machine.run(code, Spelled(0, record.key, record.value, record.headers), OUTPUTS, (record.offset, record.timestamp, record.partition))
    except (AssertionError, IndexError, TypeError) as fault:
        return f"trapped: {fault}"
    return got if isinstance(got, int) else [Emission(*e[:3], tuple(e[3])) for e in got]


def object_outcome(program, record):
    try:
        return Run(program, record, OUTPUTS, fill=None).outcome()
    except Trap as trap:
        return trap


def judged(expected, got, strict):
    """A word for two outcomes; one that is `wrong` begins so."""
    if isinstance(got, str):
        return f"wrong: {got}"
    if isinstance(expected, Trap) and str(expected) == ADDRESS:
        return "trap" if got in (LOOP, ROOM, OUTSIDE) else f"wrong: {expected}, and {str(got)[:200]} came"
    if isinstance(expected, Trap):
        return f"wrong: strict, and {expected}" if strict and "outside" in str(expected) and got not in (LOOP, ROOM) else "trap"
    if got == expected:
        return "same"
    return str(got) if got in (LOOP, ROOM) else f"wrong: {str(expected)[:200]} is meant, and {str(got)[:200]} came"


def compared(program, seed, count):
    """Counts of outcomes for one program, and the first that is wrong."""
    strict = True
    try:
        image = lower(program)
    except Refused:
        strict = False
        image = lower(program, strict=False)
    code, tally = second_machine.decode(image.data), collections.Counter()
    made = Image(code)
    fault = second_machine.verify(code, image.table)
    if fault:
        return tally, f"not verified: {fault}"
    tally["strict" if strict else "with 252"] += 1
    tally["instructions"] += len(code)
    for k, record in enumerate(records(seed, count)):
        got = image_outcome(made, record)
        word = judged(object_outcome(program, record), got, strict)
        if k % MACHINE_EVERY == 0 and got != machine_outcome(code, record):
            word = "wrong: the machine of tools/dev gives something else"
        if word.startswith("wrong"):
            return tally, f"{word}; {record}"
        tally[word] += 1
    return tally, None


def object_of(compiler, seed, count):
    """The object of so many programs of a seed."""
    with tempfile.TemporaryDirectory(prefix="klogc-") as folder:
        path = os.path.join(folder, f"seed{seed}.c")
        with open(path, "w", encoding="utf-8") as it:
            it.write(source(seed, count))
        return compiler.object_of(path)


def compare(compiler, seed, count, number_of_records):
    """Compares so many programs of a seed. The results are counts, and what is wrong as (program, text)."""
    tally, wrong = collections.Counter(), []
    try:
        data = object_of(compiler, seed, count)
    except Refused as fault:
        print(f"seed {seed}: refused: {fault}", flush=True)
        return collections.Counter({"refused": count, "programs": count}), []
    first = Program(data, "program0")
    for k in range(count):
        tally["programs"] += 1
        try:
            found, text = compared(first.beside(f"program{k}"), f"{seed} {k}", number_of_records)
        except Refused as fault:
            tally["refused"] += 1
            print(f"seed {seed}, program{k}: refused: {fault}", flush=True)
            continue
        except Exception as fault:  # an error of the pass itself
            found, text = collections.Counter(), f"{type(fault).__name__} {fault}"
        tally += found
        if text:
            wrong.append((k, text))
    return tally, wrong


def logged(name, seeds):
    """Those of the seeds that a log has, and the counts of their programs."""
    done, tally = set(), collections.Counter()
    if name and os.path.exists(name):
        with open(name, encoding="utf-8") as it:
            for line in it:
                seed, found = json.loads(line)
                if seed in seeds:
                    done.add(seed)
                    tally += collections.Counter(found)
    return done, tally


def write_log(name, seed, found):
    if name:
        with open(name, "a", encoding="utf-8") as it:
            it.write(json.dumps([seed, found]) + "\n")


def one_seed(given, count, seed):
    """Compares the programs of one seed, and prints what is wrong. The result are counts."""
    sys.setrecursionlimit(20000)
    level = given.level or LEVELS[seed % len(LEVELS)]
    found, wrong = compare(Compiler(given.compiler, level, given.option), seed, count, given.records)
    for k, text in wrong:
        print(f"seed {seed}, program{k} at {level}: {text}", flush=True)
    found["different"] = len(wrong)
    return found


def last_line(tally):
    """The counts in words."""
    runs = sum(tally[word] for word in ("same", "trap", "different", str(LOOP), str(ROOM)))
    return (f"{tally['programs']} programs, {runs} runs: {tally['same']} same, {tally[str(LOOP)] + tally[str(ROOM)]} with code 250 or 251, {tally['trap']} traps, "
            f"{tally['different']} different; {tally['refused']} programs refused, {tally['with 252']} built with code 252, {tally['instructions']} instructions")


def main():
    words = argparse.ArgumentParser(description="Compares random C programs with what klogc makes of them.")
    words.add_argument("--seed", type=int, default=1)
    words.add_argument("--programs", type=int, default=20)
    words.add_argument("--records", type=int, default=50)
    words.add_argument("--level", choices=LEVELS, help="the level of all programs; if not given, it goes round with the seed")
    words.add_argument("--compiler")
    words.add_argument("--log", metavar="FILE", help="a file that gets the counts of each seed; a later call with it takes those that it lacks")
    words.add_argument("--option", action="append", default=["-ffunction-sections", "-g0"], help="one more of the compiler's options, as --option=-mcpu=v4")
    words.add_argument("--jobs", type=int, default=1, help="how many seeds are compared at a time")
    given = words.parse_args()
    # A few programs are of each level too.
    count = min(PROGRAMS_IN_ONE, -(-given.programs // len(LEVELS)))
    seeds = range(given.seed, given.seed + -(-given.programs // count))
    done, tally = logged(given.log, seeds)
    with concurrent.futures.ProcessPoolExecutor(given.jobs) as pool:
        waiting = {pool.submit(one_seed, given, count, seed): seed for seed in seeds if seed not in done}
        for each in concurrent.futures.as_completed(waiting):
            tally += each.result()
            write_log(given.log, waiting[each], each.result())
    print(last_line(tally))
    sys.exit(int(tally["different"] > 0))


if __name__ == "__main__":
    main()
