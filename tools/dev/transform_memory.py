#!/usr/bin/env python3
"""Measures the most memory of `klog transform` on the batches and programs that take most.

Not part of the build:

    tools/dev/transform_memory.py KLOG

KLOG is a built program. Batches are read some times each, by a program that emits nothing, and by programs that emit
sixteen times, to 64 OUTs in turn: 512 bytes of key and 512 of value from the stack; the same with sixteen added headers of
767 bytes; the value with 512 bytes more, without and with an added header; a header's value, with an added header. A row has
the most resident memory of the process in MB, without the 4 MiB that each OUT's batch has taken.
"""
import re
import subprocess
import sys
import tempfile
import time

sys.dont_write_bytecode = True
from program_files import written
from second_broker import Record, spell

RECORDS, OUTS, MIB = 10_000, 64, 1 << 20

NOTHING = "mov64 r0, 0\nexit\n"


def sixteen(call, first=()):
    """The text of a program that emits sixteen rows by a call, after some other lines."""
    lines = [f"st64 [r10-{place}], 7" for place in range(8, 520, 8)] + ["call 7", "mov64 r6, r0", "lsh64 r6, 4", *first]
    for number in range(16):
        lines += ["mov64 r1, r6", f"add64 r1, {number}", f"and64 r1, {OUTS - 1}", *call]
    return "\n".join([*lines, "mov64 r0, 0", "exit", ""])


def added(length):
    """The lines of a call that adds a header with a value of so many bytes."""
    return ["mov64 r1, r10", "add64 r1, -512", "mov64 r2, 255", "mov64 r3, r1", f"mov64 r4, {length}", "call 22"]


EMIT = ["mov64 r2, r10", "add64 r2, -512", "mov64 r3, 512", "mov64 r4, r2", "mov64 r5, 512", "call 5"]
CHANGE = ["mov64 r2, 0", "mov64 r3, 0", "mov64 r4, r10", "add64 r4, -512", "mov64 r5, 512", "call 21"]
HEADER = ["mov64 r2, 3", "mov64 r3, 0", "mov64 r4, 4096", "call 20"]


def batch(value, headers=(), records=RECORDS):
    """A batch of records with values and headers of these lengths."""
    records = [Record(0, None, bytes(value), [(b"k", bytes(length)) for length in headers]) for _ in range(records)]
    return spell(records, 1_700_000_000_000, -1, 0)


def program_of(klog, folder, text, table):
    """Writes a program's file; its name."""
    with open(f"{folder}/text", "w") as file:
        file.write(text)
    subprocess.run([klog, "asm", f"{folder}/text", f"{folder}/image"], check=True, stdout=subprocess.DEVNULL)
    with open(f"{folder}/image", "rb") as image, open(f"{folder}/program", "wb") as file:
        file.write(written(table, image.read(), b""))
    return f"{folder}/program"


def peak(words):
    """The most resident memory of a call in MB, by what the system last said of it before its end."""
    with subprocess.Popen(words, stdout=subprocess.DEVNULL, stderr=subprocess.DEVNULL) as process:
        most = 0
        while process.poll() is None:
            with open(f"/proc/{process.pid}/status") as file:
                found = re.search(r"VmHWM:\s*(\d+) kB", file.read())
            most = int(found[1]) if found else most
            time.sleep(0.001)
    if process.returncode != 0:
        sys.exit(f"transform_memory: {words[:4]}: status {process.returncode}")
    return most * 1024 / 1e6


def main():
    if len(sys.argv) != 2:
        sys.exit(__doc__)
    klog = sys.argv[1]
    shapes = [("small records", batch(0)), ("values", batch(400)), ("16 headers a record", batch(0, [22] * 16))]
    long_shapes = [(f"values of {value} bytes", batch(value, (), count)) for value, count in ((400, 10_000), (16_000, 256), (1_000_000, 4))]
    long_shapes += [("15 headers a record", batch(0, [22] * 15)), ("headers of 4,096 bytes", batch(0, [4096], 1_000))]
    few_shapes = [("small records", batch(0, (), 2_048)), ("values", batch(2_000, (), 2_048))]
    programs = [("nothing", NOTHING, 1, 0, 4, shapes),
                ("from its stack", sixteen(EMIT), 1, OUTS, 4, shapes),
                ("the same with added headers", sixteen(EMIT, added(512) * 16), 3, OUTS, 1, few_shapes),
                ("a changed value", sixteen(CHANGE), 3, OUTS, 4, long_shapes),
                ("the same with an added header", sixteen(CHANGE, added(512)), 3, OUTS, 4, long_shapes),
                ("a header's value, with an added header", sixteen(HEADER, added(1)), 3, OUTS, 4, long_shapes[-1:])]
    with tempfile.TemporaryDirectory() as folder:
        outs = [f"{folder}/{number}.out" for number in range(OUTS)]
        for name, text, table, filled, times, given in programs:
            program = program_of(klog, folder, text, table)
            for shape, data in given:
                with open(f"{folder}/in", "wb") as file:
                    file.write(data * times)
                most = peak([klog, "transform", program, f"{folder}/in", *outs])
                print(f"{name}, a batch of {len(data) / 1e6:.1f} MB, {shape}: {most - filled * 4 * MIB / 1e6:.1f} MB", flush=True)


if __name__ == "__main__":
    main()
