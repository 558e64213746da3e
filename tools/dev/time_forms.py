#!/usr/bin/env python3
"""Times programs of one form each by several builds of bench_exec in turn, and prints the least time of each.

    tools/dev/time_forms.py ROUNDS BENCH [BENCH ...]     # BENCH: a built crates/bench_exec/out/bench_exec; ROUNDS: 10, say

The programs are of the forms that the first interpreter had: moves, sums, loads of each size, jumps that compare a register
with a number, calls of helper 3 and EXIT. A line has the program's name and then, for each build, the least of ROUNDS times in
ns a run on one record and on 1,024 records; a build that takes no such program has `-`. Builds are timed in turn, program by
program, so that a machine that is slow for a while is so for all of them.
"""
import re
import struct
import subprocess
import sys
import tempfile
from pathlib import Path

TIMES = 4000
LOADS = {8: 0x71, 16: 0x69, 32: 0x61, 64: 0x79}
# the opcode of each jump, a number for which it is not taken where r2 is 64, and one for which it is
JUMPS = {"jeq64": (0x15, 70000, 64), "jgt64": (0x25, 70000, 3), "jge64": (0x35, 70000, 3), "jne64": (0x55, 64, 3),
         "jlt64": (0xA5, 3, 70000), "jle64": (0xB5, 3, 70000)}


def slot(opcode, dst=0, src=0, offset=0, imm=0):
    return struct.pack("<BBhi", opcode, dst | src << 4, offset, imm)


def set_to(dst, imm):
    return slot(0xB7, dst, imm=imm)


CALL_3, EXIT = slot(0x85, imm=3), slot(0x95)
AT_LEAST_16 = set_to(0, 0) + slot(0x35, 2, offset=1, imm=16) + EXIT


def programs():
    """The images by name."""
    made = {
        "two instructions, kept": set_to(0, 0) + EXIT,
        "two instructions, rejected": set_to(0, 5) + EXIT,
        "a byte of the value, rejected": AT_LEAST_16 + slot(LOADS[8], 0, 1) + EXIT,
        "a byte of the value, kept": AT_LEAST_16 + slot(LOADS[8], 6, 1) + EXIT,
        "one refused call": set_to(1, 9) + CALL_3 + EXIT,
        "one emission": set_to(1, 0) + CALL_3 + EXIT,
        "16 emissions": set_to(0, 0) + (set_to(1, 0) + CALL_3) * 16 + EXIT,
        "2,000 refused calls": set_to(0, 0) + (set_to(1, 9) + CALL_3) * (TIMES // 2) + EXIT,
        "mov64 of a number": set_to(0, 0) + set_to(0, 7) * TIMES + EXIT,
        "mov64 of a register": set_to(0, 0) + slot(0xBF, 0, 2) * TIMES + EXIT,
        "add64 of a number": set_to(0, 0) + slot(0x07, 0, imm=7) * TIMES + EXIT,
        "add64 of a register": set_to(0, 0) + slot(0x0F, 0, 2) * TIMES + EXIT,
    }
    for bits, opcode in LOADS.items():
        made[f"ld{bits} of the value"] = AT_LEAST_16 + slot(opcode, 0, 1, 3) * TIMES + EXIT
    for name, (opcode, never, always) in JUMPS.items():
        made[f"{name}, not taken"] = set_to(0, 0) + slot(opcode, 2, imm=never) * TIMES + EXIT
        made[f"{name}, taken"] = set_to(0, 0) + slot(opcode, 2, imm=always) * TIMES + EXIT
    return made


def times(bench, image, short):
    """The least times of one call, on one record and on 1,024."""
    printed = subprocess.run([bench, "100" if short else "1", image], capture_output=True, text=True).stdout
    found = {"one record": [], "1,024 records": []}
    for line in re.finditer(r"^(one record|1,024 records): .* records, ([0-9.]+) ns a record", printed, re.M):
        found[line[1]].append(float(line[2]))
    return tuple(min(found[it]) if found[it] else None for it in found)


def least(values):
    there = [it for it in values if it is not None]
    return f"{min(there):.1f}" if there else "-"


def main():
    if len(sys.argv) < 3:
        sys.exit(__doc__)
    rounds, benches = int(sys.argv[1]), sys.argv[2:]
    with tempfile.TemporaryDirectory() as folder:
        images = {}
        for name, image in programs().items():
            images[name] = Path(folder) / f"{len(images)}.img"
            images[name].write_bytes(image)
        seen = {name: [[] for _ in benches] for name in images}
        for _ in range(rounds):
            for name, path in images.items():
                for at, bench in enumerate(benches):
                    seen[name][at].append(times(bench, path, path.stat().st_size < 2000))
    for name in images:
        row = ["{} {}".format(least([it[0] for it in runs]), least([it[1] for it in runs])) for runs in seen[name]]
        print(f"{name}: " + " | ".join(row))


main()
