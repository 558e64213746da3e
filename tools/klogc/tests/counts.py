#!/usr/bin/env python3
"""Counts of how many C programs are accepted by compiler, level and version of the machine: rows of a table in Markdown.

    tools/klogc/tests/counts.py [--compilers 14,16,19,gcc] [--levels=-O2,-O1,-Os] [--machines v1,v2,v3,v4] [--seconds N] [FOLDER ..]

Takes each clang that is there, from the oldest on, and bpf-gcc. A program counts as accepted where klogc makes an image of it within so
many processor seconds and the verifier in Python accepts that."""
import argparse
import glob
import os
import shutil
import signal
import subprocess
import sys
import tempfile

if __name__ == "__main__":
    sys.path[0] = os.path.dirname(os.path.dirname(os.path.dirname(os.path.realpath(__file__))))

from klogc.compiler import INCLUDES, NEWEST, OLDEST, Compiler, NotCompiled, version
from klogc.lower import lower
from klogc.program import Program, Refused

import second_machine

TOP = os.path.dirname(os.path.dirname(os.path.dirname(os.path.dirname(os.path.realpath(__file__)))))
FOLDERS = [os.path.join(TOP, "examples", "c", name) for name in ("transforms", "tried", "natural", "unseen", "blind", "parts")]
LEVELS, MACHINES = ("-O2", "-O1", "-Os"), ("v3", "v1", "v2", "v4")
# Clang has v4 from this version on.
WITH_V4 = 18


class TooSlow(Exception):
    """It takes longer than it may."""


def stop(*_):
    raise TooSlow


class Gcc:
    """bpf-gcc, which makes an object in one step."""

    def __init__(self, level):
        self.words = ["bpf-gcc", level, "-g", "-w", *(f"-I{folder}" for folder in INCLUDES), "-c"]

    def object_of(self, source):
        with tempfile.TemporaryDirectory(prefix="klogc-") as folder:
            target = os.path.join(folder, "it.o")
            if subprocess.run([*self.words, source, "-o", target], capture_output=True, check=False).returncode:
                raise NotCompiled("not compiled")
            with open(target, "rb") as it:
                return it.read()


def is_accepted(compiler, source, seconds):
    try:
        data = compiler.object_of(source)
        signal.setitimer(signal.ITIMER_PROF, seconds)
        image = lower(Program(data))
    except (Refused, TooSlow):
        return False
    finally:
        signal.setitimer(signal.ITIMER_PROF, 0)
    return second_machine.verify(second_machine.decode(image.data), image.table) is None


def compilers(names, levels, machines):
    """Of each row of the table its name and the compiler."""
    for level in levels:
        for machine in machines:
            for clang in [f"clang-{n}" for n in names if n != "gcc"]:
                if version(clang) >= (WITH_V4 if machine == "v4" else OLDEST):
                    yield f"{clang}, {level}, {machine}", Compiler(clang, level, [f"-mcpu={machine}"])
        if "gcc" in names and shutil.which("bpf-gcc"):
            yield f"bpf-gcc, {level}", Gcc(level)


def main():
    sys.setrecursionlimit(20000)
    words = argparse.ArgumentParser(description="Counts how many C programs are accepted by compiler, level and version of the machine.")
    words.add_argument("--compilers", default=",".join([*map(str, range(OLDEST, NEWEST + 1)), "gcc"]), help="the versions of clang, and gcc, those that are there")
    words.add_argument("--levels", default=",".join(LEVELS))
    words.add_argument("--machines", default=",".join(MACHINES))
    words.add_argument("--seconds", type=int, default=30, help="the processor seconds after which a program counts as refused")
    words.add_argument("folders", nargs="*", metavar="FOLDER")
    given = words.parse_args()
    signal.signal(signal.SIGPROF, stop)
    folders = given.folders or FOLDERS
    print("| | " + " | ".join(os.path.basename(folder) for folder in folders) + " |\n|---|" + "---|" * len(folders))
    for name, compiler in compilers(given.compilers.split(","), given.levels.split(","), given.machines.split(",")):
        row = []
        for folder in folders:
            sources = sorted(glob.glob(os.path.join(folder, "*.c")))
            row.append(f"{sum(is_accepted(compiler, source, given.seconds) for source in sources)} of {len(sources)}")
        print(f"| {name} | " + " | ".join(row) + " |", flush=True)


if __name__ == "__main__":
    main()
