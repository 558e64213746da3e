#!/usr/bin/env python3
"""Counts the numerals of the crates that equal a limit and stand outside the constant that has it.

    tools/dev/limits_once.py

The limits are the constants of 1,000 and more in src/limits.rt of the ground floor's crates, those that are computed
from others among them. Looked at are the sources, definitions and proofs of every crate but tests, benchmarks and
examples, whose numbers come from outside. Comments and texts are left out, and smaller limits too, since a numeral like
16 says too little. Each numeral is printed with its place, and then how many they are; the status is 1 where there is
one.
"""
import glob, os, re, sys

CRATES = os.path.join(os.path.dirname(os.path.abspath(__file__)), "..", "..", "crates")
FLOOR = ("wire_spec", "machine_spec", "log_spec")
LEFT_OUT = re.compile(r"(_tests|fixtures)$|^(bench_.*|soak|embedding|compare_runs)$")
NUMERAL = re.compile(r"(?<![\w.])[0-9][0-9_]*(?![\w.])")

# numerals that equal a limit by chance, or in rows of examples: file or folder, number, what the number is
CHANCE = {
    ("bpf_machine/proofs/Loads.antt", 65536): "2^16, by which the upper two of four bytes count",
    ("commands/proofs/ListLaws.antt", 65536): "the bytes of a buffered reader",
    ("machine_spec/proofs/PartAnswers.antt", 4096): "the places that a search looks at",
    ("machine_spec/proofs/PartRuns.antt", 4096): "rows of examples, whose numbers come from outside",
    ("machine_spec/specs/Places.antt", 4096): "the places that a search looks at",
    ("record_parts/proofs/", 4096): "the places that a search looks at",
    ("record_parts/specs/", 4096): "the places that a search looks at",
    ("record_parts/src/finding.rt", 4096): "the places that a search looks at",
    ("row_batch/src/front.rt", 65536): "from which size on a batch has all its room",
    ("row_batch/src/records.rt", 4096): "how near to its end a batch is nearly full",
    ("rules/proofs/", 65536): "the bytes of a part that a rule looks at",
    ("rules/specs/", 65536): "the bytes of a part that a rule looks at",
    ("rules/src/truth.rt", 65536): "the bytes of a part that a rule looks at",
    ("rules_compiler/", 4096): "the places that a search looks at",
    ("rules_compiler/", 65536): "the bytes of a part that a rule looks at",
    ("rules_compiler/", 1048576): "the places that a rule may name",
    ("varint/src/writing.rt", 16384): "2^14, the numbers of two groups of seven bits",
}


def is_chance(file, value):
    return any(file.startswith(place) and value == number for place, number in CHANCE)


def limits():
    """The constants of the ground floor by name."""
    known = {}
    for crate in FLOOR:
        text = re.sub(r"//.*", "", open(f"{CRATES}/{crate}/src/limits.rt", encoding="utf-8").read())
        for name, value in re.findall(r"pub const (\w+): \w+ =([^;]*);", text):
            known[name] = eval(" ".join(value.split()), {"__builtins__": {}}, known)
    return {value: name for name, value in known.items() if value >= 1000}


def code(path):
    """The lines of a file without comments and texts."""
    mark = "//" if path.endswith(".rt") else "--"
    for number, line in enumerate(open(path, encoding="utf-8"), 1):
        yield number, re.sub(r'"(\\.|[^"\\])*"', '""', line).partition(mark)[0]


def places():
    named = limits()
    for crate in sorted(os.listdir(CRATES)):
        if LEFT_OUT.search(crate):
            continue
        for part in ("src", "specs", "proofs"):
            for path in sorted(glob.glob(f"{CRATES}/{crate}/{part}/**/*", recursive=True)):
                file = os.path.relpath(path, CRATES)
                if not path.endswith((".rt", ".antt")) or crate in FLOOR and file == f"{crate}/src/limits.rt":
                    continue
                for number, line in code(path):
                    for numeral in NUMERAL.findall(line):
                        value = int(numeral.replace("_", ""))
                        if value in named and not is_chance(file, value):
                            yield f"crates/{file}:{number}: {numeral}, {named[value]}"


found = list(places())
print(*found, f"{len(found)} numerals equal a limit", sep="\n")
sys.exit(bool(found))
