#!/usr/bin/env python3
"""Runs the examples of rules files, and prints a table of them in Markdown. Not part of the build.

    tools/dev/rules_table.py RUNNER FOLDER [KLOG]

NAME.rules begins with comments: what the rules do, and examples as those of transforms in C (tools/klogc/examples.py). Each
outcome is compared with what rules_meaning.py says, and with the example, whose headers are not compared. RUNNER is that of
compare_rules.py. With KLOG, a built program, there are the instructions of a transform of `examples/c` with the same name,
as klogc builds it; that needs clang.
"""
import glob
import os
import re
import subprocess
import sys
import tempfile

import compare_rules
import rules_meaning

TOP = os.path.dirname(os.path.dirname(os.path.dirname(os.path.abspath(__file__))))
sys.path.insert(0, f"{TOP}/tools")

from klogc.examples import record_of, wanted_of  # noqa: E402

HEAD = "| rules | what they do | rules | instructions | in C |\n|---|---|---|---|---|"


def count_in_c(name, klog):
    """How many instructions klogc makes of the transform in C with that name, if there is one."""
    sources = sorted(glob.glob(f"{TOP}/examples/c/**/{name}.c", recursive=True))
    if klog is None or not sources:
        return ""
    with tempfile.TemporaryDirectory() as room:
        words = [f"{TOP}/tools/klogc/klogc", "build", sources[0], "-o", f"{room}/program", "--klog", os.path.abspath(klog)]
        ran = subprocess.run(words, capture_output=True, text=True, check=False)
    count = re.search(r": (\d+) instructions", ran.stdout)
    return count[1] if count else "refused"


def said_in(text):
    """What the rules do, and the examples."""
    lines = [it[1:].strip() for it in text.split("\n\n")[0].split("\n") if it.startswith("#")]
    return " ".join(it for it in lines if it and " -> " not in it), [it.split(" -> ") for it in lines if " -> " in it]


def answers_of(runner, lines):
    ran = subprocess.run([runner], input="\n".join(lines) + "\n", capture_output=True, text=True, check=False)
    return ran.stdout.splitlines()


def plain(outcome):
    """An outcome without headers."""
    return outcome if isinstance(outcome, int) else [tuple(it[:3]) for it in outcome]


def row_of(runner, path, klog):
    """A row of the table, and what is wrong with the outcomes."""
    name = os.path.basename(path).removesuffix(".rules")
    with open(path, encoding="utf-8") as file:
        text = file.read()
    what, examples = said_in(text)
    rules = rules_meaning.parse(text.encode())
    lines, wants, wrong = [f"R {text.encode().hex()}"], [], []
    for given, wanted in examples:
        record = record_of(given)
        asked = rules_meaning.Record(record.key, record.value, list(record.headers))
        lines.append(f"T 0,{record.timestamp},0,64 {compare_rules.record_words(asked)}")
        meant = rules_meaning.outcome(rules, asked, rules_meaning.Place(0, record.timestamp, 0, 64))
        wants.append(compare_rules.answer_of(meant))
        if plain(meant) != plain(wanted_of(wanted)):
            wrong.append(f"{name}: {given} -> {wanted}: rules_meaning.py says {meant}")
    first, *answers = answers_of(runner, lines)
    wrong += [f"{name}: {line}: {got}, not {want}" for line, got, want in zip(lines[1:], answers, wants) if got != want]
    if not first.startswith("ok ") or len(answers) != len(wants):
        wrong.append(f"{name}: {first}")
    return f"| {name} | {what} | {len(rules)} | {first.removeprefix('ok ')} | {count_in_c(name, klog)} |", wrong


def main(runner, folder, klog=None):
    faults, files = [], 0
    print(HEAD)
    for path in sorted(glob.glob(f"{folder}/*.rules")):
        row, wrong = row_of(runner, path, klog)
        print(row)
        faults += wrong
        files += 1
    print(f"\n{files} files, {len(faults)} faults", *faults, sep="\n")
    return 1 if faults else 0


if __name__ == "__main__":
    if len(sys.argv) not in (3, 4):
        sys.exit(__doc__)
    sys.exit(main(*sys.argv[1:]))
