#!/usr/bin/env python3
"""Compiles and runs the examples in the comments of crates. Not part of the build: the kit reads no code in comments.

    tools/dev/doc_examples.py [CRATE ..]    # all crates if none is named

An example stands between two lines of three backquotes in the first comment of a crate's root file. It is the body of a
function that gets `alloc`, `rt` of a type `R`, and `BATCH`, a record batch of one record. Its last line is
`assert!(CONDITION);`. The status is 1 where one does not compile, ends early by `?`, or does not hold. They are compiled by
`rt try`, so nothing is proved of them.
"""
import os
import re
import shutil
import subprocess
import sys
import tempfile

TOP = os.path.dirname(os.path.dirname(os.path.dirname(os.path.abspath(__file__))))
HEAD = """#![tactic(auto)]

use std::alloc::Global;
use std::marker::Brand;
use std::process::ExitCode;
use std::sync::Wait;
use std::thread::Threads;

/// A record batch of one record, with the key `k` and the value `v`.
static BATCH: &[u8] = &[%s];
"""
BATCH = ("00000000000000000000003a0000000002fe917cab0000000000000000000000000000"
         "0000000000000000ffffffffffffffffffffffffffff0000000110000000026b027600")
FUNCTION = "fn of_%s<R: Threads + Wait + Sync>(rt: &R, alloc: Global) -> Option<bool> {\n%s\n    Some(%s)\n}\n"
CALL = """    match of_%s(&rt, alloc) {
        Some(true) => {}
        _ => {
            let _told = eprintln!(rt; "%s: its example does not hold");
            return ExitCode::FAILURE;
        }
    }
"""
MAIN = "fn main(rt: HostRuntime) -> ExitCode {\n    let alloc = rt.alloc();\n%s    ExitCode::SUCCESS\n}\n"


def example_of(crate):
    """The lines of the example of a crate, or nothing."""
    path = f"{TOP}/crates/{crate}/src/lib.rt"
    if not os.path.exists(path):
        return None
    with open(path, encoding="utf-8") as file:
        comment = "\n".join(re.findall(r"^//! ?(.*)$", file.read(), re.M))
    found = re.search(r"^```\n(.*?)^```$", comment, re.M | re.S)
    return found and found[1].rstrip("\n").split("\n")


def function_of(crate, lines):
    condition = re.fullmatch(r"assert!\((.*)\);", lines[-1])
    if not condition:
        sys.exit(f"doc_examples: the example of {crate} ends in no assert!(CONDITION);")
    return FUNCTION % (crate, "\n".join(f"    {line}" for line in lines[:-1]), condition[1])


def program_of(examples):
    batch = ", ".join(f"0x{BATCH[k:k + 2]}" for k in range(0, len(BATCH), 2))
    functions = [function_of(crate, lines) for crate, lines in examples.items()]
    return "\n".join([HEAD % batch, *functions, MAIN % "".join(CALL % (crate, crate) for crate in examples)])


def make_crate(top, examples, crates):
    """A folder with copies of the crates of the repository, and one that has the examples."""
    os.makedirs(f"{top}/crates/doc_examples/src")
    for crate in crates:
        shutil.copytree(f"{TOP}/crates/{crate}", f"{top}/crates/{crate}", ignore=shutil.ignore_patterns("out", "data", "must-fail"))
    program = program_of(examples)
    with open(f"{top}/crates/doc_examples/src/main.rt", "w", encoding="utf-8") as file:
        file.write(program)
    used = sorted({name for name in re.findall(r"\b(\w+)::", program) if name in crates} | {"bytes"})
    with open(f"{TOP}/crates.txt", encoding="utf-8") as file, open(f"{top}/crates.txt", "w", encoding="utf-8") as made:
        made.write(f"{file.read()}\ndoc_examples: {' '.join(used)}\n")


def main():
    crates = sorted(os.listdir(f"{TOP}/crates"))
    examples = {crate: lines for crate in sys.argv[1:] or crates if (lines := example_of(crate))}
    if not examples or any(word not in examples for word in sys.argv[1:]):
        sys.exit(__doc__)
    with tempfile.TemporaryDirectory(prefix="examples-") as top:
        make_crate(top, examples, crates)
        done = subprocess.run(["rt", "try"], cwd=f"{top}/crates/doc_examples", stdout=subprocess.PIPE, stderr=subprocess.STDOUT, text=True)
    held = re.search(r"^run=ended status=0", done.stdout, re.M)
    print(f"{len(examples)} examples hold" if held else done.stdout, end="\n" if held else "")
    sys.exit(not held)


main()
