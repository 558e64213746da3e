#!/usr/bin/env python3
"""Asks of each crate, in a minute or two, what the gate asks before it proves one. Not part of the build; it gives no verdict.

    tools/dev/before_gate.py        at the top of the repository

It asks for links, files that no check reads, words and handles that are not allowed, and the layout of `rt fmt`. It also asks
that a crate whose texts make the gate look for tests has some: any attribute with the word `test` does, as one with the text
of an error. It prints a line for each fault and ends with status 1 if there is one. It uses the kit's own `rt`, whose
functions may have other names in another kit.
"""
import importlib.machinery
import importlib.util
import os
import re
import shutil
import sys
import tempfile

# A test, as the language has it: an attribute of that one word.
TEST = re.compile(r"#\s*\[\s*test\s*\]")


def kit():
    """The kit's `rt`, with the library that it uses."""
    sys.dont_write_bytecode = True
    home = os.path.dirname(os.path.realpath(shutil.which("rt")))
    if not os.path.isfile(f"{home}/rtlib.py"):
        home = "/opt/rattle/bin"
    sys.path.insert(0, home)
    loader = importlib.machinery.SourceFileLoader("rt_program", f"{home}/rt")
    rt = importlib.util.module_from_spec(importlib.util.spec_from_loader("rt_program", loader))
    loader.exec_module(rt)
    return rt


def stops(ask, *words):
    """Whether a question of the kit's ends the program; it then prints why."""
    try:
        ask(*words)
    except SystemExit:
        return True
    return False


def layout_faults(rt, crate):
    """What `rt fmt` would change in a crate."""
    with tempfile.TemporaryFile("a+", errors="replace") as out:
        if not rt.rtlib.fmt(crate.folder, "--check", out):
            return []
        out.seek(0)
        return [f"run rt fmt in {crate.folder}: {out.read()[:200]}"]


def faults_of(rt, crate, every):
    """The faults of a crate, a line each."""
    code = rt.rtlib.code_of(crate.folder)
    asked = [
        stops(rt.rtlib.stop_on_links, crate.folder),
        stops(rt.rtlib.stop_on_unread, crate.folder, every),
        stops(rt.rtlib.stop_on_text, crate, "verdict"),
        stops(rt.stop_on_words, crate),
    ]
    faults = ["see the line above"] * any(asked)
    faults += [f"names what only the handle {it} reaches" for it, words in rt.REACHES.items()
               if it not in crate.allowed and re.search(words, code)]
    faults += ["renames std, or takes it whole"] * bool(re.search(rt.RENAMES, code))
    faults += ["has a test under #[ignore]"] * bool(re.search(rt.IGNORED, code))
    faults += ["an attribute has the word test, and the crate has no test"] * (crate.has_tests() and not TEST.search(code))
    return faults + layout_faults(rt, crate)


def main():
    rt, root = kit(), os.getcwd()
    rt.Crate.allowed = rt.handles_of(root)
    # (the gate's own list of crates would set aside what earlier checks left)
    rt.rtlib.Crate, count = rt.Crate, 0
    crates = rt.rtlib.crates_below(root)
    for crate in crates:
        for fault in faults_of(rt, crate, crates):
            count += 1
            print(f"{crate.name}: {fault}")
    for name in sorted(it for it in os.listdir(root) if it != ".git" and os.path.isdir(f"{root}/{it}")):
        count += stops(rt.rtlib.stop_on_unread, f"{root}/{name}", crates)
    print(f"{len(crates)} crates, {count} faults")
    return 1 if count else 0


if __name__ == "__main__":
    sys.exit(main())
