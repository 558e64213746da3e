#!/usr/bin/env python3
"""Runs `rt` with less work before and between its checks. Not part of the build; it gives no verdict.

    tools/dev/rt_fast.py WORDS ..              rt WORDS, in a crate's folder: check, run, test, try, lib
    tools/dev/rt_fast.py libraries N [CRATE ..]    at the top: builds all libraries, or those named and what they use, N at a time
    tools/dev/rt_fast.py compiles              in a crate's folder: whether it and its tests compile, over the sources below
    tools/dev/rt_fast.py over_sources WORDS ..     in a crate's folder: a check of it over the sources below, proved or not

`rt` sums up all files below a crate for each library that it names, again and again, and in a new clone reads each crate above
all others before it builds a library. Here the sum of a crate is made once a call, and no crate is read before: so edit nothing
below a crate while a call runs. `libraries` takes the longest chain of crates first and writes what a build printed to
crates/NAME/out/lib.log. It uses the kit's own `rtlib.py`, whose functions may have other names in another kit.
"""
import importlib.machinery
import importlib.util
import os
import shutil
import subprocess
import sys
import threading
import time


def kit():
    """The kit's library, with each crate's sum made once and no pass over the sources."""
    sys.dont_write_bytecode = True
    home = os.path.dirname(os.path.realpath(shutil.which("rt")))
    for folder in (home, "/opt/rattle/bin"):
        if os.path.isfile(f"{folder}/rtlib.py"):
            break
    else:
        sys.exit("rt_fast: no rtlib.py beside rt")
    loader = importlib.machinery.SourceFileLoader("rtlib", f"{folder}/rtlib.py")
    rt = importlib.util.module_from_spec(importlib.util.spec_from_loader("rtlib", loader))
    sys.modules["rtlib"] = rt
    loader.exec_module(rt)
    sums, sum_of = {}, rt.Crate.stamp

    def stamp(crate):
        if crate.folder not in sums:
            sums[crate.folder] = sum_of(crate)
        return sums[crate.folder]

    rt.Crate.stamp = stamp
    rt.Crate.front_end = lambda crate: 0
    return rt


class Libraries:
    """Libraries that are built side by side, those with the longest chain of others above them first."""

    def __init__(self, rt, names):
        made = [it for it in rt.crates_below(os.getcwd()) if it.makes_rlib()]
        self.left = []
        for crate in made:
            if not names or crate.name in names:
                self.left += [it for it in [*crate.below(), crate] if it not in self.left]
        self.count, self.done, self.failed = len(self.left), set(), set()
        self.turn = threading.Condition()
        lines = {it: it.count(rb"\n") for it in self.left}
        self.chain = {}
        for crate in reversed(self.left):
            above = [self.chain[it] for it in self.left if crate in it.deps and it in self.chain]
            self.chain[crate] = lines[crate] + max(above, default=0)

    def next(self):
        """A library whose own ones are built; None where no other will be."""
        with self.turn:
            while True:
                self.left = [it for it in self.left if not self.failed & {*it.below()}]
                ready = [it for it in self.left if {*it.deps} <= self.done]
                if ready:
                    crate = max(ready, key=self.chain.get)
                    self.left.remove(crate)
                    return crate
                if not self.left:
                    return None
                self.turn.wait()

    def build(self):
        while (crate := self.next()) is not None:
            start = time.time()
            os.makedirs(f"{crate.folder}/out", exist_ok=True)
            with open(f"{crate.folder}/out/lib.log", "w", errors="replace") as crate.out:
                status = crate.build_rlib(["--jobs", "1"], anew=False)
            with self.turn:
                (self.failed if status else self.done).add(crate)
                how = "failed" if status else "built"
                print(f"{crate.name}: {how}, {time.time() - start:.0f} s ({len(self.done)} of {self.count})", flush=True)
                self.turn.notify_all()


def build_libraries(rt, at_once, names):
    rt.guarded()
    libraries = Libraries(rt, names)
    threads = [threading.Thread(target=libraries.build) for _ in range(at_once)]
    for thread in threads:
        thread.start()
    for thread in threads:
        thread.join()
    return 1 if libraries.failed else 0


def compiles(rt):
    here = os.getcwd()
    crate = rt.Crate(here, rt.root_above(here) or here, {})
    words = crate.words(["--jobs", "1", "--only", ""], as_source=True) + ["--test"] * crate.has_tests()
    ran = subprocess.run([rt.RATTLE, "check", *words], stdout=subprocess.PIPE, stderr=subprocess.STDOUT, errors="replace")
    print(*(it for it in ran.stdout.splitlines() if "error[" in it or "error:" in it), sep="\n", end="")
    print(f"{crate.name}: {'compiles' if ran.returncode == 0 else 'does not compile'}")
    return ran.returncode


def over_sources(rt, flags):
    here = os.getcwd()
    crate = rt.Crate(here, rt.root_above(here) or here, {})
    words = crate.words([*flags, "--jobs", "1"], as_source=True)
    return subprocess.run([rt.RATTLE, "check", *words, *rt.KEPT, "--progress"]).returncode


def main(words):
    if not words or words[0] in ("-h", "--help"):
        print(__doc__)
        return 0
    if words[0] == "libraries" and len(words) > 1 and words[1].isdigit():
        return build_libraries(kit(), max(1, int(words[1])), words[2:])
    if words[0] == "over_sources":
        return over_sources(kit(), words[1:])
    if words == ["compiles"]:
        return compiles(kit())
    return kit().main(*words)


if __name__ == "__main__":
    sys.exit(main(sys.argv[1:]))
