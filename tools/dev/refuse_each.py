#!/usr/bin/env python3
"""Runs the tests of a crate once for each of their requests for memory, and refuses that one.

Not part of the build. From the top of the repository:

    tools/dev/refuse_each.py [CRATE [WORD]]       or a path, as `out/tests`, of its built tests in place of CRATE

`rt test` proves the crate and builds its tests. Then each test runs once with no request refused, and once for each request that
it made in that run, with that one refused. With a word only the tests run whose names have it, as `tools/dev/refuse_each.py
broker_tests a_refused_start`; if no crate is named, those of broker_tests whose names have `memory::`. A run passes where
the test ends with status 0.
For each test it prints how many requests and runs there were and how many runs passed, how often each call was refused and with
which fault (the lines `refused CALL: FAULT` that the tests print), and in full each run that did not pass. It ends with status 1
where there is such a run. Wants a C compiler; tools/dev/refuse_memory.c says which requests count.
"""
import collections
import os
import subprocess
import sys
import tempfile
import time

TOOLS = os.path.dirname(os.path.abspath(__file__))
TOP = os.path.dirname(os.path.dirname(TOOLS))
REFUSED = "refused "


def run(program, test, folder, number):
    """The test's status, what it prints, and how many requests it made, where the one with this number is refused."""
    count_file = f"{folder}/count"
    added = {"LD_PRELOAD": f"{folder}/refuse.so", "REFUSE": str(number), "REFUSE_COUNT": count_file}
    how = {"stdin": subprocess.DEVNULL, "stdout": subprocess.PIPE, "stderr": subprocess.STDOUT, "timeout": 60}
    with open(count_file, "wb") as it:
        it.write(bytes(8))
    try:
        done = subprocess.run([program, test], env={**os.environ, **added}, errors="replace", **how)
        status, said = done.returncode, done.stdout
    except subprocess.TimeoutExpired as ended:
        status, said = None, f"no end after {ended.timeout} seconds"
    with open(count_file, "rb") as it:
        return status, said, int.from_bytes(it.read(), "little")


def series(program, test, folder):
    """Whether all runs of a test pass; prints what there is to say of them. And how many runs there were."""
    status, said, count = run(program, test, folder, 0)
    if status != 0 or REFUSED in said or count == 0:
        print(f"{test}: status {status} and {count} requests with none refused\n{said}")
        return False, 0
    passed, calls = 0, collections.Counter()
    for number in range(1, count + 1):
        status, said, _ = run(program, test, folder, number)
        calls.update(it[len(REFUSED) :] for it in said.splitlines() if it.startswith(REFUSED))
        if status == 0:
            passed += 1
        else:
            print(f"{test}: request {number} refused: status {status}\n{said}")
    print(f"{test}: {count} requests, {count} runs with one of them refused, {passed} passed")
    for call, times in sorted(calls.items()):
        print(f"    {times:4} {call}")
    print(f"    {count - calls.total():4} refused to what the calls are made with")
    return passed == count, count


def built(folder):
    """The tests of the crate in a folder, proved and built."""
    if subprocess.run(["rt", "test"], cwd=folder, stdout=subprocess.DEVNULL, check=False).returncode:
        sys.exit(f"rt test failed in {folder}")
    return f"{folder}/out/{os.path.basename(folder)}_tests"


def main(words):
    if len(words) > 2 or words and words[0].startswith("-"):
        sys.exit(__doc__)
    crate, word = {0: ["broker_tests", "memory::"], 1: [*words, ""], 2: words}[len(words)]
    program = os.path.abspath(crate) if "/" in crate else built(f"{TOP}/crates/{crate}")
    listed = subprocess.run([program, "--list"], stdout=subprocess.PIPE, text=True, check=True).stdout
    tests = [it.removesuffix(": test") for it in listed.splitlines() if it.endswith(": test") and word in it]
    start = time.monotonic()
    with tempfile.TemporaryDirectory() as folder:
        words = ["cc", "-O2", "-fPIC", "-shared", "-o", f"{folder}/refuse.so", f"{TOOLS}/refuse_memory.c"]
        subprocess.run(words, check=True)
        ends = [series(program, test, folder) for test in tests]
    runs = sum(count for _, count in ends)
    print(f"{len(tests)} tests, {runs} runs with a request refused, {time.monotonic() - start:.1f} s")
    return int(not tests or not all(passed for passed, _ in ends))


if __name__ == "__main__":
    sys.exit(main(sys.argv[1:]))
