#!/usr/bin/env python3
"""Prints for each crate its lines, its tests, its must-fail edits and, where asked for, the processor seconds of its proof.

    tools/dev/crate_table.py                       lines, tests and edits alone, in a second
    tools/dev/crate_table.py --prove               also proves each crate in a fresh clone of what is committed, by one job, lowest first
    tools/dev/crate_table.py --times FILE [ROWS]   what proofs, tests and edits took in a whole run of the gate, of the 15 crates that took
                                               most, or ROWS of them, and the sums of others and all

FILE has a line for each call of `rattle`: its folder, its words, and then user, system and elapsed seconds and kilobytes, as
GNU time writes them with -f "$PWD $* %U %S %e %M". A copy of the kit whose bin/rattle is a script of such a call makes it.
"""
import collections, glob, os, re, resource, subprocess, sys, tempfile

TOP = subprocess.run(["git", "rev-parse", "--show-toplevel"], capture_output=True, text=True, check=True).stdout.strip()


def crates():
    """The crates with the libraries of the repository that each uses, lowest first."""
    uses = {}
    for line in open(f"{TOP}/crates.txt", encoding="utf-8"):
        name, colon, libraries = line.partition("#")[0].partition(":")
        if colon:
            uses[name.split()[0]] = libraries.split()
    order = []

    def visit(name):
        if name in uses and name not in order:
            for it in uses[name]:
                visit(it)
            order.append(name)

    for name in uses:
        visit(name)
    return order


def lines(crate, part, ending):
    return sum(open(it, encoding="utf-8").read().count("\n") for it in glob.glob(f"{TOP}/crates/{crate}/{part}/**/*{ending}", recursive=True))


def tests(crate):
    return sum(len(re.findall(r"^\s*#\[test\]", open(it, encoding="utf-8").read(), re.M)) for it in glob.glob(f"{TOP}/crates/{crate}/src/**/*.rt", recursive=True))


def seconds(clone, crate):
    before = resource.getrusage(resource.RUSAGE_CHILDREN)
    words = ["rt", "check", "--jobs", "1"] + ["--test"] * (tests(crate) > 0)
    ran = subprocess.run(words, cwd=f"{clone}/crates/{crate}", stdout=subprocess.DEVNULL, stderr=subprocess.DEVNULL)
    after = resource.getrusage(resource.RUSAGE_CHILDREN)
    took = after.ru_utime + after.ru_stime - before.ru_utime - before.ru_stime
    return f"{took:.0f}" if ran.returncode == 0 else "not proved"


def times(path):
    """The processor seconds by crate of proofs, of tests and of edits."""
    proofs, tests, edits = (collections.Counter() for _ in range(3))
    for line in open(path, encoding="utf-8"):
        name, ends = re.search(r"--crate-name (\S+)", line), re.search(r" ([0-9.]+) ([0-9.]+) [0-9.]+ [0-9]+$", line)
        if name and ends:
            part = edits if "/rt-edit-" in line.split()[0] else tests if " --test" in line else proofs
            part[name[1]] += float(ends[1]) + float(ends[2])
    return proofs, tests, edits


def shown(seconds, number=0):
    return f"{seconds:.0f}" * (seconds >= 1) + f" ({number})" * (number > 0)


def print_row(name, row):
    code, specs, proofs, proved, tried, number, edited, edits = row
    print(f"| {name} | {code} / {specs} / {proofs} | {shown(proved)} | {shown(tried, number)} | {shown(edited, edits)} |")


def print_times(path, most):
    """The table with what a gate took: the crates that took most, the sum of the others, and that of all."""
    proofs, tried, edited = times(path)
    rows = {}
    for crate in crates():
        code = lines(crate, "src", ".rt"), lines(crate, "specs", ".antt"), lines(crate, "proofs", ".antt")
        edits = len(glob.glob(f"{TOP}/crates/{crate}/must-fail/*.edit"))
        rows[f"`{crate}`"] = *code, proofs[crate], tried[crate], tests(crate), edited[crate], edits
    order = sorted(rows, key=lambda crate: -(rows[crate][3] + rows[crate][4] + rows[crate][6]))
    print("| crate | lines of code / specs / proofs | proof, s | tests, s (number) | edits, s (number) |\n|---|---|---|---|---|")
    for crate in order[:most]:
        print_row(crate, rows[crate])
    if order[most:]:
        print_row("the others", [sum(column) for column in zip(*(rows[crate] for crate in order[most:]))])
    print_row("all", [sum(column) for column in zip(*rows.values())])


def main():
    if sys.argv[1:2] == ["--times"]:
        return print_times(sys.argv[2], int(sys.argv[3]) if sys.argv[3:] else 15)
    prove = sys.argv[1:] == ["--prove"]
    print("| crate | code | specs | proofs | seconds | tests | edits |\n|---|---|---|---|---|---|---|")
    with tempfile.TemporaryDirectory() as room:
        if prove:
            subprocess.run(["git", "clone", "-q", TOP, f"{room}/clone"], check=True)
        for crate in crates():
            took = seconds(f"{room}/clone", crate) if prove else ""
            edits = len(glob.glob(f"{TOP}/crates/{crate}/must-fail/*.edit"))
            print(f"| `{crate}` | {lines(crate, 'src', '.rt')} | {lines(crate, 'specs', '.antt')} | {lines(crate, 'proofs', '.antt')} | {took} | {tests(crate) or ''} | {edits or ''} |", flush=True)


main()
