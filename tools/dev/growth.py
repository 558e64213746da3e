#!/usr/bin/env python3
"""Runs klog on scripts and programs of growing size, and prints a table of times and of the most memory.

Not part of the build. From the top of the repository:

    tools/dev/growth.py KLOG [WORD]

Each row is a call on a script or a program of one kind in two sizes, the second ten times the first or as large as klog takes.
The columns are the processor's seconds and the most memory of each, of which Python takes 15 MB before the call begins, and the
time of the second by that of the first: about ten where the time grows with the work. With a word only the rows run whose names have it. It ends with status 1 where a call ends otherwise
than it must, or where the time grows to more than 30 times. Wants Linux and 8 GB of memory.
"""
import os
import subprocess
import sys
import tempfile

FORWARD = "b70100000000000085000000030000009500000000000000"


def loads(count):
    """The same name, again and again."""
    yield "partitions 1 1 8\n"
    for _ in range(count):
        yield f"load f hex:{FORWARD}\n"


def puts(count):
    """Records of nine bytes, over as many logs as they fill."""
    yield f"partitions {-(-count // 65536)} 1 65536\n"
    for n in range(count):
        yield f"put {n // 65536} 1000 6b {n % 2**64:016x}\n"


def work(count):
    """A deployment to each log, and records, and workers that forward them."""
    inputs = -(-count // 65535)
    yield f"partitions {inputs} 1 65536\n"
    yield f"load f hex:{FORWARD}\n"
    for i in range(inputs):
        yield f"deploy {i} f\n"
    for n in range(count):
        yield f"put {n // 65535} 1000 6b {n % 2**64:016x}\n"
    yield "go\n"


def reports(count):
    """The same, and nine more reports of the same rows."""
    yield from work(count)
    for _ in range(9):
        yield "go\n"


def line(count):
    """One line of so many bytes, which is no command."""
    yield "partitions 1 1 8\n"
    yield "put 0 1000 - " + "61" * (count // 2) + "\n"


def comment(count):
    """One comment of so many bytes."""
    yield "partitions 1 1 8\n#" + "x" * count + "\n"


def corner(count):
    """All partitions that there may be, with so many cells, and a record in the last log."""
    yield f"partitions 64 64 {count}\nload f hex:{FORWARD}\ndeploy 63 f\nput 63 1000 6b 76\ngo\n"


def unknown_place(count):
    """Loads of a stack's byte at a place that is not known, and a return of a register that is not set."""
    yield from (f"st64 [r10-{8 * k}], 0\n" for k in range(1, 65))
    yield "ld16 r7, [r10-8]\nand64 r7, 511\nmov64 r8, r10\nadd64 r8, -512\nadd64 r8, r7\n"
    yield from ("ld8 r0, [r8+0]\n" for _ in range(count - 71))
    yield "mov64 r0, r9\nexit\n"


def one_path(count):
    yield "mov64 r0, 0\n"
    yield from ("add64 r0, 1\n" for _ in range(count - 3))
    yield "mov64 r0, 0\nexit\n"


def branches(count):
    """Half of it branches, and a return of a register that is not set."""
    yield "mov64 r0, 0\n"
    yield from ("jeq64 r5, 1, +1\nadd64 r0, 1\n" for _ in range(count // 2 - 2))
    yield "mov64 r0, r9\nexit\n"


SCRIPTS = [
    ("loads of one name", loads, 10_000, 100_000, 0, ""),
    ("puts of a record", puts, 100_000, 1_000_000, 0, ""),
    ("puts and their rows", work, 100_000, 1_000_000, 0, ""),
    ("one report of rows", work, 6_000, 60_000, 0, ""),
    ("ten reports of rows", reports, 6_000, 60_000, 0, ""),
    ("a value in one line, bytes", line, 10_000_000, 100_000_000, 1, "line 2: S3 Range\n"),
    ("a comment in one line, bytes", comment, 10_000_000, 100_000_000, 0, ""),
    ("64 x 64 partitions, cells", corner, 6_554, 65_536, 0, ""),
]
# The text of a program, and whether it is refused.
PROGRAMS = [("loads from a place that is not known", unknown_place, True), ("one path", one_path, False),
            ("branches", branches, True)]
SLOTS = (1_600, 16_000)


def measured(words):
    """Status, standard error, the processor's seconds and the most memory in MB of a call."""
    out = open(os.devnull, "wb")
    with tempfile.TemporaryFile() as err, out:
        run = subprocess.Popen(words, stdout=out, stderr=err)
        _, status, usage = os.wait4(run.pid, 0)
        err.seek(0)
        return os.waitstatus_to_exitcode(status), err.read().decode(), usage.ru_utime + usage.ru_stime, usage.ru_maxrss / 1000


def row(name, call_of, sizes, want, error):
    """Prints a row of a call in both sizes; whether all was as it must be. `error` begins standard error."""
    cells, times, right = [], [], True
    for size in sizes:
        status, said, seconds, memory = measured(call_of(size))
        if status != want or not said.startswith(error) or (not error and said):
            print(f"{name}, {size}: status {status}, {said!r}")
            right = False
        times.append(seconds)
        cells += [f"{size:,}", f"{seconds:.3f} s", f"{memory:,.0f} MB"]
    ratio = times[1] / max(times[0], 0.001)
    print("| " + " | ".join([name, *cells, f"{ratio:.1f}"]) + " |", flush=True)
    return right and ratio < 30


def written(name, lines):
    with open(name, "w") as file:
        file.writelines(lines)
    return name


def rows(klog, folder, word):
    """Runs the rows whose names have a word; whether each was as it must be."""
    text, image = f"{folder}/text", f"{folder}/image"
    for name, lines, small, large, want, error in SCRIPTS:
        if word in name:
            yield row(name, lambda size: [klog, "run", written(text, lines(size))], (small, large), want, error)
    for name, lines, is_refused in PROGRAMS:
        calls = {f"asm: {name}": (lambda size: [klog, "asm", written(text, lines(size)), image], False)}
        for call, shows in (("check", is_refused), ("dis", False), ("explain", is_refused)):
            calls[f"{call}: {name}"] = (lambda size, call=call: [klog, call, f"{image}{size}"], shows)
        for size in SLOTS:
            subprocess.run([klog, "asm", written(text, lines(size)), f"{image}{size}"], check=True)
        for of, (call_of, shows) in calls.items():
            if word in of:
                yield row(of, call_of, SLOTS, int(shows), "V4 Unset at " if shows else "")


def main(words):
    if not 1 <= len(words) <= 2 or words[0].startswith("-"):
        sys.exit(__doc__)
    klog, word = os.path.abspath(words[0]), words[1] if len(words) > 1 else ""
    with tempfile.TemporaryDirectory() as folder:
        ends = list(rows(klog, folder, word))
    return int(not ends or not all(ends))


if __name__ == "__main__":
    sys.exit(main(sys.argv[1:]))
