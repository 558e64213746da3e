#!/usr/bin/env python3
"""Times the C library from C, Go and Python beside `klog transform` and a program in Go that does the same by itself.

Not part of the build. On Debian, and Linux, with a folder that tools/build_library.sh made:

    apt-get install -y python3-kafka golang-go golang-github-shopify-sarama-dev
    /usr/bin/python3 tools/dev/library_speed.py FOLDER KLOG [MIB [ROUNDS]]    # 64 and 5 if not given

A file of make_segment.py in /dev/shm has batches of 10,000 records, with values of 64 bytes. C, Go and Python transform
each batch by a call of its own and copy each output's batches; the others read and write files. A row has the most
records a second of processor time (user and system) of its rounds, in which the rows take turns: each record forwarded,
those kept whose value begins with A, and each routed to one of four by its key. The last line is of one record a call.
"""
import os
import shutil
import subprocess
import sys
import tempfile
import time

from transform_speed import TOOLS, built_peer, timed

EXAMPLES = f"{TOOLS}/../../examples"
LIBRARY = f"{EXAMPLES}/library"
PROGRAMS = {"forward": (f"{EXAMPLES}/forward.bin", 1), "keep half": (f"{EXAMPLES}/c/filter_first_byte.bin", 1),
            "route to four": (f"{EXAMPLES}/c/route_by_hash.bin", 4)}
SECONDS = "1.5"


def built(folder, made):
    """Builds library_speed in C and in Go; the words that each begins with."""
    words = ["-std=c99", "-D_POSIX_C_SOURCE=200809L", "-O2", f"-I{made}", f"{TOOLS}/library_speed.c"]
    subprocess.run([os.environ.get("CC", "cc"), *words, f"{made}/libklog.a", "-o", f"{folder}/speed"], check=True)
    files = [f"{folder}/{os.path.basename(name)}" for name in (f"{TOOLS}/library_speed.go", f"{LIBRARY}/go/engine.go")]
    shutil.copy(f"{TOOLS}/library_speed.go", folder)
    shutil.copy(f"{LIBRARY}/go/engine.go", folder)
    ways = {**os.environ, "GOCACHE": f"{folder}/cache", "GO111MODULE": "off", "CGO_CFLAGS": f"-I{made}",
            "CGO_LDFLAGS": f"{made}/libklog.a"}
    subprocess.run(["go", "build", "-o", f"{folder}/speed_go", *files], check=True, env=ways)
    return {"C": [f"{folder}/speed"], "Go": [f"{folder}/speed_go"],
            "Python": [sys.executable, os.path.abspath(__file__), "python", f"{made}/libklog.so"]}


def time_python(library, image, name, outputs, seconds):
    """What library_speed.c does, by klog_engine.py; prints the records a second."""
    sys.path.insert(0, LIBRARY)
    from klog_engine import Engine, Program
    with open(image, "rb") as code, open(name, "rb") as file:
        program, batches = Program(Engine(library), code.read()), []
        while front := file.read(12):
            batches.append(front + file.read(int.from_bytes(front[8:12], "big")))
    records, start = 0, time.process_time()
    while time.process_time() < start + float(seconds):
        for batch in batches:
            records += program.transform(batch, records, outputs=int(outputs)).records
    print(f"{records / (time.process_time() - start):.0f}")


def rate(words):
    return int(subprocess.run(words, check=True, capture_output=True, text=True).stdout)


def main():
    if not 3 <= len(sys.argv) <= 5:
        sys.exit(__doc__)
    made, klog, given = os.path.abspath(sys.argv[1]), os.path.abspath(sys.argv[2]), sys.argv[3:]
    mib, rounds = given[0] if given else "64", int(given[1]) if len(given) > 1 else 5
    with tempfile.TemporaryDirectory(dir="/dev/shm") as folder:
        segment, outs = f"{folder}/segment", [f"{folder}/out{q}" for q in range(4)]
        text = subprocess.run([sys.executable, f"{TOOLS}/make_segment.py", segment, mib, "64", "10000"], check=True,
                              capture_output=True, text=True).stdout
        print(text, end="", flush=True)
        count, words, peer, most = int(text.split()[-2]), built(folder, made), built_peer(folder), {}
        for _ in range(rounds):
            for kind, (image, outputs) in PROGRAMS.items():
                turns = {name: rate([*call, image, segment, str(outputs), SECONDS]) for name, call in words.items()}
                files = [segment, *outs[:outputs]]
                turns["klog transform"] = count / timed([klog, "transform", image, *files], "/dev/null")[0]
                turns["Go by sarama"] = count / timed([peer, kind.split()[0], *files], "/dev/null")[0]
                for name, found in turns.items():
                    most[kind, name] = max(found, most.get((kind, name), 0))
            one = rate([*words["C"], PROGRAMS["forward"][0], "one", "1", SECONDS])
            most["one record a call", "C"] = max(one, most.get(("one record a call", "C"), 0))
        for (kind, name), found in most.items():
            print(f"{kind}, {name}: {found / 1e6:.2f} million records/s, {1e9 / found:.0f} ns a record")


if __name__ == "__main__":
    if sys.argv[1:2] == ["python"]:
        time_python(*sys.argv[2:])
    else:
        main()
