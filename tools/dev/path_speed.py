#!/usr/bin/env python3
"""Times record batches in memory through programs beside a program in Go that does the same by sarama's codec.

Not part of the build. On Debian, after `rt run` in crates/bench_path:

    apt-get install -y golang-go golang-github-shopify-sarama-dev
    python3 tools/dev/path_speed.py [ROUNDS]    # 4 if not given

Each round runs `bench_path` and the Go program (transform_peer.go) in turn, on one core, on batches of 10,000 records of
64 bytes and a key. A row has the least time of the rounds in ns a record: from memory to the batches of the outputs, the
same from a reader that gives pieces, Go's from memory, and Go's time to klog's from memory.
"""
import os
import re
import subprocess
import sys
import tempfile

sys.dont_write_bytecode = True
from transform_speed import TOOLS, built_peer

TOP = os.path.dirname(os.path.dirname(TOOLS))
BENCH = f"{TOP}/crates/bench_path/out/bench_path"
PROGRAMS = [("forward.bin", "forward"), ("c/filter_first_byte.bin", "keep"), ("c/route_by_value.bin", "value"), ("c/route_by_hash.bin", "key")]
ROW = re.compile(r"  (\S+): ([\d.]+) ns a record, from a reader ([\d.]+)")


def klog_times():
    """Each image's two times in ns a record, of the first shape; the other shapes are not waited for."""
    words = [BENCH, "10", *(image for image, _ in PROGRAMS)]
    times = {}
    with subprocess.Popen(words, cwd=f"{TOP}/examples", stdout=subprocess.PIPE, text=True) as bench:
        for line in bench.stdout:
            if row := ROW.fullmatch(line.split(" (")[0].rstrip()):
                times[row[1]] = float(row[2]), float(row[3])
            if len(times) == len(PROGRAMS):
                bench.kill()
                return times
    sys.exit(f"{words}: no times")


def main():
    rounds = int(sys.argv[1]) if len(sys.argv) > 1 else 4
    memory, reader, go = {}, {}, {}
    with tempfile.TemporaryDirectory() as folder:
        peer = built_peer(folder)
        for _ in range(rounds):
            for image, (first, second) in klog_times().items():
                memory[image] = min(first, memory.get(image, first))
                reader[image] = min(second, reader.get(image, second))
            for image, kind in PROGRAMS:
                time = float(subprocess.run([peer, kind], check=True, capture_output=True, text=True).stdout)
                go[image] = min(time, go.get(image, time))
    for image, _ in PROGRAMS:
        print(f"{image}: {memory[image]} ns, from a reader {reader[image]}; Go {go[image]}: {go[image] / memory[image]:.2f}")


if __name__ == "__main__":
    main()
