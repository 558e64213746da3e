#!/usr/bin/env python3
"""Times `klog transform` on a large file beside `cat` and a program in Go that does the same by sarama's codec.

Not part of the build. On Debian, and Linux:

    apt-get install -y python3-kafka golang-go golang-github-shopify-sarama-dev
    /usr/bin/python3 tools/dev/transform_speed.py KLOG [MIB [ROUNDS [FOLDER]]]    # 1,024, 3 and /dev/shm if not given

Each round runs each program once, in turn, on a file of make_segment.py in FOLDER, which needs three times its size. A
row has the least processor seconds (user and system) and the least seconds of a program's rounds, the records a second
of processor time, and the most memory that it had, where the 12 MB of this script, which starts it, are the least that
is seen. Then klog's and Go's outputs are compared: the Go program keeps the batches as they came and klog fills them,
so their numbers of records must agree.
"""
import os
import shutil
import subprocess
import sys
import tempfile
import time

TOOLS = os.path.dirname(os.path.abspath(__file__))
SARAMA = "/usr/share/gocode/src/github.com/Shopify/sarama"
EXPORTED = """package sarama

func DecodeBatch(raw []byte) (*RecordBatch, error) {
	batch := &RecordBatch{}
	return batch, decode(raw, batch)
}

func EncodeBatch(batch *RecordBatch) ([]byte, error) { return encode(batch, nil) }
"""


def built_peer(folder):
    """Builds transform_peer.go over a copy of sarama that exports its codec; the program's name."""
    package, source = f"{folder}/go/src/github.com/Shopify/sarama", f"{folder}/go/src/transform_peer"
    shutil.copytree(SARAMA, package, symlinks=False)
    os.makedirs(source)
    shutil.copy(f"{TOOLS}/transform_peer.go", source)
    with open(f"{package}/exported.go", "w") as file:
        file.write(EXPORTED)
    ways = {**os.environ, "GO111MODULE": "off", "GOPATH": f"{folder}/go:/usr/share/gocode", "GOCACHE": f"{folder}/cache"}
    subprocess.run(["go", "build", "-o", f"{folder}/peer", "transform_peer"], check=True, env=ways, stderr=subprocess.DEVNULL)
    return f"{folder}/peer"


def timed(words, out):
    """Processor seconds, seconds and kilobytes of a program; its standard output goes to the file `out`."""
    begun = time.monotonic()
    with open(out, "wb") as file:
        process = subprocess.Popen(words, stdout=file, stderr=subprocess.DEVNULL)
        _, status, used = os.wait4(process.pid, 0)
    if status:
        sys.exit(f"{words}: status {status}")
    return used.ru_utime + used.ru_stime, time.monotonic() - begun, used.ru_maxrss


def remove(names):
    """Removes files, so that no program pays for those of the one before."""
    for name in names:
        if os.path.exists(name):
            os.remove(name)


def batches(name):
    """The number of batches and records in a file."""
    count = records = at = 0
    with open(name, "rb") as file:
        while head := file.read(61):
            count, records = count + 1, records + int.from_bytes(head[57:61], "big")
            at += 12 + int.from_bytes(head[8:12], "big")
            file.seek(at)
    return count, records


def main():
    if not 2 <= len(sys.argv) <= 5:
        sys.exit(__doc__)
    klog, given = os.path.abspath(sys.argv[1]), sys.argv[2:]
    mib, rounds = given[0] if given else "1024", int(given[1]) if len(given) > 1 else 3
    with tempfile.TemporaryDirectory(dir=given[2] if len(given) > 2 else "/dev/shm") as folder:
        segment, outs, programs = f"{folder}/segment", [f"{folder}/out{q}" for q in range(4)], f"{TOOLS}/../../examples"
        made = subprocess.run([sys.executable, f"{TOOLS}/make_segment.py", segment, mib], check=True, capture_output=True, text=True)
        print(made.stdout, end="", flush=True)
        peer, count = built_peer(folder), int(made.stdout.split()[-2])
        rows = {"cat": ["cat", segment],
                "klog transform, 1 output": [klog, "transform", f"{programs}/forward.bin", segment, outs[0]],
                "Go, 1 output": [peer, "forward", segment, outs[0]],
                "klog transform, 4 outputs by the value": [klog, "transform", f"{programs}/c/route_by_value.bin", segment, *outs],
                "Go, 4 outputs by the value": [peer, "value", segment, *outs],
                "klog transform, 4 outputs by the key": [klog, "transform", f"{programs}/c/route_by_hash.bin", segment, *outs],
                "Go, 4 outputs by the key": [peer, "key", segment, *outs]}
        times, found = {name: [] for name in rows}, {}
        for _ in range(rounds):
            for name, words in rows.items():
                remove(outs)
                times[name].append(timed(words, outs[0] if name == "cat" else "/dev/null"))
                found[name] = [batches(out) for out in (outs if "4" in name else outs[:1])]
        for name, turns in times.items():
            processor, seconds, kilobytes = min(t[0] for t in turns), min(t[1] for t in turns), max(t[2] for t in turns)
            print(f"{name}: {processor:.2f} s of processor, {seconds:.2f} s, {count / processor / 1e6:.2f} million records/s, "
                  f"{kilobytes} kB, batches and records {found[name]}", flush=True)
        for outputs in ("1 output", "4 outputs by the value", "4 outputs by the key"):
            ours, theirs = f"klog transform, {outputs}", f"Go, {outputs}"
            ratio = min(t[0] for t in times[theirs]) / min(t[0] for t in times[ours])
            if [row[1] for row in found[ours]] != [row[1] for row in found[theirs]]:
                sys.exit(f"{outputs}: {found[ours]}, {found[theirs]}")
            print(f"{outputs}: klog has {ratio:.2f} times the records a second of Go")


if __name__ == "__main__":
    main()
