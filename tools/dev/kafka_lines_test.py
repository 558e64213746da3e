#!/usr/bin/env python3
"""Tests examples/library/lines.py with kcat in front and behind, over librdkafka's mock cluster, and by itself.

Not part of the build. On Debian, with a libklog.so that tools/build_library.sh made:

    apt-get install -y kcat python3-confluent-kafka
    /usr/bin/python3 tools/dev/kafka_lines_test.py LIBRARY
"""
import json
import os
import re
import signal
import subprocess
import sys
import time

from mock_cluster import MockCluster

TOP = os.path.join(os.path.dirname(os.path.abspath(__file__)), "..", "..")
LINES, KEEP = f"{TOP}/examples/library/lines.py", f"{TOP}/examples/c/filter_first_byte.bin"  # keeps values with an A in front
ROUTE = f"{TOP}/examples/c/route_by_hash.bin"
KCAT_READS = 1024  # bytes that kcat wants of its input before it produces a line of them

# What goes in, with words of the call, what must come out, and what must be said of it.
CASES = [
    ([], KEEP, b"k\tA one\nA two\nk\tB no\n\tA no key\n", b"k\tA one\nA two\n\tA no key\n", ["lines 4, outputs 3"]),
    (["--json"], KEEP, b'{"key":"k","value":"A\\udc80 \xc3\xa4","headers":[["a","b"],["n",null]],"timestamp":5}\n',
     b'{"output": 0, "key": "k", "value": "A\\udc80 \\u00e4", "timestamp": 5, "headers": [["a", "b"], ["n", null]]}\n', []),
    (["--json"], KEEP, b'{"payload":"A","ts":7,"headers":["x","y"],"topic":"t","partition":70,"offset":9,"key":null}\n',
     b'{"output": 0, "key": null, "value": "A", "timestamp": 7, "headers": [["x", "y"]]}\n', []),
    (["--json"], KEEP, b'[]\nx\n{"value":5}\n{"headers":[["a"]]}\n{"timestamp":-1}\n{"key":"\\ud800"}\n', b"",
     ["line 1: it is no object", "line 2: it is no JSON", "line 3: the value is not a string", "line 4: headers are not",
      "line 5: the timestamp is not", "line 6: the key has half a surrogate pair", "faulty 6"]),
    (["--outputs", "4", "--only", "2"], ROUTE, b"a\t1\nb\t2\nc\t3\nd\t4\n", None, []),
    ([], KEEP, b"A" * 1048577 + b"\nA\n", b"A\n", ["line 1: a key or a value is too long", "faulty 1"]),
    ([], f"{TOP}/README.md", b"", b"", ["README.md: I"]),
]


def run(words, given, ways=None):
    return subprocess.run(words, input=given, capture_output=True, timeout=120, check=False, env=ways)


def by_hash(lines, output):
    """What examples/c/route_by_hash.c gives to an output."""
    found = b""
    for line in lines.splitlines(keepends=True):
        code = 0xCBF29CE484222325
        for byte in line.split(b"\t")[0][:16]:
            code = (code ^ byte) * 0x100000001B3 % 2 ** 64
        found += line if (code ^ code >> 32) % 4 == output else b""
    return found


def alone(library):
    for words, image, given, wanted, said in CASES:
        done = run([sys.executable, LINES, library, image, *words], given)
        wanted = by_hash(given, 2) if wanted is None else wanted
        told = done.stderr.decode()
        if done.stdout != wanted or any(text not in told for text in said) or "Traceback" in told:
            sys.exit(f"{words} {given[:100]!r}: {done.stdout!r}, not {wanted!r}; {told}")
    print(f"lines.py by itself: {len(CASES)} cases")


def with_kcat(library):
    cluster = MockCluster({"in": 1, "out": 1, "json": 1})
    lines = b"".join(b"key %d\t%c value %d\n" % (k, b"AB"[k % 2], k) for k in range(1000))
    ways = {**os.environ, "SERVERS": cluster.servers, "LINES": LINES, "LIBRARY": library, "IMAGE": KEEP, "PYTHON": sys.executable}
    run(["kcat", "-b", cluster.servers, "-t", "in", "-P", "-K", "\t"], lines)
    kept = b"".join(line for line in lines.splitlines(keepends=True) if b"\tA" in line)
    pipe = "kcat -q -b $SERVERS -t in -C -e -o beginning -f '%k\\t%s\\n' | $PYTHON $LINES $LIBRARY $IMAGE | " \
           "kcat -b $SERVERS -t out -P -K '\t'"
    run(["bash", "-ec", pipe], b"", ways)
    found = run(["kcat", "-q", "-b", cluster.servers, "-t", "out", "-C", "-e", "-f", "%k\\t%s\\n"], b"").stdout
    if found != kept:
        sys.exit(f"kcat: {len(found)} bytes came out, not {len(kept)}")
    pipe = "kcat -q -b $SERVERS -t in -C -e -o beginning -J | $PYTHON $LINES $LIBRARY $IMAGE --json"
    rows = [json.loads(row) for row in run(["bash", "-ec", pipe], b"", ways).stdout.splitlines()]
    if [b"%s\t%s\n" % (row["key"].encode(), row["value"].encode()) for row in rows] != kept.splitlines(keepends=True):
        sys.exit(f"kcat -J: {rows[:3]}")
    print(f"kcat in front and behind: {len(rows)} of 1000 records kept, by lines and by JSON")


def as_the_page_says(library):
    """The pipe of docs/guide/formats.md, over a topic that has records and gets more while the pipe runs."""
    with open(f"{TOP}/docs/guide/formats.md") as page:
        pipe = re.search(r"```\n(kcat -b HOST.*?)```", page.read(), re.S).group(1)
    cluster = MockCluster({"orders": 1, "routed": 1})
    for word, given in (("HOST:9092", cluster.servers), ("/tmp/klog/libklog.so", library), ("route.bin", KEEP)):
        pipe = pipe.replace(word, given)
    produce, wanted = ["kcat", "-b", cluster.servers, "-t", "orders", "-P", "-K", "\t"], b""
    with subprocess.Popen(["bash", "-c", pipe], cwd=TOP, start_new_session=True, stderr=subprocess.DEVNULL) as whole:
        try:
            for first in (0, 200):
                lines = b"".join(b"key %d\t%c value %d\n" % (k, b"AB"[k % 2], k) for k in range(first, first + 200))
                run(produce, lines)
                wanted += b"".join(line for line in lines.splitlines(keepends=True) if b"\tA" in line)
                wait_for_routed(cluster.servers, wanted)
        finally:
            os.killpg(whole.pid, signal.SIGKILL)
    print("the page's pipe: a topic's records, and those that came while it ran")


def wait_for_routed(servers, wanted):
    """Waits until a topic has these lines, but for those that wait in kcat for more of its input."""
    end = time.monotonic() + 120
    while True:
        found = run(["kcat", "-q", "-b", servers, "-t", "routed", "-C", "-e", "-f", "%k\\t%s\\n"], b"").stdout
        if not wanted.startswith(found) or time.monotonic() > end:
            sys.exit(f"the page's pipe: {found!r}, not {wanted!r}")
        if len(found) > len(wanted) - KCAT_READS:
            return
        time.sleep(0.5)


def main():
    if len(sys.argv) != 2:
        sys.exit(__doc__)
    library = os.path.abspath(sys.argv[1])
    alone(library)
    with_kcat(library)
    as_the_page_says(library)


if __name__ == "__main__":
    main()
