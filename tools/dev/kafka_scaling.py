#!/usr/bin/env python3
"""Measures members of examples/kafka against librdkafka's mock cluster (docs/guide/scaling.md).

Not part of the build. On Debian, and Linux, with a libklog.so that tools/build_library.sh made, and for `rates` and the
others with --member the member in C, which its Makefile made:

    apt-get install -y python3-kafka python3-confluent-kafka librdkafka-dev gcc
    /usr/bin/python3 tools/dev/kafka_scaling.py LIBRARY record                   # a run of a program in Python, by itself
    /usr/bin/python3 tools/dev/kafka_scaling.py LIBRARY --member MEMBER rates    # Python, C, and librdkafka alone
    /usr/bin/python3 tools/dev/kafka_scaling.py LIBRARY [--member MEMBER] members 1 2 4    # as many on one topic, in turn
    /usr/bin/python3 tools/dev/kafka_scaling.py LIBRARY [--member MEMBER] rest 1 100 1000  # of as many idle partitions
    /usr/bin/python3 tools/dev/kafka_scaling.py LIBRARY [--member MEMBER] shares           # one joins, leaves, dies

Without --member the member in Python is measured. `rates` has each form --turns times (2), in turn, and prints the best
turn of each, and the machine's load. One form is the member in C without klog, which forwards records by kafka_forward.c:
what it takes less is klog's share.

All but `shares` take the mock cluster as it is, without the transactions of mock_kafka.py: it answers a transaction's
requests and keeps nothing of them, which costs the members the same. The topic has 64 partitions, with --mebibytes (4) in
each, as the mock cluster keeps 5, and records with a value of 200 bytes and a key of 16, each forwarded to one output.
"""
import argparse
import os
import random
import re
import signal
import subprocess
import sys
import tempfile
import time

from confluent_kafka import Consumer, TopicPartition

from make_segment import batch_of, some_record
from mock_cluster import MockCluster
from mock_kafka import Front

TOP = os.path.join(os.path.dirname(os.path.abspath(__file__)), "..", "..")
PARTITIONS, BATCH = 64, 500
GIVEN = r"(?:\d+: )?in assigned \[\d.*"  # what a member says that got partitions
TICKS = os.sysconf("SC_CLK_TCK")


def words_of(given, servers, threads=1):
    """A member of a form, without its name."""
    words = [given.member, "--threads", str(threads)]
    if not given.member:
        words = [sys.executable, f"{TOP}/examples/kafka/transform_group.py", "--library", given.library]
    return [*words, "--servers", servers, "--group", "g", "--image", f"{TOP}/examples/forward.bin", "--input", "in",
            "--outputs", "out"]


class Group:
    """Members in processes of their own. With a name each is called by it."""

    def __init__(self, words, folder, is_named=True):
        self.words, self.folder, self.is_named, self.logs, self.members = words, folder, is_named, [], []

    def start(self):
        name = f"m{len(self.members)}"
        self.logs.append(f"{self.folder}/{name}.log")
        with open(self.logs[-1], "w") as log:
            words = [*self.words, "--name", name] if self.is_named else self.words
            self.members.append(subprocess.Popen(words, stdout=log, stderr=log))

    def __enter__(self):
        return self

    def __exit__(self, *_):
        for member in self.members:
            member.kill()
            member.wait()

    def is_alive(self):
        """Whether all members run; else the last words of one end all."""
        for member, log in zip(self.members, self.logs):
            if member.poll() is not None:
                with open(log) as text:
                    sys.exit(f"a member ended with status {member.returncode}: {text.read()[-2000:]}")
        return True

    def said(self, number, pattern):
        """When a member said what, of the lines that fit a pattern."""
        with open(self.logs[number]) as log:
            return [(float(time_), text) for time_, text in re.findall(rf"^(\d+\.\d+) ({pattern})$", log.read(), re.M)]

    def processor(self, number):
        """The processor seconds of a member."""
        with open(f"/proc/{self.members[number].pid}/stat") as stat:
            fields = stat.read().rsplit(")", 1)[1].split()
        return (int(fields[11]) + int(fields[12])) / TICKS

    def kilobytes(self, number):
        with open(f"/proc/{self.members[number].pid}/status") as status:
            return int(re.search(r"VmRSS:\s+(\d+)", status.read()).group(1))


def waited(test, seconds=1800):
    end = time.monotonic() + seconds
    while not test():
        if time.monotonic() > end:
            sys.exit("nothing happens")
        time.sleep(0.02)


def a_record(rng):
    """A record. Its headers have no null values: the member in Python breaks off after some thousands of them."""
    key, value, headers = some_record(rng, 200)
    return 1700000000000, key, value, [(name, text or b"") for name, text in headers]


def fill(cluster, mebibytes):
    """Fills each partition of the topic `in`; how many records it has in all."""
    rng, count = random.Random(1), 0
    batches = [batch_of([a_record(rng) for _ in range(BATCH)]) for _ in range(8)]
    for partition in range(PARTITIONS):
        size = 0
        while size + len(batches[0]) < mebibytes << 20:
            batch = batches[count // BATCH % len(batches)]
            cluster.append("in", partition, batch)
            size, count = size + len(batch), count + BATCH
    return count


def written(reader):
    return sum(reader.get_watermark_offsets(TopicPartition("out", p), 10)[1] for p in range(PARTITIONS))


def timed(words_for, number, threads=1, is_named=True, mebibytes=4):
    """The records, the seconds and the processor seconds that members take for a topic of so much in each partition."""
    with tempfile.TemporaryDirectory() as folder:
        cluster = MockCluster({"in": PARTITIONS, "out": PARTITIONS})
        count, reader = fill(cluster, mebibytes), Consumer({"bootstrap.servers": cluster.servers, "group.id": "reader"})
        with Group(words_for(cluster.servers), folder, is_named) as group:
            for _ in range(number):
                group.start()
            waited(lambda: all(len(group.said(k, GIVEN)) >= threads for k in range(number)))
            before, begun, done = sum(group.processor(k) for k in range(number)), time.monotonic(), written(reader)
            waited(lambda: group.is_alive() and written(reader) >= count)
            took = count - done, time.monotonic() - begun, sum(group.processor(k) for k in range(number)) - before
        reader.close()
        cluster.close()
    return took


def members(given, number):
    count, seconds, processor = timed(lambda servers: words_of(given, servers), number, mebibytes=given.mebibytes)
    print(f"{number} members: {count} records in {seconds:.1f} s, {count / seconds:,.0f} records/s; "
          f"{count / processor:,.0f} records a second of processor time", flush=True)


def built_alone(folder):
    """Builds kafka_alone.c; the program's name."""
    source, program = os.path.join(os.path.dirname(os.path.abspath(__file__)), "kafka_alone.c"), f"{folder}/kafka_alone"
    subprocess.run(["cc", "-std=c11", "-D_POSIX_C_SOURCE=200809L", "-O2", source, "-lrdkafka", "-o", program], check=True)
    return program


def built_without(folder):
    """Builds the member in C with kafka_forward.c in place of klog's library; its name."""
    source, made = os.path.join(os.path.dirname(os.path.abspath(__file__)), "kafka_forward.c"), f"{folder}/forward.o"
    subprocess.run(["cc", "-std=c11", "-O2", "-pthread", f"-I{TOP}/include", "-c", source, "-o", made], check=True)
    subprocess.run(["ar", "rcs", f"{folder}/libklog.a", made], check=True)
    with open(f"{folder}/klog.pc", "w") as file:
        file.write(f"Name: klog\nDescription: none\nVersion: 0\nCflags: -I{os.path.abspath(TOP)}/include\n")
    subprocess.run(["make", "-s", "-C", f"{TOP}/examples/kafka", f"KLOG={folder}", f"OUT={folder}"], check=True)
    return f"{folder}/member"


def rates(given):
    """All forms in one run, each some times."""
    load = os.getloadavg()[0]
    python = argparse.Namespace(library=given.library, member=None)
    with tempfile.TemporaryDirectory() as folder:
        alone, without = built_alone(folder), argparse.Namespace(member=built_without(folder))
        forms = {"Python": (lambda servers: words_of(python, servers),),
                 "C, 1 thread": (lambda servers: words_of(given, servers),),
                 "C, 1 thread, without klog's calls": (lambda servers: words_of(without, servers),),
                 "C, 4 threads": (lambda servers: words_of(given, servers, 4), 4),
                 "librdkafka alone": (lambda servers: [alone, servers, "g", "in", "out", "50000"], 1, False)}
        best = {}
        for name, (words_for, *more) in [*forms.items()] * given.turns:
            turn = timed(words_for, 1, *more, mebibytes=given.mebibytes)
            best[name] = min(best.get(name, turn), turn, key=lambda it: it[2] / it[0])
    for name, (count, seconds, processor) in best.items():
        print(f"{name}: {count / processor:,.0f} records a second of processor time, {processor / count * 1e6:.2f} us a record; "
              f"{count / seconds:,.0f} records a second by the clock", flush=True)
    print(f"the machine's load: {load:.0f} before, {os.getloadavg()[0]:.0f} after, {os.cpu_count()} processors", flush=True)


def rest(given, partitions):
    with tempfile.TemporaryDirectory() as folder:
        cluster = MockCluster({"in": partitions, "out": partitions})
        with Group(words_of(given, cluster.servers), folder) as group:
            group.start()
            waited(lambda: group.said(0, GIVEN))
            time.sleep(5)
            before, begun = group.processor(0), time.monotonic()
            time.sleep(20)
            share = (group.processor(0) - before) / (time.monotonic() - begun)
            kilobytes = group.kilobytes(0)
        print(f"{partitions} partitions at rest: {100 * share:.2f} in 100 of a core, {kilobytes} kB", flush=True)


def shares(given):
    """A member joins another, leaves, joins again, and dies: when the partitions are shared anew."""
    ends = {"leaves (SIGTERM)": signal.SIGTERM, "dies (SIGKILL), session.timeout.ms=6000": signal.SIGKILL}
    with tempfile.TemporaryDirectory() as folder:
        cluster = Front(MockCluster({"in": PARTITIONS, "out": PARTITIONS}))
        with Group([*words_of(given, cluster.servers), "--set-consumer", "session.timeout.ms=6000"], folder) as group:
            group.start()
            waited(lambda: group.said(0, GIVEN))
            for what, number in ends.items():
                group.start()
                tell("joins", group, [0, len(group.members) - 1])
                time.sleep(10)
                group.members[-1].send_signal(number)
                tell(what, group, [0])


def tell(what, group, numbers):
    """How long it takes from now on until these members have partitions anew."""
    since = time.time()
    waited(lambda: all(any(said[0] > since for said in group.said(k, GIVEN)) for k in numbers))
    print(f"a member {what}: {max(group.said(k, GIVEN)[-1][0] for k in numbers) - since:.1f} s later all is shared anew", flush=True)


def record(given):
    sys.path.insert(0, f"{TOP}/examples/library")
    from klog_engine import Engine, Program
    for name in ("forward.bin", "c/route_by_hash.bin", "c/filter_first_byte.bin"):
        with open(f"{TOP}/examples/{name}", "rb") as file, Program(Engine(given.library), file.read()) as program:
            turns = []
            for _ in range(20):
                begun = time.process_time()
                for offset in range(10000):
                    program.run(b"customer 0000123", b"B" * 200, offset, 1700000000000, 1, 4)
                turns.append(time.process_time() - begun)
            print(f"{name}: {min(turns) * 100:.2f} us a record", flush=True)


def main():
    tasks = {"record": record, "rates": rates, "members": members, "rest": rest, "shares": shares}
    words = argparse.ArgumentParser(description=__doc__, formatter_class=argparse.RawDescriptionHelpFormatter)
    words.add_argument("library", type=os.path.abspath)
    words.add_argument("--member", type=os.path.abspath)
    words.add_argument("--mebibytes", type=int, default=4, choices=(1, 2, 3, 4))
    words.add_argument("--turns", type=int, default=2)
    words.add_argument("task", choices=tasks)
    words.add_argument("numbers", nargs="*", type=int)
    given = words.parse_args()
    if given.task == "rates" and not given.member:
        words.error("rates needs --member")
    for numbers in [[number] for number in given.numbers] or [[]]:
        tasks[given.task](given, *numbers)


if __name__ == "__main__":
    main()
