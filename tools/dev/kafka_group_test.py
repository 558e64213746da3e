#!/usr/bin/env python3
"""Kills members of examples/kafka in their transactions: each output must be there once, in order.

Not part of the build. On Debian, with a libklog.so that tools/build_library.sh made, and for the member in C with what
its Makefile made:

    apt-get install -y python3-confluent-kafka
    /usr/bin/python3 tools/dev/kafka_group_test.py LIBRARY [--member MEMBER] [--runs N] [--first SEED] [--records N]

Without MEMBER the member in Python is tested; there is 1 run of 100,000 records if not said otherwise. MEMBER has one
thread in runs with an odd seed and two in the others.

The cluster is librdkafka's mock cluster behind the front of mock_kafka.py, which says what it adds. Two members share a
topic of four partitions. One is killed (SIGKILL) and started again at each of four moments of a transaction: its first
records are written; its offsets are sent; its commit is asked and not done; its commit is done and not answered. The
other is stopped (SIGSTOP) for longer than the group waits, so that its partitions are given away meanwhile, before and
after it sent its offsets; and once its offsets are refused with nothing else changed. On the way the program's file is
replaced by one that is refused, and then by another program, which rejects short values. A member that ends by itself, as
by a fault of its client, is started again, and while the refused file stands gets the first one. Each record has a
header, which its outputs have too. For the member in C every tenth record is beyond klog's limits, so that it becomes a
dead letter, and so do those that the second program rejects.

The outputs and the dead letters are read by a consumer of committed records, and compared, partition by partition, with
what plain Python makes of the records, by the programs that the members said and the offsets from which on. A run takes
some two minutes, most of them waiting.
"""
import argparse
import os
import random
import re
import signal
import subprocess
import sys
import tempfile
import threading
import time

from confluent_kafka import OFFSET_BEGINNING, Consumer, KafkaError, Producer, TopicPartition

from mock_cluster import MockCluster
from mock_kafka import Front

TOP = os.path.join(os.path.dirname(os.path.abspath(__file__)), "..", "..")
PARTITIONS, OUTPUTS, DEAD = 4, ["out0", "out1", "out2", "out3"], "dead"
SESSION, PAUSE, LIMIT = 10, 20, 300  # seconds: the group waits for a member; it is stopped; all wait for anything

# Who, the moment of a transaction (Front), and the signal that is sent then; with none, the offsets are refused.
PLAN = [("a", "produced", signal.SIGKILL), ("b", "produced", signal.SIGSTOP), ("a", "offsets sent", signal.SIGKILL),
        ("b", "offsets sent", signal.SIGSTOP), ("b", "offsets asked", None), ("a", "commit asked", signal.SIGKILL),
        ("a", "commit done", signal.SIGKILL)]


def image(name):
    with open(f"{TOP}/examples/c/{name}.bin", "rb") as file:
        return file.read()


def route_by_hash(key, value):
    code = 0xCBF29CE484222325
    for byte in key[:16]:
        code = (code ^ byte) * 0x100000001B3 % 2 ** 64
    return [((code ^ code >> 32) % 4, key, value)]


def drop_short(_, value):
    """Of examples/drop_short.klog: short values are rejected with code 1."""
    return [(0, _, value)] if len(value) >= 8 else None


REFUSED = bytes(8)
DROP_SHORT = bytes.fromhex("a502030008000000b70100000000000085000000030000009500000000000000b7000000010000009500000000000000")


def poisoned(record, kind):
    """A record that klog can't take, and why. (confluent-kafka 1.7 breaks off after many headers with a null value.)"""
    key, value, headers = record
    if kind == 0:
        return (b"k" * 4097, value, headers), "a key or a value is too long"
    if kind == 1:
        return (key, value, [*headers, ("long", b"v" * 4097)]), "header 1: a key or a value is too long"
    if kind < 6:
        return (key, value, [*headers, ("n" * 256, b"")]), "header 1: a key or a value is too long"
    return (key, value, [*headers, *[("h", b"")] * 16]), "more than 16 headers"


def dead_letter(record, partition, offset, why):
    key, value, headers = record
    added = ("topic", b"in"), ("partition", b"%d" % partition), ("offset", b"%d" % offset), ("reason", why.encode())
    return key, value, [*headers, *((f"klog.{name}", text) for name, text in added)]


class Member:
    """A member's process, which is started again when it has ended."""

    def __init__(self, name, words, log):
        self.name, self.words, self.log = name, words, log
        self.start()

    def start(self):
        with open(self.log, "a") as log:
            self.begun = log.tell()
            self.process = subprocess.Popen(self.words, stdout=log, stderr=log)

    def text(self):
        with open(self.log) as log:
            return log.read()

    def partitions(self):
        """The partitions that its threads were given last, as it says; none before."""
        said = re.findall(r"^\S+ (?:(\d+): )?in (assigned|revoked) \[(.*)\]$", self.text()[self.begun:], re.M)
        last = {thread: places if what == "assigned" else "" for thread, what, places in said}
        return "".join(last.values()) if self.process.poll() is None else ""


class Run:
    def __init__(self, library, program, count, seed, folder):
        self.rng, self.count, self.folder, self.is_strict = random.Random(seed), count, folder, program is None
        self.reasons = [{} for _ in range(PARTITIONS)]  # why a record is a dead letter whatever the program, by its offset
        self.records = [[self.record(p, n) for n in range(count // PARTITIONS)] for p in range(PARTITIONS)]
        self.front = Front(MockCluster({name: PARTITIONS for name in ("in", DEAD, *OUTPUTS)}), self.moment)
        self.lock = threading.Lock()
        self.image, self.step, self.number, self.is_over = f"{folder}/image", None, 0, threading.Event()
        self.ended = 0
        self.replace(image("route_by_hash"))
        consumer = [f"session.timeout.ms={SESSION * 1000}", "heartbeat.interval.ms=500", "fetch.wait.max.ms=50"]
        words = [sys.executable, f"{TOP}/examples/kafka/transform_group.py", "--library", library]
        if program:
            words = [program, "--threads", str(2 - seed % 2), "--dead", DEAD, "--dead-code", "1"]
        words = [*words, "--servers", self.front.servers, "--group", "g", "--image", self.image, "--input", "in",
                 "--outputs", *OUTPUTS, "--records", "500", "--seconds", "0.1", "--set-producer", "linger.ms=0",
                 *(word for setting in consumer for word in ("--set-consumer", setting))]
        self.members = {name: Member(name, [*words, "--name", name], f"{folder}/{name}.log") for name in "ab"}

    def record(self, partition, number):
        value = b"a value of its own" if number % 20 != 7 else b"short"
        record = b"key %d" % self.rng.randrange(1000), value, [("of", b"%d %d" % (partition, number))]
        if self.is_strict or number % 10 != 3:
            return record
        record, self.reasons[partition][number] = poisoned(record, number // 10 % 10)
        return record

    def replace(self, code):
        with open(self.image + ".new", "wb") as file:
            file.write(code)
        os.replace(self.image + ".new", self.image)

    def moment(self, name, word):
        """Is called by the front at each moment of a transaction, before it answers."""
        owner = name.split("-")[1]
        with self.lock:
            step, member = self.step, self.members[owner]
            if step is None or self.is_over.is_set() or (owner, word) != step[:2]:
                return None
            self.number -= 1
            if self.number > 0:
                return None
            if step[2]:
                os.kill(member.process.pid, step[2])
            if step[2] == signal.SIGKILL:
                member.process.wait()
            self.is_over.set()
            return step[2] is None

    def feed(self, producer, first, last):
        """Sends a part of the records, slowly until the step's moment has come."""
        for start in range(first, last, 250):
            for partition, records in enumerate(self.records):
                for key, value, headers in records[start:min(start + 250, last)]:
                    producer.produce("in", value, key, partition, timestamp=1700000000000, headers=headers)
            producer.flush()
            if not self.is_over.is_set():
                time.sleep(0.1)

    def go(self):
        producer = Producer({"bootstrap.servers": self.front.servers, "linger.ms": 5})
        fed, each = 0, self.count // PARTITIONS
        for place, step in enumerate(PLAN):
            self.await_(lambda: all(member.partitions() for member in self.members.values()), "members")
            if place == 3:
                self.replace(REFUSED)
            if place == 4:
                self.replace(DROP_SHORT)
            self.number, self.step = self.rng.randrange(1, 6), step
            last = each * (place + 1) // len(PLAN)
            self.feed(producer, fed, last)
            fed = last
            self.await_(self.is_over.is_set, f"{step[0]} {step[1]}")
            self.mend(self.members[step[0]], step[2])
            self.step = None
            self.is_over.clear()
        wanted = {("g", "in", p): each for p in range(PARTITIONS)}
        self.await_(lambda: self.front.committed == wanted, "committed offsets")
        for member in self.members.values():
            member.process.terminate()
        for member in self.members.values():
            if member.process.wait(30):
                self.fail(f"{member.name} ended with status {member.process.returncode}")

    def mend(self, member, number):
        if number == signal.SIGSTOP:
            time.sleep(PAUSE)
            member.process.send_signal(signal.SIGCONT)
        elif number == signal.SIGKILL:
            time.sleep(self.rng.uniform(0, 2))
            member.start()

    def restart(self, member):
        """Starts a member that ended by itself, as a supervisor does. To start, it needs a program that is accepted."""
        with open(self.image, "rb") as file:
            if file.read() == REFUSED:
                self.replace(image("route_by_hash"))
        self.ended += 1
        member.start()

    def await_(self, test, what):
        end = time.monotonic() + LIMIT
        while not test():
            time.sleep(0.05)
            for member in self.members.values():
                if member.process.poll() is not None and not self.is_over.is_set():
                    self.restart(member)
            if time.monotonic() > end:
                self.fail(f"no {what}")

    def fail(self, what):
        for member in self.members.values():
            print(f"--- {member.name}", member.text(), sep="\n")
        sys.exit(f"{what}; {self.front.committed} {dict(self.front.ends)}")

    def expected(self):
        """The outputs by output topic and partition, by the programs that the members said. A later word replaces."""
        said = [line for member in self.members.values() for line in member.text().splitlines()]
        said = sorted((float(line.split()[0]), line) for line in said if " on: program " in line)
        programs = [[None] * len(records) for records in self.records]
        for _, line in said:
            partition, offset, digest = re.search(r"in (\d+) from offset (\d+) on: program (\S+)$", line).groups()
            programs[int(partition)][int(offset):] = [digest] * (len(programs[int(partition)]) - int(offset))
        names = list(dict.fromkeys(line.split()[-1] for _, line in said))
        if len(names) != 2:
            self.fail(f"programs {names}")
        forms = dict(zip(names, (route_by_hash, drop_short)))
        wanted = {(name, p): [] for name in (*OUTPUTS, DEAD) for p in range(PARTITIONS)}
        for p, records in enumerate(self.records):
            for offset, record in enumerate(records):
                self.expect(wanted, p, offset, record, forms[programs[p][offset]])
        self.switches = [programs[p].index(names[1]) for p in range(PARTITIONS)]
        return wanted

    def expect(self, wanted, partition, offset, record, form):
        key, value, headers = record
        why = self.reasons[partition].get(offset)
        rows = None if why else form(key, value)
        if rows is not None:
            for output, *row in rows:
                wanted[OUTPUTS[output], partition].append((*row, headers))
        elif not self.is_strict:
            wanted[DEAD, partition].append(dead_letter(record, partition, offset, why or "rejected with code 1"))

    def read(self, level):
        consumer = Consumer({"bootstrap.servers": self.front.servers, "group.id": level, "isolation.level": level,
                             "enable.partition.eof": True, "enable.auto.commit": False, "fetch.wait.max.ms": 50})
        found = {(name, p): [] for name in (*OUTPUTS, DEAD) for p in range(PARTITIONS)}
        consumer.assign([TopicPartition(name, p, OFFSET_BEGINNING) for name, p in found])
        unread = set(found)
        while unread:
            for message in consumer.consume(10000, 0.2):
                place = message.topic(), message.partition()
                if message.error() and message.error().code() == KafkaError._PARTITION_EOF:
                    unread.discard(place)
                elif message.error():
                    self.fail(message.error())
                else:
                    found[place].append((message.key(), message.value(), message.headers()))
        consumer.close()
        return found

    def compare(self):
        wanted, found = self.expected(), self.read("read_committed")
        for place, rows in wanted.items():
            if found[place] != rows:
                at = next((k for k, (x, y) in enumerate(zip(rows, found[place])) if x != y), min(len(rows), len(found[place])))
                self.fail(f"{place}: {len(found[place])} outputs, not {len(rows)}; the first that differs is {at}")
        written = sum(map(len, self.read("read_uncommitted").values()))
        dead = sum(len(wanted[DEAD, p]) for p in range(PARTITIONS))
        return sum(map(len, wanted.values())) - dead, dead, written


def tell(seed, seconds, run, outputs, dead, written):
    refused = sum("refused: " in member.text() for member in run.members.values())
    print(f"run {seed}, {seconds:.0f} s: {run.count} records, {outputs} outputs and {dead} dead letters, each once and in "
          f"order; {written} written; " + ", ".join(f"{what} {number}" for what, number in sorted(run.front.ends.items()))
          + f"; new program from offsets {run.switches}, refused by {refused} members; {run.ended} ended by themselves", flush=True)


def main():
    words = argparse.ArgumentParser(description=__doc__, formatter_class=argparse.RawDescriptionHelpFormatter)
    words.add_argument("library")
    words.add_argument("--member")
    for word, number in (("--runs", 1), ("--first", 1), ("--records", 100000)):
        words.add_argument(word, type=int, default=number)
    given = words.parse_args()
    member = given.member and os.path.abspath(given.member)
    for seed in range(given.first, given.first + given.runs):
        begun = time.monotonic()
        with tempfile.TemporaryDirectory() as folder:
            run = Run(os.path.abspath(given.library), member, given.records, seed, folder)
            try:
                run.go()
                compared = run.compare()
            finally:
                for each in run.members.values():
                    each.process.kill()
            tell(seed, time.monotonic() - begun, run, *compared)


if __name__ == "__main__":
    main()
