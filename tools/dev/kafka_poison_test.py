#!/usr/bin/env python3
"""Gives the member in C records that it can't take, every tenth one, and reads what becomes of them.

Not part of the build. On Debian, with the member that the Makefile of examples/kafka made:

    apt-get install -y python3-kafka python3-confluent-kafka
    /usr/bin/python3 tools/dev/kafka_poison_test.py MEMBER

There is one of each kind: a key, a value, headers, a header's key and a header's value beyond klog's limits, a header's
key that is no UTF-8, no timestamp, an output that is longer than message.max.bytes, and a record that the program
rejects. With --dead all are in the topic of dead letters; without it all but the rejected are skipped; with --strict the
member ends at the first. The metrics of the first two are read, also the lag of a partition that has no records, and a
program that is none is refused. The program comes in a program file of helper table 3, and the records between have null
and empty keys, headers, and times that fall.
"""
import os
import re
import struct
import subprocess
import sys
import tempfile
import time

from confluent_kafka import OFFSET_BEGINNING, Consumer, KafkaError, TopicPartition

from kafka_group_test import DROP_SHORT
from make_segment import batch_of
from mock_cluster import MockCluster, crc32c
from mock_kafka import Front
from program_files import written

TIME, LONGEST = 1700000000000, 1100000
GOOD = [(TIME + 37 * k % 90, [b"key %d" % k, None, b""][k % 3], b"a value, %d" % k, [("of", b"%d" % k), ("none", None)][:k % 4])
        for k in range(90)]

# A record of each kind, and why the member can't take it. The program forwards values of 8 bytes and more.
KINDS = [
    ((TIME, b"k" * 4097, b"a long key", []), "a key or a value is too long"),
    ((TIME, b"key", b"v" * 1048577, []), "a key or a value is too long"),
    ((TIME, b"key", b"many headers", [("h", b"%d" % k) for k in range(17)]), "more than 16 headers"),
    ((TIME, b"key", b"a header's long key", [("n" * 256, b"")]), "header 0: a key or a value is too long"),
    ((TIME, b"key", b"a header's long value", [("a", b""), ("b", b"v" * 4097)]), "header 1: a key or a value is too long"),
    ((-1, b"key", b"no timestamp", []), "no timestamp"),
    ((TIME, b"key", b"v" * 1048576, [("h%d" % k, b"v" * 4096) for k in range(16)]), "an output has "),
    ((TIME, b"key", b"short", []), "rejected with code 1"),
    ((TIME, b"key", b"no UTF-8", [("\x7f\x7f", b"")]), "header 0: "),
]


def spoilt(batch):
    """A batch in which a header's key is no UTF-8."""
    raw = bytearray(batch.replace(b"\x7f\x7f", b"\xff\xff"))
    struct.pack_into(">I", raw, 17, crc32c(bytes(raw[21:])))
    return bytes(raw)


def fill(cluster):
    """Appends nine good records and one of a kind, for each kind; the offsets of the latter."""
    for number, (record, _) in enumerate(KINDS):
        cluster.append("in", 0, batch_of(GOOD[10 * number:10 * number + 9]))
        batch = batch_of([record])
        cluster.append("in", 0, spoilt(batch) if record[2] == b"no UTF-8" else batch)
    return [10 * number + 9 for number in range(len(KINDS))]


def read(servers, topic):
    consumer = Consumer({"bootstrap.servers": servers, "group.id": "reader", "isolation.level": "read_committed",
                         "enable.partition.eof": True, "fetch.message.max.bytes": 4 << 20})
    consumer.assign([TopicPartition(topic, 0, OFFSET_BEGINNING)])
    found = []
    while True:
        message = consumer.poll(10)
        if message is None or message.error():
            if message is not None and message.error().code() != KafkaError._PARTITION_EOF:
                sys.exit(f"{topic}: {message.error()}")
            consumer.close()
            return found
        found.append(message)


class Run:
    """A member over a cluster of its own."""

    def __init__(self, member, folder, *words):
        self.folder, self.metrics = folder, f"{folder}/metrics"
        self.front = Front(MockCluster({"in": 2, "out": 2, "dead": 1}))
        self.offsets = fill(self.front.mock)
        with open(f"{folder}/image", "wb") as file:
            file.write(written(3, DROP_SHORT, b"0 drop_short.c:3\n"))
        with open(f"{folder}/log", "w") as log:
            self.process = subprocess.Popen(
                [member, "--servers", self.front.servers, "--group", "g", "--name", "n", "--image", f"{folder}/image", "--input",
                 "in", "--outputs", "out", "--metrics", self.metrics, "--set-producer", f"message.max.bytes={LONGEST}",
                 "--set-consumer", "fetch.wait.max.ms=50", *words], stdout=log, stderr=log)

    def log(self):
        with open(f"{self.folder}/log") as log:
            return log.read()

    def wait(self, test, what):
        end = time.monotonic() + 300
        while not test():
            if time.monotonic() > end or self.process.poll() is not None:
                self.fail(f"no {what}; status {self.process.poll()}")
            time.sleep(0.1)

    def fail(self, what):
        self.process.kill()
        sys.exit(f"{what}\n{self.log()}")

    def end(self):
        """Ends a member that has taken all; the values of its metrics."""
        self.wait(lambda: self.front.committed.get(("g", "in", 0)) == 10 * len(KINDS), "committed offsets")
        self.wait(lambda: self.lags() == [("0", "0"), ("1", "0")], "lag of 0")
        self.process.terminate()
        if self.process.wait(60):
            self.fail(f"status {self.process.returncode}")
        with open(self.metrics) as file:
            return dict(re.findall(r'^(\w+)\{group="g",member="n"(?:,code="1")?\} (\d+)$', file.read(), re.M))

    def lags(self):
        """The lag of each partition, as the metrics have it."""
        if not os.path.exists(self.metrics):
            return []
        with open(self.metrics) as file:
            return re.findall(r'^klog_lag\{group="g",member="n",partition="(\d)"\} (.*)$', file.read(), re.M)

    def compare_outputs(self):
        found = [(message.timestamp()[1], message.key(), message.value(), message.headers() or [])
                 for message in read(self.front.servers, "out")]
        wanted = [row for k, row in enumerate(GOOD) if k % 10 != 9]
        if found != wanted:
            differs = next(((x, y) for x, y in zip(found, wanted) if x != y), "none of the first")
            self.fail(f"{len(found)} outputs, not {len(wanted)}; {differs} differs")


def check_counts(run, found, **wanted):
    for name, count in wanted.items():
        if found.get(f"klog_{name}_total") != str(count):
            run.fail(f"{name}: {found}")


def with_dead(member, folder):
    run = Run(member, folder, "--dead", "dead", "--dead-code", "1")
    found = run.end()
    run.compare_outputs()
    letters = read(run.front.servers, "dead")
    if len(letters) != len(KINDS) - 1:
        run.fail(f"{len(letters)} dead letters")
    dead = [kind for kind in zip(KINDS, run.offsets) if not kind[0][1].startswith("an output")]
    for message, ((record, why), offset) in zip(letters, dead):
        if (message.key(), message.value()) != record[1:3] or (record[0] >= 0 and message.timestamp()[1] != record[0]):
            run.fail(f"the dead letter of offset {offset} differs")
        if record[2] == b"no UTF-8":
            continue  # this client can't read such headers
        headers = message.headers()
        place = [("klog.topic", b"in"), ("klog.partition", b"0"), ("klog.offset", b"%d" % offset)]
        if headers[:-1] != record[3] + place or headers[-1][0] != "klog.reason" or not headers[-1][1].decode().startswith(why):
            run.fail(f"the dead letter of offset {offset} has headers {headers[-4:]}")
    check_counts(run, found, records=90, outputs=81, dead_letters=8, skipped=1, rejected=1, aborted=0)
    if "in 0 offset 69 skipped: the dead letter has" not in run.log():
        run.fail("the record that is too long as a dead letter too is not named")
    print("with --dead: 81 outputs, 8 dead letters, and one that is too long for one skipped")


def without_dead(member, folder):
    run = Run(member, folder)
    found = run.end()
    run.compare_outputs()
    for (_, why), offset in zip(KINDS, run.offsets):
        if not why.startswith("rejected") and f"in 0 offset {offset} skipped: {why}" not in run.log():
            run.fail(f"offset {offset} is not named")
    check_counts(run, found, records=90, outputs=81, dead_letters=0, skipped=8, rejected=1)
    print("without it: 81 outputs, 8 records skipped and named")


def strict(member, folder):
    run = Run(member, folder, "--strict", "--records", "10")
    if run.process.wait(300) != 1 or f"ended: in 0 offset {run.offsets[0]}: {KINDS[0][1]}" not in run.log():
        run.fail(f"status {run.process.returncode}")
    if run.front.committed.get(("g", "in", 0), 0) > run.offsets[0]:
        run.fail(f"committed {run.front.committed}")
    print("with --strict: it ends at the first")


def refused_words(member):
    base = ["--servers", "x", "--group", "g", "--name", "n", "--image", "/dev/null/none", "--input", "in", "--outputs", "out"]
    cases = [(base[2:], 2, "an option is missing: --servers"), ([*base, "--threads", "65"], 2, "--threads is from 1 to 64"),
             ([*base, "--dead-code", "1"], 2, "no topic by --dead"), ([*base, "--set", "a"], 2, "a setting is KEY=VALUE"),
             ([*base, *["o"] * 64], 2, "64 outputs are the most"), (base, 1, "ended: /dev/null/none: Not a directory"),
             ([*base[:6], "--image", "/dev/null", *base[8:]], 1, "I1 Size")]
    for words, status, text in cases:
        done = subprocess.run([member, *words], capture_output=True, text=True, timeout=60, check=False)
        if done.returncode != status or text not in done.stdout + done.stderr:
            sys.exit(f"{words}: status {done.returncode}: {done.stdout} {done.stderr}")
    print(f"words that can't be: {len(cases)}")


def main():
    if len(sys.argv) != 2:
        sys.exit(__doc__)
    member = os.path.abspath(sys.argv[1])
    refused_words(member)
    for test in (with_dead, without_dead, strict):
        with tempfile.TemporaryDirectory() as folder:
            test(member, folder)


if __name__ == "__main__":
    main()
