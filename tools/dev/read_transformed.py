#!/usr/bin/env python3
"""Reads what `klog transform` writes by two Kafka clients, and compares each record with a plain run in Python.

Not part of the build. On Debian:

    apt-get install -y python3-kafka python3-confluent-kafka
    /usr/bin/python3 tools/dev/read_transformed.py KLOG [MIB]     # 64 if not given

A file of make_segment.py goes through a program with one output, and through one with four. python3-kafka reads each
output's batches, whose checksums must be right. librdkafka's consumer gets them from its mock cluster, to which they
are appended as they are. Offset, timestamp, key, value and headers of each record must be those of the plain run. The
first that differs is printed, and the status is 1.
"""
import itertools
import os
import subprocess
import sys
import tempfile

from confluent_kafka import Consumer, TopicPartition
from kafka.record import MemoryRecords

from mock_cluster import MockCluster

TOOLS = os.path.dirname(os.path.abspath(__file__))
# Debian's python3-confluent-kafka 1.7 drops references to None that it doesn't own, and Python aborts when none is left: at
# the end, too, so that main's end doesn't free these.
KEPT = [None] * (1 << 24)
AT_ONCE = 4 << 20  # the mock cluster keeps 5 MiB of a partition


def routed(key):
    """What examples/c/route_by_hash.c does."""
    code = 0xCBF29CE484222325
    for byte in key[:16]:
        code = (code ^ byte) * 0x100000001B3 % 2 ** 64
    return (code ^ code >> 32) % 4


def batches(name):
    with open(name, "rb") as file:
        while head := file.read(12):
            yield head + file.read(int.from_bytes(head[8:12], "big"))


def records(batch):
    read = MemoryRecords(batch).next_batch()
    if not read.validate_crc():
        sys.exit("wrong checksum")
    return [(r.offset, r.timestamp, r.key, r.value, list(r.headers)) for r in read]


def segment_records(name, known):
    """The records of a segment, whose batches are the same again and again but for their offsets."""
    for batch in batches(name):
        if batch[8:] not in known:
            known[batch[8:]] = [record[1:] for record in records(batch)]
        yield from known[batch[8:]]


def by_python(name):
    for batch in batches(name):
        yield from records(batch)


class Reader:
    """librdkafka's consumer of topics to which batches are appended."""

    def __init__(self, topics):
        self.cluster = MockCluster(dict.fromkeys(topics, 1))
        self.consumer = Consumer({"bootstrap.servers": self.cluster.servers, "group.id": "reader", "enable.auto.commit": False,
                                  "fetch.wait.max.ms": 10, "check.crcs": True})

    def read(self, topic, name):
        self.consumer.assign([TopicPartition(topic, 0, 0)])
        awaited = size = 0
        for batch in batches(name):
            self.cluster.append(topic, 0, batch)
            size, awaited = size + len(batch), awaited + int.from_bytes(batch[57:61], "big")
            if size > AT_ONCE - (1 << 20):
                yield from self.some(awaited)
                awaited = size = 0
        yield from self.some(awaited)

    def some(self, awaited):
        while awaited:
            for m in self.consumer.consume(min(awaited, 10000), 10):
                if m.error():
                    sys.exit(m.error())
                awaited -= 1
                yield m.offset(), m.timestamp()[1], m.key(), m.value(), m.headers() or []


def compare(client, found, wanted):
    count = 0
    for record, row in itertools.zip_longest(found, ((k, *row) for k, row in enumerate(wanted))):
        if record != row:
            sys.exit(f"{client}: {record}, not {row}")
        count += 1
    return count


def main():
    if not 2 <= len(sys.argv) <= 3:
        sys.exit(__doc__)
    with tempfile.TemporaryDirectory(dir="/dev/shm") as folder:
        segment, outs, known = f"{folder}/segment", [f"{folder}/out{q}" for q in range(4)], {}
        subprocess.run([sys.executable, f"{TOOLS}/make_segment.py", segment, sys.argv[2] if len(sys.argv) > 2 else "64"], check=True)
        reader = Reader(f"{program}{q}" for program in ("forward", "route_by_hash") for q in range(4))
        for program, image, route in (("forward", "forward.bin", lambda key: 0), ("route_by_hash", "c/route_by_hash.bin", routed)):
            names = outs[:1] if program == "forward" else outs
            words = [sys.argv[1], "transform", f"{TOOLS}/../../examples/{image}", segment, *names]
            subprocess.run(words, check=True, stderr=subprocess.DEVNULL)
            for q, name in enumerate(names):
                found = {"python3-kafka": by_python(name), "librdkafka": reader.read(f"{program}{q}", name)}
                for client, rows in found.items():
                    count = compare(client, rows, (row for row in segment_records(segment, known) if route(row[1]) == q))
                    print(f"{program}, output {q}, {client}: {count} records agree", flush=True)


if __name__ == "__main__":
    main()
    sys.stdout.flush()
    os._exit(0)
