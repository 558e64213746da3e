#!/usr/bin/env python3
"""Times examples/kafka/plain beside gunzip, zstd -d and lz4 -d on the same compressed bytes (docs/guide/formats.md).

Not part of the build. On Debian:

    apt-get install -y python3-kafka python3-snappy python3-lz4 python3-zstandard golang-go zstd lz4 \\
        golang-github-shopify-sarama-dev golang-github-klauspost-compress-dev
    /usr/bin/python3 tools/dev/kafka_plain_speed.py [MEBIBYTES]

A file has so many mebibytes (112) of records, in batches of 500 that python3-kafka compresses. A record has a key of 16
bytes and a value of some 200, an object of JSON. The other program reads what is compressed of each batch, one after the
other, and nothing else. What each takes of the processor is the least of three turns.
"""
import json
import os
import random
import resource
import subprocess
import sys
import tempfile

from kafka.record.default_records import DefaultRecordBatchBuilder

from kafka_plain_test import CODECS, Tools, placed

OTHERS = {"gzip": ["gzip", "-dc"], "zstd": ["zstd", "-dc"], "lz4": ["lz4", "-dc"]}
DISTINCT, RECORDS, HEADER = 8, 500, 61
STATES = ["accepted", "packed", "sent", "returned", "lost by the carrier"]


def some_record(rng):
    order = {"order": rng.randrange(10 ** 9), "customer": "c%07d" % rng.randrange(10 ** 6), "state": rng.choice(STATES),
             "cents": rng.randrange(10 ** 6), "items": [rng.randrange(10 ** 5) for _ in range(rng.randrange(1, 12))],
             "warehouse": rng.choice(["north", "south", "east"]), "note": None, "is_gift": rng.random() < 0.1}
    return b"customer %07d" % rng.randrange(10 ** 6), json.dumps(order).encode()


def batches(codec):
    """Batches of one codec, which have the same records for each codec."""
    rng = random.Random(1)
    for _ in range(DISTINCT):
        builder = DefaultRecordBatchBuilder(magic=2, compression_type=codec, is_transactional=False, producer_id=-1,
                                            producer_epoch=-1, base_sequence=-1, batch_size=1 << 24)
        for offset in range(RECORDS):
            key, value = some_record(rng)
            builder.append(offset, timestamp=1700000000000 + offset, key=key, value=value, headers=[])
        yield bytes(builder.build())


def seconds(words, name):
    """The processor seconds of a program that reads a file."""
    best = None
    for _ in range(3):
        before = resource.getrusage(resource.RUSAGE_CHILDREN)
        with open(name, "rb") as file:
            subprocess.run(words, stdin=file, stdout=subprocess.DEVNULL, stderr=subprocess.DEVNULL, check=True)
        after = resource.getrusage(resource.RUSAGE_CHILDREN)
        took = after.ru_utime + after.ru_stime - before.ru_utime - before.ru_stime
        best = took if best is None else min(best, took)
    return best


def main():
    size = sum(len(batch) - HEADER for batch in batches(0))
    turns = ((int(sys.argv[1]) if len(sys.argv) > 1 else 112) << 20) // size + 1
    with tempfile.TemporaryDirectory() as folder:
        plain, whole, bodies = Tools("", folder).plain, f"{folder}/whole", f"{folder}/bodies"
        for codec, name in enumerate(CODECS):
            made = [*batches(codec)]
            with open(whole, "wb") as file, open(bodies, "wb") as inner:
                for number in range(turns * DISTINCT):
                    file.write(placed(made[number % DISTINCT], number * RECORDS))
                    inner.write(made[number % DISTINCT][HEADER:])
            took, words = seconds([plain], whole), OTHERS.get(name)
            other = seconds(words, bodies) if words else None
            beside = f"; {' '.join(words)} {other:.2f} s, so {other / took:.2f} of its speed" if other else ""
            print(f"{name}: {os.path.getsize(whole) / 2 ** 20:.0f} MiB become {turns * size / 2 ** 20:.0f}: plain {took:.2f} s{beside}",
                  flush=True)


if __name__ == "__main__":
    main()
