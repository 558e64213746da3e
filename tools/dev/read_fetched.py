#!/usr/bin/env python3
"""Reads what `fetch` prints by a Kafka client library, and compares it record by record with what was appended.

Not part of the build. On Debian, with a built program (`rt run` in crates/klog leaves it in out/klog):

    apt-get install -y python3-kafka
    /usr/bin/python3 tools/dev/read_fetched.py crates/klog/out/klog [COUNT [SEED]]

Each script appends batches that the client's builder makes, runs a program that passes each record on, and fetches rows
from several places on. The client's `MemoryRecords` reads each printed batch: its checksum must be right, and offsets,
timestamps, keys, values and headers those of the records that were appended. It prints the first difference and ends
with status 1; else how many scripts, batches and records were compared.
"""
import random
import subprocess
import sys

from kafka.record import MemoryRecords
from kafka.record.default_records import DefaultRecordBatchBuilder

# the image of a program that emits each record to output 0
FORWARD = "b70100000000000085000000030000009500000000000000"
MOST_BYTES, MOST_RECORDS = 4194304, 10000


def some_bytes(rng):
    return rng.choice([None, b"", b"k", b"\0\xff", bytes(rng.randrange(256) for _ in range(rng.choice([7, 63, 64, 300])))])


def some_record(rng):
    headers = [(rng.choice(["", "h", "name", "\u00e4"]), some_bytes(rng)) for _ in range(rng.choice([0, 0, 1, 2, 16]))]
    return rng.choice([0, 900, 1000, 1700000000000, (1 << 62) - 1]), some_bytes(rng), some_bytes(rng), headers


def made(records):
    builder = DefaultRecordBatchBuilder(
        magic=2, compression_type=0, is_transactional=False, producer_id=-1, producer_epoch=-1, base_sequence=-1, batch_size=1 << 20)
    for offset, (timestamp, key, value, headers) in enumerate(records):
        builder.append(offset, timestamp=timestamp, key=key, value=value, headers=headers)
    return bytes(builder.build())


def printed(program, groups, fetches):
    """What the fetches of a script print that appends a batch of each group."""
    lines = ["partitions 1 1 %d" % (len(groups) + 1), "load f hex:%s" % FORWARD, "deploy 0 f"]
    lines += ["append 0 hex:%s" % made(group).hex() for group in groups] + ["go"] + ["fetch 0 %d %d" % pair for pair in fetches]
    ran = subprocess.run([program, "run", "stdin"], input="\n".join(lines).encode(), capture_output=True)
    if ran.returncode != 0:
        sys.exit("klog: %s" % ran.stderr.decode())
    return ran.stdout.decode().split("\n")[-len(fetches) - 1:-1]


def read(text):
    """The records of a printed batch, as the client reads them."""
    batches, found = MemoryRecords(bytes.fromhex(text)), []
    while batches.has_next():
        batch = batches.next_batch()
        if not batch.validate_crc():
            sys.exit("wrong checksum: %s" % text)
        found += [(r.offset, r.timestamp, r.key, r.value, list(r.headers)) for r in batch]
    return found


def compared(program, groups, fetches):
    """How many batches and records agree; each batch has all rows that were asked for, or as many as fill it."""
    rows = [record for group in groups for record in group]
    batches = records = 0
    for (place, most), text in zip(fetches, printed(program, groups, fetches)):
        wanted = rows[place:place + min(most, MOST_RECORDS)]
        if not wanted:
            if text != "none":
                sys.exit("fetch 0 %d %d: none expected, but %s" % (place, most, text))
            continue
        found = read(text)
        expected = [(place + k,) + tuple(row) for k, row in enumerate(wanted[:len(found)])]
        if not found or found != expected:
            sys.exit("fetch 0 %d %d of %r: %r" % (place, most, rows, found))
        if len(found) < len(wanted) and len(text) // 2 + len(made([wanted[len(found)]])) - 61 < MOST_BYTES - 16:
            sys.exit("fetch 0 %d %d: %d rows, and room for one more" % (place, most, len(found)))
        batches, records = batches + 1, records + len(found)
    return batches, records


def main():
    program, count, seed = sys.argv[1], int(sys.argv[2]) if len(sys.argv) > 2 else 200, int(sys.argv[3]) if len(sys.argv) > 3 else 1
    rng, batches, records = random.Random(seed), 0, 0
    large = [[(1000, None, b"v" * 65536, [])] for _ in range(80)]
    scripts = [(large, [(0, 16), (0, 100), (15, 100), (63, 100), (80, 1)])]
    for _ in range(count):
        groups = [[some_record(rng) for _ in range(rng.choice([1, 1, 2, 5, 40]))] for _ in range(rng.choice([1, 2, 4]))]
        total = sum(map(len, groups))
        scripts.append((groups, [(rng.randrange(total + 1), rng.choice([0, 1, 2, 7, 1000])) for _ in range(6)] + [(0, total)]))
    for groups, fetches in scripts:
        more = compared(program, groups, fetches)
        batches, records = batches + more[0], records + more[1]
    print("%d scripts, %d batches and %d records agree" % (len(scripts), batches, records))


if __name__ == "__main__":
    main()
