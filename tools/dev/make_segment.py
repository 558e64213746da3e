#!/usr/bin/env python3
"""Makes a file of record batches as a segment of a Kafka log has them.

Not part of the build. On Debian:

    apt-get install -y python3-kafka
    /usr/bin/python3 tools/dev/make_segment.py FILE MIB [VALUE [RECORDS]]

FILE gets at least MIB mebibytes, with VALUE bytes a value (200) and RECORDS records a batch (500). Each key is a
customer's number in 16 bytes; one value in 64 is null, one empty, and one record has two headers. 64 batches are made by
the client's own builder, and stand in the file again and again, each time with the offsets of its place: the checksum of
a batch does not cover its base offset.
"""
import random
import struct
import sys

from kafka.record.default_records import DefaultRecordBatchBuilder

DISTINCT = 64


def some_record(rng, length):
    key, kind = b"customer %07d" % rng.randrange(10 ** 6), rng.randrange(64)
    value = b"%c%d order " % (rng.choice(b"AB"), rng.randrange(10 ** 9))
    value = None if kind == 0 else b"" if kind == 1 else (value + rng.randbytes(length))[:length]
    return key, value, [("source", b"shop"), ("trace", None)] if kind == 2 else []


def batch_of(records):
    builder = DefaultRecordBatchBuilder(
        magic=2, compression_type=0, is_transactional=False, producer_id=-1, producer_epoch=-1, base_sequence=-1, batch_size=1 << 20)
    for offset, (timestamp, key, value, headers) in enumerate(records):
        if builder.append(offset, timestamp=timestamp, key=key, value=value, headers=headers) is None:
            sys.exit("the records of a batch have more than 1,048,576 bytes")
    return bytes(builder.build())


def main():
    if not 3 <= len(sys.argv) <= 5:
        sys.exit(__doc__)
    wanted, length = int(sys.argv[2]) << 20, int(sys.argv[3]) if len(sys.argv) > 3 else 200
    count, rng, offset, size = int(sys.argv[4]) if len(sys.argv) > 4 else 500, random.Random(1), 0, 0
    batches = [batch_of([(1700000000000 + k, *some_record(rng, length)) for k in range(count)]) for _ in range(DISTINCT)]
    with open(sys.argv[1], "wb") as file:
        while size < wanted:
            batch = batches[offset // count % DISTINCT]
            file.write(struct.pack(">q", offset) + batch[8:])
            offset, size = offset + count, size + len(batch)
    print(f"{size} bytes, {offset // count} batches, {offset} records")


if __name__ == "__main__":
    main()
