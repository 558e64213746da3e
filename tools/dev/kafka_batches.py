#!/usr/bin/env python3
"""Record batches made and read by a Kafka client, beside which the crate `batch` is tested.

Not part of the build. On Debian:

    apt-get install -y python3-kafka
    /usr/bin/python3 tools/dev/kafka_batches.py make           # batches in hex, as the tests of `batch` hold them
    /usr/bin/python3 tools/dev/kafka_batches.py read HEX..     # what the client reads of a batch in hex

`make` uses the client's own builder of uncompressed batches of magic 2; no broker is needed. `read` checks
the crc by the client's own function first.
"""
import sys

from kafka.record.default_records import DefaultRecordBatch, DefaultRecordBatchBuilder

RECORDS = [
    (1700000000000, b"k", b"v", []),
    (1700000000005, None, b"", [("h", None), ("\u00e4", b"x\x00")]),
    (1699999999999, b"", None, []),
    (1700000000005, b"longer key", b"a value of more than sixty-three bytes, so that its length takes two bytes", [("empty", b"")]),
]


def made(records, producer):
    builder = DefaultRecordBatchBuilder(
        magic=2, compression_type=0, is_transactional=False, producer_id=producer[0],
        producer_epoch=producer[1], base_sequence=producer[2], batch_size=1 << 20)
    for offset, (timestamp, key, value, headers) in enumerate(records):
        builder.append(offset, timestamp=timestamp, key=key, value=value, headers=headers)
    return bytes(builder.build())


def show(text):
    batch = DefaultRecordBatch(bytes.fromhex(text))
    print("crc", "right" if batch.validate_crc() else "wrong", "base offset", batch.base_offset,
          "greatest timestamp", batch.max_timestamp)
    for record in batch:
        print(record.offset, record.timestamp, record.key, record.value, record.headers)


if __name__ == "__main__":
    if sys.argv[1:2] == ["make"]:
        print(made(RECORDS[:1], (-1, -1, -1)).hex())
        print(made(RECORDS, (4711, 3, 12)).hex())
    elif sys.argv[1:2] == ["read"]:
        for text in sys.argv[2:]:
            show(text)
    else:
        sys.exit(__doc__)
