#!/usr/bin/env python3
"""Tests examples/kafka/plain: files as brokers keep them, through it and a program that forwards, record by record.

Not part of the build. On Debian, with KLOG, a built klog:

    apt-get install -y python3-kafka python3-snappy python3-lz4 python3-zstandard python3-confluent-kafka golang-go \\
        golang-github-shopify-sarama-dev golang-github-klauspost-compress-dev
    /usr/bin/python3 tools/dev/kafka_plain_test.py KLOG

Three clients (python3-kafka, librdkafka, sarama) make files in each compression. Others have what a broker makes of
batches: transactions, one of them aborted, with their control batches and the index of aborted ones; the broker's append
time; a compacted log; 20,000 records in a batch; zeros at the end; records beyond klog's limits. What `klog transform`
writes of each is read by python3-kafka, and each record compared with what was sent. Damaged files must be refused, and
what is before the damage be written. It prints a line for each.
"""
import gzip
import os
import struct
import subprocess
import sys
import tempfile

from kafka.record.default_records import DefaultRecordBatchBuilder
from kafka.record.memory_records import MemoryRecords
from kafka.record.util import calc_crc32c

from kafka_clients import Broker, built_sarama
from mock_cluster import control_batch

TOP = os.path.join(os.path.dirname(os.path.abspath(__file__)), "..", "..")
CODECS = ["none", "gzip", "snappy", "lz4", "zstd"]
TIME, APPEND_TIME = 1700000000000, 8
COUNT = 1000


def some_record(number):
    """As sarama_producer.go makes them: timestamp, key, value, headers."""
    value = b"value %d " % number * (number % 10)
    return TIME + 1000 * number, b"key %d" % (number % 100), value, [("of", b"%d" % number)]


RECORDS = [some_record(number) for number in range(COUNT)]


def batch_of(records, codec=0, offsets=None, producer=-1, is_transaction=False):
    """A batch as python3-kafka makes it. With `offsets`, the records have these within the batch."""
    builder = DefaultRecordBatchBuilder(magic=2, compression_type=codec, is_transactional=is_transaction, producer_id=producer,
                                        producer_epoch=0, base_sequence=0, batch_size=1 << 28)
    for offset, (timestamp, key, value, headers) in zip(offsets or range(len(records)), records):
        builder.append(offset, timestamp=timestamp, key=key, value=value, headers=headers)
    return bytes(builder.build())


def placed(batch, offset):
    """A batch at its offset in a log."""
    return struct.pack(">q", offset) + batch[8:]


def changed(batch, at, form, value):
    """A batch with another field, and the checksum of that."""
    raw = bytearray(batch)
    struct.pack_into(form, raw, at, value)
    struct.pack_into(">I", raw, 17, calc_crc32c(bytes(raw[21:])))
    return bytes(raw)


def by_python(codec):
    return b"".join(placed(batch_of(RECORDS[k:k + 250], CODECS.index(codec)), k) for k in range(0, COUNT, 250))


def by_librdkafka(codec):
    from confluent_kafka import Producer
    broker = Broker(7, 10)
    producer = Producer({"bootstrap.servers": f"127.0.0.1:{broker.port}", "linger.ms": 100, "compression.type": codec})
    for timestamp, key, value, headers in RECORDS:
        producer.produce("t", value, key, partition=0, timestamp=timestamp, headers=headers)
    producer.flush(20)
    return b"".join(broker.kept)


def by_sarama(program):
    def make(codec):
        broker = Broker(7, 10)
        version = "2.1.0" if codec == "zstd" else "1.0.0"
        subprocess.run([program, f"127.0.0.1:{broker.port}", version, codec, "plain", str(COUNT)], check=True, timeout=60)
        return b"".join(broker.kept)
    return make


class Tools:
    """The programs under test, and a folder."""

    def __init__(self, klog, folder):
        self.klog, self.folder, self.plain = klog, folder, f"{folder}/plain"
        ways = {**os.environ, "GO111MODULE": "off", "GOPATH": "/usr/share/gocode"}
        subprocess.run(["go", "build", "-o", self.plain, "."], cwd=f"{TOP}/examples/kafka/plain", check=True, env=ways)

    def convert(self, data, *words):
        """What plain writes, what it says, and its status."""
        done = subprocess.run([self.plain, *words], input=data, capture_output=True, timeout=300, check=False)
        return done.stdout, done.stderr.decode(), done.returncode

    def transform(self, batches):
        """The records that come out of klog's transform."""
        words = [self.klog, "transform", f"{TOP}/examples/forward.bin", "stdin", "stdout"]
        done = subprocess.run(words, input=batches, capture_output=True, timeout=300, check=False)
        if done.returncode:
            sys.exit(f"klog transform: {done.stderr.decode()}")
        return records_of(done.stdout)


def records_of(batches):
    found, reader = [], MemoryRecords(batches)
    while (batch := reader.next_batch()) is not None:
        found += [(row.timestamp, row.key, row.value, row.headers) for row in batch]
    return found


def compare(what, found, wanted):
    if found != wanted:
        at = next((k for k, (x, y) in enumerate(zip(found, wanted)) if x != y), min(len(found), len(wanted)))
        sys.exit(f"{what}: {len(found)} records, not {len(wanted)}; the first that differs is {at}")
    print(f"{what}: {len(wanted)} records as they were sent", flush=True)


def check(tools, what, data, wanted, said=(), words=()):
    """A file whose records come through, and what plain says of it."""
    batches, told, status = tools.convert(data, *words)
    for text in said:
        if text not in told:
            sys.exit(f"{what}: plain doesn't say {text!r}, but\n{told}")
    if status:
        sys.exit(f"{what}: plain ended with status {status}: {told}")
    compare(what, tools.transform(batches), wanted)


def refuse(tools, what, data, why, wanted, words=()):
    """A file that is refused, after what is before the fault."""
    batches, told, status = tools.convert(data, *words)
    if status != 1 or why not in told:
        sys.exit(f"{what}: status {status}: {told}")
    compare(f"{what} is refused; before it", records_of(batches), wanted)


def transactions(tools):
    """Three transactions, of which the second is aborted, and one record of none."""
    first, second, third = RECORDS[:100], RECORDS[100:200], RECORDS[200:300]
    log = [batch_of(first, 1, producer=7, is_transaction=True), control_batch(7, 0, True),
           batch_of(second, 4, producer=8, is_transaction=True), control_batch(8, 0, False),
           batch_of(third, 0, producer=8, is_transaction=True), control_batch(8, 0, True), batch_of(RECORDS[300:301])]
    at, placed_log = 0, []
    for batch in log:
        placed_log.append(placed(batch, at))
        at += struct.unpack_from(">i", batch, 57)[0]
    index = f"{tools.folder}/log.txnindex"
    with open(index, "wb") as file:
        file.write(struct.pack(">hqqqq", 0, 8, 101, 201, 101))
    data, rest = b"".join(placed_log), third + RECORDS[300:301]
    check(tools, "transactions, with the index of aborted ones", data, first + rest,
          ["3 control batches are left out", "100 records of aborted transactions are left out"], ["-aborted", index])
    check(tools, "transactions, without it", data, first + second + rest,
          ["300 records of transactions are kept; which of them were aborted is not known without -aborted FILE"])


def broker_made(tools):
    stamped = changed(batch_of(RECORDS, 1), 35, ">q", TIME + 77)
    stamped = changed(stamped, 21, ">h", struct.unpack_from(">h", stamped, 21)[0] | APPEND_TIME)
    check(tools, "append time", stamped, [(TIME + 77, *row[1:]) for row in RECORDS], ["1 batches had the broker's append time"])
    left = [k for k in range(COUNT) if k % 7 == 3]
    compacted = b"".join(placed(batch_of([RECORDS[k] for k in left if k // 500 == part], 2,
                                         [k % 500 for k in left if k // 500 == part]), 500 * part) for part in (0, 1))
    check(tools, "compacted", compacted, [RECORDS[k] for k in left], ["2 batches lacked offsets"])
    check(tools, "compacted, with a date of deletion", changed(batch_of(RECORDS[:10]), 21, ">h", 64), RECORDS[:10])
    many = [some_record(number) for number in range(20000)]
    check(tools, "20,000 records in a batch", batch_of(many, 4), many, ["batches 1, records 20000, written 20000"])
    large = [(TIME, None, bytes([65 + k]) * 1048576, []) for k in range(6)]
    check(tools, "a batch of 6 MiB", batch_of(large, 1), large)
    check(tools, "zeros at the end", by_python("lz4") + bytes(5000), RECORDS, ["5000 bytes of zero at the end are left out"])
    check(tools, "nothing", b"", [])


def beyond(tools):
    """Records beyond the limits, between others."""
    rows = [(TIME, b"k" * 4097, b"", [], "a key of 4097 bytes, and 4096 is the most"),
            (TIME, b"", b"v" * 1048577, [], "a value of 1048577 bytes, and 1048576 is the most"),
            (TIME, b"", b"", [("h", b"")] * 17, "17 headers, and 16 is the most"),
            (TIME, b"", b"", [("n" * 256, b"")], "header 0 with a key of 256 bytes, and 255 is the most"),
            (TIME, b"", b"", [("a", b""), ("n", b"v" * 4097)], "header 1 with a value of 4097 bytes, and 4096 is the most"),
            (-1, b"no time", b"", [], "no timestamp")]
    mixed = [row for k, bad in enumerate(rows) for row in (*RECORDS[9 * k:9 * k + 9], bad[:4])]
    file = f"{tools.folder}/beyond"
    said = [f"offset {10 * k + 9} is beyond klog's limits: {bad[4]}" for k, bad in enumerate(rows)]
    check(tools, "every tenth record beyond the limits", batch_of(mixed, 4), RECORDS[:54], [*said, "6 records are beyond"],
          ["-beyond", file])
    with open(file, "rb") as kept:
        compare("those beyond", records_of(kept.read()), [bad[:4] for bad in rows])
    refuse(tools, "a record beyond the limits, with no file for it,", batch_of(RECORDS[:5]) + batch_of(mixed[:20]), f"offset 9: {rows[0][4]}",
           RECORDS[:5])


def damaged(tools):
    good, batch = batch_of(RECORDS[:20], 1), batch_of(RECORDS[20:40], 3)
    place = f"batch 1 at byte {len(good)}: "
    cases = {"cut": (batch[:-1], "the input ends within it"), "cut in its front": (placed(batch, 1 << 40)[:5], "the input ends within it"),
             "another byte": (batch[:-1] + bytes([batch[-1] ^ 1]), "its checksum is another one"),
             "magic 1": (batch[:16] + b"\1" + batch[17:], "it has magic 1"),
             "a wrong length": (batch[:8] + struct.pack(">i", 48) + batch[12:], "its length field is 48"),
             "no such codec": (changed(batch, 21, ">h", 5), "its records can't be decompressed: codec 5 is none of"),
             "bits that nobody knows": (changed(batch, 21, ">h", 128), "its attributes are 0x80"),
             "no lz4": (changed(batch, len(batch) - 40, ">q", -1), "its records can't be decompressed"),
             "more records said": (changed(batch, 57, ">i", 21), "record 20: it is cut"),
             "fewer records said": (changed(batch, 57, ">i", 19), "after its 19 records are"),
             "a bomb": (bomb(batch), "have more than 268435456 bytes when decompressed"),
             "zeros and more": (bytes(12) + batch, "12 bytes of zero are no batch")}
    for what, (bad, why) in cases.items():
        refuse(tools, what, good + bad, place + why if "have more" not in why else why, RECORDS[:20])
    status = tools.convert(b"", "-aborted", "/dev/null/none")[2], tools.convert(b"", "what")[2]
    if status != (1, 2):
        sys.exit(f"status {status}")


def bomb(batch):
    """A batch whose records become 300 MiB of zeros."""
    body = gzip.compress(bytes(300 << 20), 1)
    raw = batch[:8] + struct.pack(">i", 49 + len(body)) + batch[12:21] + struct.pack(">h", 1) + batch[23:61] + body
    return changed(raw, 57, ">i", 1)


def main():
    if len(sys.argv) != 2:
        sys.exit(__doc__)
    with tempfile.TemporaryDirectory() as folder:
        tools = Tools(os.path.abspath(sys.argv[1]), folder)
        clients = {"python3-kafka": by_python, "librdkafka": by_librdkafka, "sarama": by_sarama(built_sarama(folder))}
        for client, make in clients.items():
            for codec in CODECS:
                said = [] if codec == "none" else ["batches were compressed"]
                check(tools, f"{client}, {codec}", make(codec), RECORDS, said)
        transactions(tools)
        broker_made(tools)
        beyond(tools)
        damaged(tools)
    print("all as it should be")


if __name__ == "__main__":
    main()
