#!/usr/bin/env python3
"""Runs a klog program on the records of a Kafka topic, each exactly once, as a member of a consumer group.

    transform_group.py --servers HOST:PORT --group GROUP --name NAME --library libklog.so --image IMAGE
                       --input TOPIC --outputs TOPIC [TOPIC ..] [--table 2] [--records N] [--seconds S]
                       [--set KEY=VALUE ..] [--set-consumer KEY=VALUE ..] [--set-producer KEY=VALUE ..]

It needs confluent-kafka (Debian: python3-confluent-kafka) and libklog.so (tools/build_library.sh). Start as many
members as there are cores to use, on one machine or on many: the group shares the partitions out. It is here to be read
and changed: member.c beside it takes some times more records, and goes on at one that klog does not take.

- What the program emits to its output Q goes to the Q-th of the outputs, to the partition that the record came from. So
  each output topic has as many partitions as the input, and a partition keeps its order.
- The outputs of a poll and its offsets are one transaction. A consumer that reads committed records alone (with
  librdkafka the default) sees each output once, whichever member dies, and whenever.
- Each member has a NAME of its own, and the same one after a restart: by it Kafka ends the transaction that a killed
  member left open, and refuses one that only seemed dead.
- IMAGE is looked at between two polls. A new one is taken up, and each partition's first offset that it is run on is
  said. One that the verifier refuses, or that is gone, is said too, and the program before it goes on. Replace the file
  by a rename.
- A program sees the number of the partition modulo 64. A record that klog does not take (a key above 4,096 bytes, a
  value above 1,048,576, more than 16 headers, no timestamp) ends the member, with its place. So do some thousands of
  headers with a null value, by a fault of Debian 12's confluent-kafka (1.7).

What fails for good ends the process with status 1: let a supervisor start it again. SIGTERM ends it after the
transaction that is under way.
"""
import argparse
import hashlib
import os
import signal
import sys
import time
from collections import Counter

from confluent_kafka import Consumer, KafkaException, Producer, TopicPartition

sys.path.insert(0, os.path.join(os.path.dirname(os.path.abspath(__file__)), "..", "library"))
from klog_engine import Engine, Fault, Program  # noqa: E402

PARTITIONS = 64  # of klog; a topic may have more
OUTPUTS = 64
WAIT = 30  # seconds for one answer of the cluster
REPORT = 5  # seconds between two reports


def say(text):
    print(f"{time.time():.6f} {text}", flush=True)


def pair(word):
    key, sign, value = word.partition("=")
    if not sign:
        raise argparse.ArgumentTypeError(f"{word} is no KEY=VALUE")
    return key, value


def until_done(call, *words):
    """Calls again where the cluster says that it may be tried again."""
    while True:
        try:
            return call(*words)
        except KafkaException as fault:
            if not fault.args[0].retriable():
                raise


class Image:
    """A program that stands in a file, which may be replaced."""

    def __init__(self, engine, name, table):
        self.engine, self.name, self.table, self.stamp, self.program = engine, name, table, None, None

    def renew(self):
        """Loads the file where it has changed. One that is refused or gone is a fault while there is no program."""
        stamp = None
        try:
            found = os.stat(self.name)
            stamp = found.st_mtime_ns, found.st_size, found.st_ino
            if stamp == self.stamp:
                return
            with open(self.name, "rb") as file:
                image = file.read()
            program = Program(self.engine, image, self.table)
        except (Fault, OSError) as fault:
            if self.program is None:
                raise
            if stamp != self.stamp:
                say(f"{self.name} refused: {fault}; program {self.digest} goes on")
            self.stamp = stamp
            return
        if self.program is not None:
            self.program.free()
        self.stamp, self.program, self.digest = stamp, program, hashlib.sha256(image).hexdigest()[:16]
        say(f"{self.name} taken: program {self.digest}")


class Member:
    def __init__(self, given):
        self.input, self.outputs, self.records, self.seconds = given.input, given.outputs, given.records, given.seconds
        self.image, self.counts, self.said = Image(Engine(given.library), given.image, given.table), Counter(), {}
        settings = {"bootstrap.servers": given.servers, **dict(given.set)}
        self.consumer = Consumer({"group.id": given.group, "auto.offset.reset": "earliest", "enable.auto.commit": False,
                                  "isolation.level": "read_committed", **settings, **dict(given.set_consumer)})
        self.producer = Producer({"transactional.id": f"{given.group}-{given.name}", "linger.ms": 20,
                                  **settings, **dict(given.set_producer)})
        self.is_ended = self.is_shared_anew = False

    def run(self):
        self.image.renew()
        until_done(self.producer.init_transactions, WAIT)
        self.consumer.subscribe([self.input], on_assign=self.assigned, on_revoke=self.revoked)
        reported = time.monotonic()
        while not self.is_ended:
            self.image.renew()
            polled = self.polled()
            if polled:
                self.transact(polled)
            if time.monotonic() > reported + REPORT:
                self.report()
                reported = time.monotonic()
        self.report()
        self.consumer.close()

    # The group shares the partitions out anew. The client calls these within a poll alone, so in no transaction.

    def assigned(self, _, places):
        self.is_shared_anew = True
        say(f"{self.input} assigned {sorted(place.partition for place in places)}")

    def revoked(self, _, places):
        self.is_shared_anew = True
        say(f"{self.input} revoked {sorted(place.partition for place in places)}")

    def polled(self):
        """The next records. Where the partitions were shared anew meanwhile, they may be another's: none of them."""
        self.is_shared_anew = False
        polled = self.consumer.consume(self.records, self.seconds)
        for message in polled:
            if message.error():
                raise KafkaException(message.error())
        if self.is_shared_anew:
            self.rewind()
            return []
        return polled

    def rewind(self):
        """Goes on where the group's committed offsets are."""
        places = self.consumer.assignment()
        self.consumer.assign(until_done(self.consumer.committed, places, WAIT) if places else [])
        self.said = {}

    def transact(self, polled):
        """Runs the program on what was polled; its outputs and the offsets after it are committed together or not."""
        try:
            self.producer.begin_transaction()
            counts, ends = Counter(records=len(polled)), {}
            for message in polled:
                self.run_on(message, counts)
                ends[message.partition()] = message.offset() + 1
            places = [TopicPartition(self.input, partition, offset) for partition, offset in ends.items()]
            until_done(self.producer.send_offsets_to_transaction, places, self.consumer.consumer_group_metadata(), WAIT)
            until_done(self.producer.commit_transaction, WAIT)
            self.counts += counts
        except KafkaException as fault:
            if not fault.args[0].txn_requires_abort():
                raise
            say(f"transaction aborted: {fault.args[0].str()}")
            until_done(self.producer.abort_transaction, WAIT)
            self.rewind()

    def run_on(self, message, counts):
        partition, offset, timestamp = message.partition(), message.offset(), message.timestamp()[1]
        if self.said.get(partition) != self.image.digest:
            say(f"{self.input} {partition} from offset {offset} on: program {self.image.digest}")
            self.said[partition] = self.image.digest
        headers = [(name.encode(), text) for name, text in message.headers() or ()]
        try:
            code, emissions = self.image.program.run(
                message.key(), message.value(), offset, timestamp, partition % PARTITIONS, len(self.outputs), headers)
        except Fault as fault:
            raise Fault(f"{self.input} {partition} offset {offset}: {fault}") from None
        counts["outputs"] += len(emissions)
        if code:
            counts[f"rejected with code {code}"] += 1
        for output, key, value, headers in emissions:
            self.produce(self.outputs[output], value, key, partition, timestamp, headers)

    def produce(self, topic, value, key, partition, timestamp, headers):
        named = [(name.decode(), text) for name, text in headers]
        while True:
            try:
                return self.producer.produce(topic, value, key, partition, timestamp=timestamp, headers=named)
            except BufferError:  # the client's queue is full: send some of it
                self.producer.poll(1)

    def report(self):
        say("so far " + ", ".join(f"{what} {count}" for what, count in sorted(self.counts.items())))

    def end(self, *_):
        self.is_ended = True


def main():
    words = argparse.ArgumentParser(description=__doc__, formatter_class=argparse.RawDescriptionHelpFormatter)
    for word in ("servers", "group", "name", "library", "image", "input"):
        words.add_argument(f"--{word}", required=True)
    words.add_argument("--outputs", required=True, nargs="+", metavar="TOPIC", help="1 to 64, the first for output 0")
    words.add_argument("--table", type=int, default=0, choices=(1, 2), help="an image's helper table, 1 if not given; 2 has the helpers of headers")
    words.add_argument("--records", type=int, default=10000, help="the most of one transaction")
    words.add_argument("--seconds", type=float, default=0.5, help="the longest wait for as many")
    for word, client in (("--set", "clients"), ("--set-consumer", "consumer"), ("--set-producer", "producer")):
        words.add_argument(word, action="append", default=[], type=pair, metavar="KEY=VALUE", help=f"a setting of the {client}")
    given = words.parse_args()
    if len(given.outputs) > OUTPUTS:
        words.error(f"there are {len(given.outputs)} outputs, and {OUTPUTS} is the most")
    try:
        member = Member(given)
        for number in (signal.SIGTERM, signal.SIGINT):
            signal.signal(number, member.end)
        member.run()
    except (Fault, KafkaException, OSError) as fault:
        sys.exit(f"ended: {fault}")


if __name__ == "__main__":
    main()
