#!/usr/bin/env python3
"""A Kafka cluster for tests: the mock cluster of librdkafka, and what it lacks of transactions in front of it.

Not part of the build. The tests and figures of Kafka import it. Called by itself it prints its address and runs until it
is ended, for members of one's own. It keeps some 5 MiB of each partition.

    tools/dev/mock_kafka.py TOPIC=PARTITIONS ..

`Front` is a proxy on a port of its own that does the five things which mock_cluster.py says that the mock cluster lacks,
by the rules of KIP-98 and KIP-447, and hands on the rest.
A transaction's end is a control batch in each of its partitions, and a fetch of committed records ends before the first
open transaction and names the aborted ones. An offset is committed with its transaction alone, and one of a member
that is not in the group's generation is refused. A producer is refused after the next one of its transactional id
came, or after its time. A fetch of offsets is answered UNSTABLE_OFFSET_COMMIT while an open transaction has some.

Neither of the two gives a producer another epoch (InitProducerId from version 3 on, KIP-360). So one of librdkafka ends by
a fault where it asks for that.
"""
import signal
import socket
import struct
import sys
import threading
import time
from collections import Counter
from contextlib import nullcontext

from kafka_clients import Reader, text
from mock_cluster import Flexible, MockCluster, compact, control_batch, frame, framed, producer_of

PRODUCE, FETCH, LIST_OFFSETS, METADATA, OFFSET_COMMIT, OFFSET_FETCH, FIND_COORDINATOR = 0, 1, 2, 3, 8, 9, 10
JOIN_GROUP, HEARTBEAT, LEAVE_GROUP, SYNC_GROUP, API_VERSIONS = 11, 12, 13, 14, 18
INIT_PRODUCER_ID, ADD_PARTITIONS, ADD_OFFSETS, END_TRANSACTION, TRANSACTION_OFFSETS = 22, 24, 25, 26, 28
UNKNOWN_MEMBER, UNSUPPORTED_VERSION, INVALID_REQUEST, INVALID_EPOCH, INVALID_STATE, UNSTABLE = 25, 35, 42, 47, 48, 88

# The versions that the front offers: those whose fields it reads.
VERSIONS = [(PRODUCE, 0, 3), (FETCH, 0, 4), (LIST_OFFSETS, 0, 1), (METADATA, 0, 1), (OFFSET_COMMIT, 0, 2), (OFFSET_FETCH, 0, 1),
            (FIND_COORDINATOR, 0, 1), (JOIN_GROUP, 0, 2), (HEARTBEAT, 0, 1), (LEAVE_GROUP, 0, 1), (SYNC_GROUP, 0, 1),
            (API_VERSIONS, 0, 0), (INIT_PRODUCER_ID, 0, 1), (ADD_PARTITIONS, 0, 0), (ADD_OFFSETS, 0, 0),
            (END_TRANSACTION, 0, 1), (TRANSACTION_OFFSETS, 3, 3)]


class Transaction:
    """An open transaction: the first offset in each of its partitions, None before a record is there, and its offsets."""

    def __init__(self, deadline):
        self.deadline, self.firsts, self.offsets = deadline, {}, {}


class Owner:
    """Who has a transactional id now."""

    def __init__(self, producer, epoch, seconds):
        self.producer, self.epoch, self.seconds, self.open = producer, epoch, seconds, None


class Front:
    """The proxy. `moment` is called with a transactional id and a word at these moments of a transaction, each before the
    answer: "produced" when records are written and no offsets were sent yet, "offsets asked" before anything is done,
    "offsets sent", "commit asked" before anything is done, and "commit done". Where it returns true at "offsets asked",
    the offsets are refused."""

    def __init__(self, mock, moment=lambda name, word: None):
        self.mock, self.lock, self.moment = mock, threading.RLock(), moment
        self.owners, self.aborted, self.committed, self.groups = {}, {}, {}, {}
        self.joining, self.shares = {}, {}  # a lock for each member; what the leader of a group gave, with the generation
        self.ends = Counter()
        self.server = socket.create_server(("127.0.0.1", 0))
        self.port = self.server.getsockname()[1]
        self.servers = f"127.0.0.1:{self.port}"
        self.changes = {PRODUCE: self.produce, FETCH: self.fetch, METADATA: self.metadata, OFFSET_FETCH: self.fetch_offsets,
                        FIND_COORDINATOR: self.find_coordinator, JOIN_GROUP: self.join_group, SYNC_GROUP: self.sync_group,
                        INIT_PRODUCER_ID: self.begin_producer,
                        ADD_PARTITIONS: self.add_partitions, ADD_OFFSETS: self.add_offsets, END_TRANSACTION: self.end_transaction,
                        TRANSACTION_OFFSETS: self.take_offsets}
        threading.Thread(target=self.accept, daemon=True).start()
        threading.Thread(target=self.watch, daemon=True).start()

    def accept(self):
        while True:
            client, _ = self.server.accept()
            client.setsockopt(socket.IPPROTO_TCP, socket.TCP_NODELAY, 1)
            threading.Thread(target=self.serve, args=(client,), daemon=True).start()

    def serve(self, client):
        behind, stream = self.mock.connection(client), client.makefile("rb")
        try:
            while (request := frame(stream)) is not None:
                client.sendall(framed(self.answer(request, behind)))
        except OSError:
            pass  # a client that was killed
        finally:
            client.close()
            behind.socket.close()

    def answer(self, request, behind):
        fields = Reader(request)
        key, version, _ = fields.take("h"), fields.take("h"), fields.take("i")
        fields.text()
        if key == API_VERSIONS:
            rows = b"".join(struct.pack(">hhh", *row) for row in VERSIONS)
            return request[4:8] + struct.pack(">hi", UNSUPPORTED_VERSION if version > 0 else 0, len(VERSIONS)) + rows
        change = self.changes.get(key)
        return change(request, fields, version, behind) if change else behind.ask(request, True)

    def metadata(self, request, _, version, behind):
        answer = bytearray(behind.ask(request))
        fields = Reader(answer)
        fields.take("i")
        for _ in range(fields.take("i")):
            fields.take("i")
            fields.text()
            struct.pack_into(">i", answer, fields.at, self.port)
            fields.take("i")
            if version > 0:
                fields.text()
        return bytes(answer)

    def find_coordinator(self, request, _, version, behind):
        return behind.ask(request)[:-4] + struct.pack(">i", self.port)

    # Groups

    def join_group(self, request, fields, version, behind):
        group, _, member = fields.text(), fields.take("i" if version < 1 else "ii"), fields.text()
        with self.lock:
            turn = self.joining.setdefault((group, member), threading.Lock()) if member else nullcontext()
        with turn:
            try:
                answer = behind.ask(request, True)
            except ConnectionError:
                behind.reset()
                self.mock.wait_for_turn()
                raise
        fields = Reader(answer)
        fields.take("i" if version < 2 else "ii")
        if fields.take("h") == 0:
            generation = fields.take("i")
            fields.text(), fields.text()
            with self.lock:
                if self.groups.get(group, (None,))[0] != generation:
                    self.groups[group] = generation, set()
                self.groups[group][1].add(fields.text())
        return answer

    def sync_group(self, request, fields, version, behind):
        """A member's share. The mock cluster refuses who asks after the leader, so the front keeps what the leader gave."""
        group, generation, member = fields.text(), fields.take("i"), fields.text()
        shares = {fields.text(): fields.bytes() for _ in range(fields.take("i"))}
        if shares:
            with self.lock:
                self.shares[group] = generation, shares
        answer = behind.ask(request, True)
        at = 4 if version < 1 else 8
        with self.lock:
            given, shares = self.shares.get(group, (None, {}))
            is_late = struct.unpack_from(">h", answer, at)[0] == INVALID_REQUEST and given == generation and member in shares
            if is_late:
                self.ends["shares asked for late"] += 1
        return answer[:at] + b"\0\0" + framed(shares[member]) if is_late else answer

    def fetch_offsets(self, request, fields, version, behind):
        group, places = fields.text(), []
        for _ in range(fields.take("i")):
            topic = fields.text()
            places.append((topic, [fields.take("i") for _ in range(fields.take("i"))]))
        answer = request[4:8] + struct.pack(">i", len(places))
        with self.lock:
            for topic, partitions in places:
                answer += text(topic) + struct.pack(">i", len(partitions))
                for partition in partitions:
                    place = group, topic, partition
                    is_awaited = any(owner.open and place in owner.open.offsets for owner in self.owners.values())
                    offset = -1 if is_awaited else self.committed.get(place, -1)
                    answer += struct.pack(">iqhh", partition, offset, -1, UNSTABLE if is_awaited else 0)
        return answer

    # Transactions

    def owner_of(self, name, producer, epoch):
        owner = self.owners.get(name)
        return owner if owner and (owner.producer, owner.epoch) == (producer, epoch) else None

    def begin_producer(self, request, fields, version, behind):
        name, milliseconds = fields.text(), fields.take("i")
        answer = behind.ask(request)
        if name is not None:
            with self.lock:
                self.drop(name, "aborted as the next producer came")
                self.owners[name] = Owner(*struct.unpack_from(">qh", answer, 10), milliseconds / 1000)
        return answer

    def drop(self, name, reason):
        """Aborts the open transaction of a producer that is none any more."""
        owner = self.owners.pop(name, None)
        if owner and owner.open:
            self.end(owner, False, reason)

    def watch(self):
        while True:
            time.sleep(0.2)
            with self.lock:
                for name, owner in list(self.owners.items()):
                    if owner.open and time.monotonic() > owner.open.deadline:
                        self.drop(name, "aborted as its time ended")

    def begun(self, name, fields):
        """The open transaction of a request's producer, begun if there was none; None if it is refused."""
        owner = self.owner_of(name, fields.take("q"), fields.take("h"))
        if owner is None:
            self.ends["requests refused"] += 1
            return None
        owner.open = owner.open or Transaction(time.monotonic() + owner.seconds)
        return owner.open

    def add_partitions(self, request, fields, version, behind):
        with self.lock:
            transaction, rows = self.begun(fields.text(), fields), b""
            fault = 0 if transaction else INVALID_EPOCH
            topics = fields.take("i")
            for _ in range(topics):
                topic, partitions = fields.text(), fields.take("i")
                rows += text(topic) + struct.pack(">i", partitions)
                for _ in range(partitions):
                    partition = fields.take("i")
                    rows += struct.pack(">ih", partition, fault)
                    if transaction:
                        transaction.firsts.setdefault((topic, partition))
        return request[4:8] + struct.pack(">ii", 0, topics) + rows

    def add_offsets(self, request, fields, version, behind):
        with self.lock:
            fault = 0 if self.begun(fields.text(), fields) else INVALID_EPOCH
        return request[4:8] + struct.pack(">ih", 0, fault)

    def take_offsets(self, request, fields, version, behind):
        fields = Flexible(request, fields.at)
        fields.tags()
        name, group = fields.text(), fields.text()
        is_refused = self.moment(name, "offsets asked")
        with self.lock:
            owner = self.owner_of(name, fields.take("q"), fields.take("h"))
            generation, member = fields.take("i"), fields.text()
            fields.text()
            known = self.groups.get(group, (None, ()))
            fault = 0
            if owner is None or owner.open is None:
                fault = INVALID_EPOCH
            elif is_refused or generation != known[0] or member not in known[1]:
                fault = UNKNOWN_MEMBER
            self.ends["requests refused"] += fault != 0
            topics = fields.length()
            answer = request[4:8] + struct.pack(">bib", 0, 0, topics + 1)
            for _ in range(topics):
                topic, partitions = fields.text(), fields.length()
                answer += compact(topic) + bytes([partitions + 1])
                for _ in range(partitions):
                    partition, offset, _ = fields.take("i"), fields.take("q"), fields.take("i")
                    fields.text()
                    fields.tags()
                    if not fault:
                        owner.open.offsets[group, topic, partition] = offset
                    answer += struct.pack(">ihb", partition, fault, 0)
                fields.tags()
                answer += b"\0"
        self.moment(name, "offsets sent")
        return answer + b"\0"

    def end_transaction(self, request, fields, version, behind):
        name = fields.text()
        self.moment(name, "commit asked")
        with self.lock:
            owner = self.owner_of(name, fields.take("q"), fields.take("h"))
            is_commit = fields.take("b") != 0
            fault = INVALID_EPOCH if owner is None else INVALID_STATE if owner.open is None else 0
            if fault:
                self.ends["requests refused"] += 1
            else:
                self.end(owner, is_commit, "committed" if is_commit else "aborted by its producer")
        self.moment(name, "commit done")
        return request[4:8] + struct.pack(">ih", 0, fault)

    def end(self, owner, is_commit, reason):
        """Ends an open transaction in its partitions, and commits its offsets or forgets them."""
        for place, first in owner.open.firsts.items():
            if first is not None:
                marker = self.mock.append(*place, control_batch(owner.producer, owner.epoch, is_commit))
                if not is_commit:
                    self.aborted.setdefault(place, []).append((owner.producer, first, marker))
        if is_commit:
            self.committed.update(owner.open.offsets)
        self.ends[reason] += 1
        owner.open = None

    # Records

    def produce(self, request, fields, version, behind):
        name = fields.text() if version >= 3 else None
        if name is None:
            return behind.ask(request)
        fields.take("hi")
        with self.lock:
            transaction = self.transaction_of(name, Reader(request, fields.at))
            if transaction is None:
                self.ends["requests refused"] += 1
                return self.refused(request, fields)
            answer = behind.ask(request)
            self.note(transaction, Reader(answer, 4))
            is_first = not transaction.offsets
        if is_first:
            self.moment(name, "produced")
        return answer

    def transaction_of(self, name, fields):
        """The open transaction of a producer, whose partitions these are; None if a batch is another's."""
        owner = self.owners.get(name)
        for place, batch in self.batches(fields):
            if owner is None or owner.open is None or producer_of(batch) != (owner.producer, owner.epoch):
                return None
            if place not in owner.open.firsts:
                return None
        return owner.open

    @staticmethod
    def batches(fields):
        for _ in range(fields.take("i")):
            topic = fields.text()
            for _ in range(fields.take("i")):
                yield (topic, fields.take("i")), fields.bytes()

    def refused(self, request, fields):
        places = [place for place, _ in self.batches(fields)]
        rows = b"".join(text(topic) + struct.pack(">iihqq", 1, partition, INVALID_EPOCH, -1, -1) for topic, partition in places)
        return request[4:8] + struct.pack(">i", len(places)) + rows + struct.pack(">i", 0)

    @staticmethod
    def note(transaction, fields):
        """Notes the first offset of a transaction in each partition, from the answer to its batches."""
        for _ in range(fields.take("i")):
            topic = fields.text()
            for _ in range(fields.take("i")):
                partition, fault, offset = fields.take("i"), fields.take("h"), fields.take("q")
                fields.take("q")
                if fault == 0 and transaction.firsts[topic, partition] is None:
                    transaction.firsts[topic, partition] = offset

    def fetch(self, request, fields, version, behind):
        fields.take("iiii")
        is_committed_alone = fields.take("b") == 1
        wanted = {}
        for _ in range(fields.take("i")):
            topic = fields.text()
            for _ in range(fields.take("i")):
                partition = fields.take("i")
                wanted[topic, partition] = fields.take("q")
                fields.take("i")
        answer = behind.ask(request, True)
        return self.cut(answer, wanted) if is_committed_alone else answer

    def cut(self, answer, wanted):
        """An answer to a fetch without what is not committed yet, and with what was aborted named."""
        fields, cut_off = Reader(answer, 8), False
        topics = fields.take("i")
        made = answer[:8] + struct.pack(">i", topics)
        with self.lock:
            for _ in range(topics):
                topic, partitions = fields.text(), fields.take("i")
                made += text(topic) + struct.pack(">i", partitions)
                for _ in range(partitions):
                    partition, fault, high, _ = fields.take("i"), fields.take("h"), fields.take("q"), fields.take("q")
                    fields.take("i")
                    records, place = fields.bytes(), (topic, partition)
                    stable = self.stable(place, high)
                    if records and struct.unpack_from(">q", records)[0] >= stable:
                        records, cut_off = b"", True
                    aborted = [row[:2] for row in self.aborted.get(place, []) if row[2] >= wanted[place]]
                    made += struct.pack(">ihqqi", partition, fault, high, stable, len(aborted))
                    made += b"".join(struct.pack(">qq", *row) for row in aborted) + framed(records)
        if cut_off:
            time.sleep(0.01)
        return made

    def stable(self, place, high):
        """The first offset that an open transaction has in a partition, or its end."""
        firsts = [owner.open.firsts.get(place) for owner in self.owners.values() if owner.open]
        return min([high] + [first for first in firsts if first is not None])


def main():
    topics = {name: count for name, _, count in (word.partition("=") for word in sys.argv[1:])}
    if not topics or not all(count.isdecimal() for count in topics.values()):
        sys.exit(__doc__)
    print(Front(MockCluster({name: int(count) for name, count in topics.items()})).servers, flush=True)
    signal.pause()


if __name__ == "__main__":
    main()
