"""librdkafka's mock cluster, and the frames, fields and batches of Kafka's protocol that tests send and read.

Not called: mock_kafka.py and the tests of Kafka import it. It needs librdkafka (Debian's librdkafka1, which
python3-confluent-kafka needs too).

The mock cluster has the protocol of records, groups and rebalances. Of transactions it has the answers alone: of
version 2.0.2 it was seen, and its source says, that

- EndTxn does nothing: records of an aborted or an open transaction are read like others, also by read_committed;
- TxnOffsetCommit keeps no offset, and takes no generation (version 2);
- a second InitProducerId of a transactional id leaves the first producer its rights.

And of groups its source says that

- a SyncGroup that comes after the leader's is INVALID_REQUEST, and all join again, on a busy machine for minutes;
- it doesn't notice that a connection was closed while it owes the answer to a JoinGroup there, and ends by an assertion
  (rd_kafka_mock_cgrp_member_add) as soon as that member joins by another connection.
"""
import ctypes
import select
import socket
import struct
import time

from kafka_clients import API_VERSIONS, PRODUCE, Reader, text


def framed(body):
    return struct.pack(">i", len(body)) + body


def frame(stream):
    """The next frame of a stream, None at its end."""
    head = stream.read(4)
    return stream.read(struct.unpack(">i", head)[0]) if len(head) == 4 else None


class Connection:
    """A connection to a broker, for a client or for oneself."""

    def __init__(self, host, port, client=None):
        self.socket, self.client = socket.create_connection((host, port)), client
        self.socket.setsockopt(socket.IPPROTO_TCP, socket.TCP_NODELAY, 1)
        self.stream = self.socket.makefile("rb")

    def ask(self, request, may_wait=False):
        """The answer to a request. Where it may take long, a fault as soon as the client has gone: the broker sees it too."""
        self.socket.sendall(framed(request))
        if may_wait and self.socket not in select.select([self.socket, self.client], [], [])[0]:
            if not self.client.recv(1, socket.MSG_PEEK):
                raise ConnectionError
        return frame(self.stream)

    def reset(self):
        """Closes it so that a broker that doesn't read from it notices too."""
        self.socket.setsockopt(socket.SOL_SOCKET, socket.SO_LINGER, struct.pack("ii", 1, 0))
        self.stream.close()
        self.socket.close()


class MockCluster:
    """librdkafka's mock cluster, with one broker, in this process."""

    def __init__(self, topics):
        """`topics` has the number of partitions of each topic."""
        self.library = ctypes.CDLL("librdkafka.so.1")
        pointer = ctypes.c_void_p
        problem = ctypes.create_string_buffer(512)
        settings, room = pointer(self.call("rd_kafka_conf_new", pointer)), ctypes.c_size_t(512)
        self.call("rd_kafka_conf_set", ctypes.c_int, settings, b"log_level", b"4", problem, room)  # not that it has no servers
        client = self.call("rd_kafka_new", pointer, ctypes.c_int(0), settings, problem, room)
        self.client = pointer(client)
        self.cluster = pointer(self.call("rd_kafka_mock_cluster_new", pointer, self.client, ctypes.c_int(1)))
        for name, partitions in topics.items():
            if self.call("rd_kafka_mock_topic_create", ctypes.c_int, self.cluster, name.encode(), partitions, 1):
                raise ValueError(name)
        self.servers = self.call("rd_kafka_mock_cluster_bootstraps", ctypes.c_char_p, self.cluster).decode()
        self.own = self.connection()

    def close(self):
        """Ends the cluster, and frees its records."""
        self.own.reset()
        self.call("rd_kafka_mock_cluster_destroy", None, self.cluster)
        self.call("rd_kafka_destroy", None, self.client)

    def connection(self, client=None):
        host, port = self.servers.split(",")[0].rsplit(":", 1)
        return Connection(host, int(port), client)

    def append(self, topic, partition, batch):
        """Appends a batch, as it is, to a partition; its offset."""
        body = struct.pack(">hhi", PRODUCE, 3, 0) + text("front") + struct.pack(">hhii", -1, -1, 1000, 1) + text(topic)
        fields = Reader(self.own.ask(body + struct.pack(">iii", 1, partition, len(batch)) + batch))
        fields.take("ii"), fields.text(), fields.take("ii")
        if fields.take("h"):
            raise ValueError(topic)
        return fields.take("q")

    def wait_for_turn(self):
        """Returns when the broker has seen all that came to its connections before: a new one it reads in a later turn."""
        turn = self.connection()
        turn.ask(struct.pack(">hhi", API_VERSIONS, 0, 0) + text("front"))
        turn.reset()

    def call(self, name, result, *words):
        function = getattr(self.library, name)
        function.restype = result
        return function(*words)


def crc32c(data):
    value = 0xFFFFFFFF
    for byte in data:
        value ^= byte
        for _ in range(8):
            value = value >> 1 ^ (0x82F63B78 if value & 1 else 0)
    return value ^ 0xFFFFFFFF


def control_batch(producer, epoch, is_commit):
    """The batch that ends a transaction in a partition."""
    key, value = struct.pack(">hh", 0, is_commit), struct.pack(">hi", 0, 0)
    record = bytes([0, 0, 0, 2 * len(key)]) + key + bytes([2 * len(value)]) + value + b"\0"
    now = int(time.time() * 1000)
    body = struct.pack(">hiqqqhii", 0x30, 0, now, now, producer, epoch, -1, 1) + bytes([2 * len(record)]) + record
    return struct.pack(">qiibI", 0, 9 + len(body), 0, 2, crc32c(body)) + body


def producer_of(batch):
    return struct.unpack_from(">qh", batch, 43)


class Flexible(Reader):
    """The fields of a flexible version."""

    def length(self):
        value = shift = 0
        while True:
            byte = self.take("B")
            value |= (byte & 127) << shift
            shift += 7
            if byte < 128:
                return value - 1

    def text(self):
        length = self.length()
        if length < 0:
            return None
        self.at += length
        return self.data[self.at - length:self.at].decode()

    def tags(self):
        if self.take("B"):
            raise ValueError("tagged fields")


def compact(value):
    return bytes([len(value) + 1]) + value.encode()
