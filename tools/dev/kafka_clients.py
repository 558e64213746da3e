#!/usr/bin/env python3
"""Batches as Kafka clients send them, and what klog answers to each.

Not part of the build. On Debian:

    apt-get install -y python3-kafka python3-confluent-kafka golang-go golang-github-shopify-sarama-dev
    /usr/bin/python3 tools/dev/kafka_clients.py KLOG           # KLOG: the built program, crates/klog/out/klog after `rt run`

A small broker on 127.0.0.1 takes what each client produces and keeps the bytes of its batches. Each client, with
each setting, sends three records; then `klog run stdin` appends the bytes. One line for each: the client, the setting,
how many bytes came, and klog's answer. The broker answers as few requests as these clients send. It ends by itself.
"""
import os
import socket
import struct
import subprocess
import sys
import tempfile
import threading

TOPIC = "t"

# Kafka's numbers of the requests that are answered here, and the versions that are offered.
PRODUCE, FETCH, METADATA, FIND_COORDINATOR, API_VERSIONS = 0, 1, 3, 10, 18
INIT_PRODUCER_ID, ADD_PARTITIONS, END_TRANSACTION = 22, 24, 26
UNSUPPORTED_VERSION = 35


class Reader:
    """The fields of a request, in order."""

    def __init__(self, data, at=0):
        self.data, self.at = data, at

    def take(self, form):
        values = struct.unpack_from(">" + form, self.data, self.at)
        self.at += struct.calcsize(">" + form)
        return values[0]

    def text(self):
        length = self.take("h")
        if length < 0:
            return None
        self.at += length
        return self.data[self.at - length:self.at].decode()

    def bytes(self):
        length = self.take("i")
        if length < 0:
            return b""
        self.at += length
        return self.data[self.at - length:self.at]


def text(value):
    return struct.pack(">h", len(value)) + value.encode()


class Broker:
    """One broker of one topic with one partition, which keeps what is produced to it."""

    def __init__(self, produce, fetch=4):
        self.versions = [(PRODUCE, 0, produce), (FETCH, 0, fetch), (METADATA, 0, 1), (FIND_COORDINATOR, 0, 1), (API_VERSIONS, 0, 0),
                         (INIT_PRODUCER_ID, 0, 0), (ADD_PARTITIONS, 0, 0), (END_TRANSACTION, 0, 0)]
        self.kept = []
        self.server = socket.create_server(("127.0.0.1", 0))
        self.port = self.server.getsockname()[1]
        threading.Thread(target=self.accept, daemon=True).start()

    def accept(self):
        while True:
            connection, _ = self.server.accept()
            threading.Thread(target=self.serve, args=(connection,), daemon=True).start()

    def serve(self, connection):
        stream = connection.makefile("rb")
        while True:
            head = stream.read(4)
            if len(head) < 4:
                return
            request = Reader(stream.read(struct.unpack(">i", head)[0]))
            key, version, correlation = request.take("h"), request.take("h"), request.take("i")
            request.text()
            body = self.answer(key, version, request)
            if body is not None:
                connection.sendall(struct.pack(">ii", len(body) + 4, correlation) + body)

    def answer(self, key, version, request):
        if key == API_VERSIONS:
            rows = b"".join(struct.pack(">hhh", *row) for row in self.versions)
            return struct.pack(">hi", UNSUPPORTED_VERSION if version > 0 else 0, len(self.versions)) + rows
        if key == METADATA:
            return self.metadata(version)
        if key == PRODUCE:
            return self.produce(version, request)
        if key == INIT_PRODUCER_ID:
            return struct.pack(">ihqh", 0, 0, 4000, 0)
        if key == FIND_COORDINATOR:
            head = struct.pack(">ihh", 0, 0, -1) if version > 0 else struct.pack(">h", 0)
            return head + struct.pack(">i", 0) + text("127.0.0.1") + struct.pack(">i", self.port)
        if key == ADD_PARTITIONS:
            return struct.pack(">ii", 0, 1) + text(TOPIC) + struct.pack(">iih", 1, 0, 0)
        if key == END_TRANSACTION:
            return struct.pack(">ih", 0, 0)
        return None

    def metadata(self, version):
        throttle = struct.pack(">i", 0) if version > 2 else b""
        broker = struct.pack(">ii", 1, 0) + text("127.0.0.1") + struct.pack(">i", self.port)
        if version > 0:
            broker += struct.pack(">h", -1) + (struct.pack(">h", -1) if version > 1 else b"") + struct.pack(">i", 0)
        topic = struct.pack(">ih", 1, 0) + text(TOPIC) + (b"\0" if version > 0 else b"")
        offline = struct.pack(">i", 0) if version > 4 else b""
        return throttle + broker + topic + struct.pack(">ihiiiiii", 1, 0, 0, 0, 1, 0, 1, 0) + offline

    def produce(self, version, request):
        if version >= 3:
            request.text()
        acks = request.take("h")
        request.take("i")
        answers = b""
        topics = request.take("i")
        for _ in range(topics):
            name, partitions = request.text(), request.take("i")
            answers += text(name) + struct.pack(">i", partitions)
            for _ in range(partitions):
                partition = request.take("i")
                self.kept.append(request.bytes())
                answers += struct.pack(">ihq", partition, 0, 0) + (struct.pack(">q", -1) if version >= 2 else b"")
                answers += struct.pack(">q", 0) if version >= 5 else b""
        if acks == 0:
            return None
        return struct.pack(">i", topics) + answers + (struct.pack(">i", 0) if version >= 1 else b"")


RECORDS = [(b"k", b"v" * 200), (None, b"a value"), (b"a key", b"")]


def confluent(settings, transactional=False):
    """librdkafka by its client for Python."""
    from confluent_kafka import Producer

    def send(broker):
        producer = Producer({"bootstrap.servers": f"127.0.0.1:{broker.port}", "linger.ms": 200, "message.timeout.ms": 8000, **settings})
        if transactional:
            producer.init_transactions(8)
            producer.begin_transaction()
        for key, value in RECORDS:
            producer.produce(TOPIC, value, key, partition=0, timestamp=1700000000000)
        producer.flush(10)
        if transactional:
            producer.commit_transaction(8)

    return send


def python(version, **settings):
    """python3-kafka."""
    from kafka import KafkaProducer

    def send(broker):
        producer = KafkaProducer(bootstrap_servers=f"127.0.0.1:{broker.port}", api_version=version, linger_ms=200, retries=0, **settings)
        for key, value in RECORDS:
            producer.send(TOPIC, value, key, partition=0, timestamp_ms=1700000000000)
        producer.flush(10)
        producer.close(5)

    return send


def sarama(program, version, compression="none", idempotent=False):
    """The Go client sarama, by a program that was built of tools/dev/sarama_producer.go."""

    def send(broker):
        words = [program, f"127.0.0.1:{broker.port}", version, compression, "idempotent" if idempotent else "plain"]
        subprocess.run(words, check=True, timeout=60)

    return send


def built_sarama(folder):
    """Builds tools/dev/sarama_producer.go with Debian's Go packages; the program's name."""
    program, source = os.path.join(folder, "sarama"), os.path.join(os.path.dirname(os.path.abspath(__file__)), "sarama_producer.go")
    ways = {**os.environ, "GO111MODULE": "off", "GOPATH": "/usr/share/gocode"}
    subprocess.run(["go", "build", "-o", program, source], check=True, env=ways, stderr=subprocess.DEVNULL)
    return program


def cases(go):
    import confluent_kafka
    import kafka

    rdkafka, own, by_go = "librdkafka " + confluent_kafka.libversion()[0], "python3-kafka " + kafka.__version__, "sarama 1.22.1"
    return [
        (rdkafka, "as it comes", confluent({}), 3),
        (rdkafka, "enable.idempotence", confluent({"enable.idempotence": True}), 3),
        (rdkafka, "transactional.id", confluent({"transactional.id": "x"}, True), 3),
        (rdkafka, "compression.type=gzip", confluent({"compression.type": "gzip"}), 3),
        (rdkafka, "against a broker before 0.10 (magic 0)", confluent({"api.version.request": False, "broker.version.fallback": "0.9.0"}), 0),
        (own, "as it comes", python((0, 11)), 3),
        (own, "compression_type=gzip", python((0, 11), compression_type="gzip"), 3),
        (own, "api_version=(0, 10) (magic 1)", python((0, 10)), 2),
        (own, "api_version=(0, 9) (magic 0)", python((0, 9)), 1),
        (by_go, "Version 1.0.0", sarama(go, "1.0.0"), 3),
        (by_go, "Version 1.0.0, Idempotent", sarama(go, "1.0.0", idempotent=True), 3),
        (by_go, "Version 1.0.0, CompressionGZIP", sarama(go, "1.0.0", "gzip"), 3),
        (by_go, "Version 0.10.0.0 (magic 1)", sarama(go, "0.10.0.0"), 2),
        (by_go, "Version 0.9.0.1 (magic 0)", sarama(go, "0.9.0.1"), 2),
    ]


def answer_of(klog, batches):
    script = f"partitions 1 1 8\nappend 0 hex:{b''.join(batches).hex()}\n"
    done = subprocess.run([klog, "run", "stdin"], input=script, capture_output=True, text=True, timeout=600)
    return (done.stdout + done.stderr).strip().replace("\n", "; ")


def main():
    if len(sys.argv) != 2:
        sys.exit(__doc__)
    with tempfile.TemporaryDirectory() as folder:
        for client, setting, send, produce in cases(built_sarama(folder)):
            broker = Broker(produce)
            send(broker)
            sizes = sum(map(len, broker.kept))
            print(f"{client} | {setting} | {sizes} bytes | {answer_of(sys.argv[1], broker.kept)}", flush=True)


if __name__ == "__main__":
    main()
