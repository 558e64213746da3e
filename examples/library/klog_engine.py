"""klog's engine in Python: the calls of libklog.so (include/klog_engine.h), without packages.

    with Program(Engine("libklog.so"), image) as program:
        code, emissions = program.run(key, value, headers=[(b"trace", b"7f")])
        made = program.transform(batches, offset=0, outputs=2)

An image may be a program file too, as `engine.compile(b'drop when value = ""')` is one.
"""
import ctypes
from collections import namedtuple
from ctypes import POINTER, byref, c_size_t, c_uint32, c_uint64

BYTES = ctypes.c_char_p
NULL_KEY, NULL_VALUE = 1, 2
FULL, BATCH, RULES = 7, 300, 500
MOST_COMPILED = 131088
UNLIMITED = 2**64 - 1
MOST_KEY, MOST_VALUE = 4096, 1048576
MOST_HEADER_KEY, MOST_HEADER_VALUE = 255, 4096


class Handle(ctypes.Structure):
    _fields_ = [("at", ctypes.c_void_p), ("full", ctypes.c_ubyte)]


class Record(ctypes.Structure):
    _fields_ = [("key", BYTES), ("key_length", c_size_t), ("value", BYTES), ("value_length", c_size_t),
                ("offset", c_uint64), ("timestamp", c_uint64), ("partition", c_size_t), ("outputs", c_size_t),
                ("headers", POINTER(Handle))]


class Emission(ctypes.Structure):
    _fields_ = [("output", c_size_t), ("key_length", c_size_t), ("value_length", c_size_t), ("nulls", c_uint32),
                ("header_count", c_size_t)]


class Header(ctypes.Structure):
    _fields_ = [("key_length", c_size_t), ("value_length", c_size_t), ("nulls", c_uint32)]


class Spot(ctypes.Structure):
    _fields_ = [("line", c_size_t), ("column", c_size_t), ("rule", c_size_t)]


class Source(ctypes.Structure):
    _fields_ = [("offset", c_uint64), ("partition", c_size_t), ("outputs", c_size_t)]


class Stop(ctypes.Structure):
    _fields_ = [("batch", c_size_t), ("byte", c_size_t), ("record", c_uint32)]


class Counts(ctypes.Structure):
    _fields_ = [("batches", c_size_t), ("records", c_uint64), ("kept", c_uint64), ("codes", c_size_t),
                ("outputs", c_size_t)]


class Reject(ctypes.Structure):
    _fields_ = [("code", c_uint64), ("records", c_uint64)]


class Output(ctypes.Structure):
    _fields_ = [("rows", c_uint64), ("length", c_size_t), ("batches", c_size_t)]


# What a program makes of record batches: how many there were, their records, how many of these were kept, how many each
# code rejected, and for each output its number of rows, its number of batches and their bytes.
Transformed = namedtuple("Transformed", "batches records kept rejects outputs")


class Fault(Exception):
    """What the engine refuses, as `klog` prints it."""


class BatchFault(Fault):
    """The same of record batches: `batch` of them end at `byte`, and could be transformed alone."""

    def __init__(self, text, stop):
        super().__init__(f"batch {stop.batch} at byte {stop.byte}: {text}")
        self.text, self.batch, self.byte = text, stop.batch, stop.byte


class Engine:
    """The functions of libklog.so."""

    def __init__(self, name):
        self.library = ctypes.CDLL(name)
        handle = POINTER(Handle)
        self.declare("klog_load", BYTES, c_size_t, c_uint32, handle, POINTER(c_size_t))
        self.declare("klog_compile", BYTES, c_size_t, BYTES, c_size_t, POINTER(c_size_t), POINTER(Spot))
        self.declare("klog_fault_text", c_uint32, c_size_t, BYTES, c_size_t, POINTER(c_size_t))
        self.declare("klog_share", handle, handle)
        self.declare("klog_add_header", handle, BYTES, c_size_t, BYTES, c_size_t)
        self.declare("klog_run", handle, POINTER(Record), handle)
        self.declare("klog_outcome", handle, POINTER(c_uint64), POINTER(c_size_t))
        self.declare("klog_emission_at", handle, c_size_t, POINTER(Emission))
        self.declare("klog_emission_key", handle, c_size_t, BYTES, c_size_t)
        self.declare("klog_emission_value", handle, c_size_t, BYTES, c_size_t)
        self.declare("klog_emission_header", handle, c_size_t, c_size_t, POINTER(Header))
        self.declare("klog_emission_header_key", handle, c_size_t, c_size_t, BYTES, c_size_t)
        self.declare("klog_emission_header_value", handle, c_size_t, c_size_t, BYTES, c_size_t)
        self.declare("klog_transform_within", handle, POINTER(Source), BYTES, c_size_t, c_uint64, handle, POINTER(Stop))
        self.declare("klog_counts_of", handle, POINTER(Counts))
        self.declare("klog_reject_at", handle, c_size_t, POINTER(Reject))
        self.declare("klog_output_at", handle, c_size_t, POINTER(Output))
        self.declare("klog_output_batches", handle, c_size_t, BYTES, c_size_t)
        self.declare("klog_free", handle)
        self.library.klog_free.restype = None

    def declare(self, name, *parameters):
        function = getattr(self.library, name)
        function.argtypes, function.restype = parameters, c_uint32

    def text(self, fault, place=0):
        room, length = ctypes.create_string_buffer(64), c_size_t()
        self.library.klog_fault_text(fault, place, room, len(room), byref(length))
        return room.raw[:length.value].decode()

    def check(self, fault, place=0):
        if fault:
            raise Fault(self.text(fault, place))

    def compile(self, rules):
        """The program file of the rules in a text, for Program."""
        file, written, spot = ctypes.create_string_buffer(MOST_COMPILED), c_size_t(), Spot()
        fault = self.library.klog_compile(rules, len(rules), file, len(file), byref(written), byref(spot))
        if fault > RULES:
            where = f"rule {spot.rule}" if spot.rule else f"line {spot.line}"
            raise Fault(f"{where}: {self.text(fault, spot.column)}")
        self.check(fault)
        return file.raw[:written.value]


class Program:
    """A loaded program of an image or a program file, for one thread, which a `with` statement frees. By table 0 a file has
    its own helper table, and an image table 1."""

    def __init__(self, engine, image, table=0):
        self.engine, self.library = engine, engine.library
        self.program, self.outcome, self.record, self.emission = Handle(), Handle(), Record(), Emission()
        self.batches, self.source, self.stop, self.counts = Handle(), Source(), Stop(), Counts()
        self.headers, self.header = Handle(), Header()
        self.headers_at = ctypes.pointer(self.headers)
        self.code, self.count = c_uint64(), c_size_t()
        self.key, self.value = ctypes.create_string_buffer(MOST_KEY), ctypes.create_string_buffer(MOST_VALUE)
        self.key_bytes, self.value_bytes = memoryview(self.key), memoryview(self.value)
        # what the calls of each run are given, made once
        self.run_words = byref(self.program), byref(self.record), byref(self.outcome)
        self.outcome_words = byref(self.outcome), byref(self.code), byref(self.count)
        self.outcome_at, self.emission_at = byref(self.outcome), byref(self.emission)
        place = c_size_t()
        fault = engine.library.klog_load(image, len(image), table, byref(self.program), byref(place))
        engine.check(fault, place.value)

    def __enter__(self):
        return self

    def __exit__(self, *_):
        self.free()

    def free(self):
        self.library.klog_free(byref(self.outcome))
        self.library.klog_free(byref(self.batches))
        self.library.klog_free(byref(self.headers))
        self.library.klog_free(byref(self.program))

    def run(self, key, value, offset=0, timestamp=0, partition=0, outputs=1, headers=()):
        """The reject code, 0 where the record is kept, and the emissions: output, key, value and headers; None is null."""
        record = self.record
        record.key, record.key_length = key, len(key or b"")
        record.value, record.value_length = value, len(value or b"")
        record.offset, record.timestamp, record.partition, record.outputs = offset, timestamp, partition, outputs
        record.headers = self.added(headers) if headers else None
        fault = self.library.klog_run(*self.run_words) or self.library.klog_outcome(*self.outcome_words)
        if fault:
            self.engine.check(fault)
        return self.code.value, [self.emitted(number) for number in range(self.count.value)]

    def added(self, headers):
        """The handle of these headers alone, each a key and a value."""
        self.library.klog_free(self.headers_at)
        for number, (key, value) in enumerate(headers):
            fault = self.library.klog_add_header(self.headers_at, key, len(key), value, len(value or b""))
            if fault:
                raise Fault(f"header {number}: {self.engine.text(fault)}")
        return self.headers_at

    def emitted(self, number):
        library, emission = self.library, self.emission
        fault = (library.klog_emission_at(self.outcome_at, number, self.emission_at)
                 or library.klog_emission_key(self.outcome_at, number, self.key, MOST_KEY)
                 or library.klog_emission_value(self.outcome_at, number, self.value, MOST_VALUE))
        if fault:
            self.engine.check(fault)
        key = None if emission.nulls & NULL_KEY else bytes(self.key_bytes[:emission.key_length])
        value = None if emission.nulls & NULL_VALUE else bytes(self.value_bytes[:emission.value_length])
        headers = [self.emitted_header(number, at) for at in range(emission.header_count)]
        return emission.output, key, value, headers

    def emitted_header(self, number, at):
        library, header, outcome = self.library, self.header, self.outcome_at
        fault = (library.klog_emission_header(outcome, number, at, byref(header))
                 or library.klog_emission_header_key(outcome, number, at, self.key, MOST_HEADER_KEY)
                 or library.klog_emission_header_value(outcome, number, at, self.value, MOST_HEADER_VALUE))
        if fault:
            self.engine.check(fault)
        value = None if header.nulls & NULL_VALUE else bytes(self.value_bytes[:header.value_length])
        return bytes(self.key_bytes[:header.key_length]), value

    def transform(self, batches, offset=0, partition=0, outputs=1, limit=UNLIMITED):
        """What the program makes of all records of some record batches, of which the first has this offset. It is a fault
        where the batches of the outputs take more bytes than the limit."""
        library, source, stop = self.library, self.source, self.stop
        source.offset, source.partition, source.outputs = offset, partition, outputs
        fault = library.klog_transform_within(byref(self.program), byref(source), batches, len(batches), limit,
                                              byref(self.batches), byref(stop))
        if fault > BATCH or fault == FULL:
            raise BatchFault(self.engine.text(fault, stop.record), stop)
        self.engine.check(fault or library.klog_counts_of(byref(self.batches), byref(self.counts)))
        counts = self.counts
        return Transformed(counts.batches, counts.records, counts.kept, [self.reject(k) for k in range(counts.codes)],
                           [self.output(k) for k in range(outputs)])

    def reject(self, number):
        reject = Reject()
        self.engine.check(self.library.klog_reject_at(byref(self.batches), number, byref(reject)))
        return reject.code, reject.records

    def output(self, number):
        told = Output()
        self.engine.check(self.library.klog_output_at(byref(self.batches), number, byref(told)))
        room = ctypes.create_string_buffer(told.length)
        self.engine.check(self.library.klog_output_batches(byref(self.batches), number, room, told.length))
        return told.rows, told.batches, room.raw
