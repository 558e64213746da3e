#!/usr/bin/env python3
"""Runs a program on lines of standard input, each a record, and prints what it emits as lines of the same form.

    lines.py LIBRARY IMAGE [--json] [--outputs N [--only Q]] [--table 2] < LINES

LIBRARY is libklog.so. A line is KEY<TAB>VALUE, or VALUE alone, with a null key. With --json it is an object with "key",
"value", "headers" (a list of pairs) and "timestamp", of which each may be left out; what `kcat -J` prints is one too.
docs/guide/formats.md says more.
"""
import argparse
import json
import os
import sys

from klog_engine import Engine, Fault, Program

MOST_OUTPUTS, PARTITIONS = 64, 64


class BadLine(Exception):
    """A line that is no record, or an emission that is no line."""


def bytes_of(text, what):
    """The bytes of a string of JSON. Those that are no UTF-8 stand in it as \\udc80 to \\udcff, as Python writes them."""
    if text is None:
        return None
    if not isinstance(text, str):
        raise BadLine(f"{what} is not a string or null")
    try:
        return text.encode("utf-8", "surrogateescape")
    except UnicodeEncodeError:
        raise BadLine(f"{what} has half a surrogate pair") from None


def text_of(part):
    return None if part is None else part.decode("utf-8", "surrogateescape")


def number_of(value, what):
    if isinstance(value, bool) or not isinstance(value, int) or not 0 <= value < 2 ** 62:
        raise BadLine(f"{what} is not a whole number from 0 to 2^62 - 1")
    return value


def headers_of(given):
    """A list of pairs, or as kcat prints it: one list of keys and values in turn."""
    if not isinstance(given, list):
        raise BadLine("headers are not a list of pairs")
    if given and all(not isinstance(it, list) for it in given):
        given = [given[k:k + 2] for k in range(0, len(given), 2)]
    if any(not isinstance(it, list) or len(it) != 2 or it[0] is None for it in given):
        raise BadLine("headers are not a list of pairs")
    return [(bytes_of(name, "a header's key"), bytes_of(value, "a header's value")) for name, value in given]


def record_of_json(line):
    """The key, value, headers, timestamp, offset and partition of a line; None is an offset that is not said."""
    try:
        given = json.loads(line)
    except (ValueError, RecursionError):
        raise BadLine("it is no JSON") from None
    if not isinstance(given, dict):
        raise BadLine("it is no object")
    value = bytes_of(given.get("value", given.get("payload")), "the value")
    time = number_of(given.get("timestamp", given.get("ts", 0)), "the timestamp")
    offset = number_of(given["offset"], "the offset") if "offset" in given else None
    partition = number_of(given.get("partition", 0), "the partition") % PARTITIONS
    return bytes_of(given.get("key"), "the key"), value, headers_of(given.get("headers", [])), time, offset, partition


def record_of_text(line):
    key, tab, value = line.partition(b"\t")
    return (key if tab else None), (value if tab else line), [], 0, None, 0


def json_of(output, key, value, headers, time):
    row = {"output": output, "key": text_of(key), "value": text_of(value), "timestamp": time}
    if headers:
        row["headers"] = [[text_of(name), text_of(text)] for name, text in headers]
    return json.dumps(row).encode()


def line_of(key, value):
    if value is None:
        raise BadLine("an output has a null value, which no line can have; take --json")
    if b"\n" in value or b"\n" in (key or b""):
        raise BadLine("an output has a line's end in it; take --json")
    if b"\t" in (value if key is None else key):
        raise BadLine("an output has a tab before its value ends the key; take --json")
    return value if key is None else key + b"\t" + value


class Lines:
    """The program, the form of lines, and what came of them."""

    def __init__(self, program, given):
        self.program, self.given = program, given
        self.counts = {"lines": 0, "outputs": 0, "rejected": 0, "faulty": 0}

    def take(self, line):
        """Prints what a line becomes."""
        form = record_of_json if self.given.json else record_of_text
        key, value, headers, time, offset, partition = form(line)
        if offset is None:
            offset = self.counts["lines"] - 1
        code, emissions = self.program.run(key, value, offset, time, partition, self.given.outputs, headers)
        if code:
            self.counts["rejected"] += 1
            self.tell(f"rejected with code {code}")
        made = [json_of(*emission, time) if self.given.json else line_of(*emission[1:3])
                for emission in emissions if self.given.only in (None, emission[0])]
        sys.stdout.buffer.write(b"".join(row + b"\n" for row in made))
        sys.stdout.buffer.flush()
        self.counts["outputs"] += len(made)

    def tell(self, what):
        print(f"lines: line {self.counts['lines']}: {what}", file=sys.stderr)

    def run(self, lines):
        """Takes all lines; whether none was faulty."""
        for line in lines:
            self.counts["lines"] += 1
            try:
                self.take(line.removesuffix(b"\n"))
            except (BadLine, Fault) as fault:
                self.counts["faulty"] += 1
                self.tell(fault)
        print("lines: " + ", ".join(f"{what} {count}" for what, count in self.counts.items()), file=sys.stderr)
        return self.counts["faulty"] == 0


def words():
    parser = argparse.ArgumentParser(description=__doc__, formatter_class=argparse.RawDescriptionHelpFormatter)
    parser.add_argument("library")
    parser.add_argument("image")
    parser.add_argument("--json", action="store_true", help="lines are objects of JSON")
    parser.add_argument("--outputs", type=int, default=1, choices=range(1, MOST_OUTPUTS + 1), metavar="N",
                        help="how many output partitions there are, 1 to 64")
    parser.add_argument("--only", type=int, metavar="Q", help="print what goes to output Q alone")
    parser.add_argument("--table", type=int, default=0, choices=(1, 2), help="the helper table of an image, 1 if not given")
    given = parser.parse_args()
    if given.outputs > 1 and given.only is None and not given.json:
        parser.error("with several outputs take --only Q, or --json, whose lines name the output")
    if given.only is not None and not 0 <= given.only < given.outputs:
        parser.error(f"--only is from 0 to {given.outputs - 1}")
    return given


def main():
    given = words()
    try:
        engine = Engine(given.library)
    except (OSError, AttributeError) as fault:
        sys.exit(f"lines: {given.library} is no library of klog: {fault}")
    try:
        with open(given.image, "rb") as file, Program(engine, file.read(), given.table) as program:
            return 0 if Lines(program, given).run(sys.stdin.buffer) else 1
    except BrokenPipeError:
        os.dup2(os.open(os.devnull, os.O_WRONLY), sys.stdout.fileno())
        return 1
    except Fault as fault:
        sys.exit(f"lines: {given.image}: {fault}")
    except OSError as fault:
        sys.exit(f"lines: {fault}")
    except KeyboardInterrupt:
        return 130


if __name__ == "__main__":
    sys.exit(main())
