#!/usr/bin/env python3
"""Compares compiled rules with what docs/guide/rules.md says of them, on random rules and records. Not part of the build.

    tools/dev/compare_rules.py RUNNER FILES SEED [RECORDS [0]]    # 0: without added headers, which are not compiled

RUNNER reads lines on standard input and answers each by one: `R TEXT` compiles the rules of a text and loads the program
(`ok SLOTS`, or `refused` and why), and `T OFFSET,TIMESTAMP,PARTITION,OUTPUTS KEY VALUE HEADER:VALUE ..` runs it on a record
(`reject CODE`, or `kept` and for each emission ` | OUT KEY VALUE HEADER:VALUE ..`). Bytes are hex pairs, `.` is none, `-` is
null, `61*9` is a byte nine times, and `+` joins two. rules_meaning.py says what each answer has to be.
"""
import random
import subprocess
import sys

import rules_meaning

WORDS = [b"", b"a", b"b", b"ab", b"aba", b"eu", b"region", b"level", b"12", b"007", b"{", b"\xff", b"\x00\x01", b"\xc3\xa4"]
KEYS = [b"", b"region", b"a", b"b", b"\xc3\xa4", b"\xff", b"none"]
LAYOUTS = list(rules_meaning.LAYOUTS)
PLACES = [0, 0, 0, 1, 2, 3, 7, 8, 40, 4096, 1 << 20]
BIG = [0, 1, 2, 255, 256, 65535, 65536, (1 << 31) - 1, 1 << 31, (1 << 32) - 1, 1 << 32, 1 << 62, (1 << 63) - 1, 1 << 63, (1 << 64) - 1]


def quoted(data):
    return '"' + "".join(chr(it) if 32 <= it < 127 and it not in (34, 92) else f"\\x{it:02x}" for it in data) + '"'


class Maker:
    """Random rules and records. Half of the texts and numbers of rules are those of a record that they are run on."""

    def __init__(self, seed):
        self.random = random.Random(seed)
        self.cases = []

    def known_text(self):
        """Some bytes of a part of a record."""
        record, _ = self.random.choice(self.cases)
        data = self.random.choice([record.key, record.value, *(value for _, value in record.headers)]) or b""
        start = self.random.choice([0, 0, max(0, len(data) - self.random.randrange(4)), self.random.randrange(len(data) + 1)])
        return data[start:start + self.random.choice([0, 1, 2, 5, 17, 255])]

    def known_number(self, term):
        """A number near the value of a term."""
        record, place = self.random.choice(self.cases)
        (rule,) = rules_meaning.parse(f"drop when {term} = 0".encode())
        value = rules_meaning.value_of(rule.condition[1], record, place)
        return None if value is None else max(0, min(value + self.random.choice([-1, 0, 0, 0, 1]), (1 << 64) - 1))

    def text(self):
        if self.random.random() < 0.5:
            return self.known_text()
        if self.random.random() < 0.03:
            return bytes(self.random.choice(b"ab") for _ in range(self.random.choice([250, 255, 100, 17])))
        if self.random.random() < 0.3:
            return bytes(self.random.choice(b"ab") for _ in range(self.random.randrange(6)))
        return self.random.choice(WORDS)

    def part(self):
        return self.random.choice(["value", "value", "key", "header " + quoted(self.random.choice(KEYS))])

    def number(self):
        if self.random.random() < 0.5:
            return self.random.randrange(20)
        return max(0, min(self.random.choice(BIG) + self.random.randrange(-2, 3), (1 << 64) - 1))

    def term(self):
        kind = self.random.randrange(8)
        if kind == 0:
            return f"length({self.part()})"
        if kind == 1:
            return f"decimal({self.part()}, {self.random.choice(PLACES)}, {self.random.randrange(1, 19)})"
        if kind <= 4:
            return f"{self.random.choice(LAYOUTS)}({self.part()}, {self.random.choice(PLACES)})"
        return self.random.choice(["offset", "timestamp", "partition", "headers"])

    def test(self):
        kind = self.random.randrange(7)
        if kind == 0:
            return f"{self.part()} is null"
        if kind == 1:
            return f"{self.part()} is absent"
        if kind <= 4:
            return f"{self.part()} {self.random.choice(['=', 'begins', 'has'])} {quoted(self.text())}"
        term, number = self.term(), None
        if self.random.random() < 0.5:
            number = self.known_number(term)
        return f"{term} {self.random.choice(['=', '!=', '<', '<=', '>', '>='])} {self.number() if number is None else number}"

    def condition(self, depth):
        kind = self.random.randrange(8) if depth else 7
        if kind <= 1:
            return f"({self.condition(depth - 1)}) {'and' if kind else 'or'} ({self.condition(depth - 1)})"
        if kind <= 3:
            return f"{self.test()} {'and' if kind == 2 else 'or'} {self.condition(depth - 1)}"
        if kind == 4:
            return f"not ({self.condition(depth - 1)})"
        return self.test()

    def output(self):
        kind = self.random.randrange(8)
        out = self.random.choice([0, 1, 2, 63])
        start = self.random.choice(PLACES)
        end = min(1 << 20, start + self.random.choice([0, 1, 2, 5, 1 << 19, 1 << 20]))
        if kind == 0:
            return f"output hash({self.part()}) % {self.random.choice([1, 2, 3, 7, 64])}"
        if kind == 1:
            return f"output {out} {self.part()}[{start}..]"
        if kind == 2:
            return f"output {out} {self.part()}[{start}..{end}]"
        if kind == 3:
            return f"output {out} with value[{start}..{end}] = {quoted(self.text())}"
        return f"output {out}"

    def action(self, headers):
        kind = self.random.randrange(6)
        if kind == 0:
            return "drop"
        if kind == 1:
            return f"drop {max(1, self.number())}"
        if kind == 2:
            return f"tombstone {self.random.choice([0, 1, 2, 63])}"
        added = f" and header {quoted(self.random.choice(KEYS))} = {quoted(self.text())}" if headers and self.random.random() < 0.4 else ""
        return self.output() + added

    def rules(self, headers):
        lines = []
        for _ in range(self.random.choice([1, 1, 2, 3, 6])):
            lines.append(f"{self.action(headers)} when {self.condition(self.random.randrange(4))}")
        if self.random.random() < 0.5:
            lines.append(self.action(headers))
        return "".join(f"{it}\n" for it in lines)

    def bytes(self):
        kind = self.random.randrange(10)
        if kind == 0:
            return None
        if kind == 1:
            return b""
        if kind == 2:
            return str(self.random.randrange(10 ** self.random.randrange(1, 19))).encode()
        if kind == 3:
            return b"." * self.random.choice([4090, 4095, 4096, 8191, 65530, 65534, 65535]) + self.random.choice(WORDS)
        if kind == 4:
            return self.random.randbytes(self.random.randrange(20))
        return b"".join(self.random.choice(WORDS) for _ in range(self.random.randrange(5)))

    def record(self):
        count = self.random.choice([0, 0, 1, 2, 3, 15, 16])
        headers = [(self.random.choice(KEYS), self.bytes()) for _ in range(count)]
        headers = [(key, value if value is None else value[:4096]) for key, value in headers]
        key = self.bytes()
        return rules_meaning.Record(key if key is None else key[:4096], self.bytes(), headers)

    def place(self):
        offset, timestamp = (max(0, min(self.random.choice([self.number(), self.random.randrange(20)]), (1 << 62) - 1)) for _ in "ab")
        return rules_meaning.Place(offset, timestamp, self.random.randrange(64), self.random.choice([1, 2, 64]))


def shown(data):
    return "-" if data is None else data.hex() or "."


def record_words(record):
    return " ".join([shown(record.key), shown(record.value), *(f"{shown(key)}:{shown(value)}" for key, value in record.headers)])


def answer_of(outcome):
    """An outcome as a runner says it."""
    if isinstance(outcome, int):
        return f"reject {outcome}"
    said = "kept"
    for out, key, value, headers in outcome:
        said += f" | {out} {shown(key)} {shown(value)}" + "".join(f" {key.hex()}:{shown(it)}" for key, it in headers)
    return said


def cases_of(maker, records, headers):
    """A text of rules, and lines of records with their answers."""
    maker.cases = [(maker.record(), maker.place()) for _ in range(records)]
    text = maker.rules(headers)
    rules = rules_meaning.parse(text.encode())
    lines = [(f"R {text.encode().hex()}", None)]
    for record, place in maker.cases:
        words = f"T {place.offset},{place.timestamp},{place.partition},{place.outputs} {record_words(record)}"
        lines.append((words, answer_of(rules_meaning.outcome(rules, record, place))))
    return text, lines


def main(runner, files, seed, records=8, headers=True):
    maker, wrong, runs, slots, kept = Maker(seed), 0, 0, 0, 0
    while files > 0:
        batch = [cases_of(maker, records, headers) for _ in range(min(files, 500))]
        files -= len(batch)
        asked = "".join(line + "\n" for _, lines in batch for line, _ in lines)
        ran = subprocess.run([runner], input=asked, capture_output=True, text=True, check=False)
        answers = iter(ran.stdout.splitlines())
        for text, lines in batch:
            for line, want in lines:
                got = next(answers, "nothing")
                runs += want is not None
                kept += "|" in (want or "")
                slots += int(got.split()[1]) if want is None and got.startswith("ok ") else 0
                if got != want if want is not None else not got.startswith("ok "):
                    wrong += 1
                    if wrong <= 5:
                        print(f"--- {text}{line[:300]}\nwant {str(want)[:300]}\ngot  {got[:300]}")
    print(f"{runs} runs, {kept} with an emission, {slots} slots, {wrong} different or refused")
    return 1 if wrong else 0


if __name__ == "__main__":
    if len(sys.argv) < 4:
        sys.exit(__doc__)
    sys.exit(main(sys.argv[1], int(sys.argv[2]), int(sys.argv[3]), *map(int, sys.argv[4:6])))
