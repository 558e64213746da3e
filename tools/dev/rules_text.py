"""Reads rules, as docs/guide/rules.md says it. Not part of the build.

It is written from the page and not from the crate `rules`. `parse` gives the rules of a text, or raises a Fault.
"""
import re
from dataclasses import dataclass
from typing import NoReturn

LAYOUTS = {"byte": (1, "big"), "u16be": (2, "big"), "u32be": (4, "big"), "u64be": (8, "big"), "u16le": (2, "little"),
           "u32le": (4, "little"), "u64le": (8, "little")}
COMPARISONS = ("=", "!=", "<=", "<", ">=", ">")
MAX_RULES, MAX_STEPS, MAX_TEXT, MAX_PLACE, MAX_DIGITS = 1024, 100, 255, 1 << 20, 18
MAX_OUTPUT, MAX_HASHED, MAX_NUMBER = 63, 64, (1 << 64) - 1
WORD = re.compile(rb"[0-9A-Za-z_]*")
ESCAPE = re.compile(rb'(["\\])|n|t|x([0-9A-Fa-f]{2})')


class Fault(Exception):
    """Why a text is refused, and where: its name, the line and the column."""

    def __init__(self, name: str, line: int, column: int):
        super().__init__(f"{name} {line} {column}")


@dataclass(frozen=True)
class Rule:
    """A line of rules: what becomes of a record, and when, if not always. Both are tuples that begin with a word."""
    action: tuple
    condition: tuple | None


class Line:
    """A line that is read from its front on."""

    def __init__(self, number: int, text: bytes):
        self.number, self.text, self.at = number, text, 0

    def fault(self, name: str, at: int) -> NoReturn:
        raise Fault(name, self.number, at + 1)

    def skip(self) -> None:
        while self.text[self.at:self.at + 1] in (b" ", b"\t", b"\r"):
            self.at += 1

    def is_done(self) -> bool:
        self.skip()
        return self.text[self.at:self.at + 1] in (b"", b"#")

    def unexpected(self) -> NoReturn:
        self.fault("E7 End" if self.is_done() else "E1 Word", self.at)

    def word(self) -> str:
        self.skip()
        return WORD.match(self.text, self.at)[0].decode()

    def take_word(self, word: str) -> bool:
        if self.word() == word:
            self.at += len(word)
            return True
        return False

    def take_sign(self, sign: str) -> bool:
        self.skip()
        if self.text.startswith(sign.encode(), self.at):
            self.at += len(sign)
            return True
        return False

    def expect(self, *signs: str) -> None:
        for sign in signs:
            if not (self.take_word(sign) if sign.isalpha() else self.take_sign(sign)):
                self.unexpected()

    def number_in(self, low: int, high: int) -> int:
        word = self.word()
        if not word[:1].isdigit():
            self.unexpected()
        form, base = (r"0x[0-9A-Fa-f]+", 16) if word.startswith("0x") else (r"[0-9]+", 10)
        number = int(word, base) if re.fullmatch(form, word) else None
        if number is None or number > MAX_NUMBER or not low <= number <= high:
            self.fault("E2 Number", self.at)
        self.at += len(word)
        return number

    def text_here(self) -> bytes:
        self.skip()
        start = self.at
        if not self.take_sign('"'):
            self.unexpected()
        found = bytearray()
        while self.text[self.at:self.at + 1] != b'"':
            if self.at == len(self.text):
                self.fault("E3 Text", start)
            found.append(self.char(start))
            if len(found) > MAX_TEXT:
                self.fault("E4 Long", start)
        self.at += 1
        return bytes(found)

    def char(self, start: int) -> int:
        byte = self.text[self.at]
        self.at += 1
        if byte != ord("\\"):
            return byte
        escape = ESCAPE.match(self.text, self.at)
        if not escape:
            self.fault("E3 Text", start)
        self.at = escape.end()
        if escape[2]:
            return int(escape[2], 16)
        return {b"n": 10, b"t": 9}.get(escape[0], escape[0][0])

    # parts, terms and tests

    def part(self) -> tuple:
        for word in ("value", "key"):
            if self.take_word(word):
                return (word,)
        self.expect("header")
        return ("header", self.text_here())

    def is_part(self) -> bool:
        return self.word() in ("value", "key", "header")

    def term(self) -> tuple:
        word = self.word()
        if word in ("offset", "timestamp", "partition", "headers"):
            self.expect(word)
            return (word,)
        if word not in ("length", "decimal", *LAYOUTS):
            self.unexpected()
        self.at += len(word)
        self.expect("(")
        term = (word, self.part())
        for low, high in {"length": [], "decimal": [(0, MAX_PLACE), (1, MAX_DIGITS)]}.get(word, [(0, MAX_PLACE)]):
            self.expect(",")
            term += (self.number_in(low, high),)
        self.expect(")")
        return term

    def test(self) -> tuple:
        if not self.is_part():
            term = self.term()
            how = next((it for it in COMPARISONS if self.take_sign(it)), None) or self.unexpected()
            return ("compare", term, how, self.number_in(0, MAX_NUMBER))
        part = self.part()
        if self.take_word("is"):
            if self.take_word("null"):
                return ("null", part)
            self.expect("absent")
            return ("absent", part)
        for word in ("begins", "has"):
            if self.take_word(word):
                return (word, part, self.text_here())
        self.expect("=")
        return ("=", part, self.text_here())

    # conditions, each read in so many steps at most

    def step(self, steps: int) -> int:
        if not steps:
            self.skip()
            self.fault("E5 Deep", self.at)
        return steps - 1

    def any(self, steps: int) -> tuple:
        steps = self.step(steps)
        first = self.all(steps)
        return ("or", first, self.any(steps)) if self.take_word("or") else first

    def all(self, steps: int) -> tuple:
        steps = self.step(steps)
        first = self.one(steps)
        return ("and", first, self.all(steps)) if self.take_word("and") else first

    def one(self, steps: int) -> tuple:
        steps = self.step(steps)
        if self.take_word("not"):
            return ("not", self.one(steps))
        if self.take_sign("("):
            inner = self.any(steps)
            self.expect(")")
            return inner
        return self.test()

    # actions

    def range_here(self, is_open: bool) -> tuple[int, int | None]:
        self.expect("[")
        start = self.number_in(0, MAX_PLACE)
        self.expect("..")
        if is_open and self.take_sign("]"):
            return start, None
        end = self.number_in(start, MAX_PLACE)
        self.expect("]")
        return start, end

    def output(self) -> tuple:
        if self.take_word("hash"):
            self.expect("(")
            part = self.part()
            self.expect(")", "%")
            return ("hash", part, self.number_in(1, MAX_HASHED))
        out = self.number_in(0, MAX_OUTPUT)
        if self.take_word("with"):
            self.expect("value")
            cut = self.range_here(False)
            self.expect("=")
            return ("with", out, cut, self.text_here())
        if self.is_part():
            part = self.part()
            return ("cut", out, part, self.range_here(True))
        return ("record", out)

    def action(self) -> tuple:
        if self.take_word("drop"):
            return ("drop", self.number_in(1, MAX_NUMBER) if self.word()[:1].isdigit() else 10)
        if self.take_word("tombstone"):
            return ("tombstone", self.number_in(0, MAX_OUTPUT))
        self.expect("output")
        output, added = self.output(), None
        if self.take_word("and"):
            self.expect("header")
            key = self.text_here()
            self.expect("=")
            added = (key, self.text_here())
        return ("output", output, added)

    def rule(self) -> Rule:
        action = self.action()
        condition = self.any(MAX_STEPS) if self.take_word("when") else None
        if not self.is_done():
            self.unexpected()
        return Rule(action, condition)


def parse(text: bytes) -> list[Rule]:
    """The rules of a text."""
    rules: list[Rule] = []
    for number, line in enumerate(text.split(b"\n"), 1):
        read = Line(number, line)
        if read.is_done():
            continue
        start = read.at
        rule = read.rule()
        if len(rules) == MAX_RULES:
            read.fault("E6 Many", start)
        rules.append(rule)
    return rules
