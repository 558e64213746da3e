"""Says what becomes of a record by rules, as docs/guide/rules.md says it. Not part of the build.

It is written from the page and not from the crate `rules`, so that a compiler of rules can be compared with it. `parse`
reads the rules of a text. `outcome` says what they make of a record at a place: the code that rejects it, or the list of
its emissions. `rules_meaning_test.py` tests both.
"""
import re
from dataclasses import dataclass

from rules_text import LAYOUTS, Rule, parse

__all__ = ["LAYOUTS", "Place", "Record", "Rule", "chosen", "outcome", "parse", "value_of"]
LOOKED_AT, MAX_VALUE, MAX_KEY, MAX_HEADERS, MAX_HEADER_KEY, MAX_HEADER_VALUE = 65536, 1 << 20, 4096, 16, 255, 4096

Header = tuple[bytes, bytes | None]
Emission = tuple[int, bytes | None, bytes | None, list[Header]]


@dataclass
class Record:
    key: bytes | None
    value: bytes | None
    headers: list[Header]


@dataclass
class Place:
    offset: int
    timestamp: int
    partition: int
    outputs: int


def header_named(key: bytes, record: Record) -> Header | None:
    return next((it for it in record.headers if it[0] == key), None)


def bytes_of(part: tuple, record: Record) -> bytes | None:
    """The bytes of a part; none where it is null or absent."""
    if part[0] == "header":
        header = header_named(part[1], record)
        return header[1] if header else None
    return record.value if part[0] == "value" else record.key


def is_absent(part: tuple, record: Record) -> bool:
    return part[0] == "header" and header_named(part[1], record) is None


def number_of(term: tuple, data: bytes) -> int | None:
    """The value of a term of bytes that are there."""
    if term[0] == "length":
        return len(data)
    place = term[2]
    size, order = LAYOUTS.get(term[0], (term[-1], ""))
    found = data[place:place + size]
    if len(found) < size:
        return None
    if term[0] == "decimal":
        return int(found) if re.fullmatch(rb"[0-9]+", found) else None
    return int.from_bytes(found, order)


def value_of(term: tuple, record: Record, place: Place) -> int | None:
    """The value of a term, if the record has it."""
    if term[0] == "headers":
        return len(record.headers)
    if len(term) == 1:
        return getattr(place, term[0])
    data = bytes_of(term[1], record)
    return None if data is None else number_of(term, data)


def compares(how: str, one: int, other: int) -> bool:
    return {"=": one == other, "!=": one != other, "<": one < other, "<=": one <= other, ">": one > other,
            ">=": one >= other}[how]


def test_holds(test: tuple, record: Record, place: Place) -> bool:
    if test[0] == "compare":
        value = value_of(test[1], record, place)
        return value is not None and compares(test[2], value, test[3])
    if test[0] == "absent":
        return is_absent(test[1], record)
    data = bytes_of(test[1], record)
    if test[0] == "null":
        return data is None and not is_absent(test[1], record)
    if data is None:
        return False
    return {"=": data == test[2], "begins": data.startswith(test[2]), "has": test[2] in data[:LOOKED_AT]}[test[0]]


def holds(condition: tuple, record: Record, place: Place) -> bool:
    if condition[0] == "not":
        return not holds(condition[1], record, place)
    if condition[0] == "and":
        return holds(condition[1], record, place) and holds(condition[2], record, place)
    if condition[0] == "or":
        return holds(condition[1], record, place) or holds(condition[2], record, place)
    return test_holds(condition, record, place)


def chosen(rules: list[Rule], record: Record, place: Place) -> Rule | None:
    """The rule that takes a record."""
    return next((it for it in rules if it.condition is None or holds(it.condition, record, place)), None)


def hash_of(data: bytes | None) -> int:
    """What Kafka's clients partition by: murmur2 of 32 bits without its sign bit; 0 of what is null or absent."""
    if data is None:
        return 0
    low, multiplier = (1 << 32) - 1, 0x5bd1e995
    found = 0x9747b28c ^ len(data)
    whole = len(data) // 4 * 4
    for at in range(0, whole, 4):
        word = int.from_bytes(data[at:at + 4], "little") * multiplier & low
        found = found * multiplier & low ^ (word ^ word >> 24) * multiplier & low
    if whole < len(data):
        found = (found ^ int.from_bytes(data[whole:], "little")) * multiplier & low
    found = (found ^ found >> 13) * multiplier & low
    return (found ^ found >> 15) & low >> 1


def emitted(emission: Emission, place: Place) -> int | list[Emission]:
    """One emission, or the code by which it is refused."""
    if emission[0] >= place.outputs:
        return 1
    return 2 if len(emission[1] or b"") > MAX_KEY else [emission]


def is_utf8(data: bytes) -> bool:
    try:
        data.decode()
    except UnicodeDecodeError:
        return False
    return True


def header_refusal(added: Header, record: Record) -> int:
    """Why a header is not added; 0 where it is."""
    if len(record.headers) >= MAX_HEADERS:
        return 1
    if len(added[0]) > MAX_HEADER_KEY or not is_utf8(added[0]):
        return 2
    return 3 if len(added[1]) > MAX_HEADER_VALUE else 0


def new_value(output: tuple, record: Record) -> bytes | int:
    """The value of a `cut` or a `with`, or the code where there is none."""
    data = (bytes_of(output[2], record) if output[0] == "cut" else record.value) or b""
    start, end = output[2] if output[0] == "with" else output[3]
    end = len(data) if end is None else end
    if not start <= end <= len(data):
        return 4
    if output[0] == "cut":
        return data[start:end]
    changed = data[:start] + output[3] + data[end:]
    return 5 if len(changed) > MAX_VALUE else changed


def outcome_of_output(output: tuple, headers: list[Header], record: Record, place: Place) -> int | list[Emission]:
    out = hash_of(bytes_of(output[1], record)) % output[2] if output[0] == "hash" else output[1]
    value = new_value(output, record) if output[0] in ("cut", "with") else record.value
    lacks = isinstance(value, int)
    sent = emitted((out, record.key, b"" if lacks else value, headers), place)
    return value if lacks and not isinstance(sent, int) else sent


def outcome(rules: list[Rule], record: Record, place: Place) -> int | list[Emission]:
    """What becomes of a record: the code that rejects it, or its emissions."""
    rule = chosen(rules, record, place)
    if rule is None:
        return []
    if rule.action[0] == "drop":
        return rule.action[1]
    if rule.action[0] == "tombstone":
        return emitted((rule.action[1], record.key, None, []), place)
    _, output, added = rule.action
    refused = header_refusal(added, record) if added else 0
    return refused or outcome_of_output(output, record.headers + ([added] if added else []), record, place)
