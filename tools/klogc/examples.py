"""The examples in a transform's first comment: records, and what becomes of them.

    KEY | VALUE [with NAME=VALUE, ..] [at TIMESTAMP] -> WANTED

WANTED is `nothing`, `reject CODE`, or emissions `OUTPUT KEY | VALUE` with ` + ` between them. A line of the comment is an example if it
has ` -> `. The same words without ` -> WANTED` are a record, as `klogc run` reads them."""
import re
from typing import NamedTuple

from .meaning import Emission, Record
from .program import Refused

ESCAPES = {"n": b"\n", "t": b"\t", "r": b"\r", "a": b"\a", "b": b"\b", "f": b"\f", "v": b"\v", "\\": b"\\", '"': b'"', "'": b"'", "/": b"/"}
ESCAPE = re.compile(r"\\(x[0-9a-fA-F]{2}|u[0-9a-fA-F]{4}|[0-7]{1,3}|.)?", re.S)
MOST_BYTES, MOST_HEADERS, MOST_NAME, MOST_TIMESTAMP = 1048576, 16, 255, (1 << 62) - 1
MOST_CODE = (1 << 64) - 1
OUTPUTS = 64
FORM = "KEY | VALUE -> OUTPUT KEY | VALUE"

Wanted = int | list[Emission]


class Example(NamedTuple):
    """`wanted` is a reject code or emissions; their headers are not compared."""
    line: int
    record: Record
    wanted: Wanted


class Malformed(Exception):
    """What is wrong with a line."""


# ---- bytes

def escaped(found):
    word = found[1]
    if not word:
        raise Malformed("a `\\` at the end: write it as `\\\\`")
    if word[0] in "01234567":
        number = int(word, 8)
        if number > 255:
            raise Malformed(f"`\\{word}` is more than a byte: write two")
        return bytes([number])
    if word[0] == "x" and len(word) == 3:
        return bytes.fromhex(word[1:])
    if word[0] == "u" and len(word) == 5:
        return chr(int(word[1:], 16)).encode("utf-8", "surrogatepass")
    if word in ESCAPES:
        return ESCAPES[word]
    raise Malformed(f"`\\{word}` is no escape: there are \\n \\t \\r \\\\ \\\" \\xHH \\uHHHH and \\NNN in octal")


def some_bytes(text):
    """The bytes of a word: `null`, `hex:HH..`, a text with C's escapes, or `TEXT*N` for a text that is repeated."""
    text = text.strip()
    if text == "null":
        return None
    if text.startswith("hex:"):
        pairs = text[4:].replace(" ", "")
        if not re.fullmatch(r"(?:[0-9a-fA-F]{2})*", pairs):
            raise Malformed(f"`{text}` is no hex: give two digits for each byte")
        return bytes.fromhex(pairs)
    repeated = re.fullmatch(r"(.*[^\\])\*(\d{1,7})", text, re.S)
    if repeated:
        part, count = some_bytes(repeated[1]), int(repeated[2])
        if part is None or len(part) * count > MOST_BYTES:
            raise Malformed(f"`{text}` is no bytes, or more than {MOST_BYTES}")
        return part * count
    parts, at = [], 0
    for found in ESCAPE.finditer(text):
        parts += [text[at:found.start()].encode("utf-8", "surrogateescape"), escaped(found)]
        at = found.end()
    return b"".join([*parts, text[at:].encode("utf-8", "surrogateescape")])


def key_and_value(text):
    key, bar, value = text.partition("|")
    if not bar:
        raise Malformed(f"`{text.strip()}` has no `|` between the key and the value")
    return some_bytes(key), value


# ---- records

def headers_of(text):
    headers = []
    for each in text.split(","):
        name, sign, value = each.strip().partition("=")
        if not sign:
            raise Malformed(f"`{each.strip()}` is no header: write NAME=VALUE")
        headers.append((some_bytes(name) or b"", some_bytes(value)))
    if len(headers) > MOST_HEADERS or any(len(name) > MOST_NAME for name, _ in headers):
        raise Malformed(f"a record has at most {MOST_HEADERS} headers, with names of at most {MOST_NAME} bytes")
    return tuple(headers)


def record_of(text):
    """The record of `KEY | VALUE [with NAME=VALUE, ..] [at TIMESTAMP]`; the time may stand before `with` too."""
    found = re.search(r" at (\d+)$", text.rstrip())
    text = text.rstrip()[:found.start()] if found else text
    key, rest = key_and_value(text)
    value, word, headers = rest.partition(" with ")
    earlier = re.search(r" at (\d+)$", value.rstrip())
    if earlier:
        value, found = value.rstrip()[:earlier.start()], earlier
    timestamp = int(found[1]) if found else 1000
    if timestamp > MOST_TIMESTAMP:
        raise Malformed(f"{timestamp} is no timestamp: it is below 2^62")
    return Record(key, some_bytes(value), headers_of(headers) if word else (), timestamp)


# ---- what is wanted

def emission_of(text):
    output, _, rest = text.strip().partition(" ")
    if not re.fullmatch(r"\d{1,2}", output) or int(output) >= OUTPUTS:
        raise Malformed(f"`{text.strip()}` is no emission: write OUTPUT KEY | VALUE, with an output from 0 to {OUTPUTS - 1}")
    key, value = key_and_value(rest)
    return Emission(int(output), key, some_bytes(value))


def wanted_of(text) -> Wanted:
    text = text.strip()
    if text == "nothing":
        return []
    rejected = re.fullmatch(r"reject (\d+)", text)
    if rejected:
        if not 1 <= int(rejected[1]) <= MOST_CODE:
            raise Malformed(f"`{text}`: a reject code is at least 1 and below 2^64")
        return int(rejected[1])
    return [emission_of(each) for each in re.split(r" \+ (?=\d+ )", text)]


# ---- sources

def first_comment(text):
    """The lines of a source's first comment, if it begins with one, each with its number."""
    found = re.match(r"\s*/\*(.*?)\*/", text, re.S)
    if found:
        first = text[:found.start(1)].count("\n") + 1
        return [(first + k, line.strip().removeprefix("*").strip()) for k, line in enumerate(found[1].split("\n"))]
    lines = []
    for k, line in enumerate(text.split("\n"), 1):
        if line.strip().startswith("//"):
            lines.append((k, line.strip()[2:].strip()))
        elif lines or line.strip():
            break
    return lines


def description(text):
    """The first paragraph of a source's first comment."""
    words = []
    for _, line in first_comment(text):
        if words and not line or " -> " in line:
            break
        words += [line] if line else []
    return " ".join(words)


def examples(name, text):
    """The examples of a source; a line that follows no form is refused."""
    found = []
    for number, line in first_comment(text):
        record, arrow, wanted = line.partition(" -> ")
        if not arrow:
            continue
        try:
            found.append(Example(number, record_of(record), wanted_of(wanted)))
        except Malformed as fault:
            raise Refused(f"no example: {fault}; an example is {FORM}", f"{name}:{number}") from None
    return found


# ---- printing

# Letters that would be read otherwise where they stand: spaces at an end, ` + `, ` -> `, ` with `, ` at N` and `*N`.
SPECIAL = re.compile(r"^ | $|(?<= )\+(?= )|(?<= -)>(?= )| (?=(?:with|at) )|\*(?=\d+$)")


def shown_bytes(data):
    """Bytes as an example has them."""
    if data is None:
        return "null"
    if data == b"null" or data.startswith(b"hex:") or any(byte >= 127 for byte in data):
        return "hex:" + data.hex()
    text = "".join(chr(byte) if 32 <= byte < 127 and byte not in b"\\|" else f"\\x{byte:02x}" for byte in data)
    return SPECIAL.sub(lambda found: f"\\x{ord(found[0]):02x}", text)


def shown_header(data):
    """As shown_bytes, in a list of NAME=VALUE."""
    text = shown_bytes(data)
    return text if data is None else text.replace(",", "\\x2c").replace("=", "\\x3d")


def shown_wanted(wanted: Wanted):
    if isinstance(wanted, int):
        return f"reject {wanted}"
    return " + ".join(f"{e.output} {shown_bytes(e.key)} | {shown_bytes(e.value)}" for e in wanted) or "nothing"


def shown_record(record: Record):
    headers = ", ".join(f"{shown_header(name)}={shown_header(value)}" for name, value in record.headers)
    return f"{shown_bytes(record.key)} | {shown_bytes(record.value)}" + (f" with {headers}" if headers else "") + (f" at {record.timestamp}" if record.timestamp != 1000 else "")
