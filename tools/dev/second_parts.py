"""What the helpers over parts of a record answer, in the second implementation (docs/reference/machine.md)."""
import re

MOST_PLACES, MOST_DIGITS, MOST_VALUE, MOST_KEY, MOST_EMISSIONS = 4095, 18, 1048576, 4096, 16
MULTIPLIER, SEED = 0x5BD1E995, 0x9747B28C
M32 = (1 << 32) - 1
MOST_HEADERS, MOST_HEADER_KEY, MOST_HEADER_VALUE = 16, 255, 4096
EMITS = (3, 4, 5, 6, 20, 21)


def part(record, number):
    """A part of a record by its number: a list of its bytes, or of None if it is null; an empty one where the record lacks it."""
    if number < 2:
        return [record.key if number else record.value]
    return [header[number % 2] for header in record.headers[number // 2 - 1:number // 2]]


def part_bytes(record, number):
    return next(iter(part(record, number)), None) or b""


def part_length(record, number):
    found = part(record, number)
    return 0 if not found else 1 if found[0] is None else len(found[0]) + 2


def has(data, place, count):
    return place + count <= len(data)


def find(data, place, those):
    if place > len(data):
        return 0
    return data.find(those, place, place + MOST_PLACES + len(those)) + 1


def equals(data, place, those):
    return int(has(data, place, len(those)) and data[place:place + len(those)] == those)


def decimal(data, place, count):
    digits = data[place:place + count] if 1 <= count <= MOST_DIGITS and has(data, place, count) else b""
    return int(digits) + 1 if re.fullmatch(rb"[0-9]+", digits) else 0


def murmur2(data):
    """The hash by which Kafka's clients choose a partition, with its sign bit."""
    n = SEED ^ len(data)
    for at in range(0, len(data) & -4, 4):
        k = int.from_bytes(data[at:at + 4], "little") * MULTIPLIER & M32
        n = (n * MULTIPLIER & M32) ^ ((k ^ k >> 24) * MULTIPLIER & M32)
    rest = data[len(data) & -4:]
    if rest:
        n = (n ^ int.from_bytes(rest, "little")) * MULTIPLIER & M32
    n = (n ^ n >> 13) * MULTIPLIER & M32
    return n ^ n >> 15


def hash_of(record, number):
    found = part(record, number)
    return murmur2(found[0]) & M32 >> 1 if found and found[0] is not None else 0


def header(record, key):
    return next((at for at, (name, _) in enumerate(record.headers, 1) if name == key), 0)


def answer(helper, record, numbers, named):
    """What the helpers 13 and 15 to 19 answer, of their numbers and the bytes that they are given."""
    data = part_bytes(record, numbers[0]) if numbers else b""
    if helper == 13:
        return part_length(record, numbers[0])
    if helper == 15:
        return find(data, numbers[1], named[0])
    if helper == 16:
        return equals(data, numbers[1], named[0])
    if helper == 17:
        return decimal(data, numbers[1], numbers[2])
    return hash_of(record, numbers[0]) if helper == 18 else header(record, named[0])


def emission(helper, record, numbers, named):
    """What a helper emits: a key, a value and headers, and the code for which it emits nothing, or 0."""
    if helper in (20, 21):
        data = part_bytes(record, numbers[1]) if helper == 20 else record.value or b""
        place, count = numbers[-2:]
        value = data[place:place + count] if helper == 20 else data[:place] + named[0] + data[place + count:]
        code = 4 if not has(data, place, count) else 5 if len(value) > MOST_VALUE else 0
        return (record.key, value, record.headers), code
    return {3: lambda: (record.key, record.value, record.headers), 4: lambda: (record.key, named[0], []),
            5: lambda: (named[0], named[1], []), 6: lambda: (record.key, None, [])}[helper](), 0


def add_header(record, added, key, value):
    """What helper 22 answers, which adds a header to others; where it is 0, the header is among them afterwards."""
    if len(record.headers) + len(added) >= MOST_HEADERS:
        return 1
    try:
        key.decode()
    except UnicodeDecodeError:
        return 2
    if len(key) > MOST_HEADER_KEY:
        return 2
    if len(value) > MOST_HEADER_VALUE:
        return 3
    added.append((key, value))
    return 0


def emitted(helper, record, numbers, named, outputs, before, added):
    """The emit code of a helper, and what it emits if that is 0, with the added headers; `before` emissions were made."""
    (key, value, headers), code = emission(helper, record, numbers, named)
    made = key, value, [*headers, *added]
    answered = 1 if numbers[0] >= outputs else 2 if len(made[0] or b"") > MOST_KEY else 3 if before >= MOST_EMISSIONS else code
    return answered, made
