"""Random images and objects for tests: programs whose jumps lead forward, of every form of instruction that klog takes, the same in another
order, and objects that have them. The verifier accepts them; klog's second implementation (second_machine.py) runs them."""
import collections
import struct

from second_broker import Record
from second_machine import TESTS, run


def slot(opcode, dst=0, src=0, offset=0, imm=0):
    return struct.pack("<BBhi", opcode, dst | src << 4, offset, imm)


def wide(dst, number):
    return struct.pack("<BBhIII", 0x18, dst, 0, number & 0xFFFFFFFF, 0, number >> 32)


# ---- random programs
#
# r6 is the value's address, r7 its length, which is 16 at least, r10 the stack's end, of which 64 bytes are set. All others are
# numbers, between two instructions of those that `some_part` gives. r9 counts the path.

NUMBERS = (0, 1, 2, 3, 4, 5, 8)


def some_imm(rng):
    return rng.choice([0, 1, -1, 2, 7, 8, 31, 33, 64, 255, 4096, 2**31 - 1, -2**31, rng.randrange(-2**31, 2**31)])


def some_arithmetic(rng):
    klass, code = rng.choice([4, 7]), rng.choice([0, 1, 2, 3, 4, 5, 6, 7, 9, 10, 12])
    offset = rng.choice([0, 1]) if code in (3, 9) else 0
    if rng.random() < 0.5:
        return slot(code << 4 | 8 | klass, rng.choice(NUMBERS), rng.choice(NUMBERS), offset)
    return slot(code << 4 | klass, rng.choice(NUMBERS), 0, offset, some_imm(rng))


def some_change(rng):
    dst, src = rng.choice(NUMBERS), rng.choice(NUMBERS)
    extended = rng.choice([(0xBF, 8), (0xBF, 16), (0xBF, 32), (0xBC, 8), (0xBC, 16), (0xBF, 0), (0xBC, 0)])
    return rng.choice([slot(0x87, dst), slot(0x84, dst), slot(0xB7, dst, 0, 0, some_imm(rng)), slot(0xB4, dst, 0, 0, some_imm(rng)),
                       slot(extended[0], dst, src, extended[1]), slot(rng.choice([0xD4, 0xDC, 0xD7]), dst, 0, 0, rng.choice([16, 32, 64])),
                       wide(dst, rng.getrandbits(64))])


def some_access(rng):
    number, size, bits = rng.choice(NUMBERS), *rng.choice([(1, 0x10), (2, 0x08), (4, 0x00), (8, 0x18)])
    place, kind = -rng.randrange(size, 65), rng.random()
    if kind < 0.3:
        return slot(0x63 | bits, 10, number, place)
    if kind < 0.5:
        return slot(0x62 | bits, 10, 0, place, some_imm(rng))
    base, place = (10, place) if kind < 0.75 else (6, rng.randrange(17 - size))
    return slot(rng.choice([0x61, 0x81]) | bits if size < 8 else 0x79, number, base, place)


def stack_bytes(register, length_register, rng):
    length = rng.randrange(1, 33)
    return slot(0xBF, register, 10) + slot(0x07, register, 0, 0, -64 + rng.randrange(65 - length)) + slot(0xB7, length_register, 0, 0, length)


def some_call(rng):
    helper = rng.randrange(1, 10)
    code = b""
    if helper in (1, 2):
        code = stack_bytes(1, 3, rng) + slot(0xB7, 2, 0, 0, rng.choice([0, 1, 8, -1]))
    elif helper in (3, 4, 5, 6):
        code = slot(0xB7, 1, 0, 0, rng.choice([0, 0, 1, 2]))
        if helper in (4, 5):
            code += stack_bytes(2, 3, rng) if rng.random() < 0.5 else slot(0xBF, 2, 6) + slot(0xBF, 3, 7)
        if helper == 5:
            code += stack_bytes(4, 5, rng)
    return code + slot(0x85, 0, 0, 0, helper) + b"".join(slot(0xBF, r, 8) if r != 3 else slot(0xB7, r, 0, 0, some_imm(rng)) for r in range(1, 6))


def some_part(rng):
    return rng.choices([some_arithmetic, some_change, some_access, some_call], [6, 3, 4, 1])[0](rng)


def body(rng, number):
    parts = [some_part(rng) for _ in range(rng.choice([0, 1, 2, 4, 8]))]
    return b"".join(parts) + slot(0x27, 9, 0, 0, 31) + slot(0x07, 9, 0, 0, number)


def first_body(rng):
    """Sets what the parts need; the values are 16 bytes at least."""
    code = slot(0xBF, 6, 1) + slot(0xBF, 7, 2) + slot(0xB7, 9)
    code += b"".join(slot(0x7A, 10, 0, -8 * k, some_imm(rng)) for k in range(1, 9))
    return code + b"".join(wide(r, rng.getrandbits(64)) for r in NUMBERS)


def end(rng):
    """Gives all that is known as the reject code, or as bytes that are emitted."""
    if rng.random() < 0.5:
        return b"".join(slot(0xAF, 0, r) for r in (1, 2, 3, 4, 5, 8, 9)) + slot(0x95)
    code = b"".join(slot(0x7B, 10, r, -8 * k) for k, r in enumerate((0, 8, 9), 1))
    emission = slot(0xB7, 1) + slot(0xBF, 2, 10) + slot(0x07, 2, 0, 0, -64) + slot(0xB7, 3, 0, 0, 64) + slot(0x85, 0, 0, 0, 4)
    return code + emission + slot(0xB7, 0) + slot(0x95)


# A block's body and how it ends: ("end",), ("fall",), ("always", block, opcode), ("branch", block, its slot without the offset).
Block = collections.namedtuple("Block", "body end")


def some_branch(rng, target):
    opcode, dst = rng.choice(list(TESTS)) << 4 | rng.choice([5, 6]), rng.choice(NUMBERS + (7, 9))
    if rng.random() < 0.4:
        return "branch", target, slot(opcode | 8, dst, rng.choice(NUMBERS))
    return "branch", target, slot(opcode, dst, 0, 0, some_imm(rng))


def some_end(rng, number, count):
    if number == count - 1:
        return ("end",)
    later = lambda: rng.choice([number + 1, rng.randrange(number + 1, count), rng.randrange(number + 1, count)])
    kind = rng.random()
    if kind < 0.6:
        return some_branch(rng, later())
    if kind < 0.75:
        return "always", later(), rng.choice([0x05, 0x05, 0x06])
    return ("fall",) if kind < 0.95 else ("end",)


def some_program(rng):
    """Blocks that are all reached, each jump of which leads forward, and a block 0 that rejects a short value."""
    count = rng.choice([1, 2, 3, 5, 8, 13, 21, 34]) + 1
    blocks = [Block(slot(0xB7, 0, 0, 0, 7), ("branch", count, slot(0xA5, 2, 0, 0, 16)))]
    for number in range(1, count):
        how = some_end(rng, number, count)
        blocks.append(Block((first_body(rng) if number == 1 else b"") + body(rng, number) + (end(rng) if how == ("end",) else b""), how))
    blocks.append(Block(slot(0x95), ("end",)))
    return only_reached(blocks)


def followers(block, number):
    return ([number + 1] if block.end[0] in ("fall", "branch") else []) + ([block.end[1]] if block.end[0] in ("always", "branch") else [])


def only_reached(blocks):
    found = {0}
    for number, block in enumerate(blocks):
        if number in found:
            found |= set(followers(block, number))
    new = {number: k for k, number in enumerate(sorted(found))}
    renamed = lambda how: how if len(how) == 1 else (how[0], new[how[1]], how[2])
    return [Block(blocks[n].body, renamed(blocks[n].end)) for n in sorted(found)]


# ---- layouts

def assembled(order, blocks, rng=None):
    """The code of blocks in an order, and the slot of each. Where a block does not come after the one that falls to it, a jump is put in."""
    pieces = []
    for number, after in zip(order, order[1:] + [None]):
        block = blocks[number]
        pieces.append((number, block.body, None))
        if block.end[0] in ("always", "branch"):
            pieces.append((None, block.end[2] if block.end[0] == "branch" else slot(block.end[2]), block.end[1]))
        if block.end[0] in ("fall", "branch") and after != number + 1:
            pieces.append((None, slot(rng.choice([0x05, 0x06])), number + 1))
    starts, at = {}, 0
    for number, code, _ in pieces:
        if number is not None:
            starts[number] = at
        at += len(code) // 8
    image = b""
    for _, code, target in pieces:
        if target is not None:
            distance = starts[target] - len(image) // 8 - 1
            code = code[:4] + struct.pack("<i", distance) if code[0] == 0x06 else code[:2] + struct.pack("<h", distance) + code[4:]
        image += code
    return image, starts


def with_detours(blocks, rng):
    """Some jumps lead to a jump that leads to where they led, and there are blocks that nothing reaches."""
    added = list(blocks)
    for number, block in enumerate(blocks):
        if block.end[0] in ("always", "branch") and rng.random() < 0.2:
            added[number] = Block(block.body, (block.end[0], len(added), block.end[2]))
            added.append(Block(b"", ("always", block.end[1], rng.choice([0x05, 0x06]))))
    for _ in range(rng.choice([0, 0, 1, 3])):
        added.append(Block(body(rng, 1), rng.choice([("end",), ("always", rng.randrange(len(blocks)), 0x05)])))
    return [b if b.end != ("end",) or b.body.endswith(slot(0x95)) else Block(b.body + slot(0x95), b.end) for b in added]


def shuffled(blocks, rng):
    added = with_detours(blocks, rng)
    order = list(range(1, len(added)))
    if rng.random() < 0.5:
        rng.shuffle(order)
    else:
        for _ in range(rng.choice([1, 2, 5])):
            a, b = rng.randrange(len(order)), rng.randrange(len(order))
            order[a], order[b] = order[b], order[a]
    return assembled([0] + order, added, rng)[0]


# ---- objects

def packed(rng, code, name="transform", machine=247, padding=b""):
    """An object whose section of code has other functions before and after this one."""
    before, after = slot(0x95) * rng.choice([0, 1, 5]), slot(0x95) * rng.choice([0, 2])
    text = before + padding + code + after
    names = b"\0" + name.encode() + b"\0other\0"
    symbol = lambda at, info, section, value, size: struct.pack("<IBBHQQ", at, info, 0, section, value, size)
    symbols = [symbol(0, 0, 0, 0, 0), symbol(0, 3, 1, 0, 0), symbol(1, 0x12, 1, len(before + padding), rng.choice([len(code), len(code) if after else 0]))]
    other = symbol(len(name) + 2, 2, 1, len(text) - len(after), len(after))
    symbols += [other] if after else []
    section_names = b"\0.text\0.symtab\0.strtab\0.shstrtab\0"
    held = [(0, 0, 0, b"", 0, 0, 0), (1, 1, 6, text, 0, 0, 0), (7, 2, 0, b"".join(symbols), 3, 2, 24), (15, 3, 0, names, 0, 0, 0),
            (23, 3, 0, section_names, 0, 0, 0)]
    data, headers = b"", b""
    for at, kind, flags, part, link, info, size in held:
        headers += struct.pack("<IIQQQQIIQQ", at, kind, flags, 0, 64 + len(data), len(part), link, info, 8, size)
        data += part
    ident = b"\x7fELF\x02\x01\x01" + bytes(9)
    return ident + struct.pack("<HHIQQQIHHHHHH", 1, machine, 1, 0, 0, 64 + len(data), 0, 64, 0, 0, 64, len(held), 4) + data + headers


# ---- what they do

def some_records(rng, count):
    some = lambda lengths: bytes(rng.choice([0, 65, 255, rng.randrange(256)]) for _ in range(rng.choice(lengths)))
    keys = lambda: rng.choice([None, b"", b"k", some([16, 40])])
    values = lambda: rng.choice([None, b"", some([15]), some([16, 17, 32, 100]), some([16, 64])])
    return [Record(0, keys(), values(), []) for _ in range(count)]


def outcome(code, record):
    try:
        return run(code, record, 2, (5, 1700000000000, 3))
    except (AssertionError, TypeError) as trap:
        return "trap %s" % trap
