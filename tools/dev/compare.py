#!/usr/bin/env python3
"""Compares `klog run` with the second implementation (second_machine.py, second_broker.py) on random scripts.

Not part of the build. With a built program (`rt run` in crates/klog leaves it in out/klog):

    tools/dev/compare.py crates/klog/out/klog [COUNT [SEED]]

It prints the first script on which status, standard output or standard error differ, and ends with status 1; else how
many scripts were compared, and how often each fault was met.
"""
import collections
import random
import struct
import subprocess
import sys

from second_broker import Record, expected, finish, part, spell
from second_machine import Refused, TESTS, decode, run, verify


# ---- random scripts

def some_call_by_address(rng):
    """Sets the registers of a call of helper 4 or 5 to bytes of the value or of the stack, and calls it."""
    slot = lambda opcode, dst, src, offset, imm: struct.pack("<BBhi", opcode, dst | src << 4, offset, imm)
    if rng.random() < 0.5:
        code = slot(0xBF, 3, 2, 0, 0) if rng.random() < 0.8 else slot(0xB7, 3, 0, 0, rng.choice([0, 1, 4]))
        code += slot(0xBF, 2, 1, 0, 0)
    else:
        code = slot(0x7A, 10, 0, -8, rng.choice([0, -1, 1 << 20])) + slot(0xBF, 2, 10, 0, 0)
        code += slot(0x07, 2, 0, 0, rng.choice([-8, -8, -8, -4, -9, -1])) + slot(0xB7, 3, 0, 0, rng.choice([0, 1, 4, 4, 8, 9]))
    by_two = rng.random() < 0.5
    if by_two:
        code += rng.choice([slot(0xBF, 4, 2, 0, 0) + slot(0xBF, 5, 3, 0, 0), slot(0xBF, 4, 10, 0, 0) + slot(0xB7, 5, 0, 0, 0)])
    return code + slot(0xB7, 1, 0, 0, rng.choice([0, 0, 0, 1, 9])) + slot(0x85, 0, 0, 0, 5 if by_two else 4)


def some_copy(rng):
    """Copies a part of the value or the key to the stack, and reads some of it."""
    slot = lambda opcode, dst, src, offset, imm: struct.pack("<BBhi", opcode, dst | src << 4, offset, imm)
    code = slot(0xBF, 1, 10, 0, 0) + slot(0x07, 1, 0, 0, rng.choice([-8, -8, -8, -16, -4, -512, -520, 0]))
    by_length = rng.random() < 0.2
    code += slot(0xBF, 3, 2, 0, 0) if by_length else slot(0xB7, 3, 0, 0, rng.choice([1, 2, 4, 7, 8, 8, 8, 9, 0, 512, 513]))
    code += slot(0xB7, 2, 0, 0, rng.choice([0, 0, 1, 2, 8, -1, 16])) if rng.random() < 0.9 else slot(0xBF, 2, rng.choice([0, 4, 5, 10]), 0, 0)
    code += slot(0x85, 0, 0, 0, rng.choice([1, 1, 2]))
    if rng.random() < 0.6:
        code += slot(rng.choice([0x71, 0x69, 0x61, 0x79, 0x91]), rng.choice([0, 0, 6]), 10, rng.choice([-8, -8, -8, -16, -4, -1]), 0)
    if rng.random() < 0.3:
        code += slot(0xBF, 2, 10, 0, 0) + slot(0x07, 2, 0, 0, -8) + slot(0xB7, 3, 0, 0, rng.choice([1, 4, 8])) + slot(0xB7, 1, 0, 0, 0)
        code += slot(0x85, 0, 0, 0, 4)
    return code


def some_header(rng):
    """Copies the front of a header's key or value to the stack, or counts the headers, and often answers what it found."""
    slot = lambda opcode, dst, src, offset, imm: struct.pack("<BBhi", opcode, dst | src << 4, offset, imm)
    if rng.random() < 0.2:
        return slot(0x85, 0, 0, 0, 10)
    code = slot(0xBF, 1, 10, 0, 0) + slot(0x07, 1, 0, 0, rng.choice([-8, -8, -8, -16, -4, -512, 0]))
    code += slot(0xB7, 2, 0, 0, rng.choice([0, 0, 0, 1, 2, 15, 16, -1])) if rng.random() < 0.9 else slot(0xBF, 2, rng.choice([0, 4, 5, 10]), 0, 0)
    code += slot(0xB7, 3, 0, 0, rng.choice([1, 2, 4, 8, 8, 8, 9, 0, 512, 513])) + slot(0x85, 0, 0, 0, rng.choice([11, 12, 12]))
    if rng.random() < 0.4:
        code += slot(rng.choice([0x71, 0x69, 0x61, 0x79, 0x91]), rng.choice([0, 0, 6]), 10, rng.choice([-8, -8, -8, -16, -4, -1]), 0)
    return code


def some_slot(rng, left):
    r = lambda: rng.choice([0, 0, 1, 2, 3, 4, 5, 6, 6, 7, 9, 10])
    small = lambda: rng.choice([0, 0, 1, 2, 4, 7, 8, 15, 16, 255, 4096, 65535, 65536, 1 << 20, -1, -2, -8, 2147483647, -2147483648])
    jump = lambda: rng.choice([0, 0, 1, 1, 2, 3, left, left - 1, left + 1, -1] if rng.random() < 0.3 else [0, 1, 1, 2, max(left - 1, 0)])
    kind = rng.random()
    if kind < 0.2 and rng.random() < 0.7:
        klass, code = rng.choice([4, 7]), rng.choice([0, 0, 1, 1, 2, 3, 4, 5, 6, 7, 8, 9, 10, 11, 12, 13])
        by_register = rng.random() < 0.4 and code not in (8, 13)
        offset = rng.choice([0, 0, 0, 1, 2]) if code in (3, 9) else rng.choice([0, 8, 16, 32]) if code == 11 and by_register else rng.choice([0] * 30 + [1])
        imm = rng.choice([16, 32, 64, 64, 8]) if code == 13 else 0 if by_register or code == 8 else small()
        fields = (code << 4 | 8 * (by_register or code == 13 and rng.random() < 0.5) | klass, r(), r() if by_register else 0, offset, imm)
    elif kind < 0.18:
        fields = (0xB7, r(), 0, 0, small())
    elif kind < 0.28:
        fields = (0xBF, r(), r(), 0, 0)
    elif kind < 0.38:
        fields = (0x07, r(), 0, 0, small())
    elif kind < 0.44:
        fields = (0x0F, r(), r(), 0, 0)
    elif kind < 0.6:
        base = rng.choice([1, 1, 3, 1, 6, 10, r()])
        fields = (rng.choice([0x71, 0x69, 0x61, 0x79]), rng.choice([0, 0, 6, 7, r()]), base, rng.choice([0, 0, 1, 2, 7, 8, -1, -8]), 0)
    elif kind < 0.68:
        below = rng.choice([8, 8, 8, 16, 4, 1, 0, 512, 520])
        if rng.random() < 0.6:
            by_register = rng.random() < 0.5
            opcode = rng.choice([0x73, 0x6B, 0x63, 0x7B] if by_register else [0x72, 0x6A, 0x62, 0x7A])
            fields = (opcode, rng.choice([10] * 20 + [1, r()]), r() if by_register else 0, -below, 0 if by_register else small())
        else:
            fields = (rng.choice([0x71, 0x69, 0x61, 0x79, 0x91, 0x89, 0x81]), rng.choice([0, 0, 6, 7]), 10, -below, 0)
    elif kind < 0.71:
        fields = (rng.choice([0x91, 0x89, 0x81]), rng.choice([0, 0, 6, 7]), rng.choice([1, 1, 3]), rng.choice([0, 0, 1, 7]), 0)
    elif kind < 0.74:
        fields = (5, 0, 0, jump(), 0) if rng.random() < 0.6 else (6, 0, 0, 0, jump())
    elif kind < 0.77:
        second = struct.pack("<BBhi", rng.choice([0] * 20 + [1]), 0, rng.choice([0] * 20 + [1]), small())
        return struct.pack("<BBhi", 0x18, r() | 16 * rng.choice([0] * 20 + [1]), 0, small()) + rng.choice([second] * 20 + [b""])
    elif kind < 0.85:
        klass, code, by_register = rng.choice([5, 5, 5, 6]), rng.choice([1, 2, 3, 5, 10, 11] * 3 + list(TESTS)), rng.random() < 0.15
        fields = (code << 4 | 8 * by_register | klass, rng.choice([2, 2, 2, 4, 5, r()]), r() if by_register else 0, jump(), 0 if by_register else small())
    elif kind < 0.87:
        return rng.choice([some_call_by_address, some_copy, some_header])(rng)
    elif kind < 0.95:
        return struct.pack("<BBhi", 0xB7, 1, 0, rng.choice([0, 0, 0, 1, 2, 9])) + struct.pack("<BBhi", 0x85, 0, 0, rng.choice([3, 3, 3, 6, 6, 7, 8, 9, 99]))
    elif kind < 0.97:
        fields = (0x85, 0, 0, 0, rng.choice([1, 2, 3, 4, 5, 6, 7, 8, 9, 10, 11, 12, 0, 13, -1]))
    else:
        fields = (0x95, 0, 0, 0, 0)
    opcode, dst, src, offset, imm = fields
    return struct.pack("<BBhi", opcode, dst | src << 4, offset, imm)


def some_image(rng):
    count = rng.choice([0, 1, 1, 2, 3, 4, 5, 6, 8])
    image = b""
    if rng.random() < 0.8:
        image += struct.pack("<BBhi", 0xB7, 0, 0, rng.choice([0, 0, 0, 7]))
    for k in range(count):
        image += some_slot(rng, count - k)
    if rng.random() < 0.93:
        image += struct.pack("<BBhi", 0x95, 0, 0, 0)
    if rng.random() < 0.06 and image:
        image = bytearray(image)
        image[rng.randrange(len(image))] = rng.randrange(256)
        image = bytes(image)
    if rng.random() < 0.02:
        image = image[:rng.randrange(len(image) + 1)]
    return image


def accepted_image(rng, table=1):
    """An image that is accepted, if one is found soon."""
    for _ in range(200):
        image = some_image(rng)
        try:
            if verify(decode(image), table) is None and len(image) > 16:
                return image
        except Refused:
            pass
    return image


def some_bytes(rng):
    return rng.choice([None, b"", b"\x07", b"k", bytes(rng.randrange(256) for _ in range(rng.choice([2, 4, 7, 8, 9, 16]))), b"x" * rng.choice([15, 16, 17, 64, 100])])


def word_of(part):
    return "-" if part is None else part.hex() or "."


def some_batch(rng):
    records = []
    for _ in range(rng.choice([1, 1, 2, 3, 5])):
        headers = [(rng.choice([b"", b"h", "ä".encode(), b"\xff"] if rng.random() < 0.1 else [b"h", b"name"]), some_bytes(rng))
                   for _ in range(rng.choice([0, 0, 0, 1, 2, 16, 17] if rng.random() < 0.2 else [0, 0, 1]))]
        records.append(Record(rng.choice([0, 0, 5, -3, 1000]), some_bytes(rng), some_bytes(rng), headers))
    data = spell(records, rng.choice([0, 1000, 1700000000000, (1 << 62) - 1]), rng.choice([-1, 5]), rng.choice([0, 7]))
    chance = rng.random()
    if chance < 0.15:
        data = bytearray(data)
        data[rng.randrange(len(data))] ^= 1 << rng.randrange(8)
        data = bytes(data)
    elif chance < 0.4:
        covered = bytearray(data[21:])
        covered[rng.choice([rng.randrange(len(covered)), rng.randrange(40, len(covered))])] ^= 1 << rng.randrange(8)
        data = finish(bytes(covered), 0)
    elif chance < 0.45:
        data = data[:rng.randrange(len(data))]
    elif chance < 0.48:
        data = finish(data[21:] + b"\0" * rng.choice([1, 3]), 0)
    return data


def some_fetch(rng, inputs):
    """Rows of several inputs are only asked for where there is none."""
    out = rng.choice(["0"] * 20 + ["1", "1", "2", "64", "1180591620717411303424", "01", "x"])
    place = rng.choice(["0"] * 12 + ["1", "1", "2", "3", "5", "00", "-1"]) if inputs == 1 else "1000000"
    return "fetch %s %s %s" % (out, rng.choice([place] * 8 + ["1000000", "1180591620717411303424"]), rng.choice(["1", "2", "3", "10", "10", "10", "0", "1180591620717411303424", ""] if rng.random() < 0.3 else ["1", "10"]))


def some_line(rng, names, inputs):
    kind = rng.random()
    name = rng.choice(names)
    known = [str(i) for i in range(inputs)]
    given = rng.choice(known) if rng.random() < 0.97 else rng.choice([str(inputs), "64", "1180591620717411303424", "00", "-1", "x"])
    if kind < 0.3:
        table = rng.choice([1, 2])
        image = some_image(rng) if rng.random() < 0.15 else accepted_image(rng, table)
        word = "" if table == 1 else " 2"
        return "load %s hex:%s%s" % (name, image.hex(), word if rng.random() < 0.96 else rng.choice(["", " 1", " 2", " 3", " 02", " 2 2"]))
    if kind < 0.5:
        return "deploy %s %s" % (given, name)
    if kind < 0.75:
        time = rng.choice(["0", "1000", str((1 << 62) - 1)] * 40 + [str(1 << 62), str(1 << 70), "01", "+1"])
        return "put %s %s %s %s" % (given, time, word_of(some_bytes(rng)), word_of(some_bytes(rng)))
    if kind < 0.88:
        data = b"".join(some_batch(rng) for _ in range(rng.choice([0, 1, 1, 1, 2])))
        return "append %s hex:%s" % (given, data.hex())
    if kind < 0.9:
        return "close %s" % given
    if kind < 0.94:
        return some_fetch(rng, inputs)
    if kind < 0.985:
        return "go"
    return rng.choice(["", "#x", "frob", "go ", " go", "go  x", "partitions 1 1 8", "load a", "load a.b hex:", "load a nothing", "load %s hex:" % ("n" * 33),
                       "put 0 0 6 .", "put 0 0 6K .", "put 0 0 .. .", "deploy 0", "append 0 nothing", "fetch 0 0", "load q hex:00FF", "go\r", "go\t"])


# the image of a program that emits each record to output 0
FORWARD = "b70100000000000085000000030000009500000000000000"


def some_append(rng):
    if rng.random() < 0.85:
        return "put 0 %s %s %s" % (rng.choice(["0", "900", "1000", str((1 << 62) - 1)]), word_of(some_bytes(rng)), word_of(some_bytes(rng)))
    return "append 0 hex:%s" % b"".join(some_batch(rng) for _ in range(rng.choice([1, 1, 2]))).hex()


def some_fetches(rng):
    """Rows of one input, and fetches of them, more than once."""
    lines = ["partitions 1 %d 64" % rng.choice([1, 2]), "load a hex:%s" % FORWARD, "deploy 0 a"]
    for _ in range(rng.choice([1, 1, 2, 3])):
        lines += [some_append(rng) for _ in range(rng.choice([0, 1, 2, 5]))]
        lines += ["go"] if rng.random() < 0.9 else []
        lines += [some_fetch(rng, 1) for _ in range(rng.choice([0, 1, 3]))]
    return "\n".join(lines)


def some_script(rng):
    if rng.random() < 0.25:
        return some_fetches(rng)
    cells = rng.choice(["64", "64", "64", "8", "1", "3"] * 8 + ["0", "65537", "08", "65536"])
    inputs, outputs = rng.choice([(1, 1), (1, 2), (2, 1), (2, 3), (3, 2), (5, 5)])
    head = rng.choice(["partitions %d %d %s" % (inputs, outputs, cells)] * 60 + ["partitions 64 64 8", "partitions 65 1 8", "partitions 1 65 8", "go",
                      "# c\npartitions 1 1 8", "partitions 0 1 8"])
    names = ["a"] if rng.random() < 0.7 else ["a", "b-1", "Long-name-of-thirty-two-letters1"]
    table = rng.choice([1, 2])
    image = accepted_image(rng, table).hex() if rng.random() < 0.7 else FORWARD
    good = "load a hex:%s%s\ndeploy %d a\n" % (image, "" if table == 1 else " 2", rng.randrange(inputs)) if rng.random() < 0.8 else ""
    lines = [some_line(rng, names, inputs) for _ in range(rng.choice([1, 2, 3, 5, 8, 12, 20]))]
    end = rng.choice(["", "\n", "\ngo", "\ngo\n"])
    if rng.random() < 0.4:
        end = "\ngo\n" + "\n".join(some_fetch(rng, inputs) for _ in range(rng.choice([1, 2, 4])))
    return head + "\n" + good + "\n".join(lines) + end


def main():
    program, count, seed = sys.argv[1], int(sys.argv[2]) if len(sys.argv) > 2 else 1000, int(sys.argv[3]) if len(sys.argv) > 3 else 1
    rng, faults = random.Random(seed), collections.Counter()
    for n in range(count):
        script = some_script(rng)
        status, out, err = expected(script, faults)
        ran = subprocess.run([program, "run", "stdin"], input=script.encode(), capture_output=True)
        want = (status, "".join(line + "\n" for line in out).encode(), err.encode())
        got = (ran.returncode, ran.stdout, ran.stderr)
        if want != got:
            print("script %d of seed %d:\n%s\nexpected %r\nbut      %r" % (n, seed, script, want, got))
            sys.exit(1)
        faults["status %d" % status] += 1
    print("%d scripts agree" % count)
    print(", ".join("%s %d" % pair for pair in sorted(faults.items())))


if __name__ == "__main__":
    main()
