#!/usr/bin/env python3
"""Measures the stack that each function of the C library takes (library_stack.c): at most 20,000 bytes, or the status is 1.

    tools/dev/library_stack.py FOLDER        FOLDER is what tools/build_library.sh made; CC is the C compiler, cc if not set

The calls get the greatest images of several forms, accepted and refused, random ones, one that rejects 2,000 records
with a code each, and batches with a record of the greatest headers, of which a program emits sixteen rows. klog_compile gets
conditions that nest as deep as they may in each way, as many rules as a text may have, faulty texts, and rules that are too
long for a program.
"""
import functools
import os
import random
import struct
import subprocess
import sys
import tempfile

TOP = os.path.dirname(os.path.dirname(os.path.dirname(os.path.abspath(__file__))))

from compare import accepted_image, some_image
from second_broker import Record, spell

SLOTS = 16384
RANDOM = 60


def slot(opcode, dst=0, src=0, offset=0, imm=0):
    return struct.pack("<BBhi", opcode, dst | src << 4, offset, imm)


END = slot(0xB7) + slot(0x95)
UNSET = slot(0xBF, 0, 9) + slot(0x95)  # reads r9, which no path sets
CALL = {helper: slot(0x85, imm=helper) for helper in range(1, 13)}


def filled(part, end, begin=b""):
    """The greatest image that begins and ends so, with as many of the part between as there is room for."""
    return begin + part * ((8 * SLOTS - len(begin) - len(end)) // len(part)) + end


def stack_at(register):
    """The address of the stack's first byte."""
    return slot(0xBF, register, 10) + slot(0x07, register, imm=-512)


def room_call(helper):
    """A call of a helper that fills the whole stack."""
    return stack_at(1) + slot(0xB7, 2) + slot(0xB7, 3, imm=512) + CALL[helper]


def stack_loads(end):
    """Sets the stack and loads bytes of it at a place that is not known."""
    begin = b"".join(slot(0x7A, 10, 0, -8 * k) for k in range(1, 65)) + slot(0x69, 7, 10, -8)
    begin += slot(0x57, 7, imm=511) + slot(0xBF, 8, 10) + slot(0x07, 8, imm=-512) + slot(0x0F, 8, 7)
    return filled(slot(0x71, 0, 8), end, begin)


def great_images():
    emits = (slot(0xB7, 1, imm=k) + CALL[3] for k in range(15))
    emit_stack = slot(0xB7, 1) + stack_at(2) + slot(0xB7, 3, imm=512) + stack_at(4) + slot(0xB7, 5, imm=512) + CALL[5]
    yield filled(slot(0xB7, 0), END)
    for end in (END, UNSET):
        yield stack_loads(end)
        yield filled(slot(0x15, 2, 0, 1, 7) + slot(0xB7, 6), end)
        yield filled(slot(0x2D, 2, 4, 0), end)
    yield filled(room_call(1) + room_call(2) + room_call(11) + room_call(12), END, room_call(12) + b"".join(emits) + emit_stack)
    yield filled(slot(0x18, 3, imm=1) + slot(0), END)
    yield filled(slot(0x27, 2, imm=3) + slot(0x37, 2, imm=3) + slot(0x9F, 2, 4) + slot(0xC7, 2, imm=1), END)
    yield os.urandom(8 * SLOTS)
    yield CALL[7] + slot(0x95)  # rejects each record with a code of its own


def batches():
    headers = [(b"h" * 255, b"v" * 4096)] * 16
    small = [Record(k, b"k", b"v%d" % k, [(b"h", b"x")]) for k in range(2000)]
    large = [Record(0, b"k" * 4096, b"v" * 1000000, headers)]
    return spell(small, 1000, -1, 0) + spell(large, 1000, -1, 0)


def nested(count, form):
    """A condition within so many others of a form."""
    return functools.reduce(lambda inner, _: form % inner, range(count), b"key is null")


def deep_conditions():
    """Conditions that nest in each way, one level less than they may, as deep as they may, and one level too deep."""
    has = b'header "' + b"h" * 255 + b'" has "' + b"t" * 255 + b'"'
    for step in (-1, 0, 1):
        for last in (b"key is null", has, b"decimal(key, 9, 9) >= 7", b"key is nul"):
            yield b"not " * (97 + step) + last
            for word in (b" and ", b" or "):
                yield word.join([b"key is null"] * (97 + step) + [last])
                yield word.join([b"key is null"] * (48 + step) + [b"not " * 49 + last])
        yield nested(32 + step, b"(%s)")
        for more in (b" and key is null", b" or key is null", b" and key is null or key is null"):
            yield nested(32 + step, b"(%s" + more + b")")
            yield nested(24 + step, b"not (%s" + more + b")")
        for more in (b"key is null and ", b"key is null or "):
            yield nested(24 + step, b"(" + more + b"%s)")
            yield nested(19 + step, b"not (" + more + b"%s)")
        yield nested(19 + step, b"(key is null or key is null and %s)")
    yield b"(" * 40


def rules():
    test = b'header "' + b"h" * 255 + b'" has "' + b"t" * 255 + b'"'
    for condition in deep_conditions():
        yield b"drop when " + condition
    yield b"drop when " + b" and ".join([test] * 33)
    yield b"drop when " + b" or ".join([b"u64be(value, 1) >= 7"] * 33)
    yield b"output 4 with value[4..12] = \"" + b"*" * 255 + b'" when ' + test + b"\n" + b"output hash(key) % 64\n" * 1023
    yield b"output 0\n" * 1025
    yield (b"drop when " + test + b"\n") * 1024


def write(name, data):
    with open(name, "wb") as file:
        file.write(data)
    return name


def main(folder):
    rng = random.Random(1)
    images = [*great_images(), *(accepted_image(rng, 1 + k % 2) if k % 4 else some_image(rng) for k in range(RANDOM))]
    with tempfile.TemporaryDirectory(prefix="library-stack-") as room:
        program = f"{room}/library_stack"
        words = ["-std=c11", "-D_POSIX_C_SOURCE=200809L", "-O2", "-Wall", "-Wextra", "-Werror", "-pthread", f"-I{folder}"]
        sources = [f"{TOP}/tools/dev/library_stack.c", f"{folder}/libklog.a"]
        subprocess.run([os.environ.get("CC", "cc"), *words, *sources, "-o", program], check=True)
        names = [write(f"{room}/{number}.bin", image) for number, image in enumerate(images)]
        texts = b"".join(text + b"\0" for text in rules())
        return subprocess.run([program, write(f"{room}/batches", batches()), write(f"{room}/rules", texts), *names],
                              check=False).returncode


if __name__ == "__main__":
    if len(sys.argv) != 2:
        sys.exit(__doc__)
    try:
        sys.exit(main(sys.argv[1]))
    except (OSError, subprocess.CalledProcessError) as fault:
        sys.exit(f"library_stack: {fault}")
