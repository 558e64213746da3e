#!/usr/bin/env python3
"""Makes the inputs that the fuzz targets begin with: fuzz/seeds.py FOLDER. They are small, and the same at each call.

FOLDER/transform has random programs that the verifier mostly accepts and those of examples/, each with some record
batches; FOLDER/calls has random bytes, which are lists of calls. Both are described at the head of their target.
FOLDER/files has program files with all helpers, for tools/dev/library_driver.c.
"""
import glob
import os
import random
import struct
import sys

TOP = os.path.dirname(os.path.dirname(os.path.abspath(__file__)))
sys.path.insert(0, f"{TOP}/tools/dev")

from compare import accepted_image, some_batch, some_image
from compare_library import part_image
from program_files import written
from second_machine import Refused, decode, verify

COUNT, FILES = 150, 20


def slot(opcode, dst=0, src=0, imm=0, offset=0):
    return struct.pack("<BBhi", opcode, dst | src << 4, offset, imm)


def reported(helper):
    """Emits what a helper without arguments answers."""
    code = slot(0x85, imm=helper) + slot(0x7B, 10, 0, offset=-8) + slot(0xB7, 1) + slot(0xBF, 2, 10) + slot(0x07, 2, imm=-8)
    return code + slot(0xB7, 3, imm=8) + slot(0x85, imm=4)


def with_emissions(rng, image, table):
    """The image, where it is still accepted then with some emissions before it."""
    keep = b"".join(slot(0xBF, 5 + it, it) for it in range(1, 5))
    back = b"".join(slot(0xBF, it, 5 + it) for it in range(1, 5))
    outputs = (rng.choice([0, 0, 1, 62]) for _ in range(rng.choice([1, 2, 17])))
    emit = b"".join(slot(0xB7, 1, imm=it) + slot(0x85, imm=rng.choice([3, 3, 6])) for it in outputs)
    emit += b"".join(reported(it) for it in (7, 8, 9) if rng.random() < 0.5)
    try:
        return image if verify(decode(keep + emit + back + image), table) else keep + emit + back + image
    except Refused:
        return image


def found_and_changed(rng):
    """Finds a byte in a part, and emits the bytes behind it, or the value with others in its place."""
    here = slot(0xBF, 3, 10) + slot(0x07, 3, imm=-8)
    code = slot(0x72, 10, imm=rng.choice(b"akv=\x07"), offset=-8) + slot(0xB7, 1, imm=rng.randrange(4)) + slot(0xB7, 2) + here
    code += slot(0xB7, 4, imm=1) + slot(0x85, imm=15) + slot(0x15, 0, offset=rng.choice([0, 1])) + slot(0xBF, 7, 0)
    code += slot(0xBF, 7, 0) + slot(0xB7, 1) + slot(0x85, imm=13) + slot(0x1F, 0, 7) + slot(0x07, 0, imm=-2) + slot(0xB7, 1)
    if rng.random() < 0.5:
        code += slot(0xB7, 2) + slot(0xBF, 3, 7) + slot(0xBF, 4, 0) + slot(0x85, imm=20)
    else:
        code += slot(0xBF, 2, 7) + slot(0xBF, 3, 0) + slot(0xBF, 4, 10) + slot(0x07, 4, imm=-8) + slot(0xB7, 5, imm=1) + slot(0x85, imm=21)
    return code + slot(0x95)


def image_of_parts(rng):
    """An image with helpers of table 3 that is accepted, mostly after emissions."""
    while True:
        image = rng.choice([part_image, found_and_changed])(rng)
        if verify(decode(image), 3) is None:
            return with_emissions(rng, image, 3) if rng.random() < 0.5 else image


def lines_of(rng, image):
    """Lines of a program file."""
    slots = sorted(rng.sample(range(len(image) // 8), min(len(image) // 8, rng.randrange(4))))
    return "".join(f"{at} {rng.choice(['a.c', 'ä.c', 'route.c:7'])}\n" for at in slots).encode()


def transform_input(rng, image, table):
    """An input of transform_fuzz.c: its head, the image, which the target puts in a file of table 3, and some batches."""
    batches = b"".join(some_batch(rng) for _ in range(rng.choice([0, 1, 1, 2])))
    repairs = rng.choice([0, 1, 255, 255, 255])
    by_table, in_file = (table - 1, 0) if table < 3 else (0, 3 | rng.choice([0, 4, 8]))
    if rng.random() < (0.3 if table == 3 else 0.1):
        image, by_table, in_file = written(table, image, lines_of(rng, image)), 200, 0
    head = struct.pack("<HBBBBBBBB", len(image), by_table, rng.choice([0, 1, 3, 63]), repairs, rng.randrange(12),
                       rng.randrange(64), rng.randrange(40), rng.choice([0, 1, 2, 6]), in_file)
    return head + image + batches


def example_images():
    names = sorted(glob.glob(f"{TOP}/examples/*.bin") + glob.glob(f"{TOP}/examples/c/*.bin"))
    for name in names:
        with open(name, "rb") as file:
            yield file.read()


def images(rng):
    """Images with the number of a helper table."""
    yield from ((image, 1) for image in example_images())
    for _ in range(COUNT):
        table = rng.choice([1, 2])
        yield with_emissions(rng, accepted_image(rng, table), table) if rng.random() < 0.8 else some_image(rng), table
    yield from ((image_of_parts(rng), 3) for _ in range(COUNT))


def program_files(rng):
    images_of = (image_of_parts(rng) for _ in range(FILES))
    yield from (written(3, image, lines_of(rng, image)) for image in images_of)


def write(folder, inputs):
    os.makedirs(folder, exist_ok=True)
    for number, data in enumerate(inputs):
        with open(f"{folder}/seed-{number:03}", "wb") as file:
            file.write(data)


def main(folder):
    rng = random.Random(1)
    write(f"{folder}/transform", (transform_input(rng, image, table) for image, table in images(rng)))
    write(f"{folder}/calls", (rng.randbytes(rng.choice([40, 200, 800])) for _ in range(COUNT)))
    write(f"{folder}/files", program_files(rng))


if __name__ == "__main__":
    if len(sys.argv) != 2:
        sys.exit(__doc__)
    try:
        main(sys.argv[1])
    except OSError as fault:
        sys.exit(f"seeds: {fault}")
