#!/usr/bin/env python3
"""Searches for the image that takes longest to load or to explain for its size, and prints the worst ones.

    tools/dev/worst_image.py LIBRARY MINUTES [SEED [FOLDER]]

LIBRARY is the libklog.so of tools/build_library.sh. `klog check` and a script's `load` do what klog_load does. An image is a
beginning, a part that comes again and again, and an end. The search changes the worst ones found so far at random; the
time of one is the processor's for each slot, the least of three calls. At the end the worst are grown to 16,384 slots,
and timed at a quarter of it too: a ratio well above 4 is growth beyond the image's. FOLDER gets them as files.
"""
import ctypes
import os
import random
import struct
import sys
import time
from dataclasses import dataclass, replace

sys.path.insert(0, os.path.join(os.path.dirname(os.path.abspath(__file__)), "..", "..", "examples", "library"))

from compare import some_slot
from klog_engine import BYTES, Engine, Handle

SLOTS, SOUGHT = 16384, 512
# How many are kept of each kind, and how often a search begins anew in place of a change.
KEPT, FRESH = 12, 0.15
TO_END = 32767  # the offset of a jump that leads to the end


def slot(opcode, dst=0, src=0, offset=0, imm=0):
    return struct.pack("<BBhi", opcode, dst | src << 4, offset, imm)


STACK_SET = [slot(0x7A, 10, 0, -8 * k) for k in range(1, 65)]
SOME_PLACE = [slot(0x69, 7, 10, -8), slot(0x57, 7, imm=511), slot(0xBF, 8, 10), slot(0x07, 8, imm=-512), slot(0x0F, 8, 7)]
KEPT_INPUTS = [slot(0xBF, 6, 1), slot(0xBF, 7, 2), slot(0xBF, 8, 3), slot(0xBF, 9, 4)]
EVERY_OTHER = [slot(0x72, 10, 0, -2 * k) for k in range(1, 257)]
BEGINNINGS = [[], STACK_SET, STACK_SET + SOME_PLACE, KEPT_INPUTS, EVERY_OTHER]
ENDS = [[slot(0xB7), slot(0x95)], [slot(0xBF, 0, 9), slot(0x95)], [slot(0x05, offset=-1)], [slot(0x71, 0, 1), slot(0x95)]]
# What is known to be slow in some verifier: tests, unknown places, widening, rooms of the whole stack, wide immediates.
PARTS = [
    [slot(0x15, 2, 0, 1, 7)], [slot(0x15, 2, 0, TO_END, 7)], [slot(0x2D, 2, 4, 0)], [slot(0x71, 0, 8)], [slot(0x07, 2, imm=1)],
    [slot(0x7B, 10, 2, -8)], [slot(0x18, 3), slot(0)], [slot(0x3F, 2, 4)],
    [slot(0xBF, 1, 10), slot(0x07, 1, imm=-512), slot(0xB7, 2), slot(0xB7, 3, imm=512), slot(0x85, imm=1)],
]


@dataclass(frozen=True)
class Form:
    """A beginning, what is repeated, an end, and the helper table."""

    begin: tuple
    part: tuple
    end: tuple
    table: int

    def image(self, slots):
        rounds = max(1, (slots - len(self.begin) - len(self.end)) // len(self.part))
        body = [*self.begin, *self.part * rounds]
        return b"".join(to_end(it, len(body) - at - 1) for at, it in enumerate(body)) + b"".join(self.end)

    def __str__(self):
        begin, part, end = (b"".join(it).hex() or "nothing" for it in (self.begin, self.part, self.end))
        return f"begins with {begin}, repeats {part}, ends with {end}, table {self.table}"


def to_end(code, left):
    opcode, registers, offset, imm = struct.unpack("<BBhi", code)
    return struct.pack("<BBhi", opcode, registers, left, imm) if offset == TO_END else code


class Timer:
    """The calls of a library, timed by the processor's clock."""

    def __init__(self, name):
        self.library = Engine(name).library
        self.library.klog_explain.argtypes = BYTES, ctypes.c_size_t, ctypes.c_uint32, ctypes.c_int, ctypes.POINTER(Handle)
        self.library.klog_text.argtypes = ctypes.POINTER(Handle), BYTES, ctypes.c_size_t, ctypes.POINTER(ctypes.c_size_t)
        self.library.klog_explain.restype = self.library.klog_text.restype = ctypes.c_uint32
        self.text_length = 0

    def load(self, image, table):
        handle, place = Handle(), ctypes.c_size_t()
        start = time.process_time_ns()
        fault = self.library.klog_load(image, len(image), table, handle, place)
        taken = time.process_time_ns() - start
        self.library.klog_free(handle)
        return taken, fault

    def explain(self, image, table):
        handle = Handle()
        start = time.process_time_ns()
        fault = self.library.klog_explain(image, len(image), table, 0, handle)
        taken, length = time.process_time_ns() - start, ctypes.c_size_t()
        self.library.klog_text(handle, None, 0, length)
        self.library.klog_free(handle)
        self.text_length = length.value
        return taken, fault

    def cost(self, call, form, slots, rounds=3):
        """Nanoseconds for each slot, and for all."""
        image = form.image(slots)
        least = min(getattr(self, call)(image, form.table)[0] for _ in range(rounds))
        return least / (len(image) // 8), least


def random_slots(rng):
    """One or two slots."""
    code = some_slot(rng, rng.randrange(4))
    return [code[at:at + 8] for at in range(0, len(code), 8)]


def fresh_form(rng):
    part = [it for _ in range(rng.randrange(1, 4)) for it in (rng.choice(PARTS) if rng.random() < 0.5 else random_slots(rng))]
    return Form(tuple(rng.choice(BEGINNINGS)), tuple(part), tuple(rng.choice(ENDS)), rng.choice([1, 2]))


def changed_form(rng, form):
    part = [*form.part]
    at = rng.randrange(len(part))
    kind = rng.randrange(6)
    if kind == 0:
        part[at:at + 1] = random_slots(rng)
    elif kind == 1:
        part[at:at] = rng.choice(PARTS) if rng.random() < 0.5 else random_slots(rng)
    elif kind == 2 and len(part) > 1:
        del part[at]
    elif kind == 3:
        part[at:at] = part[rng.randrange(len(part)):][:8]
    elif kind == 4:
        return replace(form, begin=(*rng.choice(BEGINNINGS), *random_slots(rng)))
    else:
        return replace(form, end=tuple(rng.choice(ENDS)), table=rng.choice([1, 2]))
    return replace(form, part=tuple(part[:64]))


def search(timer, minutes, rng):
    """The worst forms for each call, the worst first, and how many were tried."""
    worst = {"load": [], "explain": []}
    end, tried = time.time() + 60 * minutes, 0
    while time.time() < end:
        call = rng.choice(["load", "explain"])
        kept = worst[call]
        form = fresh_form(rng) if not kept or rng.random() < FRESH else changed_form(rng, rng.choice(kept)[1])
        tried += 1
        kept.append((timer.cost(call, form, SOUGHT)[0], form))
        kept.sort(key=lambda it: -it[0])
        del kept[KEPT:]
    return worst, tried


def tell(timer, call, kept, folder):
    """Grows the kept forms, and prints the one that is worst then."""
    grown = [(timer.cost(call, form, SLOTS)[1], form) for _, form in kept]
    taken, form = max(grown, key=lambda it: it[0])
    quarter = timer.cost(call, form, SLOTS // 4)[1]
    image = form.image(SLOTS)
    timer.explain(image, form.table)
    fault = timer.load(image, form.table)[1]
    text = f", a text of {timer.text_length:,} bytes" if call == "explain" else ""
    slots, verdict = len(image) // 8, f"refused, fault {fault}" if fault else "accepted"
    print(f"{call}: {taken / 1e6:.1f} ms for {slots} slots, {taken / slots / 1e3:.2f} µs a slot, "
          f"{taken / quarter:.1f} times a quarter's; {verdict}{text}")
    print(f"    {form}")
    if folder:
        os.makedirs(folder, exist_ok=True)
        with open(f"{folder}/{call}.bin", "wb") as file:
            file.write(image)


def main(library, minutes, seed, folder):
    timer = Timer(os.path.abspath(library))
    worst, tried = search(timer, minutes, random.Random(seed))
    print(f"{tried} forms in {minutes:g} min, seed {seed}")
    for call, kept in worst.items():
        tell(timer, call, kept, folder)


if __name__ == "__main__":
    try:
        words = sys.argv[1:]
        name, span, first, where = words[0], float(words[1]), int(words[2]) if words[2:] else 1, words[3] if words[3:] else None
        if len(words) > 4 or not 0 < span < 100000:
            raise IndexError
    except (IndexError, ValueError):
        sys.exit(__doc__)
    try:
        main(name, span, first, where)
    except OSError as fault:
        sys.exit(f"worst_image: {fault}")
