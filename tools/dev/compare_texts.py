#!/usr/bin/env python3
"""Compares `klog check`, `klog asm` and `klog dis` with a second implementation, written from the documents alone, on
random texts and images.

Not part of the build. With a built program (`rt run` in crates/klog leaves it in out/klog):

    tools/dev/compare_texts.py crates/klog/out/klog [COUNT [SEED]]

It prints the first call on which status, standard output, standard error or the written image differ, and ends with
status 1; else how many calls were compared, and how often each fault was met. Before them come fixed calls on files that
can't be read or written, on words that are no call, with little memory, and on a transform's output that is its input
by another path.
"""
import collections
import os
import random
import re
import resource
import struct
import subprocess
import sys
import tempfile

from compare import some_image
from second_machine import Refused, decode, verify

ARITHMETIC = {"add": 0, "sub": 1, "mul": 2, "div": 3, "or": 4, "and": 5, "lsh": 6, "rsh": 7, "mod": 9, "xor": 10, "arsh": 12}
SIGNED = {"sdiv": "div", "smod": "mod"}
TESTS = {"jeq": 1, "jgt": 2, "jge": 3, "jset": 4, "jne": 5, "jsgt": 6, "jsge": 7, "jlt": 10, "jle": 11, "jslt": 12, "jsle": 13}
SIZES = {"8": 0x10, "16": 0x08, "32": 0x00, "64": 0x18}
ORDERS = {"le": 0xD4, "be": 0xDC, "swap": 0xD7}


def slot(opcode, dst=0, src=0, offset=0, imm=0):
    return struct.pack("<BBhi", opcode, dst | src << 4, offset, imm)


def second_operand(opcode, dst, source, offset=0):
    kind, value = source
    return slot(opcode | 8, dst, value, offset) if kind == "register" else slot(opcode, dst, 0, offset, value)


def known_words():
    """For each word the shapes of its operands, and what makes its bytes of their values."""
    words = {"exit": ((), lambda: slot(0x95)), "call": (("imm",), lambda n: slot(0x85, imm=n)),
             "ja": (("short",), lambda j: slot(0x05, offset=j)), "jal": (("long",), lambda j: slot(0x06, imm=j)),
             "imm64": (("register", "wide"), lambda d, n: slot(0x18, d)[:4] + struct.pack("<I", n % 2**32) + bytes(4) + struct.pack("<I", n >> 32))}
    for width, (alu, jmp) in (("64", (7, 5)), ("32", (4, 6))):
        words["mov" + width] = (("register", "source"), lambda d, s, c=alu: second_operand(0xB0 | c, d, s))
        words["neg" + width] = (("register",), lambda d, c=alu: slot(0x80 | c, d))
        for name, code in ARITHMETIC.items():
            words[name + width] = (("register", "source"), lambda d, s, c=code << 4 | alu: second_operand(c, d, s))
        for name, plain in SIGNED.items():
            words[name + width] = (("register", "source"), lambda d, s, c=ARITHMETIC[plain] << 4 | alu: second_operand(c, d, s, 1))
        for name, code in TESTS.items():
            words[name + width] = (("register", "source", "short"), lambda d, s, j, c=code << 4 | jmp: second_operand(c, d, s, j))
        for part in (8, 16, 32) if width == "64" else (8, 16):
            words["movsx%s.%d" % (width, part)] = (("register", "register"), lambda d, s, c=0xB8 | alu, p=part: slot(c, d, s, p))
    for name, opcode in ORDERS.items():
        for part in (16, 32, 64):
            words[name + str(part)] = (("register",), lambda d, c=opcode, p=part: slot(c, d, imm=p))
    for size, bits in SIZES.items():
        words["ld" + size] = (("register", "place"), lambda d, p, c=0x61 | bits: slot(c, d, p[0], p[1]))
        if size != "64":
            words["lds" + size] = (("register", "place"), lambda d, p, c=0x81 | bits: slot(c, d, p[0], p[1]))
        words["st" + size] = (("place", "imm"), lambda p, n, c=0x62 | bits: slot(c, p[0], 0, p[1], n))
        words["stx" + size] = (("place", "register"), lambda p, s, c=0x63 | bits: slot(c, p[0], s, p[1]))
    return words


WORDS = known_words()
NUMBER = re.compile(r"0|-?[1-9][0-9]*")
DISTANCE = re.compile(r"\+(?:0|[1-9][0-9]*)|-[1-9][0-9]*")
REGISTER = re.compile(r"r[0-9]+")
PLACE = re.compile(r"\[(r[0-9]+)([+-].*)\]")


class Shape(Exception):
    pass


def number_in(text, shape, low, high, faults):
    if not shape.fullmatch(text):
        raise Shape
    value = int(text)
    if not low <= value <= high:
        faults.add("A3 Number")
    return value


def register(text, faults):
    if not REGISTER.fullmatch(text):
        raise Shape
    digits = text[1:]
    if (len(digits) > 1 and digits[0] == "0") or int(digits) > 10:
        faults.add("A4 Register")
        return 0
    return int(digits)


def operand(kind, text, faults):
    if kind == "register":
        return register(text, faults)
    if kind == "imm":
        return number_in(text, NUMBER, -2**31, 2**31 - 1, faults)
    if kind == "wide":
        return number_in(text, NUMBER, 0, 2**64 - 1, faults)
    if kind == "short":
        return number_in(text, DISTANCE, -2**15, 2**15 - 1, faults)
    if kind == "long":
        return number_in(text, DISTANCE, -2**31, 2**31 - 1, faults)
    if kind == "source":
        return ("register", register(text, faults)) if text.startswith("r") else ("imm", operand("imm", text, faults))
    found = PLACE.fullmatch(text)
    if not found:
        raise Shape
    return register(found[1], faults), operand("short", found[2], faults)


def line_bytes(line):
    """The bytes of a line, none where it is skipped; or its fault."""
    line = line.strip(" ")
    if not line or line.startswith("#"):
        return b""
    word, space, rest = line.partition(" ")
    if word not in WORDS:
        raise Refused("A1 Word")
    kinds, make = WORDS[word]
    texts = [text.lstrip(" ") for text in rest.split(",")] if space else []
    faults = set()
    try:
        if len(texts) != len(kinds):
            raise Shape
        values = [operand(kind, text, faults) for kind, text in zip(kinds, texts)]
    except Shape:
        raise Refused("A2 Operand")
    for fault in ("A4 Register", "A3 Number"):
        if fault in faults:
            raise Refused(fault)
    return make(*values)


def assembled(text):
    image = b""
    for n, line in enumerate(text.split("\n"), 1):
        try:
            image += line_bytes(line)
            if len(image) > 8 * 16384:
                raise Refused("A5 Size")
        except Refused as fault:
            raise Refused("line %d: %s" % (n, fault))
    if not image:
        raise Refused("line 1: A5 Size")
    return image


# ---- texts of images: the word whose bytes are the slot's, for its fields as operands

def spelled(kind, fields):
    dst, src, offset, imm, wide = fields
    return {"imm": str(imm), "wide": str(wide), "short": "%+d" % offset, "long": "%+d" % imm}[kind]


def slot_text(chunk):
    opcode, registers, offset, imm = struct.unpack("<BBhi", chunk[:8])
    dst, src = registers & 15, registers >> 4
    wide = imm % 2**32 + (int.from_bytes(chunk[12:16], "little") << 32)
    fields = (dst, src, offset, imm, wide)
    for word, (kinds, make) in WORDS.items():
        for by_register in (False, True):
            values, texts = [], []
            for place, kind in enumerate(kinds):
                if kind == "register":
                    r = dst if place == 0 else src
                    values.append(r)
                    texts.append("r%d" % r)
                elif kind == "source":
                    values.append(("register", src) if by_register else ("imm", imm))
                    texts.append("r%d" % src if by_register else str(imm))
                elif kind == "place":
                    base = dst if place == 0 else src
                    values.append((base, offset))
                    texts.append("[r%d%+d]" % (base, offset))
                else:
                    values.append({"imm": imm, "wide": wide, "short": offset, "long": imm}[kind])
                    texts.append(spelled(kind, fields))
            if make(*values) == chunk:
                return word + (" " + ", ".join(texts) if texts else "") + "\n"
    raise AssertionError(chunk.hex())


def disassembled(image):
    code = decode(image)
    ends = code.slots[1:] + [len(image) // 8]
    return "".join(slot_text(image[8 * at:8 * end]) for at, end in zip(code.slots, ends))


# ---- random texts and images

def some_number(rng):
    return rng.choice([0, 1, -1, 7, 255, 4096, 32767, 32768, -32768, -32769, 2**31 - 1, 2**31, -2**31, -2**31 - 1, 2**63, 2**64 - 1, 2**64, rng.randrange(-1000, 1000)])


def some_operand(rng, kind):
    r = "r%d" % rng.randrange(11)
    if kind == "register" or kind == "source" and rng.random() < 0.5:
        return rng.choice([r] * 60 + ["r11", "r01", "r", "R1", "w1", "r99999999999999999999", ""])
    if kind in ("imm", "source", "wide"):
        limit = 2**64 if kind == "wide" else 2**31
        n = some_number(rng) if rng.random() < 0.06 else rng.choice([0, 1, 5, limit - 1, rng.randrange(limit)]) * (1 if kind == "wide" else rng.choice([1, -1]))
        return rng.choice([str(n)] * 60 + ["-0", "+1", "007", "0x1", "--1", "1 ", "", "१"])
    if kind in ("short", "long"):
        limit = 2**15 if kind == "short" else 2**31
        n = some_number(rng) if rng.random() < 0.06 else rng.choice([0, 1, limit - 1, -limit, rng.randrange(-limit, limit)])
        return rng.choice(["%+d" % n] * 60 + ["-0", "1", "+01", "+-1", "+"])
    d = some_operand(rng, "short")
    return rng.choice(["[%s%s]" % (r, d)] * 60 + ["[%s %s]" % (r, d), "[r11%s]" % d, "[%s]" % r, r + d, "[%s%s" % (r, d), "[]", "[", "]"])


def some_line(rng):
    chance = rng.random()
    if chance < 0.04:
        return rng.choice(["", " ", "# exit", "  #", "frob r1", "exit r1", "exit ,", "\texit", "exit\t", "exit\r", "lds64 r1, [r2+0]", "movsx32.32 r1, r2", "EXIT", "exitr1", "call", "call ", "call 1,"])
    word = rng.choice(sorted(WORDS))
    texts = [some_operand(rng, kind) for kind in WORDS[word][0]]
    if rng.random() < 0.01:
        texts = texts[:-1] if rng.random() < 0.5 else texts + ["r1"]
    comma = rng.choice([", "] * 40 + [",", ",   ", " , "])
    line = word + (rng.choice([" "] * 20 + ["   "]) + comma.join(texts) if texts else "")
    return rng.choice([""] * 20 + ["  "]) + line + rng.choice([""] * 20 + ["  "])


def some_text(rng):
    if rng.random() < 0.01:
        return "mov64 r0, 0\n" * rng.choice([16382, 16383]) + rng.choice(["exit\n", "imm64 r1, 5\n", "imm64 r1, 5\nexit\n", "exit\nexit\nexit\n"])
    lines = [some_line(rng) for _ in range(rng.choice([0, 1, 2, 3, 5, 20]))]
    return "\n".join(lines) + rng.choice(["", "\n"])


def some_bytes(rng):
    """The bytes of an image: of a program, of instructions one after the other, or others."""
    chance = rng.random()
    if chance < 0.4:
        return some_image(rng)
    if chance < 0.9:
        image = b""
        for _ in range(rng.choice([1, 2, 5, 20])):
            try:
                image += line_bytes(some_line(rng))
            except Refused:
                pass
        if rng.random() < 0.2 and image:
            image = bytearray(image)
            image[rng.randrange(len(image))] ^= 1 << rng.randrange(8)
        return bytes(image)
    if chance < 0.92:
        return slot(0x95) * 16384 + bytes(rng.choice([0, 1, 8]))
    return bytes(rng.randrange(256) for _ in range(rng.choice([0, 8, 12, 16])))


# ---- calls

def called(program, *words, **more):
    ran = subprocess.run([program, *words], stdout=more.pop("stdout", subprocess.PIPE), stderr=subprocess.PIPE, **more)
    return ran.returncode, ran.stdout, ran.stderr


def read_if_there(name):
    if not os.path.exists(name):
        return None
    with open(name, "rb") as file:
        return file.read()


def written(name, data):
    with open(name, "wb") as file:
        file.write(data)
    return name


def answer(work):
    """Status, standard output and standard error of a call that prints a text, or its refusal."""
    try:
        return 0, work().encode(), b""
    except Refused as fault:
        return 1, b"", ("%s\n" % fault).encode()


def checked(image, table):
    code = decode(image)
    fault = verify(code, table)
    if fault:
        raise Refused(fault)
    return "accepted %d instructions\n" % len(code)


def compare_text(program, folder, rng):
    source, target = os.path.join(folder, "text"), os.path.join(folder, "image")
    data = some_text(rng).encode()
    if rng.random() < 0.02:
        data += rng.choice([b"\xff", b"#\xc3", b"\xed\xa0\x80"])
    written(source, data)
    if os.path.exists(target):
        os.remove(target)
    image = rng.choice([None, bytes(40000)])
    if image is not None:
        written(target, image)
    try:
        image = assembled(data.decode())
        want = (0, b"", b"")
    except UnicodeDecodeError:
        want = (3, b"", ("file %s\n" % source).encode())
    except Refused as fault:
        want = (1, b"", ("%s\n" % fault).encode())
    return "asm", data, (want, image), (called(program, "asm", source, target), read_if_there(target))


def compare_disassembly(program, folder, rng):
    image = some_bytes(rng)
    name = written(os.path.join(folder, "image"), image)
    return "dis", image, answer(lambda: disassembled(image)), called(program, "dis", name)


def compare_check(program, folder, rng):
    """A check by a helper table, which may be left out where it is the first."""
    image, table = some_bytes(rng), rng.choice([1, 2])
    name = written(os.path.join(folder, "image"), image)
    words = [] if table == 1 and rng.random() < 0.5 else [str(table)]
    return "check", image, answer(lambda: checked(image, table)), called(program, "check", name, *words)


def little_memory():
    resource.setrlimit(resource.RLIMIT_AS, (64 << 20, 64 << 20))


USAGE = "usage: klog COMMAND FILE ..."


def calls():
    """What `klog commands` prints: the calls of the first table of docs/guide/commands.md."""
    with open(os.path.join(os.path.dirname(os.path.abspath(__file__)), "..", "..", "docs", "guide", "commands.md")) as text:
        return "".join(call + "\n" for call in re.findall(r"^\| `(klog [^`]*)` \|", text.read(), re.M))


def fixed_calls(folder):
    """Words of a call, what else it is given, and its status and standard error; it prints nothing."""
    place = lambda name: os.path.join(folder, name)
    good, image = written(place("good"), b"mov64 r0, 0\nexit\n"), written(place("zero.bin"), slot(0xB7) + slot(0x95))
    long, none, inside = written(place("long"), b"#" * (100 << 20)), place("none"), place("none/image")
    for words in ((), ("frob", good), ("asm", good), ("asm", good, none, none), ("dis",), ("dis", image, image), ("check",), ("check", image, image), ("check", image, "3"), ("check", image, "01"), ("check", image, "2", "2"), ("explain", image, "refused", "2"), ("check", "--help"), ("--help",), ("--version",), ("dis", "-x"), ("asm", "--", none), ("help",), ("commands", good), ("version", good), ("transform", image, good, none, none)):
        yield words, {}, 2, USAGE
    for name in (none, folder, "-"):
        yield ("check", name), {}, 3, "file " + name
        yield ("dis", name), {}, 3, "file " + name
        yield ("asm", name, none), {}, 3, "file " + name
    yield ("asm", good, inside), {}, 3, "file " + inside
    yield ("asm", good, folder), {}, 3, "file " + folder
    yield ("asm", good, "/dev/full"), {}, 3, "file /dev/full"
    yield ("asm", long, none), {"preexec_fn": little_memory}, 3, "memory"
    for command in ("check", "dis"):
        yield (command, "/dev/zero"), {"preexec_fn": little_memory}, 1, "I1 Size"
        yield (command, image), {"stdout": open("/dev/full", "wb")}, 3, "file stdout"
    batches, link, out, again = written(place("in"), b"no batch"), place("link"), place("out"), place("./out")
    os.symlink(batches, link)
    for same in (place("./in"), link):
        yield ("transform", image, batches, same), {}, 3, "file " + same
    yield ("transform", image, batches, place("./zero.bin")), {}, 3, "file " + place("./zero.bin")
    yield ("transform", image, batches, out, again), {}, 3, "file " + again


def compare_fixed(program, folder):
    got, want = called(program, "commands"), (0, calls().encode(), b"")
    if got != want:
        sys.exit("commands\nexpected %r\nbut      %r" % (want, got))
    count = 1
    for words, more, status, reported in fixed_calls(folder):
        got = called(program, *words, cwd=folder, **more)
        if (got[0], got[1] or b"", got[2]) != (status, b"", reported.encode() + b"\n"):
            sys.exit("%r\nexpected %r\nbut      %r" % (words, (status, reported), got))
        count += 1
    if os.path.exists(os.path.join(folder, "none")):
        sys.exit("a file was written")
    if os.path.getsize(os.path.join(folder, "in")) == 0 or os.path.getsize(os.path.join(folder, "zero.bin")) == 0:
        sys.exit("a transform has emptied its own input")
    return count


def main():
    program, count, seed = os.path.abspath(sys.argv[1]), int(sys.argv[2]) if len(sys.argv) > 2 else 1000, int(sys.argv[3]) if len(sys.argv) > 3 else 1
    rng, met = random.Random(seed), collections.Counter()
    with tempfile.TemporaryDirectory() as folder:
        print("%d fixed calls agree" % compare_fixed(program, folder))
        for n in range(count):
            kind = n % 3
            if kind == 0:
                command, given, want, got = compare_text(program, folder, rng)
                status, reported = want[0][0], want[0][2]
            else:
                command, given, want, got = (compare_disassembly if kind == 1 else compare_check)(program, folder, rng)
                status, reported = want[0], want[2]
            if want != got:
                print("call %d of seed %d: %s of %r\nexpected %r\nbut      %r" % (n, seed, command, given, want, got))
                sys.exit(1)
            fault = re.search(rb"[A-Z][0-9]+", reported)
            met["%s %s" % (command, fault[0].decode() if fault and status == 1 else status)] += 1
    print("%d calls agree" % count)
    print(", ".join("%s: %d" % pair for pair in sorted(met.items())))


if __name__ == "__main__":
    main()
