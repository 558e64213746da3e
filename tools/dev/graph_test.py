#!/usr/bin/env python3
"""Tests `klogc graph` on images of known blocks, edges and verdicts, and on random ones.

    tools/dev/graph_test.py [--klog KLOG]

Without KLOG a stand-in prints what klog would, as docs/guide/commands.md says, from the second implementation in
tools/dev/second_machine.py. Where Graphviz is installed it reads each graph.
"""
import argparse
import os
import random
import re
import shutil
import subprocess
import sys
import tempfile

from second_machine import LIMIT, Refused, decode, edges, entry, joined, shape_fault, state_fault
from compare_texts import assembled, disassembled
from random_images import assembled as laid_out, some_program

TOOLS = os.path.dirname(os.path.dirname(os.path.abspath(__file__)))


# ---- the stand-in

def place(region, at):
    return f"{region}+{at}" if at >= 0 else f"{region}{at}"


def kind_text(kind):
    if kind[0] == "len":
        return f"length of {kind[1]}"
    if kind[0] == "num":
        return str(kind[1]) if kind[1] == kind[2] else f"{kind[1]} to {kind[2]}"
    first = place(kind[1], kind[2])
    return first if kind[2] == kind[3] else f"{first} to {kind[3]:+d}"


def state_lines(state):
    yield "".join(f"  r{r}: {kind_text(kind)}" for r, kind in enumerate(state.regs) if kind is not None)
    for region in ("key", "value"):
        low, high = state.low[region], state.high[region]
        if (low, high) != (0, LIMIT[region]):
            yield f"  {region}: {low if low == high else f'{low} to {high}'} bytes"
    places = sorted(state.set)
    runs = [p for p in places if p - 1 not in state.set], [p for p in places if p + 1 not in state.set]
    for first, last in zip(*runs):
        yield f"  stack set: {first}" + (f" to {last}" if last != first else "")


def explained(image):
    """The lines that `explain` prints, and its lines on standard error."""
    code = decode(image)
    texts, found, lines = disassembled(image).splitlines(), [entry()] + [None] * (len(code) - 1), []
    for k in range(len(code)):
        lines.append(f"{k} slot {code.slots[k]}: {texts[k]}")
        lines += state_lines(found[k]) if found[k] else ["  unreached"]
        fault = shape_fault(code, k) or (found[k] and state_fault(code[k], found[k]))
        if fault:
            return lines + [f"refused: {fault} at {k}"], [f"{fault} at {k}", "what it is about", "what to do"]
        for target, state in edges(code, k, found[k]) if found[k] else []:
            if state is not None:
                found[target] = joined(found[target], state) if found[target] else state
    return lines + ["ok"], []


def stand_in(words):
    with open(words[1], "rb") as it:
        image = it.read()
    try:
        out, err = explained(image) if words[0] == "explain" else (disassembled(image).splitlines(), [])
    except Refused as fault:
        out, err = [], [str(fault)]
    print("".join(line + "\n" for line in out), end="")
    print("".join(line + "\n" for line in err), end="", file=sys.stderr)
    sys.exit(int(bool(err)))


# ---- tests

def check(holds, *words):
    if not holds:
        sys.exit("graph_test: " + " ".join(str(word) for word in words)[:2000])


class Drawing:
    def __init__(self, folder, klog):
        self.path, self.klog, self.dot = os.path.join(folder, "image.bin"), klog, shutil.which("dot")

    def of(self, image):
        """The graph of an image: its boxes by their names, its edges, and the text."""
        with open(self.path, "wb") as it:
            it.write(image)
        done = subprocess.run([sys.executable, os.path.join(TOOLS, "klogc", "klogc"), "graph", self.path, "--klog", self.klog], capture_output=True, text=True, check=False)
        check(done.returncode == 0, done.stderr)
        if self.dot:
            drawn = subprocess.run([self.dot, "-Tplain"], input=done.stdout, capture_output=True, text=True, check=False)
            check(drawn.returncode == 0 and drawn.stderr == "", drawn.stderr, done.stdout)
        boxes = dict(re.findall(r"^\t(b\d+) (\[label=<.*)$", done.stdout, re.M))
        return boxes, re.findall(r'^\t(b\d+) -> (b\d+) \[label="([^"]*)"', done.stdout, re.M), done.stdout

    def refusal(self, image):
        with open(self.path, "wb") as it:
            it.write(image)
        done = subprocess.run([sys.executable, os.path.join(TOOLS, "klogc", "klogc"), "graph", self.path, "--klog", self.klog], capture_output=True, text=True, check=False)
        return done.returncode, done.stdout, done.stderr


GUARDED = "mov64 r0, 0\njlt64 r2, 1, +1\nld8 r0, [r1+0]\nexit\n"
UNGUARDED = "mov64 r0, 0\njlt32 r2, 1, +1\nld8 r0, [r1+0]\njsgt64 r0, -1, +1\nmov64 r0, 1\nexit\n"
SKIPPED = "mov64 r0, 0\nja +1\nmov64 r0, 1\nimm64 r1, 8589934591\njset64 r1, 4, +0\nexit\n"
NEVER = "mov64 r0, 5\njeq64 r0, 4, +1\nexit\nja +0\nexit\n"


def test_known(drawing):
    boxes, edges, _ = drawing.of(assembled(GUARDED))
    check(edges == [("b0", "b1", "r2 ≥ 1"), ("b0", "b2", "r2 < 1"), ("b1", "b2", "")], edges)
    check("value: 1 to 1048576 bytes" in boxes["b1"] and "r0: 0 to 255" in boxes["b2"] and "red" not in "".join(boxes.values()), boxes)
    boxes, edges, _ = drawing.of(assembled(UNGUARDED))
    check(edges[:2] == [("b0", "b1", "r2 ≥ 1 (32 bits)"), ("b0", "b2", "r2 < 1 (32 bits)")], edges)
    check(("b1", "b2", "") in edges and ("b2", "b4", "r0 > -1 (signed)") in edges and ("b2", "b3", "r0 ≤ -1 (signed)") in edges, edges)
    check('<FONT COLOR="red">2: ld8 r0, [r1+0]</FONT>' in boxes["b1"] and "V7 RecordBounds at 2" in boxes["b1"], boxes["b1"])
    check([name for name, box in boxes.items() if "dashed" in box] == ["b2", "b3", "b4"], boxes)
    boxes, edges, _ = drawing.of(assembled(SKIPPED))
    check([name for name, box in boxes.items() if "gray90" in box] == ["b1"] and "nothing leads here" in boxes["b1"], boxes)
    check(edges == [("b0", "b2", ""), ("b1", "b2", ""), ("b2", "b3", "r1 has no bit of 4"), ("b2", "b3", "r1 has a bit of 4")], edges)
    boxes, edges, text = drawing.of(assembled(NEVER))
    check([name for name, box in boxes.items() if "gray90" in box] == ["b2", "b3"], boxes)
    check('b0 -> b2 [label="r0 = 4", color=gray' in text, text)
    for image, fault in ((b"\x7fELF", "I1 Size\n"), (bytes(8), "I2 Opcode slot 0\n")):
        check(drawing.refusal(image) == (1, "", f"image.bin: {fault}"), drawing.refusal(image))


def test_random(drawing, rng, count):
    """Each instruction is in one box, in order, and there are as many edges as the blocks have ways on."""
    for _ in range(count):
        blocks = some_program(rng)
        image = laid_out(list(range(len(blocks))), blocks)[0]
        boxes, edges, text = drawing.of(image)
        numbers = [int(n) for n in re.findall(r"[<>](\d+): [a-z]", text)]
        check(numbers == list(range(len(decode(image)))), numbers, text)
        code = decode(image)
        jumps = {k: code.target(k, i[4] if i[0] == "jump" else i[1]) for k, i in enumerate(code) if i[0] in ("jump", "ja")}
        heads = {0} | set(jumps.values()) | {k + 1 for k, i in enumerate(code) if i[0] in ("jump", "ja", "exit") and k + 1 < len(code)}
        firsts = [int(re.search(r"[<>](\d+): [a-z]", box)[1]) for box in boxes.values()]
        check(firsts == sorted(heads), firsts, sorted(heads), text)
        check(sum(label != "" for _, _, label in edges) == sum(2 for i in code if i[0] == "jump"), edges)
        of = {f"b{k}": first for k, first in enumerate(firsts)}
        led = {(of[source], of[target]) for source, target, _ in edges}
        check({target for _, target in led} >= set(jumps.values()), led, jumps)


def main():
    if sys.argv[1:2] == ["--stand-in"]:
        stand_in(sys.argv[2:])
    words = argparse.ArgumentParser(description="Tests `klogc graph`.")
    words.add_argument("--klog")
    given = words.parse_args()
    with tempfile.TemporaryDirectory() as folder:
        klog = given.klog
        if klog is None:
            klog = os.path.join(folder, "klog")
            with open(klog, "w", encoding="utf-8") as it:
                it.write(f'#!/bin/sh\nexec "{sys.executable}" "{os.path.abspath(__file__)}" --stand-in "$@"\n')
            os.chmod(klog, 0o755)
        drawing = Drawing(folder, klog)
        test_known(drawing)
        test_random(drawing, random.Random(1), 40)
    print("6 known and 40 random images drawn as they must be" + (", read by dot" if drawing.dot else "; dot is not here"))


if __name__ == "__main__":
    main()
