"""Draws what the verifier knows of a program, as Graphviz text: `klogc graph IMAGE > graph.dot; dot -Tsvg graph.dot -o graph.svg`.

Each block of instructions that run one after the other is a box: what is known at its head, then the instructions. An edge has
the test by which it is taken. The refused instruction is red, with what the fault is about below it. Blocks that nothing reaches are
grey; those that the verifier did not come to, since it refused an instruction before them, have a dashed border.

What is known is what `klog explain` prints."""
import collections
import html
import re
import textwrap

from .klog import Klog
from .program import Refused

# An instruction: its number, its slot, its text, and the lines of what is known before it, or none where nobody looked.
Instruction = collections.namedtuple("Instruction", "number slot text known")
Edge = collections.namedtuple("Edge", "source target label")
Verdict = collections.namedtuple("Verdict", "fault at lines")

TESTS = {"jeq": ("=", "≠"), "jne": ("≠", "="), "jgt": (">", "≤"), "jge": ("≥", "<"), "jlt": ("<", "≥"), "jle": ("≤", ">"),
         "jset": ("has a bit of", "has no bit of")}
UNREACHED = "unreached"
WIDTH = 60


# ---- what klog prints

def states(listing):
    """The lines of what is known before each instruction that `explain` lists, by its number."""
    known, number = {}, None
    for line in listing.split("\n"):
        head = re.match(r"(\d+) slot \d+: ", line)
        if head:
            number = int(head[1])
            known[number] = []
        elif line.startswith("  ") and number is not None:
            known[number].append(line.strip())
        else:
            number = None
    return known


def verdict(printed):
    """The fault of a refused program, the instruction that it is of, and what else is said."""
    lines = [line for line in printed.split("\n") if line]
    for k, line in enumerate(lines):
        found = re.fullmatch(r"(V\d+ \w+) at (\d+)", line)
        if found:
            return Verdict(found[1], int(found[2]), lines[k + 1:])
    return None


def read_program(klog: Klog, image, table):
    """The instructions of an image, and why it is refused by a helper table, if it is."""
    text, explained = klog.call("dis", image), klog.call("explain", image, *([str(table)] if table > 1 else []))
    if text.returncode or explained.returncode and not verdict(explained.stderr):
        raise Refused((text.stderr or explained.stderr).strip() or f"klog ended with status {explained.returncode}")
    known, listed, slot = states(explained.stdout), [], 0
    for number, line in enumerate(text.stdout.splitlines()):
        listed.append(Instruction(number, slot, line, known.get(number)))
        slot += 2 if line.startswith("imm64 ") else 1
    return listed, verdict(explained.stderr)


# ---- blocks

def landing(i):
    """The slot to which an instruction jumps, if it does."""
    found = re.match(r"j.* ([+-]\d+)$", i.text)
    return i.slot + 1 + int(found[1]) if found else None


def is_end(i):
    return i.text == "exit" or i.text.split(" ")[0] in ("ja", "jal")


def blocks_of(listed):
    """Instructions that run one after the other, in the program's order."""
    starts = {landing(i) for i in listed}
    blocks, held = [], []
    for i in listed:
        if held and (i.slot in starts or landing(held[-1]) is not None or is_end(held[-1])):
            blocks.append(held)
            held = []
        held.append(i)
    return blocks + ([held] if held else [])


def tests(text):
    """What holds where a jump is taken and where it is not, in words; nothing of a jump in any case."""
    word, _, rest = text.partition(" ")
    found = re.fullmatch(r"(j[a-z]+)(64|32)", word)
    if not found:
        return "", ""
    left, right, _ = rest.split(", ")
    is_signed = found[1].startswith("js") and found[1] != "jset"
    taken, other = TESTS["j" + found[1][2:] if is_signed else found[1]]
    notes = ", ".join((["signed"] if is_signed else []) + (["32 bits"] if found[2] == "32" else []))
    shape = lambda sign: f"{left} {sign} {right}" + (f" ({notes})" if notes else "")
    return shape(taken), shape(other)


def edges_of(blocks):
    at = {block[0].slot: k for k, block in enumerate(blocks)}
    for k, block in enumerate(blocks):
        last = block[-1]
        target, (taken, other) = landing(last), tests(last.text)
        if not is_end(last) and k + 1 < len(blocks):
            yield Edge(k, k + 1, other)
        if target in at:
            yield Edge(k, at[target], taken)


# ---- the text

def line_of(text, color=None):
    shown = html.escape(text)
    return (f'<FONT COLOR="{color}">{shown}</FONT>' if color else shown) + '<BR ALIGN="LEFT"/>'


def head_of(block):
    """What is known before a block, in short lines."""
    lines = []
    for line in block[0].known or []:
        parts = line.split("  ") if line.startswith("r") else [line]
        while parts:
            lines.append("  ".join(parts[:3]))
            parts = parts[3:]
    return lines


def is_unreached(block):
    return block[0].known == [UNREACHED]


def box(number, block, refused):
    """A block as a node: what is known in blue, its instructions, and the refused one in red."""
    grey = is_unreached(block)
    text = line_of("nothing leads here", "gray40") if grey else "".join(line_of(line, "blue4") for line in head_of(block))
    for i in block:
        is_refused = refused is not None and refused.at == i.number
        text += line_of(f"{i.number}: {i.text}", "gray40" if grey else "red" if is_refused else None)
        if is_refused:
            said = [part for line in refused.lines for part in textwrap.wrap(line, WIDTH)]
            text += "".join(line_of(line, "red") for line in [f"{refused.fault} at {refused.at}", *said])
    style = 'style=filled, fillcolor=gray90, color=gray' if grey else 'style=dashed' if block[0].known is None else 'style=solid'
    return f"\tb{number} [label=<{text}>, {style}];"


def graph(listed, refused):
    """The text of an image's instructions."""
    blocks = blocks_of(listed)
    lines = ["digraph program {", '\tnode [shape=box, fontname="monospace", fontsize=10];', '\tedge [fontname="monospace", fontsize=10];']
    lines += [box(k, block, refused) for k, block in enumerate(blocks)]
    for edge in edges_of(blocks):
        label = edge.label.replace('"', "'")
        color = ", color=gray, fontcolor=gray" if is_unreached(blocks[edge.source]) or is_unreached(blocks[edge.target]) else ""
        lines.append(f'\tb{edge.source} -> b{edge.target} [label="{label}"{color}];')
    return "\n".join([*lines, "}", ""])
