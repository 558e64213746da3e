"""Makes the image of the items that have registers, with what the verifier knows of it."""
import struct
from typing import NamedTuple

import second_machine as machine

from .places import EXIT, JUMP, Item
from .writer import TooLong

SLOTS = 16384
EVERY_BYTE = frozenset(range(512))


class Image(NamedTuple):
    """The bytes, and the items that are its instructions."""
    data: bytes
    items: list


def reached(items):
    """Items without those after an end that no jump leads to, and with jumps led on to where they lead in the end."""
    ways, kept, used, going = shortcuts(items), [], set(), True
    for item in items:
        if item.kind == "label":
            going = going or item.label in used
            kept.append(item)
        elif going:
            if item.kind == "jump":
                label = item.label
                while label in ways:
                    label = ways[label]
                item = item._replace(label=label)
                used.add(label)
            kept.append(item)
            going = item.opcode not in (JUMP, EXIT)
    return kept


def shortcuts(items):
    """Of labels with nothing but a jump after them, where that leads."""
    ways, waiting = {}, []
    for item in items:
        if item.kind == "label":
            waiting.append(item.label)
            continue
        if item.opcode == JUMP:
            ways.update({label: item.label for label in waiting})
        waiting = []
    return ways


def without_jumps_on(items):
    """Items without jumps to what follows anyway."""
    out, follows = [], set()
    for item in reversed(items):
        if item.kind == "label":
            follows.add(item.label)
        elif item.kind == "jump" and item.label in follows:
            continue
        else:
            follows = set()
        out.append(item)
    return out[::-1]


def shortened(items):
    """Items without what no way leads to, and without jumps that lead on. Whoever leaves out more of them later takes these: a jump
    that was led on no longer needs the one that it led to."""
    return without_jumps_on(reached(items))


def laid_out(items):
    places, slot = {}, 0
    for item in items:
        if item.kind == "label":
            places[item.label] = slot
        else:
            slot += 2 if item.kind == "wide" else 1
    if slot > SLOTS:
        raise TooLong
    data, code = bytearray(), [item for item in items if item.kind != "label"]
    for item in code:
        data += encoded(item, len(data) // 8, places)
    return Image(bytes(data), code)


def encoded(item, slot, places):
    registers = item.src << 4 | item.dst
    if item.kind == "wide":
        return struct.pack("<BBhIII", item.opcode, item.dst, 0, item.imm & 0xFFFFFFFF, 0, item.imm >> 32)
    offset = places[item.label] - slot - 1 if item.kind == "jump" else item.offset
    return struct.pack("<BBhi", item.opcode, registers, offset, item.imm)


# ---- the verifier's view

class View(NamedTuple):
    """The first fault and its instruction, the bytes of the stack that are read and may not be set, and the instructions that
    are not reached, or are tests that never hold."""
    fault: str | None
    at: int
    unset: set
    never: set


def view(data, table):
    code = machine.decode(data)
    states, unset, never = [None] * len(code), set(), set()
    states[0] = machine.entry()
    for k, i in enumerate(code):
        s, fault = states[k], machine.shape_fault(code, k)
        if fault is None and s is None:
            never.add(k)
            continue
        fault = fault or machine.state_fault(i, s, table)
        if fault in ("V9 StackUnset", "V12 HelperArg"):
            filled = s.copy()
            filled.set = EVERY_BYTE
            if machine.state_fault(i, filled, table) is None:
                unset |= unset_bytes(i, s)
                fault = None
        if fault is not None:
            return View(fault, k, unset, never)
        ways = machine.edges(code, k, s)
        if i[0] == "jump" and ways[1][1] is None:
            never.add(k)
        for to, t in ways:
            if t is not None:
                states[to] = t if states[to] is None else machine.joined(states[to], t)
        states[k] = None
    return View(None, 0, unset, never)


def unset_bytes(i, s):
    """The bytes of the stack that an instruction reads and that may not be set."""
    if i[0] == "load":
        _, _, lo, hi = s.regs[i[3]]
        return set(range(lo + i[4], hi + i[4] + i[1])) - s.set
    found = set()
    for a, n in machine.HELPERS[i[1]][1]:
        if s.regs[a][:2] == ("addr", "stack"):
            found |= set(range(s.regs[a][2], s.regs[a][3] + machine.view(s, s.regs[n])[1])) - s.set
    return found


def filled(data):
    """Items that set bytes of the stack at the beginning, by words of 8 bytes."""
    items = []
    for at in sorted({at & -8 for at in data}):
        n = int.from_bytes(bytes(data.get(b, 0) for b in range(at, at + 8)), "little", signed=True)
        if -1 << 31 <= n < 1 << 31:
            items.append(Item("slot", 0x7A, 10, offset=at - 512, imm=n))
            continue
        for k in (0, 4):
            half = int.from_bytes(bytes(data.get(b, 0) for b in range(at + k, at + k + 4)), "little", signed=True)
            items.append(Item("slot", 0x62, 10, offset=at + k - 512, imm=half))
    return items
