"""Leaves out what nothing reads, and says of each instruction what is wanted after it."""
from typing import NamedTuple

from .code import PURE, TRAPS, Exit, Goto, Move, Test, reads, target, written


class Line(NamedTuple):
    """An instruction, where it comes from, and the variables that are wanted after it."""
    place: object
    instruction: tuple
    after: frozenset


def trimmed(blocks):
    """The blocks without what nothing reads, and of each label the variables that are wanted there."""
    wanted, made = {trap: frozenset() for trap in TRAPS}, []
    for label, code in reversed(blocks):
        live, kept = frozenset(), []
        for place, i in reversed(code):
            if type(i) is Goto:
                live = wanted[i.target]
            elif type(i) is Exit:
                live = frozenset()
            to = written(i)
            if type(i) in PURE and to not in live or type(i) is Move and i.width == 64 and i.to == i.source:
                continue
            kept.append(Line(place, i, live))
            if to is not None:
                live = live - {to}
            live = live.union(reads(i))
            if type(i) is Test:
                live |= wanted[target(i)]
        wanted[label] = live
        made.append((label, kept[::-1]))
    return made[::-1], wanted
