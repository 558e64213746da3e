#!/usr/bin/env python3
"""Plants faults in the pass, one after the other, and says whether random programs find each.

    tools/klogc/tests/planted.py [--seed SEED] [--programs N] [--records N] [WORD ..]

With words, only the faults whose names have one of them. A fault is found where an image does something else than its object means, or
is none that the verifier accepts, or the pass ends by an error of its own. The status is 1 where one is not found."""
import argparse
import os
import sys
from typing import Callable, NamedTuple

if __name__ == "__main__":
    sys.path[0] = os.path.dirname(os.path.dirname(os.path.dirname(os.path.realpath(__file__))))

from klogc import bounds, branches, calls, choice, code, halves, jumps, layout, library, meeting, memory, numbers, places, program, state, values, ways
from klogc.compiler import Compiler
from klogc.program import Program, Refused
from klogc.tests.compare import compared, object_of

PROGRAMS_IN_ONE = 25


class Fault(NamedTuple):
    """What is planted: of an owner's attribute another one is made."""
    name: str
    owner: object
    attribute: str
    made: Callable


def one_more(old):
    """A test `lt` that lets the first number be as great as the second."""
    return lambda name, x, y: ((x[0], min(x[1], y[1])), (max(y[0], x[0]), y[1])) if name == "ge" and x[0] < y[0] else old(name, x, y)


FAULTS = [
    Fault("an `and` keeps what it cuts", values, "anded", lambda old: lambda a, b: a if b.is_const() else old(a, b)),
    Fault("a shift moves nothing", values, "shifted", lambda old: lambda name, bits, a, b: a),
    Fault("a remainder is less than half the divisor", numbers, "remainder", lambda old: lambda s, v, w, known: half_of(known, old(s, v, w, known))),
    Fault("of two ways the first counts", values, "joined", lambda old: lambda a, b: a),
    Fault("32 bits keep all", values, "low32", lambda old: lambda v: v),
    Fault("a sign does not follow a shift", values, "shifted", lambda old: lambda name, bits, a, b: old("rsh" if name == "arsh" else name, bits, a, b)),
    Fault("a difference is a sum", values, "added", lambda old: lambda a, b, sign=1: old(a, b, 1)),
    Fault("an `or` is its first number", values, "ored", lambda old: lambda name, a, b: a),
    Fault("a mirrored test takes the end too", jumps, "MIRRORED", lambda old: {**old, "gt": "le", "lt": "ge"}),
    Fault("an opposite is a mirror", jumps, "OPPOSITE", lambda old: {**old, "gt": "lt", "lt": "gt"}),
    Fault("a test's end is one off", jumps, "halves", one_more),
    Fault("signed tests are unsigned", jumps.Comparison, "interval", lambda old: lambda self, v: old(self._replace(name=self.plain()), v)),
    Fault("all tests have 64 bits", jumps.Comparison, "simpler", lambda old: lambda self: self._replace(width=64)),
    Fault("what differs is moved the wrong way", bounds, "narrowed", lambda old: lambda x, v, lo, hi: old(x, v, lo + 2 * (v.c - x.c) % 7, hi)),
    Fault("stores leave what was known", state.State, "forget", lambda old: lambda self, lo, hi: None),
    Fault("a store of few bytes keeps all", memory, "cut", lambda old: lambda w, size: w),
    Fault("a known byte is the first of its word", state.State, "known_byte", lambda old: lambda self, place: old(self, place & -2)),
    Fault("addresses are numbers", state.State, "addresses", lambda old: lambda self, lo, hi: []),
    Fault("a copy of no bytes is always there", calls.Calls, "empty_room", lambda old: lambda self, helper, given: old(self, 11, given)),
    Fault("a part's place is one off", memory.Memory, "bounded", lambda old: lambda self, s, given, offset, low, high: plus_one(old(self, s, given, offset, low, high))),
    Fault("steps have no sign", numbers, "step", lambda old: lambda name, v, w, width: ("add", *old(name, v, w, width)[1:])),
    Fault("32 bits are as 64", numbers, "fits", lambda old: lambda name, v, w: True),
    Fault("what is stored is not read", code, "READ", lambda old: {**old, code.Store: (1,)}),
    Fault("what is compared is not read", code, "READ", lambda old: {**old, code.Test: (2,)}),
    Fault("words of four bytes are read as eight", places.Places, "restore", lambda old: lambda self, v, p: self.op(0x79, p, 10, self.slot(v))),
    Fault("registers are exchanged one by one", ways.Ways, "permute", lambda old: one_by_one),
    Fault("calls keep nothing", choice.Choice, "make_free", lambda old: lambda self, p, avoid=(), among=range(10): self.drop(self.held[p]) if p in self.held else None),
    Fault("variables share a place", places.Places, "slot", lambda old: lambda self, v: old(self, v) if v.kind == "slot" else self.spill_at - 512),
    Fault("constants are zeros", layout, "filled", lambda old: lambda data: old(dict.fromkeys(data, 0))),
    Fault("functions share their stack", program.Program, "tops", lambda old: lambda self: (dict.fromkeys(old(self)[0], old(self)[1]), old(self)[1])),
    Fault("a part is copied of the key", calls, "LOADS", lambda old: {1: "key", 2: "value"}),
    Fault("a part is compared of the key", library, "PARTS", lambda old: {"value": 1, "key": 0}),
    Fault("the last bytes are not compared or copied", library, "words", lambda old: lambda count: old(count & -2 or count)),
    Fault("of two pieces the first words alone are compared", library.Library, "test_word", lambda old: lambda self, s, end, is_first: old(self, s, end, True) if is_first else None),
    Fault("an order is turned", bounds.Bounds, "least_difference", lambda old: lambda self, v, w, least=None, parts=None: old(self, w, v, None, parts)),
    Fault("a length is odd that is even", bounds.Bounds, "divide_length", lambda old: lambda self, region, c, divisor, remainder: old(self, region, c, divisor, remainder + 1)),
    Fault("low bits are read as the whole", halves.Halves, "signed_whole", lambda old: lambda self, v, bits: old(self, v, bits) or self.whole(v, (1 << bits) - 1)),
    Fault("low bits say one less of the whole", halves.Halves, "narrow_masked", lambda old: lambda self, v, lo, hi: old(self, v, lo, max(lo, hi - 1))),
    Fault("the other way was taken", branches, "meets", lambda old: lambda v, lo, hi: not old(v, lo, hi)),
    Fault("a way's numbers are one more", branches, "put_in", lambda old: lambda terms, term, v: (old(terms, term, v)[0], old(terms, term, v)[1] + 1)),
    Fault("two numbers are less together", meeting, "added", lambda old: lambda a, b, sign=1: old(a, b, sign)._replace(hi=max(old(a, b, sign).lo, old(a, b, sign).hi - 2))),
    Fault("sums that differ have all in common", meeting, "apart", lambda old: lambda x, y: (old(x, y)[0], (), ())),
    Fault("helpers that find nothing tell as much", calls, "told_by", lambda old: lambda helper, answer, given: (told := old(helper, answer, given)) and (0, *told[1:])),
    Fault("a negated number keeps its sign", halves.Halves, "low_half", lambda old: lambda self, known, of: old(self, known, of if of.lo >= 0 else of._replace(lo=0, hi=max(-of.lo, of.hi)))),
    Fault("a signed quotient has no sign", values, "signed_quotient", lambda old: lambda name, ends, divisor: old(name, (max(ends[0], 0), max(ends[1], 0)), abs(divisor))),
    Fault("a test is left out where it is read", layout, "view", lambda old: lambda data, table: old(data, table)._replace(never=some_test(data))),
]


def half_of(known, made):
    return made if made is known else made._replace(hi=made.hi // 2)


def plus_one(made):
    x, offset, lo, hi = made
    return x, offset + 1, lo, hi


def one_by_one(self, moves, goal, have):
    for to, at in moves.items():
        self.op(places.MOVE, to, at)
    return []


def some_test(data):
    """The third test of an image."""
    code_of = layout.machine.decode(data)
    tests = [k for k, i in enumerate(code_of) if i[0] == "jump"]
    return set(tests[2:3])


class Planted:
    """Puts a fault in wherever its name is bound, and takes it out again."""

    def __init__(self, fault):
        old = vars(fault.owner)[fault.attribute]
        plain = old.__func__ if isinstance(old, staticmethod) else old
        new = fault.made(plain)
        new = staticmethod(new) if isinstance(old, staticmethod) else new
        owners = [fault.owner] if isinstance(fault.owner, type) else [m for name, m in sys.modules.items() if name.startswith("klogc.")]
        self.places = [(owner, fault.attribute, old) for owner in owners if vars(owner).get(fault.attribute) is old]
        self.new = new

    def __enter__(self):
        for owner, attribute, _ in self.places:
            setattr(owner, attribute, self.new)

    def __exit__(self, *_):
        for owner, attribute, old in self.places:
            setattr(owner, attribute, old)


def found(objects, seed, count):
    """How many programs it takes to find what is planted, and how it shows; or None."""
    tried = 0
    for number, data in enumerate(objects):
        first = Program(data, "program0")
        for k in range(PROGRAMS_IN_ONE):
            tried += 1
            try:
                _, text = compared(first.beside(f"program{k}"), f"{seed + number} {k}", count)
            except Refused as fault:
                text = str(fault) if "does not follow" in str(fault) else None
            except Exception as fault:  # an error of the pass itself, which is what is looked for
                text = f"{type(fault).__name__} {fault}"
            if text:
                return tried, text[:60]
    return None


def main():
    words = argparse.ArgumentParser(description="Plants faults in the pass, and says whether random programs find each.")
    words.add_argument("--seed", type=int, default=1)
    words.add_argument("--programs", type=int, default=200)
    words.add_argument("--records", type=int, default=20)
    words.add_argument("words", nargs="*", metavar="WORD")
    given, missed, objects = words.parse_args(), 0, []
    sys.setrecursionlimit(20000)
    for seed in range(given.seed, given.seed + -(-given.programs // PROGRAMS_IN_ONE)):
        objects.append(object_of(Compiler(more=("-ffunction-sections",)), seed, PROGRAMS_IN_ONE))
    chosen = [fault for fault in FAULTS if not given.words or any(word in fault.name for word in given.words)]
    for fault in chosen:
        with Planted(fault):
            how = found(objects, given.seed, given.records)
        missed += how is None
        print(f"{fault.name}: " + (f"found by program {how[0]}: {how[1]}" if how else "not found"), flush=True)
    print(f"{len(chosen) - missed} of {len(chosen)} found")
    sys.exit(int(missed > 0))


if __name__ == "__main__":
    main()
