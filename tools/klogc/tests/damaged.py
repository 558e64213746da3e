#!/usr/bin/env python3
"""Gives klogc objects with random bytes changed: it makes an image, or refuses them by a line, within ten seconds.

    tools/klogc/tests/damaged.py [--seed SEED] [--objects N]

The objects are those of examples/c. The status is 1 where klogc ends by an error of its own, or takes longer."""
import argparse
import collections
import glob
import os
import random
import signal
import sys

if __name__ == "__main__":
    sys.path[0] = os.path.dirname(os.path.dirname(os.path.dirname(os.path.realpath(__file__))))

from klogc.compiler import Compiler
from klogc.lower import lower
from klogc.program import Program, Refused

TOP = os.path.dirname(os.path.dirname(os.path.dirname(os.path.dirname(os.path.realpath(__file__)))))
SECONDS = 10
MOST_CHANGES = 12


class TooSlow(Exception):
    """It takes longer than it may."""


def stop(*_):
    raise TooSlow


def damaged(r, data):
    """An object with some of its bytes changed, or cut."""
    data = bytearray(data)
    for _ in range(r.randrange(1, MOST_CHANGES)):
        at = r.randrange(len(data)) if r.random() < 0.7 else r.randrange(64, min(len(data), 1024))
        data[at] = r.choice((0, 1, 0x7F, 0x80, 0xFF, r.randrange(256)))
    return bytes(data[:r.randrange(len(data))] if r.random() < 0.05 else data)


def outcome(data):
    """A word for what klogc makes of an object; one that is not meant begins with `wrong`."""
    signal.setitimer(signal.ITIMER_PROF, SECONDS)
    try:
        lower(Program(data))
        return "made"
    except Refused:
        return "refused"
    except TooSlow:
        return f"wrong: takes more than {SECONDS} seconds"
    except Exception as fault:  # what is looked for
        return f"wrong: {type(fault).__name__} {fault}"
    finally:
        signal.setitimer(signal.ITIMER_PROF, 0)


def main():
    words = argparse.ArgumentParser(description="Gives klogc objects with random bytes changed.")
    words.add_argument("--seed", type=int, default=1)
    words.add_argument("--objects", type=int, default=200)
    given, tally, bad = words.parse_args(), collections.Counter(), 0
    sys.setrecursionlimit(20000)
    signal.signal(signal.SIGPROF, stop)
    objects = [Compiler().object_of(path) for path in sorted(glob.glob(os.path.join(TOP, "examples", "c", "*.c")))]
    for k in range(given.objects):
        r = random.Random(f"{given.seed} {k}")
        word = outcome(damaged(r, r.choice(objects)))
        if word.startswith("wrong"):
            print(f"seed {given.seed}, object {k}: {word}", flush=True)
            bad += 1
        tally[word.split(":")[0]] += 1
    print(", ".join(f"{n} {word}" for word, n in sorted(tally.items())))
    sys.exit(int(bad > 0))


if __name__ == "__main__":
    main()
