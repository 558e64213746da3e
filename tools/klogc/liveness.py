"""What the blocks of a program read before they write it."""
import collections

from second_machine import HELPERS


def liveness(blocks):
    """The registers that each block or what follows it may read before it writes them: numbers, or (path, number) of those that a
    call keeps."""
    live, defined = {}, {}
    before = collections.defaultdict(set)
    for place, block in blocks.items():
        live[place], defined[place] = used_and_defined(block)
        for to in block.next:
            before[to].add(place)
    left = list(blocks)
    while left:
        place = left.pop()
        for p in before[place]:
            more = live[place] - defined[p] - live[p]
            if more:
                live[p] |= more
                left.append(p)
    return live


def source_register(source):
    return {source[1]} if source[0] == "reg" else set()


def registers_of(i):
    """The registers that an instruction reads and those that it writes."""
    match i:
        case ("mov", dst, source, _):
            return source_register(source), {dst}
        case ("alu", dst, source, _, _):
            return source_register(source) | {dst}, {dst}
        case ("change", dst, src, _):
            return {src}, {dst}
        case ("load", _, dst, src, _, _):
            return {src}, {dst}
        case ("store", _, dst, source, _):
            return source_register(source) | {dst}, set()
        case ("jump", _, dst, source, _, _):
            return source_register(source) | {dst}, set()
        case ("call", helper):
            numbers, pairs, rooms, _ = HELPERS.get(helper, ([1, 2, 3, 4, 5], [], [], 0))
            return {*numbers, *(r for pair in pairs + rooms for r in pair)}, set(range(6))
        case ("intrinsic", _):
            return {1, 2}, set(range(6))
        case ("wide", dst, _) | ("constants", dst, _, _):
            return set(), {dst}
        case ("exit",):
            return {0}, set()
    return set(), set()


def used_and_defined(block):
    name = lambda r: r if r < 6 else (block.path, r)
    used, defined = set(), set()
    for _, i in block.instructions:
        read, written = registers_of(i)
        used |= {name(r) for r in read if r != 10} - defined
        defined |= {name(r) for r in written}
    return used, defined
