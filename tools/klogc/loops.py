"""The loops among the blocks of a program, and an order of the blocks in which edges lead forward."""
from typing import NamedTuple


class Order(NamedTuple):
    """Of each block its place within each loop around it, outermost first, so that edges lead forward in each; the heads of these
    loops; and the blocks to which a way begins a round."""
    places: dict
    heads: dict
    turns: set


def ordered(blocks, entry, flat=False) -> Order:
    """The order of the blocks. A head has the place -1 in its loop. Flat, a loop and those in it are one, and a way to a head of
    any of them begins a round."""
    loops = Loops(blocks, flat)
    loops.arrange(set(blocks), (), (), entry)
    return loops.order


class Loops:
    """Arranges the blocks, a loop within its part of them."""

    def __init__(self, blocks, flat):
        self.blocks, self.flat, self.order = blocks, flat, Order({}, {}, set())

    def arrange(self, blocks, place, around, entry):
        places, heads, turns = self.order
        following = lambda n: [m for m in self.blocks[n].next if m in blocks and m not in around[-1:]]
        for at, part in enumerate(components(blocks, following, entry)):
            if len(part) == 1 and part[0] not in self.blocks[part[0]].next:
                places[part[0]], heads[part[0]] = place + (at,), around
                continue
            inside = set(part)
            head = self._head(part, inside, blocks, around, entry)
            if self.flat:
                self._flatten(inside, head, place + (at,))
                continue
            turns.add(head)
            places[head], heads[head] = place + (at, -1), around + (head,)
            inside.discard(head)
            if inside:
                self.arrange(inside, place + (at,), around + (head,), None)

    def _flatten(self, inside, first, place):
        """Places of the blocks of a loop in one round, in which no way leads to a head of it or of a loop in it."""
        turns, left = set(), [(inside, first)]
        while left:
            blocks, head = left.pop()
            turns.add(head)
            rest = blocks - {head}
            following = lambda n: [m for m in self.blocks[n].next if m in rest]
            left += [(set(part), self._head(part, set(part), inside, (), None)) for part in components(rest, following, None)
                     if len(part) > 1 or part[0] in self.blocks[part[0]].next]
        self.order.turns.update(turns)
        forward = lambda n: [m for m in self.blocks[n].next if m in inside and m not in turns]
        for at, (block,) in enumerate(components(inside, forward, first)):
            self.order.places[block], self.order.heads[block] = place + (at,), (first,)

    def _head(self, part, inside, blocks, around, entry):
        """The block of a loop to which others lead, the first of them in the code."""
        entered = {m for n in blocks if n not in inside for m in self.blocks[n].next}
        heads = (n for n in part if n == entry or n in entered or around and n == around[-1])
        return min(heads, key=lambda n: (len(n.path), n.slot), default=part[0])


class Components:
    """The strongly connected components of a graph (Tarjan)."""

    def __init__(self, following):
        self.following, self.index, self.low = following, {}, {}
        self.stack, self.on, self.found = [], set(), []

    def enter(self, node):
        self.index[node] = self.low[node] = len(self.index)
        self.stack.append(node)
        self.on.add(node)
        return node, iter(self.following(node))

    def leave(self, node):
        if self.low[node] != self.index[node]:
            return
        part = []
        while not part or part[-1] != node:
            part.append(self.stack.pop())
        self.on.difference_update(part)
        self.found.append(part)

    def visit(self, root):
        work = [self.enter(root)]
        while work:
            node, rest = work[-1]
            child = next(rest, None)
            if child is None:
                work.pop()
                if work:
                    above = work[-1][0]
                    self.low[above] = min(self.low[above], self.low[node])
                self.leave(node)
            elif child not in self.index:
                work.append(self.enter(child))
            elif child in self.on:
                self.low[node] = min(self.low[node], self.index[child])


def components(nodes, following, entry):
    """The strongly connected components in an order in which edges lead forward."""
    made = Components(following)
    for root in ([entry] if entry in nodes else []) + sorted(nodes):
        if root not in made.index:
            made.visit(root)
    return made.found[::-1]
