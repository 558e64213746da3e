"""Ways from block to block: each variable is moved to where the block expects it."""
from .choice import Choice
from .code import Variable
from .places import CONSTANT, JUMP, MOVE, Item
from .program import Refused


class Ways(Choice):
    """Where a block begins its variables are as the first way to it has them, and every other way moves them there."""

    def __init__(self, wanted, spill_at, spills, variables):
        super().__init__(spill_at, spills, variables)
        self.wanted = wanted
        self.entry: dict = {}

    def way(self, label):
        """Where a way leads, and what is moved before so that each variable is where it is expected."""
        wanted = self.wanted[label]
        if label not in self.entry:
            # Those that are nowhere in an order of their own, so that an image is the same each time.
            goal, have = {v: "stack" for v in sorted(wanted - self.at.keys())}, {}
            self.entry[label] = {v: p for v, p in self.at.items() if v in wanted} | goal
        else:
            goal, have = self.entry[label], self.at
        if not goal:
            return label, None
        held, self.items = self.items, []
        self.rearrange(goal, have)
        made, self.items = self.items, held
        if not made:
            return label, None
        self.count += 1
        made.append(Item("jump", JUMP, label=label, place=self.place, number=self.count))
        return label, made

    def rearrange(self, goal, have):
        """Moves variables from where they are to where they are wanted."""
        moves = {}
        for v, to in goal.items():
            at = have.get(v)
            if to == "stack" and at is None:
                self.op(0x62 if self.is_small(v) else 0x7A, 10, 0, self.slot(v))
            elif to == "stack" and at != "stack":
                self.save(v, at)
            elif isinstance(to, int) and isinstance(at, int) and at != to:
                moves[to] = at
        late = self.permute(moves, goal, have)
        for v, to in goal.items():
            at = have.get(v)
            if isinstance(to, int) and at == "stack":
                self.restore(v, to)
            elif isinstance(to, int) and at is None:
                self.op(CONSTANT, to)
        for to, spare in late:
            self.op(0x79, to, 10, spare)

    def permute(self, moves, goal, have):
        """Moves registers to others, each as {to: from}. The result are those that wait on the stack, and where."""
        late, entries = [], {p for v, p in have.items() if v.kind == "entry"}
        while moves:
            ready = [to for to in moves if to not in moves.values()]
            if ready:
                for to in ready:
                    self.op(MOVE, to, moves.pop(to))
                continue
            taken = {p for p in (*moves, *moves.values(), *goal.values(), *(have.get(v) for v in goal)) if isinstance(p, int)}
            free = [p for p in range(10) if p not in taken]
            if free:
                at = next(iter(moves.values()))
                self.op(MOVE, free[0], at)
                moves.update({to: free[0] for to, source in moves.items() if source == at})
                continue
            able = [(to, at) for to, at in moves.items() if at not in entries]
            if not able:
                raise Refused("the code has no register by which others are exchanged")
            to, at = able[0]
            spare = self.slot(Variable("spare", len(late)))
            self.op(0x7B, 10, at, spare)
            late.append((to, spare))
            del moves[to]
        return late
