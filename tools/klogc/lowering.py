"""Runs a program's blocks in an order that leads forward, a copy of each for each round of the loops around it and for each way in
which its variables are addresses, with what is known there, and writes the code."""
import collections
import functools
import heapq

from .code import ENTRY, LOOP, Entry, Goto, Move, Variable, register
from .library import Library
from .program import Block, Place
from .state import State
from .terms import LENGTH_TERMS
from .values import M32, M64, const, length, number
from .writer import Ended, TooLong

ABSENT = (M32, M64)
KEY_LENGTH = LENGTH_TERMS["key"]


class Copy:
    """A block's copy: the block, the rounds of the loops around it, and the kinds of its variables. There is one of each."""
    __slots__ = ("place", "rounds", "kinds")

    def __init__(self, place: Place, rounds: tuple, kinds: tuple):
        self.place, self.rounds, self.kinds = place, rounds, kinds


def kind(v):
    """What sets ways apart on which a variable is something else: the region of an address, and that it is the key's length, since
    where one is the key's length or the value's it goes with an address of the key or the value."""
    return v.region if v.region is not None else "length" if v.terms == KEY_LENGTH else None


def fine_kind(v):
    """The same, and which text of several it is, and whether it is -1, as functions say that there is no result."""
    if v.is_const() and (v.lo in ABSENT and v.region is None or isinstance(v.region, tuple)):
        return v.region, v.lo
    return kind(v)


class Lowering(Library):
    def __init__(self, program, settings, learned):
        super().__init__(program, settings, learned)
        self.places, self.heads, self.turns = program.order(settings.flat)
        self.live, self.read = program.liveness(), {}
        self.made_copies: dict[tuple, Copy] = {}
        self.steps: dict[Place, list] = {}
        self.waiting: dict[Copy, list[State]] = {}
        self.queue: list = []
        self.deepest: dict[Place, int] = {}
        self.unproved: set[Place] = set()
        self.copies_of: collections.Counter = collections.Counter()
        self.arrived = 0
        self.current: Copy | None = None

    def run(self, settings):
        """The blocks that are written, each a label and its instructions, in an order in which jumps lead forward. A run that ended
        because it had too many goes on where it was."""
        self.settings, most = settings, 2 * settings.slots
        if settings.rounds:
            # Some of the code is left out later, but seldom as much of loops that were cut.
            most = settings.slots * 3 // 2
        if not self.blocks:
            self.enter()
        while self.queue:
            _, _, copy = heapq.heappop(self.queue)
            self.current = copy
            self.start(copy)
            self.block(self.program.blocks[copy.place], functools.reduce(State.join, self.waiting.pop(copy)))
            if self.size > most:
                raise TooLong
        return self.blocks

    def enter(self):
        """Writes what comes before the function's first block."""
        self.start("entry")
        self.emit(Entry())
        s = State()
        for r, v in enumerate((const(0, "value"), length("value"), const(0, "key"), length("key"), number(0, 3)), 1):
            s.variables[register(r)] = v
        for r, v in ((1, 0), (2, ENTRY[1]), (3, 0), (4, ENTRY[3])):
            self.emit(Move(register(r), v, 64))
        place = self.program.entry
        self.emit(Goto(self.arrive(place, (0,) * len(self.heads[place]), s)))

    # ---- copies of blocks

    def arrive(self, place, rounds, s: State):
        """A way leads to a copy of a block, which has what is known on all ways to it once it is written."""
        if place not in self.read:
            self.read[place] = [register(r) if isinstance(r, int) else register(r[1], self.copies[r[0]]) for r in self.live[place]]
        s.keep(self.read[place] + [name for name in s.variables if name[0] == "slot"])
        copy = self.copy_of(place, rounds, s, fine_kind if self.settings.ways else kind)
        if copy not in self.waiting and self.copies_of[place, rounds] >= self.settings.ways > 0:
            copy = self.copy_of(place, rounds, s, kind)
        if copy in self.waiting:
            self.waiting[copy].append(s)
            return copy
        self.waiting[copy] = [s]
        self.copies_of[place, rounds] += 1
        key = []
        for at, where in enumerate(self.places[place]):
            key += [where, *rounds[at:at + 1]]
        self.arrived += 1
        heapq.heappush(self.queue, (key, self.arrived, copy))
        return copy

    def copy_of(self, place, rounds, s: State, kind_of):
        variables = s.variables
        if kind_of is kind:
            # Most variables have none, and are not asked one by one.
            variables = {name: v for name, v in variables.items() if v.region is not None or v.terms == KEY_LENGTH}
        kinds = [(name, str(what)) for name, v in variables.items() if (what := kind_of(v)) is not None]
        if s.words:
            kinds += [(Variable("slot", at), region) for at, region in s.words.items() if region in LENGTH_TERMS]
        found = place, rounds, tuple(sorted(kinds))
        if found not in self.made_copies:
            self.made_copies[found] = Copy(*found)
        return self.made_copies[found]

    def edge(self, to, s: State):
        """Where a way from the current block leads: to a copy of a block, or to the end of a loop of too many rounds."""
        ours, theirs, k = self.heads[self.current.place], self.heads[to], 0
        while k < min(len(ours), len(theirs)) and ours[k] == theirs[k]:
            k += 1
        rounds = list(self.current.rounds[:k]) + [0] * (len(theirs) - k)
        if to in self.turns and k == len(theirs):
            rounds[-1] += 1
            if rounds[-1] >= self.settings.rounds.get(to, 1 << 30):
                self.unproved.add(to)
                self.rejects[LOOP].add(self.program.line(to) or "?")
                return LOOP
            self.deepest[to] = max(self.deepest.get(to, 0), rounds[-1])
        return self.arrive(to, tuple(rounds), s)

    # ---- a block

    def block(self, block: Block, s: State):
        self.names = self.names_of(block.path)
        self.rest(block, s, 0)

    def rest(self, block: Block, s: State, first):
        """A block from an instruction on, on each of the ways on which it goes on by itself."""
        steps = self.steps_of(block)
        try:
            for k in range(first, len(steps)):
                self.here, i = steps[k]
                self.instruction(s, i, block)
                if self.forks:
                    forks, self.forks = self.forks, []
                    for label, t, dst, v in forks:
                        self.here = steps[k][0]
                        self.start(label)
                        self.define(t, dst, v, v.lo)
                        self.rest(block, t, k + 1)
                    return
            if i[0] == "local" and self.library_call(s, i):
                self.emit(Goto(self.edge(self.here._replace(slot=self.here.slot + 1), s)))
            elif i[0] not in ("jump", "exit"):
                self.emit(Goto(self.edge(block.next[0], s)))
        except Ended:
            pass

    def steps_of(self, block: Block):
        """The block's instructions with their places."""
        if self.current.place not in self.steps:
            self.steps[self.current.place] = block.places()
        return self.steps[self.current.place]

    def instruction(self, s: State, i, block: Block):
        match i[0]:
            case "bad":
                self.fail(i[1])
            case "ja" | "local":
                pass  # the way on is written at the block's end
            case "jump":
                self.jump(s, i, block.next[1], block.next[0])
            case "exit":
                self.leave(s, block)
            case kind:
                getattr(self, kind)(s, i)
