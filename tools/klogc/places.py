"""Where the variables of the lowered code are, and the slots of the image that are written."""
from typing import NamedTuple

from .code import Variable
from .program import STACK

MOVE, MOVE32, CONSTANT, WIDE, JUMP, EXIT = 0xBF, 0xBC, 0xB7, 0x18, 0x05, 0x95


class Item(NamedTuple):
    """A slot of the image to be, or a label. `kind` is "slot", "wide", "jump" or "label"; of a jump and of a label `label` says which."""
    kind: str
    opcode: int = 0
    dst: int = 0
    src: int = 0
    offset: int = 0
    imm: int = 0
    label: object = None
    place: object = None
    number: int = -1


class Places:
    """Where variables are: a register, or the stack. Which registers are free is what the code says that was written so far."""

    def __init__(self, spill_at, spills, variables):
        self.spill_at, self.spills, self.variables = spill_at, spills, variables
        self.items: list[Item] = []
        self.place = None
        self.held: dict[int, Variable] = {}            # what a register has
        self.at: dict[Variable, int | str] = {}        # a register's number, or "stack"
        self.slots: dict[Variable, int] = {}
        self.free_slots: list[int] = []
        self.most = 0
        self.count = 0

    # ---- items

    def item(self, kind, opcode=0, dst=0, src=0, **words):
        self.count += 1
        self.items.append(Item(kind, opcode, dst, src, place=self.place, number=self.count, **words))

    def op(self, opcode, dst, src=0, offset=0, imm=0):
        self.item("slot", opcode, dst, src, offset=offset, imm=imm)

    def constant(self, p, n):
        s = n - (1 << 64) if n >> 63 else n
        if -1 << 31 <= s < 1 << 31:
            self.op(CONSTANT, p, imm=s)
        else:
            self.item("wide", WIDE, p, imm=n)

    # ---- the stack

    def slot(self, v):
        """A variable's place on the stack: one that the compiler had there keeps its own."""
        if v.kind == "slot":
            return v.number - STACK
        if v not in self.slots:
            if self.free_slots:
                self.slots[v] = self.free_slots.pop()
            else:
                self.slots[v] = self.most
                self.most += 1
        return self.spill_at + 8 * self.slots[v] - STACK

    def is_small(self, v):
        return v.kind == "slot" and self.variables.get(v.number) == 4

    def save(self, v, p):
        self.op(0x63 if self.is_small(v) else 0x7B, 10, p, self.slot(v))

    def restore(self, v, p):
        self.op(0x61 if self.is_small(v) else 0x79, p, 10, self.slot(v))

    # ---- places

    def put(self, v, p):
        self.held[p], self.at[v] = v, p

    def drop(self, v):
        """A variable is nowhere any more."""
        p = self.at.pop(v, None)
        if isinstance(p, int) and self.held.get(p) == v:
            del self.held[p]
        if p == "stack" and v.is_temporary() and v in self.slots:
            self.free_slots.append(self.slots.pop(v))

    def spill(self, p):
        v = self.held.pop(p)
        self.save(v, p)
        self.at[v] = "stack"

    def in_register(self, v):
        return isinstance(self.at.get(v), int)
