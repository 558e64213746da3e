"""Gives the variables of the lowered code registers, or places on the stack, and writes its instructions with them."""
import collections

from second_machine import TESTS

from .choice import SPARE
from .code import (ENTRY, FRAME, OUTSIDE, TRAPS, Alu, Bound, Call, Change, Entry, Exit, Goto, Load, Move, Point, PointAt, Store, Test, Variable, is_variable,
                   register, written)
from .jumps import OPPOSITE
from .numbers import COMMUTATIVE
from .places import CONSTANT, EXIT, JUMP, MOVE, MOVE32
from .ways import Ways

CODES = {"add": 0, "sub": 1, "mul": 2, "div": 3, "or": 4, "and": 5, "lsh": 6, "rsh": 7, "mod": 9, "xor": 10, "arsh": 12, "sdiv": 3, "smod": 9}
TEST_CODES = {name: code for code, name in TESTS.items()}
SIZES = {1: 0x10, 2: 0x08, 4: 0x00, 8: 0x18}
ORDERS = {"le": 0xD4, "be": 0xDC, "swap": 0xD7}
KEPT = (6, 7, 8, 9)


def saved_registers(blocks):
    """How often the code names each of the registers that calls keep."""
    named = collections.Counter()
    for _, code in blocks:
        for line in code:
            named.update(x.number for x in line.instruction if isinstance(x, Variable) and x.kind == "register" and x.number in KEPT)
    return named


class Allocator(Ways):
    """Gives each block's variables registers as it goes through it."""

    def __init__(self, blocks, wanted, lowering):
        learned = lowering.learned
        super().__init__(wanted, lowering.spill_at, learned.spills, learned.variables)
        self.blocks = blocks
        self.stubs: list = []
        self.made = 0
        self.keep = self.kept_entry(saved_registers(blocks))
        self.writers = {Entry: self.write_entry, Move: self.write_move, Alu: self.write_alu, Change: self.write_change, PointAt: self.write_point_at,
                        Point: self.write_point, Load: self.write_load, Store: self.write_store, Bound: self.write_bound, Test: self.write_test,
                        Goto: self.write_goto, Call: self.write_call, Exit: self.write_exit}

    def kept_entry(self, named):
        """The addresses and lengths of the record that are wanted after a call have a register that calls keep, from the beginning."""
        over = {v for _, code in self.blocks for line in code if type(line.instruction) is Call for v in line.after if v.kind == "entry"}
        order = sorted(KEPT, key=lambda r: (named[r], -r))
        return dict(zip(sorted(over, key=lambda v: v.number), order))

    def run(self):
        for label, code in self.blocks:
            if label != "entry" and label not in self.entry:
                continue
            self.begin(label, code)
            for self.k, line in enumerate(code):
                self.place, self.after, self.busy = line.place, line.after, set()
                self.writers[type(line.instruction)](line.instruction)
                for v in [v for v in self.at if v not in line.after]:
                    self.drop(v)
            for stub, moves in self.stubs:
                self.item("label", label=stub)
                self.items += moves
            self.stubs = []
        self.place = None
        for trap, code in TRAPS.items():
            self.item("label", label=trap)
            self.op(CONSTANT, 0, imm=code)
            self.op(EXIT, 0)
        return self.items

    def begin(self, label, code):
        self.code = code
        self.addresses = {written(line.instruction) for line in code if type(line.instruction) in (Point, PointAt)}
        self.wanted_last = code[-1].after if code else frozenset()
        self.item("label", label=label)
        self.held, self.at = {}, {}
        for v, p in self.entry.get(label, {}).items():
            self.at[v] = p
            if isinstance(p, int):
                self.held[p] = v

    # ---- instructions

    def write_entry(self, _):
        for v, p in [(register(5), 5), *((v, v.number) for v in ENTRY)]:
            if v in self.after:
                self.put(v, p)
        for v, p in self.keep.items():
            if v in self.after and self.at[v] != p:
                self.op(MOVE, p, self.at[v])
                del self.held[self.at[v]]
                self.put(v, p)

    def write_move(self, i):
        to, a, width = i
        if not is_variable(a):
            self.constant(self.define(to), a if width == 64 else a & 0xFFFFFFFF)
        elif width == 32:
            p = self.use(a)
            q = self.result(to, a, p)
            self.op(MOVE32, q, self.at[a] if self.in_register(a) else p)
        else:
            self.move(to, a)

    def move(self, to, a):
        p = self.at.get(a)
        fits = to.kind != "argument" or p == to.copy
        if a not in self.after and isinstance(p, int) and fits and to not in self.keep and p not in self.keep.values() and a.kind != "entry" and self.may_stay(to, p):
            self.drop(to)
            self.drop(a)
            self.put(to, p)
            return
        p = self.use(a)
        if self.at.get(to) == "stack":
            self.drop(to)
        q = self.define(to, {p})
        p = self.use(a, {q})
        if p != q:
            self.op(MOVE, q, p)

    def write_change(self, i):
        change, to, a = i
        p = self.use(a)
        q = self.result(to, a, p)
        if change[0] == "movsx":
            self.op(MOVE if change[1] == 64 else MOVE32, q, p, change[2])
            return
        if q != p:
            self.op(MOVE, q, p)
        if change[0] == "neg":
            self.op(0x87 if change[1] == 64 else 0x84, q)
        else:
            self.op(ORDERS[change[1]], q, imm=change[2])

    def write_alu(self, i):
        name, width, to, a, b = i
        if name in COMMUTATIVE and is_variable(b) and (not is_variable(a) or b == to != a):
            a, b = b, a
        opcode, offset = CODES[name] << 4 | (7 if width == 64 else 4), int(name in ("sdiv", "smod"))
        imm = None if is_variable(b) else self.immediate(b, width)
        p = self.use(a) if is_variable(a) else None
        if imm is not None:
            q, _ = self.operands(to, (a, p), (None, None))
            self.op(opcode, q, 0, offset, imm)
            return
        if not is_variable(b):
            second = self.spare(b, {p} | self.busy)
            self.put(SPARE, second)
            b = SPARE
        else:
            second = self.use(b, {p})
        self.busy |= {p, second} - {None}
        if to == b != a:
            self.write_onto_second(opcode, offset, to, (a, p), second)
        else:
            q, second = self.operands(to, (a, p), (b, second))
            self.op(opcode | 8, q, second, offset)
        self.drop(SPARE)

    def operands(self, to, first, other):
        """The register of a result, with the first operand in it, and that of the second operand, each given with its register.
        A result that must be in a certain register may have moved them from there."""
        (a, p), (b, second) = first, other
        q = self.define(to, {second}) if p is None else self.result(to, a, p, {second})
        if a in self.at:
            p = self.use(a, {q})
        if b in self.at:
            second = self.use(b, {q, p})
        if p is None:
            self.constant(q, a)
        elif q != p:
            self.op(MOVE, q, p)
        return q, second

    def write_onto_second(self, opcode, offset, to, first, second):
        """An operation whose result is its second operand too: it is made elsewhere."""
        a, p = first
        if p is not None and self.is_done_with(a):
            q = p
            self.op(opcode | 8, q, second, offset)
            self.drop(a)
        else:
            q = self.take(to, {p, second} | self.busy)
            if p is None:
                self.constant(q, a)
            else:
                self.op(MOVE, q, p)
            self.op(opcode | 8, q, second, offset)
        self.drop(to)
        self.put(to, q)

    def limits(self, p, lo, hi, trap):
        for name, n in (("lt", lo), ("gt", hi)):
            imm = self.immediate(n, 64)
            if imm is not None and imm >= 0 and (name, n) != ("lt", 0):
                self.item("jump", TEST_CODES[name] << 4 | 5, p, imm=imm, label=trap)

    def write_bound(self, i):
        if is_variable(i.index):
            self.limits(self.use(i.index), i.lo, i.hi, i.trap)

    def write_point(self, i):
        p = self.use(i.index)
        self.limits(p, i.lo, i.hi, OUTSIDE)
        b = self.use(i.base, {p})
        q = self.define(i.to, {p, b})
        p, b = self.use(i.index, {q}), self.use(i.base, {q, p})
        self.op(MOVE, q, b)
        self.op(0x0F, q, p)
        if i.add:
            self.op(0x07, q, imm=i.add)

    def write_point_at(self, i):
        to, base, add = i
        b = self.use(base)
        if base != FRAME and base not in self.after and to.kind == "argument" and b == to.copy:
            self.drop(base)
            self.put(to, b)
        q = self.define(to, {b})
        b = self.use(base, {q}) if base == FRAME or base in self.at else q
        if q != b:
            self.op(MOVE, q, b)
        if add:
            self.op(0x07, q, imm=add)

    def write_load(self, i):
        size, is_signed, to, base, offset = i
        b = self.use(base)
        if base != FRAME and self.is_done_with(base) and not self.in_register(to) and self.may_stay(to, b):
            self.drop(to)
            self.drop(base)
            self.put(to, b)
            q = b
        else:
            q = self.define(to, {b})
        self.op((0x81 if is_signed else 0x61) | SIZES[size], q, b, offset)

    def write_store(self, i):
        size, base, offset, a = i
        b = self.use(base)
        if is_variable(a):
            self.op(0x63 | SIZES[size], b, self.use(a, {b}), offset)
            return
        imm = self.immediate(a, 64 if size == 8 else 32)
        if imm is not None:
            self.op(0x62 | SIZES[size], b, 0, offset, imm)
        else:
            self.op(0x63 | SIZES[size], b, self.spare(a, {b}), offset)

    def write_call(self, i):
        for p in range(6):
            v = self.held.get(p)
            if v is None or v in i.arguments:
                continue
            if v not in self.after or v == i.answer:
                self.drop(v)
            else:
                self.make_free(p, range(6), KEPT)
        self.op(0x85, 0, imm=i.helper)
        for v in [self.held[p] for p in range(6) if p in self.held]:
            self.drop(v)
        self.drop(i.answer)
        if i.answer in self.after:
            self.put(i.answer, 0)

    def write_exit(self, i):
        if not is_variable(i.source):
            self.constant(0, i.source)
        else:
            p = self.use(i.source)
            if p != 0:
                self.op(MOVE, 0, p)
        self.op(EXIT, 0)

    # ---- jumps

    def write_test(self, i):
        p = self.use(i.a)
        imm = None if is_variable(i.b) else self.immediate(i.b, i.width)
        q = self.use(i.b, {p}) if is_variable(i.b) else self.spare(i.b, {p}) if imm is None else 0
        for v in [v for v in self.at if v not in self.after and v not in self.wanted[i.target]]:
            self.drop(v)
        to, moves = self.way(i.target)
        opcode = (5 if i.width == 64 else 6) | (8 if imm is None else 0)
        jump = lambda name, label: self.item("jump", TEST_CODES[name] << 4 | opcode, p, q, imm=imm or 0, label=label)
        self.made += 1
        if moves and i.name in OPPOSITE:
            jump(OPPOSITE[i.name], ("over", self.made))
            self.items += moves
            self.item("label", label=("over", self.made))
            return
        if moves:
            to = "stub", self.made
            self.stubs.append((to, moves))
        jump(i.name, to)

    def write_goto(self, i):
        for v in [v for v in self.at if v not in self.wanted[i.target]]:
            self.drop(v)
        to, moves = self.way(i.target)
        if moves:
            self.items += moves
        else:
            self.item("jump", JUMP, label=to)
