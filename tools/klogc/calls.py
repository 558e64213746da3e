"""Lowers calls of helpers: the bytes and the room that they are given."""
from typing import NamedTuple

from second_machine import HELPERS

from .code import BASE, FRAME, LENGTH, OUTSIDE, ROOM, Alu, Bound, Call, Goto, Move, Point, PointAt, Test, Variable
from .halves import narrowed
from .memory import Memory, bytes_text, span
from .program import STACK
from .state import State
from .terms import LENGTH_TERMS
from .values import M64, added, const, length, number, signed, unsigned
from .writer import Given, region_text

LOADS = {1: "value", 2: "key"}
PART_LENGTH, LOAD_PART, FIND, EQUALS, DECIMAL = 13, 14, 15, 16, 17
# The key and the value as parts, by their numbers.
PARTS = ("value", "key")
# Of helpers that are asked for bytes of a part: the registers of the part, or which it is, of the place and of the count, and between
# which answers the bytes are there.
TOLD = {1: ("value", 2, 3, 0, 0), 2: ("key", 2, 3, 0, 0), LOAD_PART: (4, 2, 3, 0, 0), FIND: (1, 2, 4, 1, M64), EQUALS: (1, 2, 4, 1, M64),
        DECIMAL: (1, 2, 3, 1, M64)}
# A part of a variable at an unknown place is passed on by so many calls at most, each with fewer places.
MOST_CALLS = 8


class Bytes(NamedTuple):
    """An address and a length that a helper is given, in these registers."""
    registers: tuple[int, int]
    address: Given
    length: Given

    def is_whole(self):
        """Whether it is the key or the value from its first byte to its last."""
        v, n = self.address.value, self.length.value
        return v.region in LENGTH and v.is_const() and v.lo == 0 and n.terms == LENGTH_TERMS[v.region] and n.c == 0


class Copied(NamedTuple):
    """Where a part of the record was copied to on the stack, and how many bytes it may have."""
    at: int
    most: int


class Calls(Memory):
    def call(self, s: State, i):
        helper = i[1]
        if helper not in HELPERS:
            self.fail(f"helper {helper} is called, which klog does not have")
        numbers, pairs, rooms, most = HELPERS[helper]
        given = {r: self.operand(s, ("reg", r)) for r in [*numbers, *(r for pair in pairs + rooms for r in pair)]}
        for r in [*numbers, *(n for _, n in pairs + rooms)]:
            self.number(given[r].value)
        is_empty = rooms and unsigned(given[3].value)[1] == 0
        end = self.empty_room(helper, given) if rooms and given[3].value.lo <= 0 else None
        if not is_empty:
            self.write_call(s, helper, given)
        if end:
            self.emit(Goto(end))
            self.start(end)
        self.clobber(s)
        answer = number(0, most)
        self.set(s, 0, answer)
        told = told_by(helper, answer, {r: it.value for r, it in given.items()})
        if told:
            s.note("answers", answer.terms, told)

    def empty_room(self, helper, given):
        """Nothing is copied to room of no bytes: the call is left out then, and goes on at the label that is given back."""
        n, length = given[3]
        some, end = self.label(), self.label()
        if length != 0:
            self.emit(Test("ne", 64, length, 0, some, False))
        place = given.get(2)
        if helper in LOADS and place.written != 0:
            # A place after the end is no part, even of no bytes.
            self.emit(Move(self.name(0), 1, 64))
            whole = LENGTH[LOADS[helper]]
            test = ("lt", 64, whole, place.written) if not isinstance(place.written, Variable) else ("gt", 64, place.written, whole)
            self.emit(Test(*test, end, False))
        if helper == LOAD_PART:
            self.end_test(given)
        else:
            self.emit(Move(self.name(0), 0, 64))
        self.emit(Goto(end))
        self.start(some)
        given[3] = Given(number(1, unsigned(n)[1], None, n.terms, n.c), length)
        return end

    def end_test(self, given):
        """The answer of load_part for no bytes: whether no bytes stand at the place, which another helper says."""
        part, place, address, count = (self.argument(r) for r in (1, 2, 3, 4))
        self.emit(Move(part, given[4].written, 64))
        self.emit(Move(place, given[2].written, 64))
        self.emit(PointAt(address, BASE["value"], 0))
        self.emit(Move(count, 0, 64))
        self.emit(Call(EQUALS, (part, place, address, count), self.name(0)))
        self.emit(Alu("xor", 64, self.name(0), self.name(0), 1))

    def write_call(self, s: State, helper, given, copies=None):
        """Writes a call, with what it is given, and where bytes that it reads were copied to, if they were."""
        register = self.wide_place(helper, given)
        if register:
            self.write_halves(s, helper, given, copies, register)
        else:
            self.write_one_call(s, helper, given, copies or {})
        for a, n in HELPERS[helper][2]:
            v, count = given[a].value, given[n].value
            lo, hi = span(v, 0, count.hi)
            s.forget(lo, hi)
            s.mark(lo, hi, None, v.is_const() and count.is_const())

    def wide_place(self, helper, given):
        """The register of a place on the stack that is one of so many that the verifier can't see that a part from there on is inside the
        stack, which it is. None where there is none, or where it takes too many calls with fewer places each."""
        for a, n in HELPERS[helper][1] + HELPERS[helper][2]:
            v, (least, most), (low, high) = given[a].value, unsigned(given[n].value), signed(given[a].value)
            if v.region == "stack" and low >= 0 and least < most and high + min(most, self.used - low) > STACK:
                return a if high - low < MOST_CALLS * (STACK - self.used) else None
        return None

    def write_halves(self, s: State, helper, given, copies, register):
        """Writes a call for the nearer ones of the places, and one for the others."""
        (v, written), others, end = given[register], self.label(), self.label()
        low, high = signed(v)
        middle = (low + high) // 2
        self.emit(Test("gt", 64, written, middle, others, False))
        for least, most, label in ((low, middle, others), (middle + 1, high, end)):
            self.write_call(s.copy(), helper, {**given, register: Given(narrowed(v, v, least, most), written)}, copies)
            self.emit(Goto(end))
            self.start(label)

    def write_one_call(self, s: State, helper, given, copies):
        numbers, pairs, rooms, _ = HELPERS[helper]
        named = [Bytes(pair, given[pair[0]], given[pair[1]]) for pair in pairs]
        for part in named:
            if self.must_be_copied(s, part):
                copies[part.registers] = self.copied(s, part, len(copies), "compared" if helper == EQUALS else "emitted")
        arguments = []
        for r in numbers:
            arguments.append(self.argument(r))
            self.emit(Move(arguments[-1], given[r].written, 64))
        for part in named:
            arguments += self.named(s, part, copies.get(part.registers))
        for pair in rooms:
            arguments += self.room(s, Bytes(pair, given[pair[0]], given[pair[1]]))
        self.emit(Call(helper, tuple(arguments), self.name(0)))

    # ---- parts of the record

    @staticmethod
    def must_be_copied(s: State, part: Bytes):
        """Whether it is a part of the record that is neither all of it nor at a known place with certain length."""
        v, n = part.address.value, part.length.value
        if v.region not in LENGTH or part.is_whole() or v.is_const() and n.is_const():
            return False
        lo, hi = span(v, 0, unsigned(n)[1])
        return not (lo >= 0 and hi <= s.least[v.region])

    def copied(self, s: State, part: Bytes, made, done_with):
        """Copies a part of the record to the stack, from where it is emitted or compared."""
        v, n = part.address.value, part.length.value
        self.need_rooms(made + 1)
        certain = self.is_certain(s, part)
        if not certain:
            self.may_end_outside(v.region, done_with)
        if self.room_size < 8:
            self.fail("a part of the record is emitted for which the stack has no room: give the function fewer or smaller variables")
        if unsigned(n)[1] > self.room_size:
            self.may_reject(ROOM)
        to = self.room_at + made * self.room_size
        if unsigned(n)[1] == 0:
            return Copied(to, 0)
        done = self.label() if n.lo <= 0 else None
        if done:
            self.emit(Test("eq", 64, part.length.written, 0, done, False))
        self.copy_record(part.address, 0, part.length, to, certain)
        if done:
            self.emit(Goto(done))
            self.start(done)
        return Copied(to, min(self.room_size, unsigned(n)[1]))

    def need_rooms(self, count):
        if self.learned.rooms < count:
            self.learned.rooms = count
            self.again = True

    def may_end_outside(self, region, done_with):
        self.may_fault(f"a part of the {region} is {done_with} that may end outside: test first that its end is at most {region}_length")

    @staticmethod
    def is_certain(s: State, part: Bytes):
        """Whether a part of the record is known to be inside: by its end, or by a fact of its place or its length alone."""
        v, n = part.address.value, part.length.value
        if s.is_inside(added(v.in_region(None), n), 0, v.region):
            return True
        if v.is_const():
            return s.is_inside(n, v.lo, v.region)
        return n.is_const() and s.is_inside(v.in_region(None), n.lo, v.region)

    # ---- arguments

    def named(self, s: State, part: Bytes, copied):
        """The arguments of bytes that a helper reads."""
        region = part.address.value.region
        to, count = (self.argument(r) for r in part.registers)
        self.emit(Move(count, part.length.written, 64))
        if copied:
            self.emit(Bound(count, 0, copied.most, ROOM))
            self.emit(PointAt(to, FRAME, copied.at - STACK))
        elif part.is_whole():
            self.emit(PointAt(to, BASE[region], 0))
        elif region in LENGTH:
            self.record_bytes(s, part, to, count)
        elif region == "stack":
            lo, hi = span(part.address.value, 0, unsigned(part.length.value)[1])
            self.touch(max(lo, 0), min(hi, self.used))
            self.not_of_addresses(s, part.address, 0, part.length)
            self.stack_bytes(s, part, (to, count), self.used, -STACK)
        elif isinstance(region, tuple) and region[0] == "constants":
            self.constant_bytes(s, part, (to, count))
        else:
            self.fail("a helper is given a number, or an address that may be of two kinds, as the address of bytes")
        return [to, count]

    def record_bytes(self, s: State, part: Bytes, to, count):
        """Bytes of the record that are certainly there."""
        v, (least, most) = part.address.value, unsigned(part.length.value)
        lo, hi = span(v, 0, most)
        if lo < 0:
            self.never(f"bytes before the {v.region}'s first are emitted")
        self.guard(s, v.region, lo, hi)
        self.emit(Bound(count, least, most, OUTSIDE))
        if v.is_const():
            self.emit(PointAt(to, BASE[v.region], lo))
            return
        x, add, low, high = self.bounded(s, part.address, 0, 0, s.least[v.region] - most)
        self.emit(Point(to, BASE[v.region], x, low, high, add))

    def constant_bytes(self, s: State, part: Bytes, arguments):
        v = part.address.value
        section = v.region[1]
        size = len(self.program.obj.section(section).data)
        low, high = signed(v)
        _, last = self.constant_range(section, low, high + unsigned(part.length.value)[1], size)
        self.stack_bytes(s, part, arguments, last, self.constants_at.get(section, 0) - STACK)

    def stack_bytes(self, s: State, part: Bytes, arguments, top, adds):
        """Bytes of the stack before its byte `top`, of places that begin `adds` after its end."""
        (to, count), v, (least, most) = arguments, part.address.value, unsigned(part.length.value)
        low, high = signed(v)
        first = max(low, 0)
        if high < 0 or first + least > top:
            self.never(f"{bytes_text(low, low + max(least, 1))} a variable are passed on, which are outside it")
        certain = min(most, top - first)
        end = s.total(v, part.length.value)
        if low >= 0 and 0 <= end.lo and end.hi <= top:
            pass
        elif low >= 0 and top < high + most <= STACK:
            self.may_reject(OUTSIDE)
        elif low < 0 or high + most > top:
            self.may_fault(f"a length of up to {most} is passed on with a variable of at most {certain} bytes: test the length first")
        if v.is_const():
            self.emit(Bound(count, least, certain, OUTSIDE))
            self.emit(PointAt(to, FRAME, adds + v.lo))
            return
        last = top - certain
        if least < most and low >= 0 and adds + high + certain <= 0:
            # The verifier sees that both are within the stack; that their sum is within the variable is tested here.
            self.part_end(s, part, top)
            certain, last = min(most, -adds - high), high
        elif least < most and high > last:
            self.fail("klog's verifier can't see that a part of a variable, at an unknown place and of an unknown length, is inside: use smaller variables")
        self.emit(Bound(count, least, certain, OUTSIDE))
        x, add, lo, hi = self.bounded(s, part.address, 0, 0, last)
        self.emit(Point(to, FRAME, x, lo, hi, adds + add))

    def part_end(self, s: State, part: Bytes, top):
        """Tests that a part ends at `top` at the latest, where that is not known."""
        end = s.total(part.address.value, part.length.value)
        if 0 <= end.lo and end.hi <= top:
            return
        self.may_reject(OUTSIDE)
        x = self.temp()
        self.emit(Alu("add", 64, x, part.address.written, part.length.written))
        self.emit(Bound(x, 0, top, OUTSIDE))

    def room(self, s: State, part: Bytes):
        """The arguments of room that a helper writes."""
        v = part.address.value
        if v.region != "stack":
            self.fail(f"a helper writes to {region_text(v.region)}: give it a variable of the function" if v.region else "a helper writes to a number")
        to, count = (self.argument(r) for r in part.registers)
        self.emit(Move(count, part.length.written, 64))
        lo, hi = span(v, 0, unsigned(part.length.value)[1])
        self.touch(max(lo, 0), min(hi, self.used))
        n = part.length.value
        some = Given(number(max(1, unsigned(n)[0]), max(1, unsigned(n)[1]), None, n.terms, n.c), part.length.written)
        self.stack_bytes(s, part._replace(length=some), (to, count), self.used, -STACK)
        return [to, count]


def told_by(helper, answer, given):
    """What the answer of a helper tells that is asked for bytes of the key or of the value, if that is known: between which answers, which
    number it is then, or None, and pairs of numbers of which the first is at most the second then."""
    if helper == PART_LENGTH and (region := part_of(given[1])):
        return 2, M64, added(length(region), const(2))
    if helper not in TOLD:
        return None
    part, place, count, first, last = TOLD[helper]
    region = part_of(given[part]) if isinstance(part, int) else part
    if region is None:
        return None
    if helper == FIND:
        return first, last, None, added(given[place], const(1)), answer, added(added(answer, const(-1)), given[count]), length(region)
    return first, last, None, added(given[place], given[count]), length(region)


def part_of(v):
    """The key or the value, where it is that part's number, or None."""
    return PARTS[v.lo] if v.is_const() and v.lo < len(PARTS) else None
