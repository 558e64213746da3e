"""Lowers calls of functions of runtime.h that copy or compare bytes, where a helper or a few words of them do it: then the function
isn't copied in."""
from .calls import EQUALS, LOADS, Bytes, Calls, Copied
from .code import FRAME, LENGTH, OUTSIDE, Alu, Goto, Move, Store, Test, Variable
from .memory import span
from .program import STACK
from .state import State
from .values import const, number, unsigned
from .writer import Ended, Given

COPIES = ("memcpy", "memmove", "klog_memcpy", "klog_memmove")
PARTS = {"value": 0, "key": 1}
WORDS = (8, 4, 2, 1)
# The bytes that a helper copies at most, and that are copied from the record, or compared, word by word.
MOST_ROOM, MOST_COPIED, MOST_COMPARED = 512, 32, 64


def words(count):
    """The places and sizes of the words that so many bytes have."""
    at, found = 0, []
    for size in WORDS:
        while count - at >= size:
            found.append((at, size))
            at += size
    return found


class Library(Calls):
    def library_call(self, s: State, i):
        """Writes what a function of runtime.h does, without the function, and says whether it could."""
        name = self.program.runtime_function(*i[1:])
        if name == "klog_bcmp":
            return self.comparison(s)
        if name not in COPIES:
            return False
        to, start, count = (self.known(s, r) for r in (1, 2, 3))
        if to.region != "stack" or count.region is not None or unsigned(count)[1] > MOST_ROOM:
            return False
        is_record = start.region in LENGTH
        if name == "klog_memcpy" and count.is_const() and self.is_plain(s, start, count.lo) and (not is_record or count.lo <= MOST_COPIED):
            self.copy_words(s, to, count.lo)
            return True
        if is_record:
            self.part_copy(s)
        return is_record

    @staticmethod
    def is_plain(s: State, v, count):
        """Whether so many bytes from an address on can be loaded where they are."""
        if v.region in LENGTH:
            lo, hi = span(v, 0, count)
            return v.is_const() or lo >= 0 and hi <= s.least[v.region]
        return v.region == "stack" or isinstance(v.region, tuple) and v.region[0] == "constants"

    def guard_all(self, s: State, v, count):
        """Bytes of the record are tested to be there as a whole, before the way on depends on some of them."""
        lo, hi = span(v, 0, count)
        if v.region in LENGTH and lo >= 0 and (v.is_const() or hi <= s.least[v.region]):
            self.guard(s, v.region, lo, hi)

    # ---- copies

    def copy_words(self, s: State, to, count):
        """Copies bytes to a variable, word by word. The result is the variable's address."""
        self.guard_all(s, self.known(s, 2), count)
        base, add = (10, to.lo - self.tops[self.here.path]) if to.is_const() else (1, 0)
        for at, size in words(count):
            self.load(s, ("load", size, 0, 2, at, False))
            self.store(s, ("store", size, base, ("reg", 0), add + at))
        given = self.operand(s, ("reg", 1))
        self.clobber(s)
        self.define(s, 0, given.value, given.written)

    def part_copy(self, s: State):
        """Copies a part of the record to a variable by a helper. The result is the variable's address."""
        to, start, count = (self.operand(s, ("reg", r)) for r in (1, 2, 3))
        region = start.value.region
        helper = next(n for n, name in LOADS.items() if name == region)
        certain = self.is_certain(s, Bytes((2, 3), start, count))
        if not certain:
            self.may_end_outside(region, "copied")
        given = {1: to, 2: Given(start.value.in_region(None), start.written), 3: count}
        end = self.empty_room(None, given) if count.value.lo <= 0 else None
        if unsigned(count.value)[1]:
            self.write_call(s, helper, given)
            if not certain:
                self.emit(Test("ne", 64, self.name(0), 0, OUTSIDE, False))
        if end:
            self.emit(Goto(end))
            self.start(end)
        self.clobber(s)
        self.define(s, 0, to.value, to.written)

    # ---- comparisons

    def comparison(self, s: State):
        """Whether two pieces of bytes differ: by their words, or by a helper, where one is a part of the record."""
        pieces, count = [self.operand(s, ("reg", r)) for r in (1, 2)], self.operand(s, ("reg", 3))
        n = count.value
        if n.region is not None or unsigned(n)[1] > MOST_ROOM and not n.length_region():
            return False
        if n.is_const() and n.lo == 0:
            self.clobber(s)
            self.define(s, 0, n, 0)
            return True
        is_few = n.is_const() and n.lo <= MOST_COMPARED
        if is_few and all(self.is_plain(s, piece.value, n.lo) or n.lo in WORDS and piece.value.region in LENGTH for piece in pieces):
            self.compare_words(s, n.lo)
            return True
        parts = [piece for piece in pieces if piece.value.region in LENGTH]
        if not parts:
            return False
        # Of two parts of the record the other one is given as bytes, which takes no copy if it is at a known place.
        part = next((each for each in parts if not each.value.is_const()), parts[0])
        self.compare_part(s, part, pieces[part is pieces[0]], count)
        return True

    def compare_words(self, s: State, count):
        """The result is 1 at the first words that differ, and 0 after the last."""
        for r in (1, 2):
            self.guard_all(s, self.known(s, r), count)
        end, are_same, is_tested = self.label(), True, False
        try:
            for at, size in words(count):
                are_same = self.compare_word(s, at, size)
                if are_same is False:
                    break
                if are_same is None:
                    self.test_word(s, end, not is_tested)
                    is_tested = True
            self.emit(Move(self.name(0), int(are_same is False), 64))
            self.emit(Goto(end))
        except Ended:
            # The next words are outside. Those that differed before have the way on.
            if not is_tested:
                raise
        self.start(end)
        self.clobber(s)
        self.set(s, 0, number(0, 1) if is_tested else const(int(are_same is False)))

    def compare_word(self, s: State, at, size):
        """Loads a word of both to r4 and r5, and says whether they are the same, if that is known."""
        for r in (1, 2):
            self.load(s, ("load", size, 3 + r, r, at, False))
        v, w = (self.known(s, r) for r in (4, 5))
        self.number(v)
        self.number(w)
        return v.lo == w.lo if v.is_const() and w.is_const() else None

    def test_word(self, s: State, end, is_first):
        """Goes to the end with the result 1 where r4 and r5 differ."""
        x, y = (self.operand(s, ("reg", r)).written for r in (4, 5))
        if is_first:
            self.emit(Move(self.name(0), 1, 64))
        self.emit(Test("ne", 64, *((x, y) if isinstance(x, Variable) else (y, x)), end, False))

    def compare_part(self, s: State, part: Given, other: Given, count: Given):
        """Compares a part of the record with other bytes by the helper `equals`."""
        region, n = part.value.region, count.value
        place = Given(part.value.in_region(None), part.written)
        if not self.is_certain(s, Bytes((2, 4), part, count)):
            self.may_end_outside(region, "compared")
            self.test_inside(region, place, count)
        end = self.label() if n.lo <= 0 else None
        if end:
            some = self.label()
            self.emit(Test("ne", 64, count.written, 0, some, False))
            self.emit(Move(self.name(0), 0, 64))
            self.emit(Goto(end))
            self.start(some)
        self.write_call(s, EQUALS, {1: Given(const(PARTS[region]), PARTS[region]), 2: place, 3: other, 4: count}, self.written_constant(other.value, n))
        self.emit(Alu("xor", 64, self.name(0), self.name(0), 1))
        if end:
            self.emit(Goto(end))
            self.start(end)
        self.clobber(s)
        self.set(s, 0, number(0, 1))

    def test_inside(self, region, place: Given, count: Given):
        """Tests that a part of the record ends inside."""
        whole, rest = LENGTH[region], self.temp()
        is_variable = isinstance(place.written, Variable)
        self.emit(Test("gt", 64, place.written, whole, OUTSIDE, False) if is_variable else Test("lt", 64, whole, place.written, OUTSIDE, False))
        self.emit(Alu("sub", 64, rest, whole, place.written))
        self.emit(Test("lt", 64, rest, count.written, OUTSIDE, False))

    def written_constant(self, v, count):
        """Writes a constant of a known place and length to the stack's rest, if there is room, and gives it as `copied`."""
        if not (isinstance(v.region, tuple) and v.region[0] == "constants" and v.is_const() and count.is_const()):
            return None
        data, addresses = self.program.constants(v.region[1])
        held = data[v.lo:v.lo + count.lo]
        self.need_rooms(1)
        if len(held) < count.lo or count.lo > self.room_size or any(v.lo - 8 < at < v.lo + count.lo for at in addresses):
            return None
        for at, size in words(len(held)):
            self.emit(Store(size, FRAME, self.room_at + at - STACK, int.from_bytes(held[at:at + size], "little")))
        return {(3, 4): Copied(self.room_at, len(held))}
