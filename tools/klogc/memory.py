"""Lowers loads and stores: an address is a place in a known region, and the base is added just before each access."""
from .code import BASE, FRAME, LENGTH, OUTSIDE, ROOM, Alu, Bound, Call, Goto, Load, Move, Point, PointAt, Store, Test, Variable
from .halves import Held
from .jumps import Jumps
from .program import STACK
from .state import State
from .values import M64, MIXED, Value, changed, const, low32, number, signed, small, unsigned
from .writer import Given, region_text

FAR_OFFSET = 32000


def span(v, offset, size):
    """The bytes between which an access lies: the first that it may have, and the one after the last."""
    lo, hi = signed(v)
    return lo + offset, hi + offset + size


def bytes_text(lo, hi):
    return f"byte {lo} of" if hi == lo + 1 else f"bytes {lo} to {hi - 1} of"


def cut(w, size):
    """What a store of fewer than eight bytes leaves of a number."""
    top = (1 << 8 * size) - 1
    if w.lo >= 0 and w.hi <= top:
        return w
    return const(w.lo & top) if w.is_const() else number(0, top, w.mask & top)


def slot(at):
    return Variable("slot", at)


class Memory(Jumps):
    # ---- addresses

    def touch(self, lo, hi):
        """Bytes of the stack are used otherwise than as one variable."""
        if lo >= hi:
            return
        variables = self.learned.variables
        self.learned.memory.update(range(lo, hi))
        hit = [at for at, size in variables.items() if at < hi and lo < at + size]
        for at in hit:
            del variables[at]
            self.again = True

    def bounded(self, s: State, given: Given, offset, low, high):
        """A variable for an index, what is to be added to it, and its bounds, where the sum must be from low to high."""
        (v, a), (lo, hi) = given, span(given.value, offset, 0)
        if lo < low or hi > high:
            lo, hi = max(lo, low), min(hi, high)
            if lo > hi:
                self.never("a place outside is used")
        x = a
        if offset and (signed(v)[0] < 0 or lo - offset < 0):
            x, offset = self.moved(a, offset), 0
        s.narrow(v, lo - offset if x is a else v.lo, hi - offset if x is a else v.hi)
        return x, offset, lo - offset, hi - offset

    def point(self, s: State, given: Given, offset, allowed, base, adds=0):
        """Writes the address of bytes at an offset that is not known, which must be within `allowed`. The result is a variable
        with the address, and what is to be added to it."""
        x, offset, lo, hi = self.bounded(s, given, offset, *allowed)
        if not -32768 <= adds + offset <= 32767 - 8:
            self.fail("a place is too far from its address")
        d = self.temp()
        self.emit(Point(d, base, x, lo, hi, 0))
        return d, adds + offset

    def index(self, v, offset, size):
        """An index into the stack's variables. One that may lead outside the stack is refused; one of which it isn't clear how far it
        leads in it is tested."""
        lo, hi = span(v, offset, size)
        if lo < 0 or hi > STACK:
            self.may_fault("an index may lead outside the variable: test first that it is below the number of elements")
        elif hi > self.used:
            self.may_reject(OUTSIDE)

    def not_of_addresses(self, s: State, given: Given, offset, count: Given):
        """The way ends where bytes of the stack are read as numbers that are those of an address, which the image has otherwise."""
        (v, at), (n, length) = given, count
        for first, end in s.addresses(*span(v, offset, unsigned(n)[1])):
            if v.is_const() and n.is_const():
                self.never("a part of an address is used as a number")
            self.may_reject(OUTSIDE)
            # They have bytes of this run if their end is less than the lengths of both after its first byte.
            if v.is_const():
                past = self.moved(length, v.lo + offset - 1 - first)
            elif n.is_const():
                past = self.moved(at, n.lo + offset - 1 - first)
            else:
                both = self.temp()
                self.emit(Alu("add", 64, both, at, length))
                past = self.moved(both, offset - 1 - first)
            both = end - first - 1
            self.emit(Test("lt", 64, past, both + n.lo if n.is_const() else self.moved(length, both), OUTSIDE, False))

    def moved(self, a, count):
        """A variable that is another one and a constant."""
        x = self.temp()
        self.emit(Alu("sub" if count < 0 else "add", 64, x, a, abs(count)))
        return x

    # ---- loads

    def load(self, s: State, i):
        given = self.operand(s, ("reg", i[3]))
        region = given.value.region
        if region == "stack":
            self.load_stack(s, i, given)
        elif region in LENGTH:
            self.load_record(s, i, given)
        elif isinstance(region, tuple) and region[0] == "constants":
            self.load_constant(s, i, given)
        else:
            self.no_address(region)

    def no_address(self, region):
        if region is None:
            self.fail("a number is used as an address")
        self.fail("an address may be of two kinds, as of the value and of the key: use it on each way by itself" if region == MIXED
                  else "a difference of addresses is used as an address")

    @staticmethod
    def extended(size, is_signed, v=None):
        """What a load of so many bytes gives."""
        v = number(0, (1 << 8 * size) - 1) if v is None else v
        return changed(("movsx", 64, 8 * size), v) if is_signed and v.region is None else v

    def load_stack(self, s: State, i, given):
        _, size, dst, _, offset, is_signed = i
        lo, hi = span(given.value, offset, size)
        if given.value.is_const():
            self.load_place(s, i, lo)
            return
        self.index(given.value, offset, size)
        self.touch(max(lo, 0), min(hi, self.used))
        if size < 8:
            self.not_of_addresses(s, given, offset, Given(const(size), size))
        at, add = self.point(s, given, offset, (0, self.used - size), FRAME, -STACK)
        self.emit(Load(size, is_signed, self.name(dst), at, add))
        known = self.extended(size, is_signed)
        self.set(s, dst, known.in_region(s.kind_at(lo, hi)) if size == 8 else known)

    def load_place(self, s: State, i, at):
        """A load from a known place of the stack."""
        _, size, dst, _, _, is_signed = i
        if not 0 <= at <= STACK - size:
            self.never("bytes outside the variables are read: test first that the index is below the number of elements")
        if self.learned.variables.get(at) == size and not is_signed:
            v = s.variables.get(slot(at))
            if v is None:
                self.fail("a variable is read that may not be set: give it a value where it is declared")
            v = s.current(v)
            self.define(s, dst, v, self.spelled(v, slot(at)))
            return
        self.touch(at, at + size)
        known = self.known_place(s, at, size)
        if known is None:
            if size < 8:
                self.not_of_addresses(s, Given(const(at), at), 0, Given(const(size), size))
            known = number(0, (1 << 8 * size) - 1)
            known = known.in_region(s.kind_at(at, at + 8)) if size == 8 else known
            s.memory.setdefault(at, Held(size, known))
        known = self.extended(size, is_signed, known)
        if known.is_const():
            self.define(s, dst, known, known.lo)
            return
        self.emit(Load(size, is_signed, self.name(dst), FRAME, at - STACK))
        self.set(s, dst, known)

    @staticmethod
    def known_place(s: State, at, size):
        held = s.memory.get(at)
        if held and held.size == size and held.value is not None:
            return s.current(held.value)
        data = [s.known_byte(b) for b in range(at, at + size)]
        return None if None in data else const(int.from_bytes(bytes(data), "little"))

    def load_constant(self, s: State, i, given):
        _, size, dst, _, offset, is_signed = i
        section = given.value.region[1]
        (lo, hi), (data, addresses) = span(given.value, offset, size), self.program.constants(section)
        if given.value.is_const():
            if not 0 <= lo <= len(data) - size:
                self.never("bytes outside a constant are read")
            k = int.from_bytes(data[lo:hi], "little")
            known = const(k, ("constants", addresses[lo][0])) if lo in addresses and size == 8 else self.extended(size, is_signed, const(k))
            self.define(s, dst, known, known.lo)
            return
        known = self.extended(size, is_signed)
        places = self.places_of(s, given.value, offset, lo, hi - size)
        inside = [at for at in (addresses if places is None else places) if at in addresses and lo <= at <= hi - size]
        if inside and size == 8:
            if places is not None and len(inside) == len(places) <= self.settings.ways:
                self.fork(s, dst, given, {at - offset: addresses[at] for at in inside})
                return
            known = self.one_of([addresses[at] for at in inside]) if places is None or len(inside) == len(places) else number(0, M64, region=MIXED)
        if lo < 0 or hi > len(data):
            self.may_fault("an index may lead outside a constant: test first that it is below the number of elements")
        first, last = self.constant_range(section, lo, hi, len(data))
        at, add = self.point(s, given, offset, (first, last - size), FRAME, self.constants_at.get(section, 0) - STACK)
        self.emit(Load(size, is_signed, self.name(dst), at, add))
        self.set(s, dst, known)

    def fork(self, s: State, dst, given: Given, addresses):
        """The way on from here is apart for each place that an address has, from which another address is loaded."""
        last = max(addresses)
        for place, (section, at) in addresses.items():
            t, label = s.copy(), self.label()
            t.narrow(given.value, place, place)
            self.emit(Goto(label) if place == last else Test("eq", 64, given.written, place, label, False))
            self.forks.append((label, t, dst, const(at, ("constants", section))))

    @staticmethod
    def places_of(s: State, v, offset, lo, hi):
        """The places from lo to hi that an address may be, where it is known of what its index is a multiple; or None."""
        if v.terms not in s.products:
            return None
        step = s.products[v.terms][1]
        return range(lo + (small(v.c) + offset - lo) % step, hi + 1, step)

    def one_of(self, addresses):
        """One of several addresses of constants."""
        if len({section for section, _ in addresses}) > 1:
            self.fail("one of several constants is chosen by an index, which the compiler has in different sections")
        places = [at for _, at in addresses]
        return number(min(places), max(places), region=("constants", addresses[0][0]))

    def constant_range(self, section, lo, hi, length):
        """The bytes of constants that a load may reach are put on the stack."""
        first, last = max(lo, 0), min(hi, length)
        known = self.learned.constants.get(section)
        if known is None or first < known[0] or last > known[1]:
            self.learned.constants[section] = (first, last) if known is None else (min(first, known[0]), max(last, known[1]))
            self.again = True
        return first, last

    # ---- the record's bytes

    def guard(self, s: State, region, lo, hi):
        """What follows is only reached if the key or the value has bytes up to hi."""
        if s.least[region] < hi:
            verb = "is" if hi == lo + 1 else "are"
            few = f"{s.most[region]} bytes at most" if s.most[region] < hi else f"{s.least[region]} bytes"
            has = "has" if s.most[region] < hi else "may have"
            self.may_fault(f"{bytes_text(lo, hi)} the {region} {verb} read, and the {region} {has} {few}: test first that {region}_length is at least {hi}")
        if s.most[region] < hi:
            self.end()
        if s.sure[region] < hi:
            self.emit(Test("lt", 64, LENGTH[region], hi, OUTSIDE, True))
        s.least[region], s.sure[region] = max(s.least[region], hi), max(s.sure[region], hi)

    def load_record(self, s: State, i, given):
        _, size, dst, _, offset, is_signed = i
        v, region = given.value, given.value.region
        lo, hi = span(v, offset, size)
        if v.is_const():
            at, add = self.record_place(s, region, lo, hi)
        elif lo >= 0 and hi <= s.least[region]:
            self.guard(s, region, lo, hi)
            at, add = self.point(s, given, offset, (0, s.least[region] - size), BASE[region])
        else:
            certain = s.is_inside(v.in_region(None), offset + size, region)
            if not certain:
                self.may_fault(f"a byte of the {region} is read at a place that may be outside: test first that the place is below {region}_length")
            self.copy_record(given, offset, Given(const(size), size), self.scratch, certain)
            at, add = FRAME, self.scratch - STACK
        self.emit(Load(size, is_signed, self.name(dst), at, add))
        self.set(s, dst, self.extended(size, is_signed))

    def record_place(self, s: State, region, lo, hi):
        """The address of a known place of the record, and what is to be added to it."""
        if lo < 0:
            self.never(f"a byte before the {region}'s first is read")
        self.guard(s, region, lo, hi)
        if lo <= FAR_OFFSET:
            return BASE[region], lo
        at = self.temp()
        self.emit(PointAt(at, BASE[region], lo))
        return at, 0

    def copy_record(self, given: Given, offset, count: Given, to, certain):
        """Copies bytes of the record, from a place that is not known, to the stack; with a test, where they may be missing."""
        region = given.value.region
        if to + 8 > STACK:
            self.fail("the stack has no room for bytes of the record: give the function fewer or smaller variables")
        room, place, length = (self.argument(r) for r in (1, 2, 3))
        if given.value.is_const():
            self.emit(Move(place, (given.value.lo + offset) & M64, 64))
        elif offset:
            self.emit(Alu("sub" if offset < 0 else "add", 64, place, given.written, abs(offset)))
        else:
            self.emit(Move(place, given.written, 64))
        self.emit(Move(length, count.written, 64))
        if not count.value.is_const():
            self.emit(Bound(length, 1, self.room_size, ROOM))
        self.emit(PointAt(room, FRAME, to - STACK))
        answer = self.temp()
        self.emit(Call(1 if region == "value" else 2, (room, place, length), answer))
        if not certain:
            self.emit(Test("ne", 64, answer, 0, OUTSIDE, False))

    # ---- stores

    def store(self, s: State, i):
        _, size, dst, source, offset = i
        given, stored = self.operand(s, ("reg", dst)), self.operand(s, source)
        v, w = given.value, stored.value
        if v.region in (None, MIXED):
            self.fail("a number, or an address that may be of two kinds, is written to")
        if v.region != "stack":
            self.fail(f"{region_text(v.region)} is written: it can be read alone; copy what is changed to a variable")
        if w.region == MIXED:
            self.number(w)
        if w.region is not None and size != 8:
            self.fail("a part of an address is stored")
        lo, hi = span(v, offset, size)
        if not v.is_const():
            self.index(v, offset, size)
            s.mark(lo, hi, w.region, False)
            self.touch(max(lo, 0), min(hi, self.used))
            at, add = self.point(s, given, offset, (0, self.used - size), FRAME, -STACK)
            self.emit(Store(size, at, add, stored.written))
            s.forget(lo, hi)
            return
        if not 0 <= lo <= STACK - size:
            self.never("bytes outside the variables are written: test first that the index is below the number of elements")
        kept = w if size == 8 or w.region is not None else cut(w, size)
        if dst == 10 and self.store_variable(s, lo, size, stored, kept):
            return
        self.touch(lo, hi)
        s.mark(lo, hi, w.region, True)
        self.emit(Store(size, FRAME, lo - STACK, stored.written))
        s.forget(lo, hi)
        s.memory[lo] = Held(size, kept)

    def store_variable(self, s: State, lo, size, stored: Given, kept: Value):
        """A store to bytes of the stack that are used as one variable alone, if they are."""
        variables, hi = self.learned.variables, lo + size
        if size not in (4, 8) or lo % size or not self.learned.memory.isdisjoint(range(lo, hi)):
            return False
        if variables.get(lo, size) != size or any(at != lo and at < hi and lo < at + n for at, n in variables.items()):
            return False
        variables[lo] = size
        width = 64 if size == 8 or low32(stored.value) == stored.value else 32
        self.emit(Move(slot(lo), stored.written, width))
        s.variables[slot(lo)] = kept
        return True
