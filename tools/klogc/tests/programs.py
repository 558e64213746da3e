"""Random transforms in C: loops of all shapes, structs, arrays on the stack, pointers into the key, the value and the stack, switches,
functions that call functions, numbers of 8 to 64 bits, signed and not, and more of them at hand than there are registers."""
import random

HEAD = """#include "klog_parts.h"
#include <string.h>
struct row { u8 kind; u16 low; u32 high; u64 sum; signed char sign; };
static const u16 table[16] = { %s };
static const char *const names[4] = { "heartbeat", "a", "key=value", "xyz" };
"""
FUNCTIONS = """
static %(inline)su64 %(name)s_own(u64 a, int b)
{
	u64 n = 0;
	while (a > 3 && n < 6) { a = a / 3 + (b & 1); n += b > 5; n++; }
	return n * 7 + a;
}
static %(inline)su64 %(name)s_sum(const u8 *p, u64 n)
{
	u64 all = 0;
	for (u64 i = 0; i < n; i++)
		all = all * 31 + p[i];
	return all + %(name)s_own(n, 3);
}
static %(inline)su64 %(name)s_local(u64 a, u64 n)
{
	u8 own[16] = {4, 5, 6};
	for (u64 i = 0; i < 4; i++) own[(i * 3 + n) & 15] = a >> 8 * i;
	return own[n & 15] + own[1] * 256;
}
static %(inline)svoid %(name)s_fill(struct row *to, u64 a)
{
	to->kind = a; to->low = a >> 3; to->high = a * 5; to->sum = ~a; to->sign = a;
}
"""
BODY = """
u64 %(name)s(const u8 *value, u64 value_length, const u8 *key, u64 key_length, u64 nulls)
{
	u64 a = value_length, b = key_length, c = record_offset(), d = 1, e = 2, f = 3;
	u32 x = nulls, y = record_timestamp(); int s = -3; short h = 7; u8 t = 9; signed char z = -1;
	u8 buf[32] = {1, 2, 3}; u64 w[4] = {0}; struct row row = {0}, other = {0};
	volatile u32 kept = 5, near = 0x70707; volatile u64 far = 6;
%(begin)s
%(statements)s
%(end)s
}
"""
BEGINS = (
    "",
    """	load_value(w, 0, 16); load_key(w + 2, 1, 8);
	d = w[0]; e = w[1]; f = w[2]; s = w[0] >> 5; h = w[1]; t = w[2]; z = w[0];""",
    """	if (value_length >= 8) { d = *(const u64 *)value; s = *(const int *)(value + 3); h = *(const short *)(value + 1); x = s; }
	if (key_length >= 4) { e = *(const u32 *)key; t = key[3]; z = key[2]; y = e; }""",
    """	load_value(w, 4, 12); other.sum = w[0]; row.sum = w[1]; d = w[0] % 1000; e = w[1] & 255; x = w[0]; y = w[1]; s = w[0] >> 32; far = w[1];""",
)
ENDS = (
    """	w[0] ^= a + d; w[1] ^= b ^ c ^ e; w[2] ^= x ^ (u64)y << 32 ^ f; w[3] ^= (u64)s << 8 ^ t ^ h ^ z;
	w[1] += row.kind + row.low + row.high + row.sum + row.sign + kept; w[2] -= other.sum + far;
	emit_value(a & 3, buf, 32);
	return emit_value(1, w, 32);""",
    """	w[0] ^= a ^ (u64)x << 40 ^ (u64)s << 8; w[1] ^= b + y + t; w[2] += row.sum + row.low + d;
	return emit_value(a & 3, w, 24);""",
    """	emit_value(0, buf, 8);
	return (a ^ b << 7 ^ d << 14 ^ (u64)x << 21 ^ (u64)y << 28 ^ (u64)s << 35 ^ w[0] ^ row.high ^ t ^ h ^ z) % 65521;""",
    """	w[1] = a + b + c + d + e + f + x + y + s + h + t + z + kept + far + row.sign + other.low;
	return emit(2, buf + 4, 8, w, 16);""",
)
SIZES = ((1, 1), (1, 2), (2, 1), (2, 2), (3, 1), (3, 2), (4, 3), (7, 4))
SMALL = (0, 1, 2, 3, 4, 5, 6, 7, 9, 12, 15, 40, 99, 200)
NUMBERS = (0, 1, 2, 3, 5, 7, 8, 15, 16, 31, 48, 57, 64, 97, 122, 127, 128, 255, 256, 1000, 65535, 1 << 31, (1 << 32) - 1, 0x123456789ABC, (1 << 64) - 1)
VARIABLES = ("a", "b", "c", "d", "e", "f", "x", "y", "s", "h", "t", "z", "row.sum", "row.low", "other.high", "row.sign")
PIECES = (("a", 1), ("key=value", 9), ("}", 1), ("Hello, World", 12), ("411", 3), (r'\"id\":1,', 7), (r"\b\226", 2), (r"\0\0\0\0", 4), (r"\377\0", 2))
TYPES = ("u8", "u16", "u32", "int", "short", "long", "signed char", "u64")


class Maker:
    def __init__(self, seed, name):
        self.r, self.name, self.depth, self.count = random.Random(seed), name, 0, 0
        self.cuts, self.peeks = random.Random(f"{seed} cuts"), random.Random(f"{seed} peeks")
        self.length, self.deepest = self.r.choice(SIZES)

    def program(self):
        inline = self.r.choice(("__attribute__((noinline)) ", "inline ", ""))
        return FUNCTIONS % {"name": self.name, "inline": inline} + BODY % {"name": self.name, "begin": self.r.choice(BEGINS), "statements": f"\t{self.cut()}\n{self.peeked()}{self.statements(self.length)}", "end": self.r.choice(ENDS)}

    # ---- expressions

    def variable(self):
        return self.r.choice(VARIABLES)

    def expression(self, depth=0):
        r, e = self.r, lambda: self.expression(depth + 1)
        match r.randrange(18 if depth < 3 else 4):
            case 0 | 1 | 2:
                return self.variable()
            case 3:
                return f"{r.choice(NUMBERS)}ULL"
            case 4 | 5 | 6:
                return f"({e()} {r.choice('+-*&|^')} {e()})"
            case 7:
                return f"({e()} {r.choice(('>>', '<<'))} {r.randrange(32)})"
            case 8:
                return f"({e()} {r.choice('/%')} {r.choice((3, 7, 10, 100, 8))})"
            case 9:
                return f"(({r.choice(TYPES)}){e()})"
            case 10:
                return f"buf[{e()} {r.choice(('& 31', '% 32', '% 20'))}]"
            case 11:
                return f"({self.condition()} ? {e()} : {e()})"
            case 12:
                return f"((int){e()} {r.choice('/%')} {r.choice((3, 7, -5, 16))})"
            case 13:
                return f"(u64)(u32)((u32){e()} {r.choice('+-*')} (u32){e()})"
            case 14 | 15:
                return self.narrow()
            case 16:
                return r.choice(("kept", "near", "far", "(long)(short)far", "record_partition()"))
        return f"table[{e()} & 15]"

    def narrow(self):
        """A number of which a little is known, from its bits or from the operation."""
        r, v = self.r, self.variable
        match r.randrange(10):
            case 0 | 1:
                return f"({v()} & {r.choice((1, 3, 7, 15, 31, 63))})"
            case 9:
                return f"((int)({v()} & {r.choice((63, 15))}) {r.choice('/%')} {r.choice((7, 10, 3))})"
            case 2:
                return f"({v()} % {r.choice(('10', '7ULL', '100'))})"
            case 3:
                return f"(({r.choice(TYPES[:3])}){v()} >> {r.choice((1, 3, 5, 12))})"
            case 4:
                return f"((u64){v()} >> {r.choice((59, 61, 50))})"
            case 5:
                return f"(({r.choice(('short', 'signed char', 'int'))}){v()} >> {r.choice((1, 2, 4))})"
            case 6:
                return f"({self.narrow()} {r.choice('+-*|^')} {self.narrow()})"
            case 7:
                return f"({self.narrow()} - {r.choice(SMALL)})"
        return f"({self.narrow()} << {r.choice((1, 2, 4))})"

    def condition(self):
        r, e = self.r, lambda: self.expression(2)
        sign = r.choice(("<", ">", "<=", ">=", "==", "!="))
        match r.randrange(10):
            case 6 | 7:
                return f"{self.narrow()} {sign} {r.choice(SMALL)}"
            case 8:
                return f"({r.choice(('long', 'int', 'u64', 'u32'))}){self.narrow()} {sign} ({r.choice(('long', 'int', 'u64'))}){self.narrow()}"
            case 9:
                return f"(long){self.narrow()} {sign} {r.choice((-3, -1, 0, 2, 9))}"
            case 0:
                return f"(long){e()} {sign} (long){e()}"
            case 1:
                return f"(int){e()} {sign} (int){e()}"
            case 2:
                return f"value_length {sign} {r.randrange(40)}"
            case 3:
                return f"{self.variable()} & {r.choice((1, 4, 64))}"
        return f"{e()} {sign} {e()}"

    # ---- statements

    def statements(self, n):
        return "\n".join("\t" + self.statement() for _ in range(n))

    def index(self, kind="i"):
        self.count += 1
        return f"{kind}{self.count}"

    def statement(self):
        r, self.depth = self.r, self.depth + 1
        makers = [self.assignment, self.assignment, self.element, self.guarded_byte, self.field, self.kept]
        if self.depth <= self.deepest:
            makers += [self.changed_places, self.local, self.tested, self.tested, self.ordered]
            makers += [self.choice, self.choice, self.counted, self.ended, self.pointed, self.backward, self.switch, self.called, self.copied, self.chosen, self.compared, self.compared_part,
                       self.emitted, self.loaded, self.searched, self.flagged]
        try:
            return r.choice(makers)()
        finally:
            self.depth -= 1

    def assignment(self):
        return f"{self.variable()} {self.r.choice(('=', '+=', '-=', '^=', '|=', '*='))} {self.expression()};"

    def element(self):
        if self.r.random() < 0.5:
            return f"w[{self.expression(2)} & 3] = {self.expression(1)};"
        return f"buf[{self.expression(2)} & 31] = {self.expression(1)};"

    def kept(self):
        """Bytes of the stack that have an address elsewhere are read after a call, which the compiler takes to change them."""
        r, v = self.r, self.variable()
        call = r.choice(("emit_null(2);", "c += record_partition();", "load_key(w, 0, 8);", "emit_value(3, buf, 1);"))
        at = r.randrange(24)
        match r.randrange(9):
            case 7 | 8:
                return self.words(call)
            case 5:
                n = self.index("n")
                return (f"{{ u64 {n} = ({self.variable()} & 15) + {r.choice((250, 254, 509))}; {v} ^= {n}; buf[{at}] = {n}; emit_value(7, buf, 4); {call}"
                        f" if (buf[{at}] < {r.choice(SMALL)}) {v} += buf[{at}] + 1; }}")
            case 6:
                n = self.index("n")
                return (f"{{ u64 {n} = ({self.variable()} & 31) + {r.choice((65530, 65535))}; {v} ^= {n}; row.low = {n}; emit_value(7, &row, 8); {call}"
                        f" if (row.low < {r.choice(SMALL)}) {v} += row.low + 1; }}")
            case 0:
                return f"buf[{at}] = {self.expression(2)}; emit_value(7, buf, 4); {call} if (buf[{at}] < {r.choice(SMALL)}) {v} += buf[{at}] + 1;"
            case 1:
                return f"row.{r.choice(('kind', 'low', 'high', 'sign'))} = {self.expression(2)}; emit_value(7, &row, 8); {call} {v} += row.kind + row.low * 3 + row.high + row.sign;"
            case 2:
                return f"*(u32 *)(buf + {at & 28}) = {r.choice((0x01020304, 0xA0B0C0D0, 77))}; emit_value(7, buf, 4); {call} {v} += buf[{(at & 28) + r.randrange(4)}] + *(u16 *)(buf + {at & 30});"
            case 3:
                return f"kept = {self.expression(2)}; near ^= x; {call} {v} ^= (u64)kept + (kept >> 3) + ((u64)near << 3);"
        return f"far = {self.expression(2)}; {call} {v} ^= far; far += {self.variable()};"

    def words(self, call):
        """More words of four bytes beside each other than there are registers that a call keeps."""
        n = self.index("n")
        put = " ".join(f"{n}[{k}] = {self.variable()} + {k + 1};" for k in range(6))
        return f"{{ volatile u32 {n}[6]; {put} {call} w[0] ^= {' + '.join(f'((u64){n}[{k}] << {k})' for k in range(6))}; }}"

    def tested(self):
        """What is known of a number decides a test on it."""
        n, v = self.index("n"), self.variable()
        kind = self.r.choice(("u64", "u32", "int", "long"))
        return f"{{ {kind} {n} = {self.narrow()}; if ({n} {self.r.choice(('<', '>', '<=', '>=', '==', '!='))} {self.r.choice(SMALL)}) {v} += {n} + 1; else {v} ^= {n}; }}"

    def cut(self):
        """A difference that is cut to fewer bits is tested, or what it is of is."""
        r, (first, least) = self.cuts, self.cuts.choice(((65, 26), (48, 10), (97, 3), (250, 20), (3, 9)))
        v, w, n, m, kind = r.choice(VARIABLES), r.choice(VARIABLES[:12]), self.index("n"), self.index("n"), r.choice(("u8", "u32", "int", "short", "u64"))
        start, other = r.choice((f"(u8){v}", f"{v} & 31", f"{v} & 127", "(value_length ? value[0] : 70)", f"buf[{v} & 31]")), r.choice((4, 17, first + 2, first + least))
        test, again = r.choice((f"(u8){m} < {least}", f"{m} < {least}", f"{m} >= 0 && {m} < {least}", f"{n} < {other}")), r.choice((f"{n} < {other}", f"(u8){m} > {least}", f"{m} < 0", f"{m} == -3"))
        return (f"{{ {r.choice(('u8', 'int', 'u32'))} {n} = {start}; {kind} {m} = {n} - {first}; if ({test}) {w} += table[{m} & 15] + (u64){m} * 3 + {n}; else if ({again}) {w} ^= ((u64){m} >> 3) + {n}; else {w} += {m}; }}")

    def peeked(self):
        """In one program of sixteen bytes of the stack are read or emitted that may be those of an address."""
        r = self.peeks
        if r.randrange(16):
            return ""
        v, w, region = r.choice(VARIABLES), r.choice(VARIABLES), r.choice(("value", "key"))
        use = r.choice((f"{v} += it.bytes[{w} & 15];", f"emit_value(6, it.bytes, {w} & 15);", f"emit_value(6, it.bytes + ({v} & 7), {w} & 7);", f"{v} ^= *(u16 *)(it.bytes + ({w} & 14));"))
        return f"\t{{ struct {{ u8 bytes[8]; const u8 *volatile from; }} it = {{{{1, 2, 3}}, {region}}}; {use} if ({region}_length) {v} += it.from[0]; }}\n"

    def ordered(self):
        """Which of two numbers is the less, and by how much, is tested again."""
        n, m, v, step = self.index("n"), self.index("n"), self.variable(), self.r.randrange(1, 4)
        again = self.r.choice((f"{n} + {step} < {m}", f"{m} - {n} > {step}", f"{n} + {step} != {m}", f"{m} < {n} + {step}"))
        return f"{{ u64 {n} = {self.variable()} & 31, {m} = {self.variable()} & {self.r.choice((31, 63))}; if ({n} < {m}) {{ if ({again}) {v} += 3; else {v} ^= {m}; }} }}"

    def changed_places(self):
        """Variables go round in a loop."""
        i, n, (p, q, o) = self.index(), self.index("n"), self.r.sample(("a", "b", "c", "d", "e", "f"), 3)
        return f"for (u32 {i} = 0; {i} < (value_length & {self.r.choice((3, 7))}) + 1; {i}++) {{ u64 {n} = {p}; {p} = {q}; {q} = {o} + {i}; {o} = {n}; {self.statements(1)} }}"

    def local(self):
        """A function with bytes of its own, while bytes of the caller are used."""
        return f"w[{self.r.randrange(4)}] += {self.name}_local({self.variable()}, {self.variable()} & 15) + buf[{self.r.randrange(3)}];"

    def field(self):
        return f"{self.r.choice(('row', 'other'))}.{self.r.choice(('kind', 'low', 'high', 'sum', 'sign'))} = {self.expression(1)};"

    def guarded_byte(self):
        i, region = self.index(), self.r.choice(("value", "key"))
        match self.r.randrange(4):
            case 0:
                n = self.r.randrange(20)
                return f"if ({region}_length > {n}) {self.variable()} += {region}[{self.r.randrange(n + 1)}];"
            case 1:
                return f"if ({region}_length >= 8) {self.variable()} ^= *(const {self.r.choice(('u16', 'u32', 'u64'))} *)({region} + {self.r.randrange(4)} % 5);"
            case 2:
                return f"if ({region}_length >= 3) {self.variable()} -= {region}[{region}_length - {self.r.randrange(1, 4)}];"
        return f"{{ u64 {i} = {self.expression(2)}; if ({i} < {region}_length) {self.variable()} += {region}[{i}]; }}"

    def choice(self):
        other = f" else {{\n{self.statements(1)}\n}}" if self.r.random() < 0.5 else ""
        return f"if ({self.condition()}) {{\n{self.statements(self.r.randrange(1, 3))}\n}}{other}"

    def counted(self):
        i, way = self.index(), self.r.choice(("break", "continue"))
        return (f"for (u64 {i} = 0; {i} < {self.r.randrange(1, 7)}; {i}++) {{\n{self.statements(1)}\n{self.variable()} += {i};"
                f" if ({self.condition()}) {way}; {self.variable()} ^= {i}; }}")

    def ended(self):
        i, region = self.index(), self.r.choice(("value", "key"))
        return (f"for ({self.r.choice(('u64', 'u32', 'int'))} {i} = 0; {i} < {region}_length && {i} < {self.r.randrange(3, 14)}; {i}++)"
                f" {{ {self.variable()} ^= {region}[{i}]; buf[{i} & 31] += {self.variable()}; }}")

    def pointed(self):
        p, region = self.index("p"), self.r.choice(("value", "key"))
        if self.r.random() < 0.3:
            return f"for (u8 *{p} = buf + {self.r.randrange(4)}; {p} < buf + {self.r.randrange(5, 15)}; {p}++) {{ *{p} ^= {self.expression(2)}; }}"
        return (f"for (const u8 *{p} = {region}; {p} < {region} + {region}_length && {p} < {region} + {self.r.randrange(3, 10)}; {p}++)"
                f" {{ {self.variable()} += *{p}; {self.statements(1)} }}")

    def backward(self):
        n = self.index("n")
        if self.r.random() < 0.5:
            return f"{{ u64 {n} = {self.variable()} & 15; while ({n} > 1) {{ {n} -= 2; {self.variable()} += buf[{n}]; }} }}"
        return f"{{ u32 {n} = {self.r.randrange(1, 6)}; do {{ {self.statements(1)} }} while (--{n}); }}"

    def switch(self):
        return (f"switch ({self.expression(2)} & 7) {{ case 1: {self.statement()} break; case 4: {self.statement()} case 5: {self.statement()} break;"
                f" case 6: {self.assignment()} break; case 7: {self.assignment()} break; default: {self.statement()} }}")

    def called(self):
        match self.r.randrange(4):
            case 0:
                return f"{self.name}_fill(&{self.r.choice(('row', 'other'))}, {self.expression(2)});"
            case 1:
                return f"{self.variable()} += {self.name}_sum(buf + {self.r.randrange(8)}, {self.r.randrange(1, 9)});"
            case 2:
                return f"if (key_length >= 4) {self.variable()} += {self.name}_sum(key, {self.r.choice(('4', 'key_length < 9 ? key_length : 9'))});"
        return f"{self.variable()} = {self.name}_own({self.variable()}, {self.variable()});"

    def copied(self):
        n = self.index("n")
        match self.r.randrange(7):
            case 4:
                size = self.r.choice((2, 4, 8))
                return f"{{ u64 {n} = 0; if (value_length >= 12) memcpy(&{n}, value + {self.r.randrange(4)}, {size}); {self.variable()} += {n}; memcpy(buf + {self.r.randrange(20)}, &{n}, {size}); }}"
            case 5:
                return f"memcpy({self.r.choice(('w', 'buf'))}, buf + {self.r.choice(('3', '0', f'({self.variable()} & 7)'))}, {self.r.randrange(1, 20)});"
            case 6:
                size = self.r.choice((3, 4, 16, 20))
                return f"{{ u64 {n} = {self.narrow()}; if ({n} <= key_length && key_length - {n} >= {size}) memcpy(buf + {self.r.randrange(12)}, key + {n}, {size}); }}"
            case 0:
                return f"memset(buf + {self.r.randrange(8)}, {self.variable()}, {self.variable()} & 15);"
            case 1:
                return f"if (value_length >= 12) memcpy(buf, value + {self.r.randrange(4)}, {self.r.randrange(1, 9)});"
            case 2:
                return f"memmove(buf + {self.r.randrange(6)}, buf + {self.r.randrange(6)}, {self.variable()} & 7);"
        return f"{{ u64 {n} = value_length < 20 ? value_length : 20; memcpy(buf, value, {n}); }}"

    def chosen(self):
        p, n = self.index("p"), self.index("n")
        return (f"{{ const u8 *{p} = value; u64 {n} = value_length; if ({self.condition()}) {{ {p} = key; {n} = key_length; }}"
                f" if ({n} > 2) {self.variable()} += {p}[{self.r.randrange(3)}] + {p}[{n} - 1]; }}")

    def compared(self):
        text, v = self.r.choice(("a", "key", "xyz", "hear")), self.variable()
        match self.r.randrange(4):
            case 0:
                return f'if (key_length >= {len(text)} && memcmp(key, "{text}", {len(text)}) {self.r.choice(("== 0", "< 0"))}) {v}++;'
            case 1:
                return f"{v} += memcmp(buf, buf + 8, {self.r.randrange(1, 8)}) > 0;"
            case 2:
                return f"{v} += !memcmp(buf + {self.r.randrange(8)}, w, {self.r.choice((3, 8, 13, 24))}) + 2 * !!memcmp(buf, w, {self.variable()} & 15);"
        return f"{v} += names[{v} & 3][0] + strlen(names[{v} & 3]);"

    def compared_part(self):
        """Whether a part of the record is other bytes: at a place that is not known, or of such a length."""
        r, n, v, region = self.r, self.index("n"), self.variable(), self.r.choice(("value", "key"))
        text, length = r.choice(PIECES)
        test = r.choice(("== 0", "!= 0"))
        match r.randrange(8):
            case 6 | 7:
                size, at = r.randrange(1, 20), r.randrange(4)
                place = r.choice((str(at), f"({self.variable()} & {r.choice((1, 3))})"))
                return (f"if ({region}_length >= 23) {{ memcpy(buf, {region} + {at}, {size}); buf[{size - 1}] ^= {self.variable()} & 1;"
                        f" if (memcmp({region} + {place}, buf, {size}) {test}) {v} += 5; }}")
            case 0:
                return f"for (u64 {n} = {self.variable()} & 3; {n} + {length} <= {region}_length && {n} < 9; {n}++) {{ if (memcmp({region} + {n}, \"{text}\", {length}) {test}) {v} += {n} + 1; }}"
            case 1:
                return f"{{ u64 {n} = {self.narrow()}; if ({n} < {region}_length && {region}_length - {n} >= {length} && memcmp({region} + {n}, \"{text}\", {length}) {test}) {v} += {n}; }}"
            case 2:
                size = r.randrange(1, 20)
                return f"for (u64 {n} = 0; {n} + {size} <= {region}_length && {n} < 5; {n}++) {{ {self.statements(1)} if (!memcmp({region} + {n}, buf + {r.randrange(12)}, {size})) {v} += {n} + 1; }}"
            case 3:
                return f"{{ u64 {n} = {self.variable()} & 15; if ({n} <= {region}_length && memcmp({region}{r.choice(('', f' + {region}_length - {n}'))}, buf, {n}) {test}) {v} ^= {n} + 9; }}"
            case 4:
                return f"{{ u64 {n} = {self.variable()} & 7; if ({n} <= value_length && value_length - {n} >= key_length && memcmp(key, value + {n}, key_length) {test}) {v} -= 77; }}"
        return f"{{ u64 {n} = {self.variable()} & 15; {v} += memcmp({region} + {n}, \"{text}\", {length}) {test}; }}"

    def searched(self):
        """What a helper says of a part of the record, and the bytes that are there then."""
        r, v, n, end = self.r, self.variable(), self.index("n"), self.index("m")
        part, region = r.choice((("VALUE", "value"), ("KEY", "key")))
        text, length = r.choice(PIECES)
        size, place = r.randrange(1, 9), f"u64 {n} = {self.variable()} & {r.choice((3, 7, 31))};"
        match r.randrange(7):
            case 0:
                return f"{{ u64 {n} = find({part}, {self.variable()} & 15, \"{text}\", {length}); if ({n}) {v} += {region}[{n} - 1 + {r.randrange(length)}] + {n}; }}"
            case 1 | 2:
                return (f"{{ u64 {n} = find({part}, 0, \"{text}\", {length}), {end} = {n} ? find({part}, {n}, \"1\", 1) : 0; if ({end} == 0) {end} = {region}_length;"
                        f" if ({n}) for (u64 i = {n}; i < {end} && i < {n} + {size}; i++) {v} = {v} * 3 + {region}[i]; }}")
            case 3:
                return f"{{ {place} if (equals({part}, {n}, \"{text}\", {length})) {v} += {region}[{n} + {r.randrange(length)}]; }}"
            case 4:
                return f"if (part_length({part}) >= {size + 2}) {v} ^= {region}[{size - 1}] + {region}[part_length({part}) - 3];"
            case 5:
                return f"{{ {place} if (decimal({part}, {n}, {size})) {v} += {region}[{n} + {r.randrange(size)}]; }}"
        return f"{{ {place} if (!load_part(buf, {n}, {size}, {part})) {v} += {region}[{n} + {r.randrange(size)}]; }}"

    def flagged(self):
        """A flag, or a result that may be -1, is tested after the ways on which it was set have met."""
        r, v, n, end = self.r, self.variable(), self.index("n"), self.index("m")
        region = r.choice(("value", "key"))
        match r.randrange(3):
            case 0:
                return (f"{{ u64 {n} = {self.narrow()}; int {end} = {n} + {r.randrange(3)} < {region}_length; {self.statements(1)}"
                        f" if ({end}) {v} += {region}[{n}]; else {v} ^= {n}; }}")
            case 1:
                return (f"{{ int {n} = -1; for (u64 i = 0; i < {region}_length && i < 7; i++) if ({region}[i] == ({self.variable()} & 127)) {{ {n} = i; break; }}"
                        f" {self.statements(1)} if ({n} >= 0) {v} += {region}[{n}] + {n}; }}")
        return (f"{{ const u8 *{n} = 0; int {end} = 0; if ({self.condition()} && {region}_length >= 4) {{ {n} = {region} + 1; {end} = 3; }}"
                f" {self.statements(1)} if ({n}) for (int i = 0; i < {end}; i++) {v} += {n}[i]; }}")

    def emitted(self):
        match self.r.randrange(5):
            case 0:
                return f"emit_value({self.variable()} & 3, value, value_length);"
            case 1:
                return f"if (value_length >= 4) emit({self.variable()} & 7, value + 1, value_length - {self.r.randrange(1, 4)}, buf, {self.r.randrange(9)});"
            case 2:
                return f"{{ u64 {(n := self.index('n'))} = {self.variable()} & 31; if ({n} <= value_length) emit_value(0, value + {n}, value_length - {n}); }}"
            case 3:
                return f"emit_value({self.variable()} & 3, buf + {self.r.randrange(8)}, {self.variable()} & 15);"
        return "emit_null(2);" if self.r.random() < 0.5 else "emit_record(a & 3);"

    def loaded(self):
        match self.r.randrange(3):
            case 0:
                return f"{self.variable()} += load_value(buf, {self.variable()} & 31, {self.r.randrange(1, 20)});"
            case 1:
                return f"{self.variable()} += load_key(buf + 4, {self.variable()} & 7, {self.variable()} & 15);"
        return f"{self.variable()} += header_value(buf, {self.variable()} & 3, {self.r.randrange(1, 9)}) + header_count();"


def source(seed, count):
    """The text of so many programs, which are named program0, program1 and so on."""
    r = random.Random(seed)
    head = HEAD % ", ".join(str(r.randrange(65536)) for _ in range(16))
    return head + "".join(Maker(f"{seed} {k}", f"program{k}").program() for k in range(count))
