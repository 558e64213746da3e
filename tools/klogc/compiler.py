"""Compiles a transform in C to an object, by the clang that is here.

BPF lacks signed division, and copies whose length is no constant: in the text of LLVM that clang writes they become calls, of
what the lowering writes as the machine's own instructions, and of functions of runtime.h. So do copies from bytes that need not begin
at a whole word, and comparisons of bytes, of which the compiler would make one instruction for each byte. klog's machine loads words
from any place, which is said in the text too."""
import functools
import os
import re
import shutil
import subprocess
import tempfile

from .program import RUNTIME, Refused

HERE = os.path.dirname(os.path.abspath(__file__))
INCLUDES = (os.path.join(os.path.dirname(os.path.dirname(HERE)), "include"), os.path.join(HERE, "include"))
OLDEST, NEWEST = 14, 30
OPTIONS = ("-target", "bpf", "-mcpu=v3", "-g", "-nostdlibinc", "-fno-stack-protector")
# BPF has no vectors. A level after these would undo them.
NO_VECTORS = ("-fno-vectorize", "-fno-slp-vectorize")
LEVEL = "-O2"
SECONDS = 600


class NotCompiled(Refused):
    """What the compiler said."""


# ---- the compiler

def version(name):
    """The version of a clang that has BPF, or 0."""
    path = shutil.which(name)
    if path is None:
        return 0
    try:
        done = subprocess.run([path, "--version"], capture_output=True, text=True, check=False, timeout=SECONDS)
    except (OSError, subprocess.TimeoutExpired):
        return 0
    found = re.search(r"clang version (\d+)", done.stdout)
    return int(found[1]) if found else 0


@functools.cache
def found_clang():
    """`clang` if it is new enough, else the newest of clang-14, clang-15 and so on."""
    for name in ("clang", *(f"clang-{n}" for n in range(NEWEST, OLDEST - 1, -1))):
        if version(name) >= OLDEST:
            return name
    raise Refused(f"there is no clang: klogc needs one from version {OLDEST} on, as `clang` or `clang-N` on the path")


# ---- LLVM's text

DIVISION = re.compile(r"^  (\S+) = (sdiv|srem)(?: exact)? (i\d+) (\S+), ([^,\s]+)(.*)$", re.M)
COPYING = re.compile(r"(?:(?:tail|musttail|notail) )?call void @llvm\.(memcpy|memmove|memset)\.[\w.]+\(")
COMPARING = re.compile(r"^  (%[\w.]+) = (?:(?:tail|musttail|notail) )?call i32 @(?:memcmp|bcmp)\(", re.M)
OWN_COMPARING = re.compile(r"^define weak .*@memcmp\(", re.M)
DEBUG = re.compile(r"^ +(?:(?:tail )?call void @llvm\.dbg\.|#dbg_).*\n", re.M)
ACCESS = re.compile(r"^(  (?:%[\w.]+ = load|store) (?:volatile )?i(16|32|64)\b.*, align )(\d+)", re.M)
MOST_COPIED = 512
WORD = 8


class Text:
    """LLVM's text, with calls for what BPF lacks."""

    def __init__(self, text):
        self.text, self.count, self.declared = text, 0, set()

    def changed(self):
        """The changed text, or None if nothing is to be changed."""
        text = self._copies(DIVISION.sub(self._division, self.text))
        if OWN_COMPARING.search(text):
            text = self._comparisons(text)
        text = ACCESS.sub(self._access, text)
        return text + "\n" + "\n".join(sorted(self.declared)) + "\n" if self.count else None

    def _division(self, found):
        result, what, kind, a, b, rest = found.groups()
        if kind not in ("i8", "i16", "i32", "i64"):
            return found[0]
        self.count += 1
        width = 64 if kind == "i64" else 32
        name = f"__klog_{'sdiv' if what == 'sdiv' else 'smod'}{width}"
        self.declared.add(f"declare i{width} @{name}(i{width}, i{width})")
        if kind in ("i32", "i64"):
            return f"  {result} = call {kind} @{name}({kind} {a}, {kind} {b}){rest}"
        own = f"%klog{self.count}"
        return (f"  {own}a = sext {kind} {a} to i32\n  {own}b = sext {kind} {b} to i32\n"
                f"  {own}c = call i32 @{name}(i32 {own}a, i32 {own}b){rest}\n  {result} = trunc i32 {own}c to {kind}")

    def _copies(self, text):
        parts, at = [], 0
        for found in COPYING.finditer(text):
            arguments, end = arguments_from(text, found.end())
            if len(arguments) == 4 and (arguments[2].startswith("i64 %") or found[1] == "memcpy" and is_byte_copy(arguments)):
                self.count += 1
                parts += [text[at:found.start()], self._copy(found[1], arguments)]
                at = end
        return "".join([*parts, text[at:]])

    def _copy(self, name, arguments):
        pointer = "ptr" if arguments[0].startswith("ptr ") else "i8*"
        to, second, count = (operand_of(a) for a in arguments[:3])
        kind = "i8" if name == "memset" else pointer
        return f"%klog{self.count} = call {pointer} @klog_{name}({pointer} {to}, {kind} {second}, i64 {count})"

    def _access(self, found):
        """A load or a store of a word, which may be at any place."""
        size = int(found[2]) // 8
        if int(found[3]) >= size:
            return found[0]
        self.count += 1
        return f"{found[1]}{size}"

    def _comparisons(self, text):
        """Comparisons of bytes by functions of runtime.h: by one that says only whether they differ, where no more is asked."""
        parts, at = [], 0
        while found := COMPARING.search(text, at):
            arguments, end = arguments_from(text, found.end())
            self.count += 1
            parts.append(text[at:found.start()])
            at = text.index("\n", end) + 1
            function_end = text.index("\n}", end)
            changed = self._difference(found[1], arguments, text[end:at], text[at:function_end])
            if changed is None:
                parts.append(f"  {found[1]} = call i32 @klog_memcmp({', '.join(arguments)}){text[end:at]}")
            else:
                parts.append(changed[0])
                text, at = text[:at] + changed[1] + text[function_end:], at
        return "".join([*parts, text[at:]])

    def _difference(self, result, arguments, rest, following):
        """The call by which two pieces are tested to be the same, and the text after it; None where the order of them is asked."""
        name = re.escape(result) + r"(?![\w.])"
        tested = re.compile(r"icmp (eq|ne) i32 " + name + ", 0(?!\\d)")
        if re.search(name, DEBUG.sub("", tested.sub("", following))):
            return None
        own = f"%klog{self.count}"
        call = f"  {own} = call i64 @klog_bcmp({', '.join(arguments)}){rest}  {result} = trunc i64 {own} to i32\n"
        return call, tested.sub(rf"icmp \1 i64 {own}, 0", following)


def is_byte_copy(arguments):
    """Whether a copy of a known length is from bytes that need not begin at a whole word."""
    found = re.search(r"\balign (\d+)", arguments[1])
    length = arguments[2].removeprefix("i64 ")
    return length.isdigit() and 0 < int(length) <= MOST_COPIED and (not found or int(found[1]) < WORD)


def arguments_from(text, at):
    """The arguments of a call whose parenthesis was opened before `at`, and the place after the one that closes it."""
    found, depth, start = [], 0, at
    while at < len(text):
        letter = text[at]
        if letter in "([{":
            depth += 1
        elif letter == "," and depth == 0 or letter == ")" and depth == 0:
            found.append(text[start:at].strip())
            start = at + 1
            if letter == ")":
                return found, at + 1
        elif letter in ")]}":
            depth -= 1
        at += 1
    return [], at


def operand_of(argument):
    """An argument without its type and its attributes."""
    found = re.search(r"\b(getelementptr|bitcast|inttoptr|addrspacecast)\b.*", argument, re.S)
    return found[0] if found else argument.split(" ")[-1]


# ---- compiling

# An error of the compiler, of a line or of a function, and what is said in place of what LLVM says of what BPF can't have.
ERROR = re.compile(r"(?:(.*?):(\d+):\d+: )?(?:fatal )?error: (?:\S*?:(\d+):\d+: in function (\w+) .*?: )?(.*)")
SAID = (
    ("stack limit", "the variables of {0} take more than the stack's 512 bytes: use fewer or smaller ones, or the helpers of klog_parts.h"),
    (r"built-in function '__\w*[sd]f", "floating point is used, which klog does not have: count in smaller units"),
    (r"built-in function '__\w*ti", "numbers of 128 bits are multiplied or divided, which klog does not have"),
    ("StructRet|aggregate returns", "{0} has a struct of more than 16 bytes as result, or any number of arguments: give it the address of a variable"),
    ("too many arg|stack arg", "a function has more than five arguments: give it the address of a struct"),
    ("dynamic stack", "an array has a length that is not known: give it the greatest one"),
)


def first_error(printed, source):
    """The compiler's first error as one line, by the source's own name."""
    for line in printed.split("\n"):
        found = ERROR.match(line)
        if found:
            return NotCompiled(*said_of(found, source))
    return NotCompiled(f"not compiled: {printed.strip().split(chr(10))[-1]}", os.path.basename(source))


def said_of(found, source):
    """What to say of an error, and where."""
    path, line, line_of_function, function, text = found.groups()
    line = next((number for number in (line, line_of_function) if number not in (None, "0")), None)
    place = os.path.basename(path or source) + (f":{line}" if line else "")
    said = next((said for pattern, said in SAID if re.search(pattern, text)), None)
    if said:
        return said.format(f"`{function}`" if function else "a function"), place
    return text if path else f"not compiled: {text}", place


class Compiler:
    """A clang with its options."""

    def __init__(self, name=None, level=LEVEL, more=()):
        self.name = name or found_clang()
        self.words = [self.name, *OPTIONS, level, *NO_VECTORS, "-w", *more]

    def run(self, *words):
        try:
            return subprocess.run([*self.words, *words], capture_output=True, text=True, check=False, timeout=SECONDS, errors="replace")
        except subprocess.TimeoutExpired:
            raise NotCompiled(f"clang takes more than {SECONDS} seconds") from None
        except OSError as fault:
            raise Refused(f"{self.name}: {fault.strerror}") from None

    def text_of(self, source, target):
        """Writes LLVM's text of a source. One that has a memcmp of its own, or the like, does without those of runtime.h."""
        includes = [f"-I{os.path.dirname(os.path.abspath(source))}", *(f"-I{folder}" for folder in INCLUDES), "-include", os.path.join(HERE, RUNTIME)]
        for own in ([], ["-DKLOG_OWN_FUNCTIONS"]):
            done = self.run(*includes, *own, "-S", "-emit-llvm", source, "-o", target)
            if done.returncode == 0:
                break
            if "same mangled name" not in done.stderr:
                raise first_error(done.stderr, source)
        if done.returncode:
            raise first_error(done.stderr, source)
        with open(target, encoding="utf-8", errors="surrogateescape") as it:
            return it.read()

    def object_of(self, source):
        """The object of a source, as bytes."""
        with tempfile.TemporaryDirectory(prefix="klogc-") as folder:
            text, target = os.path.join(folder, "it.ll"), os.path.join(folder, "it.o")
            changed = Text(self.text_of(source, text)).changed()
            if changed is not None:
                with open(text, "w", encoding="utf-8", errors="surrogateescape") as it:
                    it.write(changed)
            done = self.run("-x", "ir", "-c", text, "-o", target)
            if done.returncode:
                raise first_error(done.stderr, source)
            with open(target, "rb") as it:
                return it.read()
