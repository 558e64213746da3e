"""The calls of klogc.

    klogc build SOURCE.c [-o PROGRAM]   compiles, lowers and verifies a transform, and writes its program file
    klogc test SOURCE.c                 builds it and runs the examples in its first comment
    klogc run SOURCE.c or PROGRAM < LINES
                                        runs it on records, one a line
    klogc image OBJECT IMAGE            makes the image of an object that clang wrote
    klogc graph PROGRAM                 draws what the verifier knows of a program
    klogc table FOLDER                  builds and tests the transforms of a folder
"""
import argparse
import os
import stat
import sys
import tempfile

import program_files
import second_machine

from .compiler import LEVEL, Compiler
from .examples import Malformed, examples, record_of, shown_record, shown_wanted
from .graph import graph as graph_of, read_program
from .klog import Klog, found_klog
from .layout import SLOTS
from .lower import ROUNDS, Lowered, lower, table_of
from .meaning import Run, Trap
from .program import Program, Refused
from .table import HEAD, Built, plain, table as table_of_folder
from .trace import trace

LIMIT = 20000
OUTPUTS = 64
OUTSIDE, LOOP, ROOM = 252, 251, 250


def read(name, mode="r"):
    try:
        with open(name, mode, **({} if "b" in mode else {"encoding": "utf-8", "errors": "surrogateescape"})) as it:
            return it.read()
    except OSError as fault:
        raise Refused(fault.strerror or str(fault), name) from None


def write_whole(name, data):
    """Writes a file beside its place and moves it there, so that it is never there in part."""
    place = os.path.realpath(name)
    try:
        if os.path.exists(place) and not stat.S_ISREG(os.stat(place).st_mode):
            with open(place, "wb") as it:
                it.write(data)
            return
        handle, beside = tempfile.mkstemp(prefix=".klogc-", dir=os.path.dirname(place))
        try:
            with os.fdopen(handle, "wb") as it:
                it.write(data)
            mask = os.umask(0)
            os.umask(mask)
            os.chmod(beside, 0o666 & ~mask)
            os.replace(beside, place)
        except OSError:
            os.unlink(beside)
            raise
    except OSError as fault:
        raise Refused(fault.strerror or str(fault), name) from None


def built(given, source) -> Built:
    """Compiles and lowers a source, and has klog check the image."""
    text = read(source)
    program = Program(Compiler(given.compiler, given.level).object_of(source), given.function)
    return Built(text, program, checked(program, given))


def checked(program, given) -> Lowered:
    """Lowers a program, and has klog check the image, if there is a klog."""
    made = lower(program, given.rounds, not given.reject)
    if found_klog(given.klog):
        fault = Klog(given.klog).check(made.file())
        if fault:
            raise Refused(f"klog refuses the image, and klogc had accepted it: {fault}", line_of_fault(made, fault))
    return made


def line_of_fault(image, fault):
    number = fault.rsplit(" ", 1)[-1]
    return image.lines[int(number)] if number.isdigit() and int(number) < len(image.lines) else None


# ---- build

CODES = {ROOM: "the record is rejected with code 250 where a part that is emitted here is longer than the stack's rest",
         LOOP: "the record is rejected with code 251 where this loop has more than its rounds: its end is not proved (--rounds)",
         OUTSIDE: "the record is rejected with code 252 where bytes outside are used"}


def said(image: Lowered, name):
    """What is said of a built program."""
    yield f"{name}: {len(image.lines)} instructions, helper table {image.table}"
    for line, (rounds, proved) in sorted(image.loops.items()):
        yield f"{line}: a loop of at most {rounds} rounds" + ("" if proved else ", of which the end is not proved")
    for code, lines in sorted(image.codes.items()):
        for line in lines:
            yield f"{line}: {CODES[code]}"


def build(given):
    made = built(given, given.source)
    target = given.output or os.path.splitext(given.source)[0] + ".bin"
    write_whole(target, made.image.data if given.image else made.image.file())
    print_said(made.image, target, given)


def print_said(image, target, given):
    for line in said(image, target):
        print(line)
    if not found_klog(given.klog):
        print(f"{target}: not checked by klog, since there is none (--klog)", file=sys.stderr)


# ---- test

def meant(program, record, outputs):
    """What the object's code does with a record: its outcome, or why it has none."""
    try:
        return Run(program, record, outputs).outcome(), None
    except Trap as fault:
        return None, str(fault)


def differences(example, meaning, got):
    """What is said of an example whose outcome is not what it says."""
    outcome, trap = meaning
    if trap:
        yield f"the C code does what it must not: {trap}"
    elif plain(outcome) != plain(example.wanted):
        yield f"{shown_wanted(example.wanted)} is wanted, and {shown_wanted(outcome)} comes of the C code"
    if plain(got) != plain(example.wanted) and (trap or plain(got) != plain(outcome)):
        yield f"{shown_wanted(example.wanted)} is wanted, and {shown_wanted(got)} comes of klog"


def test(given):
    made, name = built(given, given.source), os.path.basename(given.source)
    cases = examples(name, made.text)
    if not cases:
        raise Refused("there are no examples in the first comment: a line of it is KEY | VALUE -> OUTPUT KEY | VALUE", name)
    if given.trace is not None:
        print_trace(given, made, cases)
        return
    got = Klog(given.klog).outcomes(made.image.file(), [case.record for case in cases], OUTPUTS)
    wrong = 0
    for number, (case, outcome) in enumerate(zip(cases, got), 1):
        for text in differences(case, meant(made.program, case.record, OUTPUTS), outcome):
            print(f"{name}:{case.line}: example {number}: {text}")
            wrong += 1
    print(f"{name}: {len(cases)} examples, " + (f"{wrong} differences; klogc test {given.source} --trace N shows what example N does" if wrong else "all as they say")
          + f"; {len(made.image.lines)} instructions, helper table {made.image.table}")
    if wrong:
        sys.exit(1)


def print_trace(given, made, cases):
    if not 1 <= given.trace <= len(cases):
        raise Refused(f"there is no example {given.trace}: there are 1 to {len(cases)}", os.path.basename(given.source))
    case = cases[given.trace - 1]
    print(shown_record(case.record))
    source = {f"{os.path.basename(given.source)}:{k}": line.strip() for k, line in enumerate(made.text.split("\n"), 1)}
    for line in trace(made.program, case.record, OUTPUTS, source):
        print(line)
    outcome, trap = meant(made.program, case.record, OUTPUTS)
    print(f"-> {trap or shown_wanted(outcome)}")


# ---- run

def program_file(name):
    """The program file of a name; that of an image has the least table that has its helpers, and no lines."""
    data = read(name, "rb")
    try:
        if data.startswith(program_files.MARK):
            program_files.read(data)
            return data
        return program_files.written(table_of(second_machine.decode(data)), data, b"")
    except (second_machine.Refused, program_files.Refused) as fault:
        raise Refused(f"no program: {fault}", name) from None


def run(given):
    data = built(given, given.source).image.file() if given.source.endswith(".c") else program_file(given.source)
    records = []
    for number, line in enumerate(sys.stdin.buffer.read().decode("utf-8", "surrogateescape").splitlines(), 1):
        try:
            records.append(record_of(line))
        except Malformed as fault:
            raise Refused(f"no record: {fault}; a record is KEY | VALUE", f"line {number}") from None
    for outcome in Klog(given.klog).outcomes(data, records, OUTPUTS):
        print(shown_wanted(outcome))


# ---- image, graph, table

def image(given):
    made = checked(Program(read(given.source, "rb"), given.function), given)
    write_whole(given.image, made.data)
    print_said(made, given.image, given)


def graph(given):
    print(graph_of(*read_program(Klog(given.klog), given.source, given.table)), end="")


def table(given):
    rows = []
    print(HEAD)
    for row in table_of_folder(given.source, lambda source: built(given, source), Klog(given.klog)):
        print(row, flush=True)
        rows.append(row)
    print(f"\n{sum(row.refusal is None for row in rows)} of {len(rows)} accepted as first written.")
    wrong = [text for row in rows for text in row.wrong]
    for text in wrong:
        print(text, file=sys.stderr)
    if wrong or not rows or any(row.refusal for row in rows):
        sys.exit(1)


# ---- words

def rounds(text):
    if not text.isdecimal() or not 1 <= int(text) <= SLOTS:
        raise argparse.ArgumentTypeError(f"{text} is no number from 1 to {SLOTS}")
    return int(text)


def klog_word(words):
    words.add_argument("--klog", metavar="KLOG", help="the klog that checks and runs, if it is neither on the path nor built here")


def compiler_words(words):
    words.add_argument("--compiler", metavar="CLANG", help="the clang, if it is not `clang` or `clang-N` on the path")
    words.add_argument("--level", default=LEVEL, choices=("-O1", "-O2", "-Os"), help=argparse.SUPPRESS)


def lowering_words(words):
    words.add_argument("--function", metavar="NAME", default="transform", help="the function, if it is not `transform`")
    words.add_argument("--reject", action="store_true", help="reject a record with code 252 where C would use bytes outside, instead of refusing the program")
    words.add_argument("--rounds", type=rounds, default=ROUNDS, metavar="N", help=f"the rounds of a loop of which the end is not proved, {ROUNDS} if not given")


def words_of():
    words = argparse.ArgumentParser(prog="klogc", description="From a transform in C to a tested program of klog.")
    calls = words.add_subparsers(dest="call", required=True, metavar="CALL")
    each = calls.add_parser("build", help="compiles, lowers and verifies a transform, and writes its program file")
    each.add_argument("source", metavar="SOURCE.c")
    each.add_argument("-o", dest="output", metavar="PROGRAM", help="the file, SOURCE.bin if not given")
    each.add_argument("--image", action="store_true", help="write the image alone, without its table and C lines")
    finish(each, build, compiler_words, lowering_words)
    each = calls.add_parser("test", help="builds a transform and runs the examples in its first comment")
    each.add_argument("source", metavar="SOURCE.c")
    each.add_argument("--trace", type=int, metavar="N", help="prints what example N does, instruction by instruction")
    finish(each, test, compiler_words, lowering_words)
    each = calls.add_parser("run", help="runs a transform, or a program, on records from standard input, one a line")
    each.add_argument("source", metavar="PROGRAM")
    finish(each, run, compiler_words, lowering_words)
    each = calls.add_parser("image", help="makes the image of an object that clang wrote, as build does")
    each.add_argument("source", metavar="OBJECT")
    each.add_argument("image", metavar="IMAGE")
    finish(each, image, lowering_words)
    each = calls.add_parser("graph", help="draws what the verifier knows of a program, as text for Graphviz")
    each.add_argument("source", metavar="PROGRAM")
    each.add_argument("--table", type=int, choices=sorted(second_machine.TABLES), default=1, help="an image's helper table, 1 if not given")
    finish(each, graph)
    each = calls.add_parser("table", help="builds and tests the transforms of a folder, and prints a table in Markdown")
    each.add_argument("source", metavar="FOLDER")
    finish(each, table, compiler_words, lowering_words)
    return words


def finish(words, call, *more):
    """What a call runs, and the words that it shares with others."""
    words.set_defaults(run=call)
    klog_word(words)
    for add in more:
        add(words)


def main():
    given = words_of().parse_args()
    sys.setrecursionlimit(LIMIT)
    try:
        given.run(given)
    except Refused as fault:
        sys.exit(str(fault) if fault.place else f"{os.path.basename(given.source)}: {fault}")
    except BrokenPipeError:
        os.dup2(os.open(os.devnull, os.O_WRONLY), sys.stdout.fileno())
        sys.exit(1)
    except KeyboardInterrupt:
        sys.exit(130)
    except Exception as fault:  # an error of klogc's own must not be a traceback
        sys.exit(f"{os.path.basename(given.source)}: an error of klogc itself: {type(fault).__name__} {fault}")
