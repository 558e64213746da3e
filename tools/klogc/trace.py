"""Prints what a record does in a program: each instruction of the object, under its C line, with the registers that it changes."""
from .meaning import CONSTANTS_AT, KEY_AT, PART, STACK, STACK_AT, VALUE_AT, Run, Trap
from .program import INTRINSICS

M64 = (1 << 64) - 1
SIGNS = {"add": "+", "sub": "-", "mul": "*", "div": "/", "mod": "%", "and": "&", "or": "|", "xor": "^", "lsh": "<<", "rsh": ">>", "arsh": "s>>", "sdiv": "s/", "smod": "s%"}
TESTS = {"eq": "==", "ne": "!=", "gt": ">", "ge": ">=", "lt": "<", "le": "<=", "set": "&", "sgt": "s>", "sge": "s>=", "slt": "s<", "sle": "s<="}
TYPES = {1: "u8", 2: "u16", 4: "u32", 8: "u64"}
HELPERS = {1: "load_value", 2: "load_key", 3: "emit_record", 4: "emit_value", 5: "emit", 6: "emit_null", 7: "record_offset", 8: "record_timestamp",
           9: "record_partition", 10: "header_count", 11: "header_key", 12: "header_value", 13: "part_length", 14: "load_part", 15: "find", 16: "equals", 17: "decimal",
           18: "hash", 19: "header", 20: "emit_part", 21: "emit_changed", 22: "add_header"}


def shown_number(n):
    """A number, or an address by what it is of."""
    for base, name in ((VALUE_AT, "value"), (KEY_AT, "key")):
        if base <= n < base + PART:
            return f"{name}+{n - base}"
    if CONSTANTS_AT <= n < CONSTANTS_AT + (1 << 44):
        return f"constants+{n % PART}"
    if STACK_AT <= n < STACK_AT + (1 << 40):
        return f"stack{n % PART - STACK:+d}" if n % PART != STACK else "stack"
    return str(n) if n >> 63 == 0 else str(n - (1 << 64))


def operand(source):
    return f"r{source[1]}" if source[0] == "reg" else str(source[1])


def shown(i):
    """An instruction in the manner of C."""
    match i:
        case ("mov", dst, source, width):
            return f"r{dst} = {operand(source)}" + (" (32 bits)" if width == 32 else "")
        case ("alu", dst, source, width, name):
            return f"r{dst} {SIGNS[name]}= {operand(source)}" + (" (32 bits)" if width == 32 else "")
        case ("change", dst, src, change):
            return f"r{dst} = {change[0]}{change[-1]}(r{src})"
        case ("load", size, dst, src, offset, is_signed):
            return f"r{dst} = *({TYPES[size].replace('u', 's') if is_signed else TYPES[size]} *)(r{src} {offset:+d})"
        case ("store", size, dst, source, offset):
            return f"*({TYPES[size]} *)(r{dst} {offset:+d}) = {operand(source)}"
        case ("jump", name, dst, source, _, width):
            return f"if r{dst} {TESTS[name]} {operand(source)}" + (" (32 bits)" if width == 32 else "")
        case ("wide", dst, number):
            return f"r{dst} = {number}"
        case ("constants", dst, _, at):
            return f"r{dst} = constants+{at}"
        case ("call", helper):
            return f"call {HELPERS.get(helper, helper)}"
        case ("intrinsic", name):
            return f"call {INTRINSICS[name][0]}"
    return {"ja": "goto", "local": "call", "exit": "return", "bad": "no instruction"}[i[0]]


def trace(program, record, outputs, source):
    """The lines of a record's trace. `source` has the source's lines, by its name."""
    run, last = Run(program, record, outputs), None
    try:
        for step in run.steps():
            line = program.line(step.place)
            if line != last:
                yield f"{line or '?'}: {source.get(line, '')}".rstrip()
                last = line
            changes = "  ".join(f"r{r}: {shown_number(v)}" for r, v in sorted(step.changes.items()))
            yield f"    {shown(step.instruction):34} {changes}".rstrip()
    except Trap as fault:
        yield f"{program.line(run.place) or '?'}: {fault}"
