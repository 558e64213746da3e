#!/usr/bin/env python3
"""Prints the man page of klog, made from docs/guide/commands.md.

    tools/dev/man_page.py > klog.1

It knows what that page has: headings, paragraphs, lists, tables and blocks of code. A table becomes a list by its first
column.
"""
import re
import sys
from pathlib import Path

TOP = Path(__file__).resolve().parents[2]
PAGE = TOP / "docs" / "guide" / "commands.md"


def version():
    """The version in the head of the list of changes."""
    return re.search(r"^## (\d+\.\d+\.\d+)", (TOP / "CHANGELOG.md").read_text(encoding="utf-8"), re.M)[1]


def escaped(text):
    """A text as the man page has it, whatever its bytes."""
    text = text.replace("\\", "\\e").replace("-", "\\-")
    return re.sub(r"^([.'])", r"\\&\1", text, flags=re.M)


def styled(text):
    """A text with its links as words, and what stands in backquotes in bold."""
    parts = re.sub(r"!?\[([^\]]*)\]\([^)]*\)", r"\1", text).replace("**", "").split("`")
    return "".join(escaped(part) if number % 2 == 0 else f"\\fB{escaped(part)}\\fR" for number, part in enumerate(parts))


def cells(row):
    return [cell.strip() for cell in row.strip("|").split("|")]


def sentence(text):
    """A text with a stop at its end, and a capital where it begins with a word."""
    return (text[:1].upper() if text[1:2].isalpha() else text[:1]) + text[1:].rstrip(".") + "."


def table(lines):
    """A table as a list: the first column, and what the others say under their heads."""
    heads = cells(lines[0])
    for row in lines[2:]:
        first, *others = cells(row)
        said = [other if number == 0 else f"{head}: {other}" for number, (head, other) in enumerate(zip(heads[1:], others)) if other]
        yield from (".TP", styled(first), styled(" ".join(sentence(it) for it in said)))


def listed(lines):
    """The items of a list."""
    for item in re.split(r"^- ", "\n".join(lines), flags=re.M)[1:]:
        yield from (".IP \\(bu 2", styled(" ".join(item.split())))


def part(lines):
    """What a part of the page becomes, by its first line."""
    if lines[0].startswith("#"):
        yield f".SH {escaped(lines[0].lstrip('# ').replace('`', '').upper())}"
    elif lines[0].startswith("|"):
        yield from table(lines)
    elif lines[0].startswith("- "):
        yield from listed(lines)
    else:
        yield from (".PP", styled(" ".join(lines)))


def parts(page):
    """The parts of the page: a block of code whole, and else what stands between empty lines."""
    for number, text in enumerate(re.split(r"^```\w*\n", page, flags=re.M)):
        if number % 2:
            yield from (".PP", ".nf", escaped(text.rstrip("\n")), ".fi")
        else:
            for lines in re.split(r"\n\s*\n", text.strip("\n")):
                if lines.strip():
                    yield from part(lines.strip("\n").split("\n"))


def main():
    if len(sys.argv) != 1:
        sys.exit(__doc__)
    page = PAGE.read_text(encoding="utf-8").partition("\n")[2]
    print(f".TH KLOG 1 \"\" \"klog {version()}\"")
    print(".SH NAME\nklog \\- a partitioned commit log that runs eBPF programs on its records")
    print(".SH SYNOPSIS\n.nf\n\\fBklog\\fR COMMAND FILE ...\n.fi\n.SH COMMANDS")
    print("\n".join(parts(page)))


main()
