#!/usr/bin/env python3
"""Runs the commands of the pages, and fails where one prints something else or a link leads nowhere.

    tools/dev/check_docs.py KLOG [PAGE ..]    # KLOG: the built program, crates/klog/out/klog after `rt run`
    tools/dev/check_docs.py links             # the links alone
    tools/dev/check_docs.py print KLOG        # writes anew what is between `printed by` and `end`

The pages are those at the top and in docs. In a page a block of code whose first line begins with `$ ` is a transcript:
each such line is a command, and what follows it is what the command prints, errors too. A block under
`<!-- file: NAME -->` is a file. A block under `<!-- not run -->` is left out. What is between `<!-- printed by COMMAND -->`
and `<!-- end -->` is what that command prints. The files and commands of a page are made and run in their order, in a
folder of its own that has the repository's `examples` and `tools`, with klog and klogc on the path, and in EXAMPLES the
folder of the examples. A file that a page makes is the one of the same name in docs/pictures, if that has one.

A link leads to a file and, behind `#`, to a heading of a page. A path in backquotes that begins with a folder of the top
is one of the repository, but in `out`, which builds make. Needs bash, clang 14 and xxd; links need nothing.
"""
import os
import re
import subprocess
import sys
import tempfile
from contextlib import contextmanager
from pathlib import Path

TOP = Path(__file__).resolve().parents[2]
PICTURES = TOP / "docs" / "pictures"
PRINTED = r"<!-- printed by (?P<command>.*?) -->\n(?P<printed>.*?)<!-- end -->"
BLOCK = r"(?:<!-- (?P<mark>.*?) -->\n+)?```\w*\n(?P<block>.*?)```"
LINK = r"\]\((?!\w+:)([^)#\s]*)(?:#([^)\s]*))?\)"
FOLDERS = "crates|docs|examples|fuzz|include|tools"
PATH = rf"`((?:{FOLDERS})/[\w./-]+)`"


def steps(block):
    """The commands of a transcript, each with what it prints."""
    for part in re.split(r"^\$ ", block, flags=re.M)[1:]:
        command, _, printed = part.partition("\n")
        yield command, printed


def parts(page):
    """What a page has, in its order: the name of a file with its text, or a command with what it prints."""
    for found in re.finditer(f"{PRINTED}|{BLOCK}", page, re.S):
        mark, block = found["mark"] or "", found["block"]
        if found["command"]:
            yield None, found["command"], found["printed"]
        elif mark.startswith("file: "):
            yield mark[6:], None, block
        elif not mark and block.startswith("$ "):
            yield from ((None, command, printed) for command, printed in steps(block))


def other_pictures(room):
    """The files of a folder that docs/pictures has in another form."""
    for picture in sorted(PICTURES.iterdir()):
        made = room / picture.name
        if made.exists() and made.read_bytes() != picture.read_bytes():
            yield f"docs/pictures/{picture.name}", picture.read_text(encoding="utf-8"), made.read_text(encoding="utf-8")


def pages(names):
    """The pages of these names, or all of them."""
    return [TOP / name for name in names] or [*sorted(TOP.glob("*.md")), *sorted((TOP / "docs").rglob("*.md"))]


def anchors(page):
    """By which names links reach the headings of a page."""
    for heading in re.findall(r"^#+ (.*)$", re.sub(r"```.*?```", "", page, flags=re.S), re.M):
        yield re.sub(r"[^\w -]", "", heading.lower()).replace(" ", "-")


def leads(path, target, anchor):
    """Whether a link of a page leads to a file, and to a heading where it names one."""
    to = (path.parent / target).resolve() if target else path
    return to.exists() and (not anchor or anchor in anchors(to.read_text(encoding="utf-8")))


def lost_links(path):
    """How many links a page has, and those that lead nowhere."""
    page = re.sub(r"```.*?```", "", path.read_text(encoding="utf-8"), flags=re.S)
    links, names = re.findall(LINK, page), [name for name in re.findall(PATH, page) if "out" not in name.split("/")]
    lost = [f"{target}#{anchor}" if anchor else target for target, anchor in links if not leads(path, target, anchor)]
    return len(links) + len(names), lost + [name for name in names if not (TOP / name).exists()]


def check_links():
    """Whether all links lead somewhere; prints those that don't."""
    count = failed = 0
    for path in pages([]):
        found, lost = lost_links(path)
        count, failed = count + found, failed + len(lost)
        for link in lost:
            print(f"{path.relative_to(TOP)}: {link} leads nowhere")
    print(f"{count} links, {failed} lead nowhere")
    return not failed


def run(command, room, environment):
    """A command that ended; what it printed has its errors too. One that takes an hour is ended, with status 124."""
    return subprocess.run(["timeout", "3600", "bash", "-c", command], cwd=room, env=environment, text=True,
                          stdin=subprocess.DEVNULL, stdout=subprocess.PIPE, stderr=subprocess.STDOUT)


def run_page(path, room, environment):
    """How many commands the page has, and those that print something else."""
    count, wrong, status = 0, [], 0
    for name, command, text in parts(path.read_text(encoding="utf-8")):
        if name:
            (room / name).write_text(text, encoding="utf-8")
            continue
        done = run(f"(exit {status}); {command}", room, environment)
        count, status = count + 1, done.returncode
        if done.stdout != text:
            wrong.append((f"$ {command}", text, done.stdout))
    return count, wrong + list(other_pictures(room))


@contextmanager
def own_room(klog):
    """A folder for a page's files, and the environment of its commands, with the built program of this name."""
    with tempfile.TemporaryDirectory() as folder:
        room, programs = Path(folder) / "work", Path(folder) / "bin"
        room.mkdir()
        programs.mkdir()
        (programs / "klog").symlink_to(Path(klog).resolve())
        for name in ("examples", "tools"):
            (room / name).symlink_to(TOP / name)
        path = f"{programs}:{TOP / 'tools' / 'klogc'}:{os.environ['PATH']}"
        yield room, {**os.environ, "PATH": path, "EXAMPLES": str(TOP / "examples")}


def printed_by(klog, command):
    """What a command prints that needs no file of its page."""
    with own_room(klog) as (room, environment):
        return run(command, room, environment).stdout


def print_anew(klog):
    """Writes into each page what its `printed by` commands print."""
    for path in pages([]):
        page = path.read_text(encoding="utf-8")
        made = re.sub(PRINTED, lambda it: it[0].replace(it["printed"], printed_by(klog, it["command"])), page, flags=re.S)
        if made != page:
            path.write_text(made, encoding="utf-8")
            print(f"{path.relative_to(TOP)}: printed anew")


def check_commands(klog, names):
    """Whether each command of the pages printed what they say; prints those that did not."""
    total = failed = 0
    for path in pages(names):
        with own_room(klog) as (room, environment):
            count, wrong = run_page(path, room, environment)
        total, failed = total + count, failed + len(wrong)
        for what, expected, printed in wrong:
            print(f"{path.relative_to(TOP)}: {what}\n--- expected\n{expected}--- printed\n{printed}")
    print(f"{total} commands, {failed} printed something else")
    return not failed


def main():
    if len(sys.argv) < 2:
        sys.exit(__doc__)
    if sys.argv[1] == "print":
        return print_anew(sys.argv[2])
    linked = check_links()
    printed = sys.argv[1] == "links" or check_commands(sys.argv[1], sys.argv[2:])
    sys.exit(not (linked and printed))


main()
