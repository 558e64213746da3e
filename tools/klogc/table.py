"""Builds and tests the transforms of a folder, and prints a table of them in Markdown: `klogc table FOLDER`.

NAME.c is a transform as anyone would write it. The first paragraph of its first comment says what it does, and its examples what it
makes of records; they are run by the object's meaning and by klog."""
import glob
import os
from typing import Callable, NamedTuple

from .examples import description, examples
from .klog import Klog
from .lower import Lowered
from .meaning import Run, Trap
from .program import Program, Refused

HEAD = "| transform | what it does | instructions, or the refusal |\n|---|---|---|"
OUTPUTS = 64


class Built(NamedTuple):
    """A source's text, its object's program, and its image."""
    text: str
    program: Program
    image: Lowered


# Builds the source of a name.
Build = Callable[[str], Built]


class Row(NamedTuple):
    """A transform in the table: how many instructions it has, or why it is refused; and what its examples do otherwise."""
    name: str
    what: str
    instructions: int
    refusal: str | None
    wrong: list

    def __str__(self):
        return f"| {self.name} | {self.what} | {self.instructions if self.refusal is None else code(self.refusal)} |"


def code(text):
    """A text as it was printed, in Markdown."""
    return f"`` {text} ``" if "`" in text else f"`{text}`"


def plain(outcome):
    """An outcome without its emissions' headers."""
    return outcome if isinstance(outcome, int) else [e[:3] for e in outcome]


def wrong_examples(name, cases, program, outcomes):
    for case, got in zip(cases, outcomes):
        try:
            meant = plain(Run(program, case.record, OUTPUTS).outcome())
        except Trap as fault:
            meant = str(fault)
        for what, outcome in (("the C code", meant), ("klog", plain(got))):
            if outcome != plain(case.wanted):
                yield f"{name}:{case.line}: another outcome of {what}: {outcome}"


def row(path, build: Build, klog: Klog) -> Row:
    name = os.path.basename(path)
    with open(path, encoding="utf-8") as it:
        text = it.read()
    try:
        cases = examples(name, text)
        made = build(path)
    except Refused as fault:
        return Row(name[:-2], description(text), 0, str(fault), [])
    outcomes = klog.outcomes(made.image.file(), [case.record for case in cases], OUTPUTS)
    wrong = list(wrong_examples(name, cases, made.program, outcomes))
    return Row(name[:-2], description(text), len(made.image.lines), None, wrong + ([] if cases else [f"{name}: no examples"]))


def table(folder, build: Build, klog: Klog):
    """The rows of a folder's transforms, each when it is made."""
    for path in sorted(glob.glob(os.path.join(folder, "*.c"))):
        yield row(path, build, klog)
