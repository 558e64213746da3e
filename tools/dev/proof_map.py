#!/usr/bin/env python3
"""Prints for each clause of the README's statement its contract and its main lemma, and what must be read to believe it.

    tools/dev/proof_map.py            # the table of docs/inside/proof_map.md
    tools/dev/proof_map.py files      # which lines of which file they are

It follows the names in a contract to their definitions in `specs` and to the types in `src`, and from there to all others,
as far as the kit, whose own definitions are not counted. Of a type that contracts see by a model it reads the model, and
not the fields. Counted are lines with something but a comment or an import.
"""
import re
import sys
from dataclasses import dataclass
from pathlib import Path

CRATES = Path(__file__).resolve().parents[2] / "crates"
# A clause, its contract (file and function or type), and its main lemma (file and name).
CLAUSES = [
    ("a program that `load` accepts", "log_item/src/program.rt", "new", "annotate/proofs/Best.antt", "joined_best"),
    ("on any record within the limits", "log_item/src/fitting.rt", "fits_log", "log_spec/proofs/FittingBatches.antt", "within_limits"),
    ("never meets a trap", "log_item/src/program.rt", "run", "verifier_spec/proofs/Sound.antt", "safe"),
    ("reads no byte outside or unset", "log_item/src/program.rt", "run_block", "log_item/proofs/ReadBytes.antt", "reads_within"),
    ("exits after at most as many instructions", "log_item/src/program.rt", "run_into", "verifier_spec/proofs/Steps.antt", "steps_below"),
    ("with the machine's outcome", "exec/src/laws.rt", "one_meaning", "machine_spec/proofs/Meanings.antt", "one_meaning"),
    ("whatever the interleaving", "world/src/runs.rt", "run", "world/proofs/RunLaws.antt", "runs-next"),
    ("what an output holds from an input", "out_book/src/book.rt", "Book", "out_book/proofs/BookLaws.antt", "delivered_book"),
    ("in order and each record once", "item_rows/src/laws.rt", "one_list_of_rows", "log_spec/proofs/OneRows.antt", "one_rows"),
    ("over some first items of the log", "out_book/src/book.rt", "deliver", "item_rows/proofs/RowLaws.antt", "item_rows_are"),
    ("by the program whose mark stands last", "part_log/src/head.rt", "mark", "log_item/proofs/MarkLaws.antt", "mark_next"),
    ("and so from bytes to bytes", "transform/src/stream.rt", "transform_all", "transform/proofs/LogOfLaws.antt", "of_a_log"),
]
WORD = re.compile(r"[^\s(){}\[\],;:λ×→&<>|=!*#\"]+")
HEAD = re.compile(r"^(?:(?:abbrev|unfoldable|pub|data|record|module) )*([^\s:({]+)")
RUST_ITEM = re.compile(r"^\s*(?:pub(?:\(crate\))? )?(struct|enum|trait|const|static|fn) (\w+)")
RUST_MODEL = re.compile(r"^impl(?:<.*?>)? Model for (\w+)")
RUST_TYPES = ("struct", "enum", "trait")
IMPORT = r"^\s*(?:unfoldable )?(?:pub )?use "


@dataclass(frozen=True)
class Definition:
    """A definition: its file, its kind in Rust, the number of its first line, and its lines but for comments."""
    path: Path
    kind: str
    line: int
    lines: tuple


def blocks(text):
    """The parts of a text between empty lines, each with the number of its first line."""
    number, part = 1, []
    for line in [*text.split("\n"), ""]:
        if line.strip():
            part.append(line)
        elif part:
            yield number - len(part), part
            part = []
        number += 1


def imported(use):
    """What an import names: the name by which it is known, and its path."""
    use = re.sub(r"\s+", " ", use)
    opened = re.match(r"Rattle\.([^{]*)\.\{(.*)\}$", use)
    if opened:
        for name in opened[2].split(","):
            path, _, alias = f"{opened[1]}.{name.strip()}".partition(" as ")
            yield alias or path.split(".")[-1], path
    else:
        path, _, alias = use.removeprefix("Rattle.").partition(" as ")
        yield alias or path.split(".")[-1], path


class Module:
    """A file of definitions, or of Rust with contracts."""

    def __init__(self, path):
        self.path, self.is_rust = path, path.suffix == ".rt"
        text = path.read_text(encoding="utf-8")
        uses = re.findall(r"^\s*ghost use (.*?);", text, re.M | re.S) if self.is_rust else re.findall(f"{IMPORT}(.*)$", text, re.M)
        self.names = {name: where for use in uses for name, where in imported(use)}
        self.rust = {}
        for head, names in re.findall(r"^use (?:crate::)?([\w:]+)::(?:(\w+)|\{)", text, re.M):
            self.rust.setdefault(names, head)
        for head, names in re.findall(r"^use ([\w:]+)::\{([^}]*)\};", text, re.M):
            self.rust.update({name.strip(): head for name in names.split(",")})
        self.found = dict(self.rust_items(text) if self.is_rust else self.definitions(text))

    def definitions(self, text):
        """The definitions of a file of definitions, by name; the constructors of a type are the type."""
        for line, part in blocks(text):
            code = tuple(it for it in part if not it.lstrip().startswith("--") and not re.match(IMPORT, it))
            if code and (name := HEAD.match(code[0])):
                here = Definition(self.path, "", line, code)
                yield name[1], here
                if code[0].startswith(("pub data", "data")):
                    yield from ((it, here) for it in re.findall(r"^  (\S+) :", "\n".join(code), re.M))

    def rust_items(self, text):
        """The types, constants and contracts of a file of Rust, by name."""
        lines = text.split("\n")
        for at, line in enumerate(lines):
            item, model = RUST_ITEM.match(line), RUST_MODEL.match(line)
            if item or model:
                kind, name = (item[1], item[2]) if item else ("model", f"model of {model[1]}")
                depth = len(line) - len(line.lstrip())
                last = {"fn": r"^ {%d}\{|\{\}?$", "model": r"^ {%d}\}", "trait": r"^ {%d}\}"}.get(kind, r"^ {%d}\}|;$") % depth
                end = next((k for k in range(at, len(lines)) if re.search(last, lines[k])), at)
                code = tuple(it for it in lines[at:end + 1] if it.strip() and not re.match(r"\s*(//|ghost use)", it))
                yield name, Definition(self.path, kind, at + 1, code)


class Reader:
    """Follows names from a contract to all definitions that it needs."""

    def __init__(self):
        self.modules = {}

    def module(self, path):
        if path not in self.modules:
            self.modules[path] = Module(path) if path.is_file() else None
        return self.modules[path]

    def of_path(self, where):
        """The module of an import's path, and the name in it, or nothing for what is the kit's."""
        parts = where.split(".")
        if not (CRATES / parts[0]).is_dir() or "specs" not in parts[:2]:
            return None
        if "declared" in parts:
            rest = [it for it in parts[3:] if it not in ("TheConstants", "TheVariants")]
            for cut in range(len(rest), 0, -1):
                path = (CRATES / parts[0] / "src").joinpath(*rest[:cut]).with_suffix(".rt")
                if path.is_file():
                    return path, (rest[cut:] or [None])[0]
            return CRATES / parts[0] / "src" / "lib.rt", rest[0]
        for cut in range(len(parts), 2, -1):
            path = (CRATES / parts[0]).joinpath(*parts[1:cut]).with_suffix(".antt")
            if path.is_file():
                return path, (parts[cut:] or [None])[0]
        return None

    def rust_type(self, module, name):
        """Where a type of a Rust signature stands."""
        head = module.rust.get(name, "")
        crate = head.split("::")[0]
        folder = CRATES / crate if head and (CRATES / crate).is_dir() else module.path.parents[len(module.path.relative_to(CRATES).parts) - 2]
        for path in sorted((folder / "src").rglob("*.rt")):
            definition = self.module(path).found.get(name)
            if definition and definition.kind in RUST_TYPES:
                return path, name
        return None

    @staticmethod
    def name_of(definition):
        return RUST_ITEM.match(definition.lines[0])[2]

    def needs(self, module, definition):
        """The definitions that one names."""
        if definition.kind in RUST_TYPES and f"model of {self.name_of(definition)}" in module.found:
            return
        for word in WORD.findall(re.sub(r"//.*|\"[^\"]*\"", "", "\n".join(definition.lines))):
            first, *rest = word.split(".")
            if first in module.names and (place := self.of_path(module.names[first])):
                path, name = place
                yield path, name or (rest or [None])[0]
            elif first in module.found and module.found[first].kind != "fn":
                yield module.path, first
            elif module.is_rust and first[:1].isupper() and (place := self.rust_type(module, first)):
                yield place

    def passed_on(self, module, name):
        """Where a name stands that a file of definitions only passes on (`pub use`)."""
        place = self.of_path(module.names[name]) if name in module.names and not module.is_rust else None
        return place and (place[0], place[1] or name)

    def closure(self, path, name):
        """All definitions that a contract needs, itself among them."""
        waiting, seen = [(path, name)], set()
        while waiting:
            path, name = waiting.pop()
            module = self.module(path)
            for known in (name, f"model of {name}"):
                definition = module.found.get(known) if module else None
                if definition and definition not in seen:
                    seen.add(definition)
                    waiting.extend(self.needs(module, definition))
            if module and name not in module.found and (passed_on := self.passed_on(module, name)):
                waiting.append(passed_on)
        return seen


def lines_of(definitions):
    return sum(len(it.lines) for it in definitions)


def lemma_line(path, name):
    """The number of the line at which a lemma is stated."""
    for number, line in enumerate((CRATES / path).read_text(encoding="utf-8").split("\n"), 1):
        if re.match(rf"^\s*(?:pub )?{re.escape(name)} :", line):
            return number
    sys.exit(f"proof_map: {path} has no lemma {name}")


def print_files(definitions):
    for path in sorted({it.path for it in definitions}):
        here = sorted((it for it in definitions if it.path == path), key=lambda it: it.line)
        print(f"{path.relative_to(CRATES)}: {lines_of(here)} lines, from {', '.join(str(it.line) for it in here)}")


def link(name, path):
    """A name that leads to its file from the page, which stands in docs/inside."""
    return f"[`{name}`](../../crates/{path})"


def main():
    if sys.argv[1:] not in ([], ["files"]):
        sys.exit(__doc__)
    reader, every = Reader(), set()
    rows = []
    for clause, contract, name, lemma_file, lemma in CLAUSES:
        if name not in reader.module(CRATES / contract).found:
            sys.exit(f"proof_map: {contract} has no {name}")
        needed = reader.closure(CRATES / contract, name)
        every |= needed
        lemma_line(lemma_file, lemma)
        rows.append(f"| {clause} | {link(name, contract)} | {link(lemma, lemma_file)} | {lines_of(needed):,} |")
    if sys.argv[1:]:
        print_files(every)
        return
    print("| clause | contract | main lemma | lines to read |\n|---|---|---|---|")
    print("\n".join(rows))
    print(f"\nAll clauses together need {lines_of(every):,} lines of {len({it.path for it in every})} files.")


main()
