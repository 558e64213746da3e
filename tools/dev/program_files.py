#!/usr/bin/env python3
"""Reads and writes program files apart from klog, as docs/reference/machine.md says. Not part of the build.

    tools/dev/program_files.py write TABLE IMAGE LINES FILE    # writes the program file of an image and a file of lines
    tools/dev/program_files.py read FILE                       # prints what a file says, or why it is refused
    tools/dev/program_files.py changed FILE                    # counts the files with one changed byte that are read

The last one says of a file how many changes `crates/program_tests` finds to be read (`program_files`).
"""
import re
import struct
import sys
from pathlib import Path

MARK, VERSION, TABLES, HEADER = b"KLOG", 1, (1, 2, 3), struct.Struct("<4sIII")
LINE = re.compile(r"(0|[1-9][0-9]*) ([^\n]+)\n")


class Refused(Exception):
    """Why bytes are no program file."""


def places(text: str, slots: int) -> list[tuple[int, str]]:
    """What lines say, of an image with this many slots."""
    found: list[tuple[int, str]] = []
    at = 0
    while at < len(text):
        line = LINE.match(text, at)
        if not line:
            raise Refused("G4 Lines")
        slot = int(line[1]) if len(line[1]) < 11 else slots
        if slot >= slots or (found and slot <= found[-1][0]):
            raise Refused("G4 Lines")
        found.append((slot, line[2]))
        at = line.end()
    return found


def read(data: bytes) -> tuple[int, bytes, list[tuple[int, str]]]:
    """The table, the image and the places of a program file."""
    if len(data) < HEADER.size:
        raise Refused("G1 Short")
    _, version, table, size = HEADER.unpack_from(data)
    if version != VERSION:
        raise Refused("G2 Version")
    if table not in TABLES:
        raise Refused("G3 Table")
    end = HEADER.size + size
    if len(data) < end:
        raise Refused("G1 Short")
    try:
        text = data[end:].decode()
    except UnicodeDecodeError:
        raise Refused("G4 Lines") from None
    return table, data[HEADER.size:end], places(text, size // 8)


def written(table: int, image: bytes, lines: bytes) -> bytes:
    """The program file of a table, an image and lines."""
    return HEADER.pack(MARK, VERSION, table, len(image)) + image + lines


def is_read(data: bytes) -> bool:
    """Whether bytes are a program file."""
    if not data.startswith(MARK):
        return False
    try:
        read(data)
    except Refused:
        return False
    return True


def changed(data: bytes) -> int:
    """How many of the files with one changed byte are program files."""
    return sum(
        is_read(data[:at] + bytes([value]) + data[at + 1:])
        for at in range(len(data)) for value in range(256) if value != data[at])


def said(data: bytes) -> str:
    """What bytes say."""
    if not data.startswith(MARK):
        return "an image"
    try:
        table, image, lines = read(data)
    except Refused as fault:
        return str(fault)
    return "\n".join([f"table {table}", f"image {image.hex()}", *(f"{slot} {place}" for slot, place in lines)])


def main(words: list[str]) -> None:
    """Does what is asked."""
    sys.stdout.reconfigure(errors="backslashreplace")
    try:
        match words:
            case ["write", ("1" | "2" | "3") as table, image, lines, file]:
                code = Path(image).read_bytes()
                if len(code) >= 1 << 32:
                    sys.exit("the image has 2^32 bytes or more")
                data = written(int(table), code, Path(lines).read_bytes())
                if not is_read(data):
                    sys.exit(said(data))
                Path(file).write_bytes(data)
            case ["read", file]:
                print(said(Path(file).read_bytes()))
            case ["changed", file]:
                print(changed(Path(file).read_bytes()))
            case _:
                sys.exit(__doc__)
    except OSError as fault:
        sys.exit(f"{fault.filename}: {fault.strerror}")


if __name__ == "__main__":
    main(sys.argv[1:])
