#!/usr/bin/env python3
"""Attacks the files of `klog asm` and `klog transform`, and counts what they answer and leave.

    tools/dev/file_attacks.py KLOG [KILLS]     # KLOG: the built program; KILLS: how many calls are killed, 200 if none is named

Calls whose files are one file must be refused with `file NAME` and status 3, and change nothing. Calls that are killed, that
run out of room or whose files can't be put in place must leave each file old or new, and those that end by themselves no other.
Root also tries files that are bound to a name by a mount.
"""
import os
import random
import resource
import shutil
import signal
import subprocess
import sys
import tempfile
import threading
import time
from pathlib import Path
from typing import Callable, Optional

ORDERS = Path(__file__).resolve().parents[2] / "examples" / "orders.log"
FORWARD = "mov64 r1, 0\ncall 3\nexit\n"
TO_EACH = "mov64 r1, 0\ncall 3\nmov64 r1, 1\ncall 3\nmov64 r1, 2\ncall 3\nexit\n"


class Room:
    """A folder of an attack: a text, two images, batches, what `klog` makes of them, and a count of what went wrong."""

    def __init__(self, klog: str, folder: str):
        self.klog, self.folder, self.wrong, self.counts = klog, folder, [], {}

    def path(self, name: str) -> str:
        return os.path.join(self.folder, name)

    def put(self, name: str, content: bytes) -> None:
        with open(self.path(name), "wb") as file:
            file.write(content)

    def link(self, target: str, name: str) -> None:
        """Makes a name a link, whatever it was."""
        if os.path.lexists(self.path(name)):
            os.remove(self.path(name))
        os.symlink(target, self.path(name))

    def read(self, name: str) -> Optional[bytes]:
        try:
            with open(self.path(name), "rb") as file:
                return file.read()
        except OSError:
            return None

    def all(self) -> dict:
        return {name: (self.read(name), os.lstat(self.path(name)).st_ino) for name in os.listdir(self.folder)}

    def restore(self, before: dict) -> None:
        """Gives the files the bytes that they had before an attack, and removes new ones."""
        for name in set(os.listdir(self.folder)) - set(before):
            os.remove(self.path(name))
        for name, (content, _) in before.items():
            if content is not None and self.read(name) != content:
                self.put(name, content)

    def call(self, *words: str, **how) -> subprocess.CompletedProcess:
        how.setdefault("stdin", subprocess.DEVNULL)
        how.setdefault("stdout", subprocess.PIPE)
        how.setdefault("stderr", subprocess.PIPE)
        return subprocess.run([self.klog, *words], cwd=self.folder, timeout=600, check=False, **how)

    def check(self, kind: str, label: str, fault: Optional[str]) -> None:
        right, all_ = self.counts.get(kind, (0, 0))
        self.counts[kind] = (right + (fault is None), all_ + 1)
        if fault is not None:
            self.wrong.append(f"{kind}: {label}: {fault}")

    def refused(self, label: str, name: str, *words: str, **how) -> None:
        """A call that must end with `file NAME`, status 3, and change nothing."""
        before, ran = self.all(), self.call(*words, **how)
        fault = None
        if (ran.returncode, ran.stderr) != (3, f"file {name}\n".encode()):
            fault = f"status {ran.returncode}, {ran.stderr!r}"
        elif self.all() != before:
            fault = f"files changed: {sorted(self.all())}"
        self.check("refused, with nothing changed", label, fault)
        self.restore(before)

    def fails(self, kind: str, label: str, name: str, *words: str, **how) -> None:
        """A call that must end with `file NAME` after its counts, status 3, and change nothing."""
        before, ran = self.all(), self.call(*words, **how)
        good = ran.returncode == 3 and ran.stderr.endswith(f"file {name}\n".encode()) and self.all() == before
        self.check(kind, label, None if good else f"status {ran.returncode}, {ran.stderr!r}, {sorted(self.all())}")
        self.restore(before)

    def made(self, label: str, outs: dict, *words: str, **how) -> None:
        """A call that must end with status 0, and files that must have these bytes then."""
        before, ran = set(os.listdir(self.folder)), self.call(*words, **how)
        fault = None if ran.returncode == 0 else f"status {ran.returncode}, {ran.stderr!r}"
        for name, content in outs.items():
            if self.read(name) != content:
                fault = fault or f"{name} has other bytes"
        if set(os.listdir(self.folder)) - before - set(outs):
            fault = fault or f"other files: {sorted(os.listdir(self.folder))}"
        self.check("done, with the right bytes", label, fault)


def new_room(klog: str, folder: str, copies: int) -> tuple[Room, bytes]:
    """A folder of an attack, and the rows of its batches."""
    room = Room(klog, folder)
    room.put("p.txt", FORWARD.encode())
    room.put("each.txt", TO_EACH.encode())
    for text, image in (("p.txt", "p.bin"), ("each.txt", "each.bin")):
        room.call("asm", text, image)
    room.put("in", ORDERS.read_bytes() * copies)
    return room, room.call("transform", "p.bin", "in", "stdout").stdout


def one_file(room: Room) -> None:
    """Calls of which two files are one."""
    os.link(room.path("in"), room.path("hard"))
    os.symlink("in", room.path("soft"))
    os.link(room.path("p.bin"), room.path("image"))
    os.link(room.path("p.txt"), room.path("text"))
    room.put("old", b"old")
    os.link(room.path("old"), room.path("twin"))
    for label, out in (("hard link to IN", "hard"), ("link to IN", "soft"), ("hard link to IMAGE", "image"), ("path", "./in")):
        room.refused(label, out, "transform", "p.bin", "in", out)
    for folder in ("/dev/fd", "/proc/self/fd"):
        with open(room.path("in"), "r+b") as file:
            name = f"{folder}/{file.fileno()}"
            room.refused(name, name, "transform", "p.bin", "in", name, pass_fds=[file.fileno()])
    room.refused("two OUTs, hard links", "twin", "transform", "each.bin", "in", "old", "twin", "x")
    room.refused("two OUTs, not there", "./x", "transform", "each.bin", "in", "x", "./x", "y")
    with open(room.path("in"), "r+b") as file:
        room.refused("OUT is standard input", "in", "transform", "p.bin", "stdin", "in", stdin=file)
    with open(room.path("old"), "rb") as file:
        room.refused("OUT is standard input, unused", "old", "transform", "p.bin", "in", "old", stdin=file)
    for words in (["in", "stdout", "old"], ["in", "old", "stdout"], ["in", "x", "old"]):
        with open(room.path("old"), "r+b") as file:
            room.refused(f"standard output is an OUT, {' '.join(words)}", "old", "transform", "p.bin", *words, stdout=file)
    room.refused("stdout and /dev/stdout", "/dev/stdout", "transform", "p.bin", "in", "stdout", "/dev/stdout")
    for out in ("p.txt", "text", "./p.txt"):
        room.refused(f"asm onto its text, {out}", out, "asm", "p.txt", out)
    with open(room.path("old"), "r+b") as file:
        room.refused("asm onto standard output", "old", "asm", "p.txt", "old", stdout=file)
    if os.geteuid() == 0 and bind(room.path("in"), room.path("old")):
        room.refused("bound to IN by a mount", "old", "transform", "p.bin", "in", "old")
        subprocess.run(["umount", room.path("old")], check=True)


def bind(source: str, name: str) -> bool:
    return subprocess.run(["mount", "--bind", source, name], stderr=subprocess.DEVNULL, check=False).returncode == 0


def right_places(room: Room, rows: bytes) -> None:
    """Where files are written, and what becomes of links, modes and names of others."""
    room.made("a new file", {"new": rows}, "transform", "p.bin", "in", "new")
    room.put("mode", b"old")
    os.chmod(room.path("mode"), 0o4640)
    room.made("a file with a mode", {"mode": rows}, "transform", "p.bin", "in", "mode")
    mode = os.stat(room.path("mode")).st_mode & 0o7777
    room.check("done, with the right bytes", "mode", None if mode == 0o4640 else f"{mode:o}")
    os.symlink("new", room.path("link"))
    room.made("a link", {"new": rows}, "transform", "p.bin", "in", "link")
    room.check("done, with the right bytes", "link", None if os.path.islink(room.path("link")) else "is none any more")
    os.symlink("absent", room.path("dangling"))
    room.made("a link to no file", {"absent": rows}, "transform", "p.bin", "in", "dangling")
    others = {"x.part": b"mine", "x.part1": b"mine", "in": room.read("in")}
    room.put("x.part", b"mine")
    room.put("x.part1", b"mine")
    os.symlink("in", room.path("x.part2"))
    room.made("names of others", {"x": rows, **others}, "transform", "p.bin", "in", "x")
    room.made("asm, names of others", {"x": room.read("p.bin"), **others}, "asm", "p.txt", "x")
    room.link("in", "x.part")
    room.made("asm, a link of another", {"x": room.read("p.bin"), "in": others["in"]}, "asm", "p.txt", "x")
    room.put("in", others["in"])
    room.made("a long name", {"n" * 255: rows}, "transform", "p.bin", "in", "n" * 255)
    room.made("/dev/null", {}, "transform", "p.bin", "in", "/dev/null")
    with open(room.path("to"), "wb") as file:
        room.made("/dev/stdout, a plain file", {"to": rows}, "transform", "p.bin", "in", "/dev/stdout", stdout=file)
    ran = room.call("transform", "p.bin", "in", "/dev/stdout")
    room.check("done, with the right bytes", "/dev/stdout, a pipe", None if ran.stdout == rows else "other rows")
    for closed in (0, 1, 2):
        how = {"stdin": None, "stdout": None, "stderr": None, "preexec_fn": lambda: os.close(closed)}
        how.update({("stdin", "stdout", "stderr")[k]: subprocess.DEVNULL for k in range(3) if k != closed})
        room.made(f"stream {closed} is closed", {"shut": rows}, "transform", "p.bin", "in", "shut", **how)


def limited(size: int) -> Callable[[], None]:
    """What a child does first: a file has room for `size` bytes, and a write past it fails."""
    def begin() -> None:
        signal.signal(signal.SIGXFSZ, signal.SIG_IGN)
        resource.setrlimit(resource.RLIMIT_FSIZE, (size, size))
    return begin


def failing(room: Room, rows: bytes) -> None:
    """Calls that fail on the way leave each file old, or new where it was put in place before."""
    three = ("transform", "each.bin", "in", "a", "b", "c")
    for name in "abc":
        room.put(name, b"old")
    for size in (0, 100, len(rows) - 1):
        room.fails("failed, with nothing changed", f"room for {size} bytes", "a", *three, preexec_fn=limited(size))
    room.fails("failed, with nothing changed", "no folder", "none/b", *three[:3], "a", "none/b", "c")
    room.fails("failed, with nothing changed", "no room in a device", "/dev/full", *three[:3], "a", "b", "/dev/full")
    room.put("bad", room.read("in") + b"x" * 100)
    ran = room.call(*three[:2], "bad", *three[3:])
    good = ran.returncode == 1 and all(room.read(name) == rows for name in "abc")
    room.check("refused batch, with the rows before it", "three OUTs", None if good else f"{ran.returncode} {ran.stderr!r}")
    room.put("b", b"old")
    room.put("c", b"old")
    room.put("under", b"old")
    if os.geteuid() == 0 and bind(room.path("under"), room.path("b")):
        ran = room.call(*three)
        left = [room.read(name) for name in "abc"]
        good = ran.returncode == 3 and ran.stderr.endswith(b"file b\n") and left == [rows, b"old", b"old"]
        good = good and not [it for it in os.listdir(room.folder) if ".part" in it]
        room.check("second of three can't be put in place: new, old, old", "mount", None if good else f"{ran} {left}")
        subprocess.run(["umount", room.path("b")], check=True)


def two_asm(room: Room, seconds: float) -> None:
    """Two writers of one image, and readers, who must meet one of the two images."""
    room.call("asm", "p.txt", "shared")
    wanted = {room.read("p.bin"), room.read("each.bin")}
    end, failed, seen, odd = time.monotonic() + seconds, [0], [0], [0]

    def write(text: str) -> None:
        while time.monotonic() < end:
            failed[0] += room.call("asm", text, "shared").returncode != 0

    def read() -> None:
        while time.monotonic() < end:
            seen[0] += 1
            odd[0] += room.read("shared") not in wanted

    threads = [threading.Thread(target=write, args=(it,)) for it in ("p.txt", "each.txt")]
    threads += [threading.Thread(target=read) for _ in range(2)]
    for it in threads:
        it.start()
    for it in threads:
        it.join()
    print(f"two asm of one image: {seen[0]} reads, {odd[0]} of another image, {failed[0]} calls failed")
    room.check("two asm of one image", "reads and calls", None if odd[0] + failed[0] == 0 else "see above")


def kills(room: Room, rows: bytes, count: int, chance: random.Random) -> None:
    """Calls that are killed at random moments leave each OUT old or new."""
    words = [room.klog, "transform", "each.bin", "in", "a", "b", "c"]
    quiet = {"cwd": room.folder, "stdout": subprocess.DEVNULL, "stderr": subprocess.DEVNULL, "stdin": subprocess.DEVNULL}
    began = time.monotonic()
    subprocess.run(words, check=True, **quiet)
    whole, old, new, odd, parts, ended = time.monotonic() - began, 0, 0, 0, 0, 0
    for _ in range(count):
        for name in "abc":
            room.put(name, b"old")
        with subprocess.Popen(words, **quiet) as child:
            time.sleep(chance.random() * whole * 1.1)
            child.kill()
        ended += child.returncode == 0
        for name in "abc":
            left = room.read(name)
            old, new, odd = old + (left == b"old"), new + (left == rows), odd + (left not in (b"old", rows))
        for it in os.listdir(room.folder):
            if ".part" in it:
                parts += 1
                os.remove(room.path(it))
    print(f"{count} kills, {ended} too late: {old} OUTs old, {new} new, {odd} other; {parts} files beside them were left")
    room.check("kills", "each OUT is old or new", None if odd == 0 else "see above")


def write_slowly(pipe: int, content: bytes) -> None:
    """Writes twenty pieces to a pipe, up to its reader's end, and closes it."""
    piece = max(1, len(content) // 20)
    try:
        for at in range(0, len(content), piece):
            time.sleep(0.01)
            left = content[at:at + piece]
            while left:
                left = left[os.write(pipe, left):]
    except BrokenPipeError:
        pass
    os.close(pipe)


def not_blocking(room: Room, rows: bytes) -> None:
    """Pipes that don't block, with a slow writer and a slow reader."""
    batches = room.read("in")
    end, source = os.pipe()
    os.set_blocking(end, False)
    child = subprocess.Popen([room.klog, "transform", "p.bin", "stdin", "slow"], cwd=room.folder, stdin=end,
                             stdout=subprocess.DEVNULL, stderr=subprocess.PIPE)
    os.close(end)
    write_slowly(source, batches)
    child.communicate(timeout=600)
    good = child.returncode == 0 and room.read("slow") == rows
    room.check("streams that don't block", "standard input", None if good else f"status {child.returncode}")
    source, end = os.pipe()
    os.set_blocking(end, False)
    child = subprocess.Popen([room.klog, "transform", "p.bin", "in", "stdout"], cwd=room.folder, stdin=subprocess.DEVNULL,
                             stdout=end, stderr=subprocess.DEVNULL)
    os.close(end)
    time.sleep(0.3)
    with open(source, "rb") as file:
        got = file.read()
    good = child.wait(60) == 0 and got == rows
    room.check("streams that don't block", "standard output", None if good else f"{child.returncode}, {len(got)} bytes")


def main(words: list[str]) -> int:
    if len(words) not in (1, 2) or not (len(words) == 1 or words[1].isdigit()):
        print(__doc__)
        return 2
    klog, count = shutil.which(os.path.abspath(words[0])), int(words[1]) if len(words) == 2 else 200
    if klog is None:
        print(f"file_attacks: {words[0]} can't be run", file=sys.stderr)
        return 2
    attacks = [(1, lambda room, rows: one_file(room)), (1, right_places), (1, failing), (500, not_blocking),
               (1, lambda room, rows: two_asm(room, 5)), (2000, lambda room, rows: kills(room, rows, count, random.Random(7)))]
    wrong, tried = [], 0
    for copies, attack in attacks:
        with tempfile.TemporaryDirectory() as folder:
            room, rows = new_room(klog, folder, copies)
            attack(room, rows)
            for kind, (right, all_) in room.counts.items():
                print(f"{kind}: {right} of {all_}")
                tried += all_
            wrong += room.wrong
    print(*wrong, f"{tried} attacks, {len(wrong)} that did harm", sep="\n")
    return 1 if wrong else 0


if __name__ == "__main__":
    sys.exit(main(sys.argv[1:]))
