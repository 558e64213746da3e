#!/usr/bin/env python3
"""Ends klog's standard output at every byte, and compares what is written, printed and returned.

    tools/dev/cut_output.py KLOG [SCRIPT ...]     # KLOG: the built program; the scripts of examples/ if none is named

Each script is run once with room for all that it prints. Then it is run for each byte of that output with a file that takes
no more than the bytes before it (the limit on file size, as a full disk has), once with a standard output that is
closed, once with /dev/full and once with a pipe that nobody reads. Each of these must end with status 3 and `file stdout` alone on
standard error, and the file must hold the output's beginning up to the limit, at most.
"""
import os
import resource
import signal
import subprocess
import sys
import tempfile
from pathlib import Path

EXAMPLES = Path(__file__).resolve().parents[2] / "examples"


def limited(size):
    """What a child does first: a write past `size` bytes fails, and does not end it."""
    def begin():
        signal.signal(signal.SIGXFSZ, signal.SIG_IGN)
        resource.setrlimit(resource.RLIMIT_FSIZE, (size, size))
    return begin


def cut_at(klog, script, size, whole):
    """What is wrong with a run whose output has room for `size` bytes, or nothing."""
    with tempfile.TemporaryFile() as out:
        ran = subprocess.run([klog, "run", script.name], cwd=script.parent, stdout=out, stderr=subprocess.PIPE, preexec_fn=limited(size), timeout=600)
        out.seek(0)
        written = out.read()
    if (ran.returncode, ran.stderr) != (3, b"file stdout\n"):
        return f"{script.name} cut at {size}: status {ran.returncode}, {ran.stderr!r}"
    if len(written) > size or not whole.startswith(written):
        return f"{script.name} cut at {size}: {len(written)} bytes that are not its beginning"
    return None


def lost(klog, script):
    """What is wrong with runs whose output is closed, full, or a pipe without a reader."""
    reader, writer = os.pipe()
    os.close(reader)
    outputs = {"/dev/full": os.open("/dev/full", os.O_WRONLY), "a pipe that nobody reads": writer, "closed": None}
    for name, output in outputs.items():
        begin = (lambda: os.close(1)) if output is None else (lambda: signal.signal(signal.SIGPIPE, signal.SIG_IGN))
        ran = subprocess.run([klog, "run", script.name], cwd=script.parent, stdout=output, stderr=subprocess.PIPE, preexec_fn=begin, timeout=600)
        if output is not None:
            os.close(output)
        if (ran.returncode, ran.stderr) != (3, b"file stdout\n"):
            yield f"{script.name} with {name}: status {ran.returncode}, {ran.stderr!r}"


def main():
    if len(sys.argv) < 2:
        sys.exit(__doc__)
    klog = str(Path(sys.argv[1]).resolve())
    scripts = [Path(name).resolve() for name in sys.argv[2:]] or sorted(EXAMPLES.glob("*.klog"))
    runs, wrong = 0, []
    for script in scripts:
        whole = subprocess.run([klog, "run", script.name], cwd=script.parent, stdout=subprocess.PIPE, check=True, timeout=600).stdout
        found = [cut_at(klog, script, size, whole) for size in range(len(whole))]
        wrong += [text for text in found if text] + list(lost(klog, script))
        runs += len(whole) + 3
    for text in wrong:
        print(text)
    print(f"{len(scripts)} scripts, {runs} runs, {len(wrong)} wrong")
    sys.exit(1 if wrong else 0)


if __name__ == "__main__":
    main()
