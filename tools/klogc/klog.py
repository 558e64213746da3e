"""Runs klog: it checks images, and runs them on records."""
import collections
import os
import re
import shutil
import subprocess
import tempfile

from second_broker import Record as Spelled, spell

from .meaning import Emission, Record
from .program import Refused

TOP = os.path.dirname(os.path.dirname(os.path.dirname(os.path.abspath(__file__))))
PLACES = (os.path.join(TOP, "crates", "klog", "out", "klog"), os.path.join(TOP, "out", "klog"))
INPUTS, SECONDS = 64, 600


def found_klog(given=None):
    """The klog that is named, that on the path, the proved one of this repository, or that of quick_build.sh; or None."""
    return given or shutil.which("klog") or next(filter(os.path.exists, PLACES), None)


class Klog:
    def __init__(self, given=None):
        self.program = found_klog(given)
        if self.program is None:
            raise Refused("there is no klog: name one by --klog, have it on the path, or build it by tools/quick_build.sh")

    def call(self, *words, given=None):
        try:
            return subprocess.run([self.program, *words], input=given, capture_output=True, text=True, check=False, timeout=SECONDS)
        except OSError as fault:
            raise Refused(f"{self.program}: {fault.strerror}") from None
        except subprocess.TimeoutExpired:
            raise Refused(f"{self.program} takes more than {SECONDS} seconds") from None

    def check(self, data):
        """The fault of a program file, or None."""
        with tempfile.TemporaryDirectory(prefix="klogc-") as folder:
            path = os.path.join(folder, "it.program")
            with open(path, "wb") as it:
                it.write(data)
            done = self.call("check", path)
        said = done.stderr.strip().split("\n")[0]
        return None if re.fullmatch(r"accepted \d+ instructions\n", done.stdout) else said or f"status {done.returncode}"

    def outcomes(self, data, records: list[Record], outputs):
        """Of each record its reject code or its emissions, by a program file. Each is the first record of an input of its own."""
        found = []
        with tempfile.NamedTemporaryFile(prefix="klogc-") as program:
            program.write(data)
            program.flush()
            for at in range(0, len(records), INPUTS):
                found += self._outcomes(program.name, records[at:at + INPUTS], outputs)
        return found

    def _outcomes(self, program, records, outputs):
        lines = [f"partitions {len(records)} {outputs} 8", f"load it {program}"]
        for k, record in enumerate(records):
            batch = spell([Spelled(0, record.key, record.value, record.headers)], record.timestamp, -1, 0)
            lines += [f"deploy {k} it", f"append {k} hex:{batch.hex()}"]
        done = self.call("run", "stdin", given="\n".join([*lines, "go", ""]))
        if done.returncode:
            raise Refused(f"klog refuses the program or a record: {done.stderr.strip()}")
        rejected = {int(k): int(code) for k, code in re.findall(r"^in (\d+) reject (\d+) count 1$", done.stdout, re.M)}
        rows = collections.defaultdict(list)
        for line in done.stdout.split("\n"):
            if line.startswith("row "):
                output, k, _, number, _, key, value, _ = line.split(" ")[1:]
                rows[int(k)].append((int(number), Emission(int(output), part(key), part(value))))
        return [rejected[k] if k in rejected else [e for _, e in sorted(rows[k], key=lambda row: row[0])] for k in range(len(records))]


def part(text):
    return None if text == "-" else b"" if text == "." else bytes.fromhex(text)
