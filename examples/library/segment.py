#!/usr/bin/env python3
"""Runs a program on the record batches of a file, as a segment of a Kafka log has them, and prints what it makes of each.

segment.py LIBRARY IMAGE FILE OUT .., where LIBRARY is libklog.so; the batches of each output go to a file of its own
"""
import contextlib
import sys

from klog_engine import BatchFault, Engine, Fault, Program

MOST_BYTES = 4194304  # of a batch


def batches(file):
    """The batches of a file, one after the other: the length of each is in its bytes 8 to 11."""
    while front := file.read(12):
        yield front + file.read(min(int.from_bytes(front[8:12], "big"), MOST_BYTES))


def renumbered(written, offset):
    """Batches with offsets from one on, as a broker gives them: the checksum of a batch does not cover its first bytes."""
    written, at = bytearray(written), 0
    while at < len(written):
        written[at:at + 8] = offset.to_bytes(8, "big")
        offset += int.from_bytes(written[at + 57:at + 61], "big")
        at += 12 + int.from_bytes(written[at + 8:at + 12], "big")
    return written


def main(library, image, name, *outs):
    offset, kept, rows, rejects, byte = 0, 0, [0] * len(outs), {}, 0
    with contextlib.ExitStack() as files, open(image, "rb") as code, open(name, "rb") as file:
        program = files.enter_context(Program(Engine(library), code.read()))
        files_out = [files.enter_context(open(out, "wb")) for out in outs]
        for number, batch in enumerate(batches(file)):
            try:
                made = program.transform(batch, offset, outputs=len(outs))
            except BatchFault as fault:
                raise Fault(f"batch {number} at byte {byte}: {fault.text}") from None
            offset, kept, byte = offset + made.records, kept + made.kept, byte + len(batch)
            for code, count in made.rejects:
                rejects[code] = rejects.get(code, 0) + count
            for k, (count, _, written) in enumerate(made.outputs):
                files_out[k].write(renumbered(written, rows[k]))
                rows[k] += count
    print(f"records {offset} kept {kept} rejected {rejects} rows {rows}")


if __name__ == "__main__":
    if len(sys.argv) < 5:
        sys.exit(__doc__)
    try:
        main(*sys.argv[1:])
    except (Fault, OSError) as fault:
        sys.exit(f"{sys.argv[2]}: {fault}")
