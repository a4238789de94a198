#!/usr/bin/env python3
"""Tries `grib compare` on real files: compare.py PROGRAM FILE..

Each message of the files that is accepted is compared with itself, with itself packed anew in four ways, and, where it is
of edition 1, with what `migrate` makes of it: all have to be the same. Then one bit of one number of a field in simple
packing is changed: that point has to be named, on either side. Prints what was tried."""
import collections
import random
import subprocess
import sys
import tempfile
from pathlib import Path

from messages import messages, sections

TOP = Path(__file__).resolve().parent.parent
PACKINGS = (["to=0"], ["to=2"], ["to=3", "order=1"], ["to=3", "order=2"])


def run(program, words, message):
    done = subprocess.run([program, *words], input=message, capture_output=True)
    return done.returncode, done.stdout


def compare(program, folder, message, other, *words):
    file = f"{folder}/other"
    Path(file).write_bytes(other)
    return run(program, ["compare", f"with={file}", *words], message)


def changed(message, pick):
    """A message of one field in simple packing with the last bit of one number changed, and the point, from 1."""
    at = {number: start for start, _, number in sections(message)}
    values = int.from_bytes(message[at[5] + 5 : at[5] + 9], "big")
    points = int.from_bytes(message[at[3] + 6 : at[3] + 10], "big")
    bits = message[at[5] + 19]
    if not bits or not values:
        return None
    number = pick(values)
    bit = (number + 1) * bits - 1
    octets = bytearray(message)
    octets[at[7] + 5 + bit // 8] ^= 0x80 >> bit % 8
    mask = message[at[6] + 6 :]
    present = range(points) if message[at[6] + 5] == 255 else [k for k in range(points) if mask[k // 8] & 0x80 >> k % 8]
    return bytes(octets), present[number] + 1


def main():
    program, *files = sys.argv[1:]
    pick = random.Random(1).randrange
    counts, wrong = collections.Counter(), 0
    table = TOP / "params" / "standard.csv"

    def expect(what, got, wanted):
        nonlocal wrong
        counts[what] += 1
        if got != wanted:
            wrong += 1
            print(f"{file}: {what}: {got} and not {wanted}", file=sys.stderr)

    with tempfile.TemporaryDirectory() as folder:
        for file in files:
            data = Path(file).read_bytes()
            for message in [*messages(data, 1), *messages(data, 2)]:
                status, told = run(program, ["check"], message)
                if status:
                    counts["refused"] += 1
                    continue
                fields = int(told.split()[-3])
                same = (0, f"fields {fields} same {fields} differ 0 only-input 0 only-file 0\n".encode())
                expect("itself", compare(program, folder, message, message, "quiet=yes", "sections=all"), same)
                if message[7] == 1:
                    status, migrated = run(program, ["migrate", f"params={table}", "local=keep"], message)
                    if status:
                        counts["not migrated"] += 1
                        continue
                    expect("migrated", compare(program, folder, message, migrated, "quiet=yes"), same)
                    message = migrated
                for packing in PACKINGS:
                    status, other = run(program, ["repack", *packing], message)
                    if status:
                        counts["not packed anew"] += 1
                        continue
                    expect("packed anew", compare(program, folder, message, other, "quiet=yes", "sections=all"), same)
                    if packing == ["to=0"] and fields == 1 and (found := changed(other, pick)):
                        octets, point = found
                        line = f"1.1 differs point {point}\nfields 1 same 0 differ 1 only-input 0 only-file 0\n".encode()
                        expect("one bit", compare(program, folder, message, octets), (12, line))
                        expect("one bit, turned", compare(program, folder, octets, message), (12, line))
    print(", ".join(f"{count} {what}" for what, count in counts.items()) + f": {wrong} wrong")
    return wrong > 0


if __name__ == "__main__":
    sys.exit(main())
