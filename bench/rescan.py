#!/usr/bin/env python3
"""Compares `grib rescan` and `grib crop` with a reader of grids in Python and with CDO: rescan.py PROGRAM FILE..

Needs cdo (Debian: cdo). Each message of edition 2 is handed over by itself. After `rescan` each field has to print by
`dump` at each index pair the point that it had there, and a second `rescan` has to change nothing. Of a grid that is
then cut to a subarea, `crop` has to print the points of the subarea, and `cdo selindexbox` has to give the same numbers: its
values are computed back by the reference value and the scale factors. Where a message is not changed, its cause has to be
that of its Section 3. Prints for each file what agrees, what is not changed by its cause, and what differs."""
import collections
import subprocess
import sys
import tempfile

from grids import grids, number
from messages import messages, our_fields


def run(words, octets):
    return subprocess.run(words, input=octets, capture_output=True)


def place(scanning, ni, nj, n):
    """The column from the west and the row from the north of point n, from 0."""
    j, i = divmod(n, ni) if not scanning & 32 else divmod(n, nj)[::-1]
    if scanning & 16 and not scanning & 32 and j % 2:
        i = ni - 1 - i
    if scanning & 16 and scanning & 32 and i % 2:
        j = nj - 1 - j
    return (ni - 1 - i if scanning & 128 else i, nj - 1 - j if scanning & 64 else j)


def cause(sections):
    """Why `rescan` keeps the message, by its grids alone."""
    for section in sections:
        if number(section, 13, 14) or section[10]:
            return "GridKind"
        if section[71] % 16:
            return "ScanMode"
    return None


def size(section):
    return number(section, 31, 34), number(section, 35, 38)


def points_at(field, section):
    ni, nj = size(section)
    return {place(section[71], ni, nj, n): point for n, point in enumerate(field[3])}


def dumped(program, message):
    return our_fields(run([program, "dump"], message).stdout.decode())


def by_cdo(message, box):
    """The values of the subarea by CDO, None where missing."""
    i0, i1, j0, j1 = box
    with tempfile.NamedTemporaryFile(suffix=".grib2") as file:
        file.write(message)
        file.flush()
        words = ["cdo", "-s", "outputf,%.17g,1", f"-selindexbox,{i0 + 1},{i1 + 1},{j0 + 1},{j1 + 1}",
                 "-setmissval,-9e33", file.name]
        text = run(words, b"")
    if text.returncode != 0:
        return None
    values = [float(word) for word in text.stdout.decode().split()]
    return [None if value < -8e33 else value for value in values]


def scaled(field, values):
    reference, binary, decimal, _ = field
    return [None if value is None else round((value * 10.0**decimal - reference) / 2.0**binary) for value in values]


def crop(program, message, counts):
    """Cuts a quarter out of a message in the order of scanning octet 0."""
    before, sections = dumped(program, message), grids(message)
    ni = min(size(section)[0] for section in sections)
    nj = min(size(section)[1] for section in sections)
    box = i0, i1, j0, j1 = ni // 4, max(ni // 4, 3 * ni // 4 - 1), nj // 4, max(nj // 4, 3 * nj // 4 - 1)
    words = ["crop", f"i0={i0}", f"i1={i1}", f"j0={j0}", f"j1={j1}"]
    cut = run([program] + words, message)
    if cut.returncode != 0:
        counts["not cut: " + cut.stderr.decode().split()[3]] += 1
        return
    after = dumped(program, cut.stdout)
    counts["fields cut"] += len(before)
    for field, old, section in zip(after, before, sections):
        was = points_at(old, section)
        wanted = [was[i, j] for j in range(j0, j1 + 1) for i in range(i0, i1 + 1)]
        counts["DIFFER after crop"] += field[3] != wanted
    counts["DIFFER in their number after crop"] += len(after) != len(before)
    if len(before) == 1:
        theirs = by_cdo(message, box)
        if theirs is None:
            counts["not read by CDO"] += 1
        else:
            counts["fields as CDO has them"] += 1
            counts["DIFFER from CDO"] += scaled(before[0], theirs) != after[0][3]


def rescan(program, message, counts):
    if run([program, "check"], message).returncode != 0:
        counts["refused"] += 1
        return
    counts["messages"] += 1
    sections = grids(message)
    turned = run([program, "rescan"], message)
    if turned.returncode != 0:
        words = turned.stderr.decode().split()
        counts["kept: " + words[3]] += 1
        counts["DIFFER in the cause"] += cause(sections) != words[3]
        return
    before, after = dumped(program, message), dumped(program, turned.stdout)
    counts["fields"] += len(before)
    counts["fields in another order"] += sum(section[71] != 0 for section in sections)
    counts["DIFFER in the cause"] += cause(sections) is not None
    counts["DIFFER in their number"] += len(after) != len(before)
    for old, new, section, own in zip(before, after, sections, grids(turned.stdout)):
        counts["DIFFER"] += points_at(old, section) != points_at(new, own) or own[71] != 0 or old[:3] != new[:3]
    counts["DIFFER after a second rescan"] += run([program, "rescan"], turned.stdout).stdout != turned.stdout
    crop(program, turned.stdout, counts)


def main():
    program, failed = sys.argv[1], False
    for path in sys.argv[2:]:
        counts = collections.Counter()
        for message in messages(open(path, "rb").read()):
            if message[7] == 2:
                rescan(program, message, counts)
        failed |= any("DIFFER" in what and count for what, count in counts.items())
        print(path + ": " + ", ".join(f"{count} {what}" for what, count in counts.items() if count), flush=True)
    sys.exit(failed)


main()
