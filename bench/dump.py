#!/usr/bin/env python3
"""Compares `grib dump` with ecCodes on files, value by value: dump.py PROGRAM FILE..

Needs grib_get_data of ecCodes (Debian: libeccodes-tools). Each message is handed to both by
itself. Of each value that ecCodes gives, the scaled integer is computed back by the reference value and the
scale factors that PROGRAM prints, and has to be the one that PROGRAM prints for that point. Prints a line
for each file and edition: messages, fields and points that agree, refusals by their reason, and what differs."""
import collections
import sys

from eccodes import run, values_of_fields
from messages import messages, our_fields


def their_fields(message):
    """For each field its values, None where missing."""
    fields = values_of_fields(message)
    return fields and [[None if text == "missing" else float(text) for text in field] for field in fields]


def agrees(ours, theirs):
    reference, binary, decimal, points = ours
    scaled = [None if value is None else round((value * 10.0**decimal - reference) / 2.0**binary) for value in theirs]
    key = lambda number: (number is None, number or 0)
    return scaled == points or sorted(scaled, key=key) == sorted(points, key=key)


def compared(program, message, counts):
    """Counts what comes of a message."""
    counts["messages"] += 1
    done = run([program, "dump"], message)
    if done.returncode != 0:
        counts["refused " + " ".join(done.stderr.decode().split()[5:])] += 1
        return
    ours, theirs = our_fields(done.stdout.decode()), their_fields(message)
    if theirs is None:
        counts["accepted, and ecCodes fails"] += 1
        return
    counts["fields differ in number"] += len(ours) != len(theirs)
    for one, other in zip(ours, theirs):
        counts["fields that agree" if agrees(one, other) else "fields that DIFFER"] += 1
        counts["points"] += len(one[3])


def main():
    program, failed = sys.argv[1], False
    for path in sys.argv[2:]:
        data = open(path, "rb").read()
        for edition in 1, 2:
            counts = collections.Counter()
            for message in messages(data, edition):
                compared(program, message, counts)
            failed |= counts["fields that DIFFER"] + counts["fields differ in number"] > 0
            if counts:
                told = ", ".join(f"{number} {what}" for what, number in counts.items() if number)
                print(f"{path}, edition {edition}: {told}")
    sys.exit(failed)


main()
