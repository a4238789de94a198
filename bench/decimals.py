#!/usr/bin/env python3
"""Compares the texts of `grib dump decimals=` with exact fractions: decimals.py PROGRAM FILE..

Each message is handed to PROGRAM by itself, with 18 decimals, or with as many as hold all its values. The value of
each point is computed as a fraction from the scaled integer, the reference value and the scale factors that
`dump` prints, and rounded half to even; the text has to be that one. Where fewer than 18 decimals hold, one more
has to be refused at the first point whose numerator or denominator is 2^126 or more. Prints what was compared."""
import collections
import sys
from fractions import Fraction

from eccodes import fields_of, run
from messages import messages

BOUND = 2**126


def dumped(program, words, message):
    done = run([program, "dump", *words], message)
    return done.returncode, done.stdout.decode().splitlines(), done.stderr.decode().strip()


def expected(mantissa, exponent, binary, decimal, text, places):
    """The text of a value, None where it is too large."""
    if text.startswith("missing"):
        return text
    unit = min(exponent, binary)
    number = mantissa * 2 ** (exponent - unit) + int(text) * 2 ** (binary - unit)
    above = abs(number) * 2 ** max(unit, 0) * 10 ** max(places - decimal, 0)
    below = 2 ** max(-unit, 0) * 10 ** max(decimal - places, 0)
    if number and (above >= BOUND or below >= BOUND):
        return None
    rounded = round(Fraction(above, below) * (-1 if number < 0 else 1))
    digits = str(abs(rounded)).rjust(places + 1, "0")
    point = f"{digits[:-places]}.{digits[-places:]}" if places else digits
    return ("-" if rounded < 0 else "") + point


def wanted(fields, places):
    """The texts of all fields, or the first field and point that are too large."""
    texts = []
    for number, (*scale, points) in enumerate(fields, 1):
        of_field = [expected(*scale, text, places) for text in points]
        if None in of_field:
            return None, (number, of_field.index(None) + 1)
        texts.append(of_field)
    return texts, None


def compared(program, message, counts):
    counts["messages"] += 1
    status, lines, _ = dumped(program, [], message)
    if status != 0:
        counts["not dumped"] += 1
        return
    fields = fields_of(lines)
    for places in range(18, -1, -1):
        texts, out = wanted(fields, places)
        status, lines, note = dumped(program, [f"decimals={places}"], message)
        if out is None:
            given = [field[4] for field in fields_of(lines)]
            agrees = status == 0 and given == texts
            counts[f"{places} places"] += len(fields)
            counts["points that agree" if agrees else "messages that differ"] += sum(map(len, texts)) if agrees else 1
            return
        field, point = out
        if status != 3 or lines or note != f"kept message 1 DecimalRange field {field} point {point}":
            counts["messages that differ"] += 1
            return
    counts["kept with 0 places"] += 1


def main():
    counts = collections.Counter()
    for name in sys.argv[2:]:
        with open(name, "rb") as file:
            data = file.read()
        for edition in (1, 2):
            for message in messages(data, edition):
                compared(sys.argv[1], message, counts)
    for what, count in sorted(counts.items()):
        print(count, what)


if __name__ == "__main__":
    main()
