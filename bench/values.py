#!/usr/bin/env python3
"""Compares the arrays of `grib values` with exact fractions, bit for bit: values.py PROGRAM FILE..

Each message is handed to PROGRAM by itself, with `as=f8` and with `as=f4`. The header of each array has to be that of
NumPy's form .npy 1.0, with the shape by Ni, Nj and the scanning mode that `keys` prints (of edition 1 by its Section 2),
and the words of the points those of the fractions of Python, from the scaled number, the reference value and the scale
factors that `dump` prints, rounded once, half to even; missing points are the quiet NaN. Prints what was compared."""
import collections
import struct
import sys

from eccodes import exact, fields_of, run
from messages import messages

# How many digits a significand has, the greatest exponent, the form of a word, and the word of a quiet NaN.
FORMATS = {"f8": (53, 1023, "<Q", 0x7FF8000000000000), "f4": (24, 127, "<I", 0x7FC00000)}


def word_of(value, digits, most):
    """The word of the number that is nearest to a fraction, ties to even."""
    number = abs(value) * 2 ** (most + digits - 2)
    dropped = max((number.numerator // number.denominator).bit_length() - digits, 0)
    rounded = dropped * 2 ** (digits - 1) + round(number / 2**dropped)
    word = min(rounded, (2 * most + 1) * 2 ** (digits - 1))
    return word + (2 * most + 2) * 2 ** (digits - 1) if value < 0 else word


def words_of(field, name):
    """The octets of all points of a field; a value that several points have is found once."""
    *scale, points = field
    digits, most, form, nan = FORMATS[name]
    found = {}
    for text in set(points):
        word = nan if text.startswith("missing") else word_of(exact(*scale, int(text)), digits, most)
        found[text] = struct.pack(form, word)
    return b"".join(found[text] for text in points)


def shapes_2(program, message):
    """The shape of each field of a message of edition 2; None for a grid with a list of rows."""
    lines = run([program, "keys"], message).stdout.decode().splitlines()
    for line in lines:
        keys = dict(word.split("=") for word in line.split()[1:])
        if "missing" in (keys["ni"], keys["nj"]) or int(keys["ni"]) * int(keys["nj"]) != int(keys["points"]):
            yield None
            continue
        ni, nj = int(keys["ni"]), int(keys["nj"])
        yield (ni, nj) if int(keys["scanning"]) & 0x20 else (nj, ni)


def shapes_1(message):
    """That of the field of a message of edition 1."""
    section2 = message[8 + int.from_bytes(message[8:11], "big") :]
    ni, nj = int.from_bytes(section2[6:8], "big"), int.from_bytes(section2[8:10], "big")
    if ni == 65535:
        yield None
    else:
        yield (ni, nj) if section2[27] & 0x20 else (nj, ni)


def header_of(name, shape):
    text = f"{{'descr': '<{name}', 'fortran_order': False, 'shape': {shape}, }}"
    return b"\x93NUMPY\x01\0" + struct.pack("<H", 118) + text.ljust(117).encode() + b"\n"


def compared(program, edition, message, counts):
    counts["messages"] += 1
    dumped = run([program, "dump"], message)
    if dumped.returncode != 0:
        counts["not dumped"] += 1
        return
    fields = fields_of(dumped.stdout.decode().splitlines())
    shapes = list(shapes_2(program, message) if edition == 2 else shapes_1(message))
    for name in FORMATS:
        expected = b""
        for field, shape in zip(fields, shapes, strict=True):
            points = len(field[4])
            counts["arrays of points alone" if shape is None else "arrays of rows or columns"] += 1
            expected += header_of(name, shape or (points,)) + words_of(field, name)
            counts[f"points as {name}"] += points
        given = run([program, "values", f"as={name}"], message)
        if (given.returncode, given.stdout) != (0, expected):
            counts["messages that differ"] += 1


def main():
    counts = collections.Counter()
    for name in sys.argv[2:]:
        with open(name, "rb") as file:
            data = file.read()
        for edition in (1, 2):
            for message in messages(data, edition):
                compared(sys.argv[1], edition, message, counts)
    for what, count in sorted(counts.items()):
        print(count, what)


if __name__ == "__main__":
    main()
