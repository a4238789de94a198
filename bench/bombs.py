#!/usr/bin/env python3
"""How much time and memory a few octets can take that stand for the most points: bombs.py PROGRAM [FIELDS]

Each message has one grid of 33,554,432 points, the limit, in a few octets: in CCSDS packing as runs of zero blocks to the
end of each segment, in the fewest octets that they can have (blocks of 64 values, intervals of 4,096 blocks; of 8 bits and
of 32 bits a number, and of 1 bit with short identifiers), and as one run for each interval; in simple packing of 0 bits;
in complex packing as one group of width 0; and, for comparison, in simple packing of 8 bits, in as many octets as there are
points. Others have one point more, a run that goes past its interval, and coded bits that end before the last block. Each
command runs on each, with `profile=open` and its output to /dev/null. At last a message has FIELDS such fields (256), for
the commands that take no memory for points.

Prints for each run the status, the note, the processor time, the user's and the system's, and the most memory."""
import os
import shutil
import subprocess
import sys
import tempfile

from messages import message_of, section

NI, NJ = 8192, 4096
FEW = [["check"], ["list"], ["stats"]]  # commands that take no memory for points
COMMANDS = [["check"], ["list"], ["stats"], ["dump"], ["values"], ["repack", "to=0"], ["repack", "to=42"], ["repack", "to=least"]]


def number(value, octets):
    return value.to_bytes(octets, "big")


def grid(points, ni, nj):
    """Section 3: template 3.0."""
    angles = number(90_000_000, 4) + bytes(4) + b"\x30" + number(0x80000000 + 90_000_000, 4) + number(359_000_000, 4)
    return section(3, b"\0" + number(points, 4) + b"\0\0\0\0\x06" + b"\xff" * 15 + number(ni, 4) + number(nj, 4) + bytes(4) + b"\xff" * 4
                   + angles + b"\xff" * 8 + b"\0")


def data(points, template, bits, rest, seven):
    """Sections 5 to 7 without a bitmap: R = 1, E and D 0."""
    five = section(5, number(points, 4) + number(template, 2) + bytes.fromhex("3F800000") + bytes(4) + bytes([bits, 0]) + rest)
    return five + section(6, b"\xff") + section(7, seven)


def message(points, fields, ni=NI, nj=NJ):
    """A message of these fields on one grid."""
    one = section(1, bytes.fromhex("00620000020001 07E8010F0C00000001"))
    four = section(4, bytes.fromhex("0000 0000 00 00 02 FF 01 0000 00 01 00000006 67 00 00000002 FF FF FFFFFFFF"))
    return message_of([one, grid(points, ni, nj), *(four + field for field in fields)])


def padded(bits):
    return int(bits + "0" * (-len(bits) % 8), 2).to_bytes((len(bits) + 7) // 8, "big")


def coded(points, bits, flags, width, interval, run):
    """Zero blocks of 64 values, by runs of this number, each of which covers 64 blocks or a whole interval; the reference of
    each interval is the greatest number."""
    blocks = (points + 63) // 64
    covers, at, text = 64 if run == 4 else run, 0, []
    while at < blocks:
        text.append("0" * width + "0" + ("1" * bits if at % interval == 0 else "") + "0" * run + "1")
        at += covers
    return data(points, 42, bits, bytes([flags, 64]) + number(interval, 2), padded("".join(text)))


def inputs(fields):
    points = NI * NJ
    of_8 = coded(points, 8, 14, 3, 4096, 4)
    group = bytes([1, 0]) + b"\xff" * 8 + number(1, 4) + bytes([0, 0]) + number(0, 4) + b"\1" + number(points, 4) + bytes([0])
    yield "5.42, 8 bits, runs to the end of a segment", message(points, [of_8])
    yield "5.42, 32 bits, the same", message(points, [coded(points, 32, 14, 5, 4096, 4)])
    yield "5.42, 1 bit, short identifiers", message(points, [coded(points, 1, 30, 1, 4096, 4)])
    yield "5.42, 8 bits, a run for each interval", message(points, [coded(points, 8, 14, 3, 4096, 4096)])
    yield "5.0, 0 bits", message(points, [data(points, 0, 0, b"", b"")])
    yield "5.2, one group of width 0", message(points, [data(points, 2, 8, group, b"\xff")])
    yield "5.0, 8 bits", message(points, [data(points, 0, 8, b"", b"\xff" * points)])
    yield "5.42, one point more than the limit", message(points + 1, [coded(points + 1, 8, 14, 3, 4096, 4)], points + 1, 1)
    yield "5.42, a run past its interval", message(points, [coded(points, 8, 14, 3, 4096, 4097)])
    yield "5.42, a block is not there", message(points, [coded(points - 64 * 64, 8, 14, 3, 4096, 4).replace(number(points - 64 * 64, 4), number(points, 4), 1)])
    yield f"5.42, {fields} fields of the first kind", message(points, [of_8] * fields)


def groups(points, order=(), bits=0):
    """Section 5 from octet 22 on for as many groups as points, without missing values: of 5.2, and of 5.3 with an order and its
    octets. None of them has a bit, or each has one bit of its length, which is to be set."""
    return b"\1\0" + b"\xff" * 8 + number(points, 4) + b"\0\0" + number(1 - bits, 4) + b"\1" + number(1, 4) + bytes([bits, *order])


def scaled(points, binary, decimal, bits, seven):
    """Sections 5 to 7 in simple packing with these scale factors."""
    factors = b"".join(number(abs(one) + (0x8000 if one < 0 else 0), 2) for one in (binary, decimal))
    return section(5, number(points, 4) + b"\0\0" + bytes.fromhex("42F6E666") + factors + bytes([bits, 0])) + section(6, b"\xff") + section(7, seven)


def nested(count, inner):
    """So many marks inside one another: each begins a Section 1 that holds those after it, and all have the other sections of a
    message, whose end mark is wrong. So each of them is judged over its own octets, and refused at their end."""
    first = 16 + int.from_bytes(inner[16:20], "big")
    held, rest = inner[21:first], inner[first:-1] + b"6"
    for _ in range(count):
        head = number(len(held) + 5, 4) + b"\1"
        held = b"GRIB\0\0\0\2" + number(16 + len(head) + len(held) + len(rest), 8) + head + held
    return held + rest


def few_octets():
    """What costs the most for its octets: what it is, its octets, how many points are read in it, and the commands to try."""
    points, half = NI * NJ, NI * NJ // 2
    no_bits = data(points, 2, 0, groups(points), b"")
    yield "as many groups as points, of no bits", message(points, [no_bits]), points, [["check"], ["stats"], ["values"], ["repack", "to=2"]]
    second = data(points, 3, 0, groups(points, (2, 0)), b"")
    yield "the same with differences of order 2", message(points, [second]), points, [["check"], ["stats"], ["dump"]]
    lengths = groups(points, bits=1)
    yield "as many groups as points, each with one bit of its length", message(points, [data(points, 2, 0, lengths, b"\xff" * (points // 8))]), points, [["check"], ["list"]]
    yield "simple packing of 0 bits", message(points, [data(points, 0, 0, b"", b"")]), points, [["check"], ["dump"], ["repack", "to=least"]]
    yield "5 marks inside one another, with such groups", nested(5, message(points, [no_bits])), 5 * points, [["check", "refused=pass"]]
    yield "GRIB 250,000 times", b"GRIB" * 250_000, 0, [["check", "refused=pass"], ["set", "centre=7", "refused=copy"]]
    yield "65,536 claims of 268 MB", (b"GRIB\0\0\0\2" + number(1 << 28, 8)) * 65_536, 0, [["check", "refused=pass"], ["dump"]]
    mask = section(6, b"\0" + b"\xaa" * (points // 8))
    shared = [data(half, 0, 0, b"", b"").replace(section(6, b"\xff"), one) for one in (mask, section(6, b"\xfe"))]
    yield "two fields with one bitmap of every other point", message(points, shared), 2 * points, [["check"], ["repack", "to=0"], ["repack", "to=2"]]
    many = message(4, [data(4, 0, 0, b"", b"")] * 201, 2, 2)
    last = many.rindex(b"\0\0\0\x22\4") + 10
    many = many[:last] + b"\1" + many[last + 1:]  # another parameter, so that not all fields have the same one
    first = 16 + int.from_bytes(many[16:20], "big")
    local = section(2, bytes(200_000))
    many = b"GRIB\0\0\0\2" + number(len(many) + len(local), 8) + many[16:first] + local + many[first:]
    yield "201 fields with a Section 2 of 200,000 octets", many, 804, [["check"], ["set", "centre=7"], ["filter", "number=0"]]
    yield "D of 32,767, 10 points", message(10, [scaled(10, 0, 32_767, 0, b"")], 10, 1), 10, [["values"], ["dump"]]
    yield "D of 3,000, 200 points", message(200, [scaled(200, 0, 3_000, 0, b"")], 200, 1), 200, [["values"]]


def run(program, words, path, said, opened=True):
    """Status and note of a run, its processor seconds and its megabytes, by GNU time."""
    with open(path, "rb") as source, open(os.devnull, "wb") as out:
        done = subprocess.run(["time", "-q", "-o", said, "-f", "%U %S %M", program, *words, *["profile=open"] * opened], stdin=source, stdout=out,
                              stderr=subprocess.PIPE, check=False)
    with open(said, encoding="ascii") as file:
        user, system, most = file.read().split()
    return done.returncode, done.stderr.decode().strip(), float(user) + float(system), int(most) / 1000


def main():
    if len(sys.argv) < 2:
        sys.exit(__doc__)
    program = os.path.abspath(sys.argv[1])
    if not shutil.which("time"):
        sys.exit("time is not here (Debian: time)")
    with tempfile.TemporaryDirectory() as folder:
        for what, octets in inputs(int(sys.argv[2]) if len(sys.argv) > 2 else 256):
            with open(f"{folder}/in", "wb") as file:
                file.write(octets)
            print(f"{what}: {len(octets):,} octets", flush=True)
            for words in FEW if "fields of the first" in what else COMMANDS:
                status, note, seconds, most = run(program, words, f"{folder}/in", f"{folder}/said")
                print(f"  {' '.join(words):16} status {status}, {seconds:.2f} s, {most:.1f} MB  {note}", flush=True)


if __name__ == "__main__":
    main()
