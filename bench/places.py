#!/usr/bin/env python3
"""Compares `grib coordinates`, `grib dump place=yes` and `grib crop` in degrees with exact fractions, with ecCodes and with
CDO: places.py PROGRAM FILE.. [boxes=3] [odd=400]

Needs grib_get_data and grib_get (Debian: libeccodes-tools) and cdo (Debian: cdo). Each message of edition 2 is handed over by
itself, with `profile=open`.

- `coordinates`: the arrays have to be, octet for octet, those of Python's quotients of whole numbers, which are rounded once,
  half to even; of grids that have no places the cause has to be that of Section 3. Each grid of a file is also compared with
  `grib_get_data`: each latitude, and each longitude modulo 360 degrees, to six decimals, unless the increments of the grid do
  not lead from its first point to its last, by which ecCodes goes.
- `dump place=yes` has to print the lines of `dump`, and those of `dump decimals=3`, with the same places to six decimals.
- `crop` in degrees: of a message in the order of scanning octet 0, `boxes` boxes and as many places for each grid of a file, drawn
  from its number. Each point has to be one of the grid at the place that `dump place=yes` prints of it, with its scaled
  integer; which ones they are is worked out here, in whole numbers. `cdo sellonlatbox` has to give the same values, and
  `grib_get -l` the same value at a place that is within a quarter of a step of a grid point.
- Of synthetic messages `odd` grids of all scanning modes with odd corners are tried against fractions alone.

Prints for each file what agrees and what is left out, and a line for each finding; the end is then status 1."""
import collections
import random
import re
import subprocess
import sys
import tempfile
from fractions import Fraction

from grids import ROUND, arrays, cause, degrees, grids, has_steps, in_box, latitude, longitude, nearest, number, quotients, size, texts
from messages import messages, our_fields

NEAR = Fraction(6, 10**7)  # degrees by which six decimals of one number may differ, and the noise of ecCodes' sums
failed = []


def run(words, octets=b""):
    return subprocess.run(words, input=octets, capture_output=True)


def finding(path, what, *about):
    failed.append(what)
    print(f"{path}: {what} " + " ".join(f"[{str(one)[:200]}]" for one in about), flush=True)


# `coordinates`, and the places of `dump`.

def wanted_of(message):
    """What `coordinates` has to write, or the cause that it has to note."""
    sections = grids(message)
    for n, section in enumerate(sections, 1):
        if cause(section):
            return None, f"kept message 1 {cause(section)} field {n}\n"
    return b"".join(map(arrays, sections)), ""


def coordinates(program, path, message, counts):
    """Whether the message has places, which are then compared."""
    ran = run([program, "coordinates", "profile=open"], message)
    if ran.stderr.startswith(b"refused"):
        counts["refused"] += 1
        return False
    octets, note = wanted_of(message)
    if (ran.returncode, ran.stdout, ran.stderr.decode()) != (3 if note else 0, octets or b"", note):
        finding(path, "other coordinates", ran.returncode, ran.stderr.decode(), note)
        return False
    counts["kept: " + note.split()[3] if note else "messages"] += 1
    if not note:
        counts["fields with their coordinates"] += len(grids(message))
        counts["points"] += sum(ni * nj for ni, nj in map(size, grids(message)))
    return not note


def placed(program, path, message, counts):
    """The lines of `dump` with the places between."""
    sections = grids(message)
    for more in ([], ["decimals=3"]):
        plain = run([program, "dump", "profile=open", *more], message)
        ran = run([program, "dump", "profile=open", "place=yes", *more], message)
        if plain.returncode:
            if (ran.returncode, ran.stderr) != (plain.returncode, plain.stderr):
                finding(path, "dump place=yes ends otherwise", ran.stderr, plain.stderr)
            counts["not dumped: " + plain.stderr.split()[3].decode()] += not more
            continue
        wanted, places = [], iter(sections)
        for line in plain.stdout.decode().splitlines():
            if " ed=" in line:
                words = texts(next(places))
            elif not line.startswith("reference"):
                point, _, rest = line.partition(" ")
                line = f"{point} {words[int(point) - 1]} {rest}"
            wanted.append(line)
        if (ran.returncode, ran.stdout.decode().splitlines()) != (0, wanted):
            finding(path, "other lines of dump place=yes", ran.returncode, ran.stderr)
        counts["lines of dump"] += len(wanted)


def has_even_steps(section):
    """Whether the increments lead from the first point to the last, as far as 10^-6 degree goes."""
    (ni, nj), di, dj = size(section), number(section, 64, 67), number(section, 68, 71)
    longitudes, latitudes = quotients(section)
    across, along = abs(Fraction(*longitudes[-1]) - Fraction(*longitudes[0])), abs(Fraction(*latitudes[-1]) - Fraction(*latitudes[0]))
    return 2**32 - 1 not in (di, dj) and across == di * (ni - 1) and along == dj * (nj - 1)


def by_eccodes(path, message, counts):
    """The places of the one field of a message, by grib_get_data."""
    section, = grids(message)
    with tempfile.NamedTemporaryFile(suffix=".grib2") as file:
        file.write(message)
        file.flush()
        ran = run(["grib_get_data", "-m", "9999", "-L", "%.9f %.9f ", file.name])
    lines = [line.split()[:2] for line in ran.stdout.decode().splitlines()[1:]]
    ni, nj = size(section)
    if ran.returncode or len(lines) != ni * nj:
        counts["not read by ecCodes"] += 1
        return
    theirs = [(Fraction(latitude), Fraction(longitude)) for latitude, longitude in lines]
    ours = [(Fraction(latitude), Fraction(longitude)) for latitude, longitude in (one.split() for one in texts(section))]
    if section[71] & 0xb0:  # ecCodes puts the points of such grids in another order
        theirs, ours = (sorted((latitude, longitude % 360) for latitude, longitude in one) for one in (theirs, ours))
    far = [n for n, (one, other) in enumerate(zip(ours, theirs)) if abs(one[0] - other[0]) > NEAR or abs((one[1] - other[1] + 180) % 360 - 180) > NEAR]
    if far and not has_even_steps(section):
        counts["grids whose increments do not lead to the last point, other in ecCodes"] += 1
    elif far:
        finding(path, "another place in ecCodes", len(far), ours[far[0]], theirs[far[0]])
    else:
        counts["grids as ecCodes has them"] += 1
        counts["points as ecCodes has them"] += len(ours)


# `crop` in degrees.

def shown(program, message):
    """The words of the lines of the points of each field, without their numbers."""
    fields = []
    for line in run([program, "dump", "place=yes", "profile=open"], message).stdout.decode().splitlines():
        if " ed=" in line:
            fields.append([])
        elif not line.startswith("reference"):
            fields[-1].append(line.split()[1:])
    return fields


def around(place):
    """A place with its longitude from 0 to below 360, in 10^-6 degree."""
    return int(place[0].replace(".", "")), int(place[1].replace(".", "")) % ROUND, *place[2:]


def crop(program, path, message, words, subarea, before, counts):
    """Cuts, and holds the points to those of the subarea; the message that was written, or None."""
    ran = run([program, "crop", *words, "profile=open"], message)
    section = grids(message)[0]
    if subarea is None:
        if (ran.returncode, ran.stderr) != (3, b"kept message 1 OutsideBox field 1\n"):
            finding(path, "no OutsideBox", words, ran.stderr)
        counts["boxes that are no subarea"] += 1
        return None
    if ran.returncode == 3 and ran.stderr.split()[3] in (b"OutOfRange", b"DifferenceRange"):
        counts["packings that do not fit"] += 1
        return None
    columns, rows = subarea
    ni = size(section)[0]
    points = [[around(field[j * ni + i]) for j in rows for i in columns] for field in before]
    # `dump` goes by the corners, as the new corners do: to 10^-6 degree both are the same where the increments lead there.
    after = [[around(one) for one in field] for field in shown(program, ran.stdout)]
    if ran.returncode or after != points:
        finding(path, "other points after crop", words, ran.returncode, ran.stderr, [len(one) for one in after], [len(one) for one in points])
        return None
    for one in grids(ran.stdout):
        corners = number(one, 51, 54), number(one, 60, 63), size(one)
        if corners != (longitude(section, columns[0]), longitude(section, columns[-1]), (len(columns), len(rows))):
            finding(path, "other corners after crop", words, corners)
    counts["fields cut"] += len(before)
    counts["fields cut across the first column"] += len(before) * (columns[-1] < columns[0])
    return ran.stdout


def values_of(words):
    """What cdo or grib_get prints of values; None where it ends with an error."""
    ran = run(words)
    return None if ran.returncode else [float(word) for word in ran.stdout.decode().split()]


def scaled(field, values):
    reference, binary, decimal, _ = field
    return [None if value < -8e33 else round((value * 10.0**decimal - reference) / 2.0**binary) for value in values]


def in_file(octets, words):
    """The words, with the octets in the file that stands for None."""
    file = tempfile.NamedTemporaryFile(suffix=".grib2")
    file.write(octets)
    file.flush()
    return file, [file.name if word is None else word for word in words]


def drawn_box(draw, section):
    """Edges in 10^-6 degree: on grid points, between them, with three decimals, or around the whole grid."""
    ni, nj = size(section)
    di, dj = number(section, 64, 67), number(section, 68, 71)
    west = longitude(section, draw.randrange(ni)) - draw.choice((0, di // 2, di // 3, 0))
    east = west + draw.choice((0, 1, draw.randrange(ni), draw.randrange(ni), ni)) * di + draw.choice((0, di // 2, 1000))
    north = latitude(section, draw.randrange(nj)) + draw.choice((0, dj // 2, dj // 3, 0))
    south = north - draw.choice((0, 1, draw.randrange(nj), nj)) * dj - draw.choice((0, dj // 2, 1000))
    north, south = min(north, 90_000_000), max(min(south, 90_000_000), -90_000_000)
    if draw.random() < 0.5:
        west, east = west - ROUND, east - ROUND
    while west > ROUND or east > ROUND:
        west, east = west - ROUND, east - ROUND
    if west < -ROUND:
        west, east = west + ROUND, east + ROUND
    return max(north, south), south, west, min(east, ROUND)


def boxes(program, path, message, number_of_boxes, draw, counts):
    """Boxes and places of a message, by its first field; the others have to have the same grid."""
    turned = run([program, "rescan", "profile=open"], message)
    if turned.returncode:
        counts["not cut: " + turned.stderr.split()[3].decode()] += 1
        return
    message, sections = turned.stdout, grids(turned.stdout)
    section = sections[0]
    if any(one != section for one in sections):
        counts["messages of several grids, not cut"] += 1
        return
    if not has_steps(section):
        ran = run([program, "crop", "lat=0", "lon=0", "profile=open"], message)
        if ran.stderr != b"kept message 1 Increments field 1\n":
            finding(path, "no Increments", ran.stderr)
        counts["grids without even steps, not cut"] += 1
        return
    before = shown(program, message)
    fields = our_fields(run([program, "dump", "profile=open"], message).stdout.decode())
    for _ in range(number_of_boxes):
        edges = north, south, west, east = drawn_box(draw, section)
        words = [f"{name}={degrees(one)}" for name, one in zip(("north", "south", "west", "east"), edges)]
        subarea = in_box(section, *edges)
        if crop(program, path, message, draw.sample(words, 4), subarea, before, counts) and len(fields) == 1:
            against_cdo(program, path, message, words, edges, subarea, fields[0], section, counts)
    for _ in range(number_of_boxes):
        place(program, path, message, draw, before, fields, section, counts)


def against_cdo(program, path, message, words, edges, subarea, field, section, counts):
    north, south, west, east = edges
    columns, rows = subarea
    ni = size(section)[0]
    width = min(east - west, ROUND) if west <= east else (east - west) % ROUND
    # CDO has latitudes and longitudes in floating-point numbers, so that a point on an edge may be outside: its box is wider by
    # less than 10^-6 degree on each side.
    more = 0.4 if width < ROUND else 0
    told = ",".join(f"{one / 1_000_000:.7f}" for one in (west - more, west + width + more, south - 0.4, north + 0.4))
    file, cdo = in_file(message, ["cdo", "-s", "outputf,%.17g,1", f"-sellonlatbox,{told}", "-setmissval,-9e33", None])
    with file:
        theirs = values_of(cdo)
    if theirs is None:
        counts["boxes that CDO does not cut"] += 1
        return
    theirs, ours = scaled(field, theirs), [field[3][j * ni + i] for j in rows for i in columns]
    if theirs == ours:
        counts["boxes as CDO has them"] += 1
    elif width >= ROUND and collections.Counter(theirs) == collections.Counter(ours):
        counts["whole rows that CDO begins elsewhere"] += 1
    else:
        finding(path, "another box in CDO", " ".join(words), len(theirs), len(ours))


def place(program, path, message, draw, before, fields, section, counts):
    """A place within a quarter of a step of a grid point, and one far from it."""
    ni, nj = size(section)
    i, j = draw.randrange(ni), draw.randrange(nj)
    di, dj = number(section, 64, 67) // 4, number(section, 68, 71) // 4
    north = max(min(latitude(section, j) + draw.randint(-dj, dj), 90_000_000), -90_000_000)
    east = (longitude(section, i) + draw.randint(-di, di)) % ROUND - draw.choice((0, ROUND))
    cut = crop(program, path, message, [f"lat={degrees(north)}", f"lon={degrees(east)}"], ([i], [j]), before, counts)
    if cut and len(fields) == 1 and abs(north) < 80_000_000:
        file, asked = in_file(message, ["grib_get", "-F", "%.17g", "-l", f"{north / 1_000_000:.6f},{east % ROUND / 1_000_000:.6f},1", None])
        with file:
            theirs = values_of(asked)
        point = fields[0][3][j * ni + i]
        if theirs is None or len(theirs) != 1 or point is None:
            counts["places that ecCodes does not have, or that are missing"] += 1
        elif scaled(fields[0], theirs) != [point]:
            finding(path, "another point in ecCodes", degrees(north), degrees(east), scaled(fields[0], theirs), point)
        else:
            counts["places as ecCodes has them"] += 1
    north, east = draw.randint(-90_000_000, 90_000_000), draw.randint(-ROUND, ROUND)
    crop(program, path, message, [f"lon={degrees(east)}", f"lat={degrees(north)}"], nearest(section, north, east), before, counts)


# Grids with odd corners.

def odd_grids(program, counts, tries):
    draw = random.Random(1)
    for _ in range(tries):
        ni, nj = draw.choice((1, 2, 3, 7, 40)), draw.choice((1, 2, 3, 5, 30))
        message = bytearray(run([program, "make", "seed=1", f"ni={ni}", f"nj={nj}", "to=0"]).stdout)
        at = 37 - 1  # Section 3 begins after octets 1 to 37

        def put(value, first, last):
            message[at + first:at + last + 1] = value.to_bytes(last - first + 1, "big")

        def angle(most):
            value = draw.choice((0, 1, most, draw.randint(0, most), draw.randint(0, most // 1000) * 1000))
            return draw.choice((0, 1 << 31)) + value

        put(angle(90_000_000), 47, 50)
        put(angle(90_000_000), 56, 59)
        put(draw.choice((0, 1, ROUND - 1, ROUND, 2**32 - 1, draw.randrange(ROUND))), 51, 54)
        put(draw.choice((0, 1, ROUND - 1, ROUND, 2**32 - 1, draw.randrange(ROUND))), 60, 63)
        put(draw.choice(range(0, 256, 16)) if draw.random() < 0.95 else draw.randrange(256), 72, 72)
        put(draw.choice((0,) * 20 + (1, 1_000_000)), 39, 42)
        if coordinates(program, "synthetic", bytes(message), counts):
            placed(program, "synthetic", bytes(message), counts)


def told(path, counts):
    print(f"{path}: " + ", ".join(f"{count} {what}" for what, count in counts.items() if count), flush=True)


def main():
    options = {"boxes": "3", "odd": "400"}
    words = [word for word in sys.argv[1:] if re.fullmatch(r"(boxes|odd)=\d+", word)]
    options.update(word.split("=") for word in words)
    names = [word for word in sys.argv[1:] if word not in words]
    if not names:
        sys.exit(__doc__)
    program, counts = names[0], collections.Counter()
    odd_grids(program, counts, int(options["odd"]))
    told("synthetic", counts)
    for path in names[1:]:
        counts, seen = collections.Counter(), set()
        for n, message in enumerate(messages(open(path, "rb").read())):
            if not coordinates(program, path, message, counts):
                continue
            placed(program, path, message, counts)
            sections = grids(message)
            if sections[0] in seen:
                continue
            seen.add(sections[0])
            if len(sections) == 1:
                by_eccodes(path, message, counts)
            if run([program, "stats", "profile=open"], message).returncode == 0:
                boxes(program, path, message, int(options["boxes"]), random.Random(n), counts)
        told(path, counts)
    print(f"{len(failed)} findings")
    sys.exit(bool(failed))


main()
