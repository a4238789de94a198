#!/usr/bin/env python3
"""Compares params/standard.csv with what ecCodes makes of each parameter: a message of edition 1 for each record, at
500 hPa and at the surface, is turned to edition 2 by `grib_set -s edition=2`, and discipline, category and number are
compared.

    bench/params.py [all] [PROGRAM]     with `all` each difference is printed and not only counted

With a program, `migrate` of these messages is to give the numbers of each record, its versions of the tables among them.
Needs ecCodes (Debian: libeccodes-tools). params/README.md explains each kind of difference. Records with `*` stand for
centre 7, which has no parameters of its own below 128 in ecCodes."""
import collections
import os
import re
import subprocess
import sys
import tempfile

from messages import messages

top = os.path.dirname(os.path.dirname(os.path.abspath(__file__)))
SAMPLES = "/usr/share/eccodes/samples"
KEYS = "dataDate,dataTime,discipline,parameterCategory,parameterNumber,typeOfFirstFixedSurface,shortName"


def records():
    """The records of the table, by the rules of docs/PROFILE.md."""
    found, seen = [], set()
    with open(f"{top}/params/standard.csv", encoding="ascii", newline="") as file:
        text = file.read()
    if len(text) > 1_048_576:
        sys.exit("the table is too large")
    for line in text.splitlines():
        fields = line.split(",")
        good = len(fields) == 8 and all(re.fullmatch("0|[1-9][0-9]*", field) and int(field) < 256 for field in fields[1:])
        if not good or tuple(fields[:3]) in seen or not (fields[0] == "*" or re.fullmatch("0|[1-9][0-9]*", fields[0])):
            sys.exit(f"no record, or one that stood before: {line}")
        seen.add(tuple(fields[:3]))
        found.append(fields)
    return found


def message(record, number, level):
    """A message of edition 1 with this parameter, which says by its time which one it is."""
    name = "pl" if level else "sfc"
    with open(f"{SAMPLES}/regular_ll_{name}_grib1.tmpl", "rb") as file:
        octets = bytearray(file.read())
    section = 8  # octets of Section 1 are counted from 1
    centre = 7 if record[0] == "*" else int(record[0])
    places = {4: int(record[1]), 5: centre, 9: int(record[2]), 10: 100 if level else 1, 11: level >> 8, 12: level & 255,
              13: 20, 14: 1 + number // 672, 15: 1 + number // 24 % 28, 16: number % 24, 17: 0, 18: 1, 19: 0, 20: 0, 21: 0, 25: 21}
    for octet, value in places.items():
        octets[section + octet - 1] = value
    # Local use of ECMWF, from octet 41 on, would mean something else to another centre.
    own = int.from_bytes(octets[section:section + 3], "big")
    octets[section:section + own] = (28).to_bytes(3, "big") + octets[section + 3:section + 28]
    return bytes(octets[:4] + len(octets).to_bytes(3, "big") + octets[7:])


def by_eccodes(found, level):
    """For the number of each record what ecCodes gives, if anything."""
    with tempfile.TemporaryDirectory() as work:
        with open(f"{work}/one", "wb") as file:
            for number, record in enumerate(found):
                file.write(message(record, number, level))
        subprocess.run(["grib_set", "-f", "-s", "edition=2", f"{work}/one", f"{work}/two"], stdout=subprocess.DEVNULL, stderr=subprocess.DEVNULL)
        told = subprocess.run(["grib_get", "-f", "-p", KEYS, f"{work}/two"], capture_output=True, text=True).stdout
    result = {}
    for line in told.splitlines():
        if len(line.split()) != 7 or not line[0].isdigit():
            continue  # a message that stayed of edition 1
        date, time, discipline, category, number, surface, name = line.split()
        place = (int(date[4:6]) - 1) * 672 + (int(date[6:8]) - 1) * 24 + int(time) // 100
        result[place] = ([discipline, category, number], surface, name)
    return result


def by_migrate(program, found):
    """Discipline, category, number, master and local of each message that `migrate` writes."""
    data = b"".join(message(record, number, 500) for number, record in enumerate(found))
    run = subprocess.run([program, "migrate", f"params={top}/params/standard.csv"], input=data, capture_output=True)
    if run.returncode != 0:
        sys.exit(f"migrate: status {run.returncode}, {run.stderr.decode().strip()}")
    return [[one[6], *category_and_number(one), *one[16 + 9:16 + 11]] for one in messages(run.stdout)]


def category_and_number(octets):
    """Octets 10 and 11 of Section 4."""
    at = 16
    while octets[at + 4] != 4:
        at += int.from_bytes(octets[at:at + 4], "big")
    return octets[at + 9:at + 11]


def main():
    found = records()
    program = [word for word in sys.argv[1:] if word != "all"]
    if program:
        migrated = by_migrate(program[0], found)
        wrong = [record for record, got in zip(found, migrated) if list(map(int, record[3:])) != got]
        print(f"migrate: {len(migrated)} messages of {len(found)} records, {len(wrong)} with other numbers")
        if wrong or len(migrated) != len(found):
            sys.exit(1)
    at_level, at_surface = by_eccodes(found, 500), by_eccodes(found, 0)
    counts = collections.Counter()
    for number, record in enumerate(found):
        tried = [one[number] for one in (at_level, at_surface) if number in one]
        block = {"*": "WMO", "7": "NCEP", "98": "ECMWF"}[record[0]]
        if any(one[0] == record[3:6] for one in tried):
            kind = "agree"
        elif not tried or all(one[2] == "unknown" for one in tried):
            kind = "have no parameter of edition 2 in ecCodes"
        elif any(one[0][0] == "192" for one in tried):
            kind = "have a number of ECMWF's own in ecCodes"
        else:
            kind = "differ"
        counts[block, kind] += 1
        if kind != "agree" and "all" in sys.argv:
            print(f"{','.join(record)}: {kind}: " + "; ".join(f"{'.'.join(one[0])} at surface type {one[1]}, {one[2]}" for one in tried))
    for (block, kind), count in sorted(counts.items()):
        print(f"{block}: {count} {kind}")


main()
