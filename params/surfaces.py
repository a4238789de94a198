#!/usr/bin/env python3
"""Makes the table of surfaces of `migrate`, surfaces.csv: ECMWF's parameters of edition 1 at the surface whose name says
their level, each with its parameter of edition 2 and the fixed surface that edition 2 has for that level. Beside it
surfaces.txt has each record with the name of its parameter, to be read by eye.

    params/surfaces.py [check] [FOLDER]     the folder that the two are written to, or this one

With `check` each record is compared with what `grib_set -s edition=2` of ecCodes writes. Needs the definitions of
ecCodes (Debian: libeccodes-data) in /usr/share/eccodes/definitions, and for the comparison its tools (libeccodes-tools).

A record is made of a parameter that ecCodes has in both editions under one number, where edition 2 asks for a discipline,
a category, a number and one fixed surface, and for nothing else: no interval, no second surface, no wavelength. OWN has
those that are made in addition, of ECMWF's own numbers of edition 2."""
import os
import subprocess
import sys
import tempfile

from make import DEFINITIONS, concepts, fail, is_local, master_of

SAMPLE = "/usr/share/eccodes/samples/regular_ll_sfc_grib1.tmpl"
MISSING = "-"
VERSIONS = "128", "228"

# ECMWF's own numbers (local tables 1, and discipline 192, whose numbers are those of edition 1) for fields at the surface
# that reanalyses have, and total cloud cover, whose second surface is left out.
OWN = {
    "128.32": "0.19.192 1", "128.141": "0.1.254 1", "128.164": "0.6.192 1", "128.186": "0.6.193 1", "128.187": "0.6.194 1",
    "128.188": "0.6.195 1", "128.198": "192.128.198 0", "128.243": "192.128.243 0", "128.244": "192.128.244 0",
    "128.245": "192.128.245 0",
}
PARAMETER = "discipline", "parameterCategory", "parameterNumber"
SURFACE = "typeOfFirstFixedSurface", "scaleFactorOfFirstFixedSurface", "scaledValueOfFirstFixedSurface"


def of_concept(found):
    """Parameter, local tables and surface of a concept of edition 2 that asks for nothing else, or None."""
    if "typeOfFirstFixedSurface" not in found or set(found) - set(PARAMETER) - set(SURFACE):
        return None
    target = tuple(int(found[key]) for key in PARAMETER)
    surface = tuple(found.get(key, MISSING) for key in SURFACE)
    if is_local(target) or "missing()" in surface:
        return None
    return target, 0, surface


def of_own(place):
    target, local = OWN[place].split()
    return tuple(int(part) for part in target.split(".")), int(local), ("1", MISSING, MISSING)


def made():
    """Version, parameter, name and what edition 2 has, in the order of version and parameter."""
    second = {}
    for identity, found in concepts("grib2/paramId.def"):
        if of_concept(found):
            second.setdefault(identity, of_concept(found))
    names = {(found["table2Version"], found["indicatorOfParameter"]): name for name, found in concepts("grib1/localConcepts/ecmf/name.def")}
    rows = []
    for identity, found in concepts("grib1/localConcepts/ecmf/paramId.def"):
        version, parameter = found["table2Version"], found["indicatorOfParameter"]
        place = f"{version}.{parameter}"
        if version in VERSIONS and (place in OWN or identity in second):
            rows.append((int(version), int(parameter), names[version, parameter], of_own(place) if place in OWN else second[identity]))
    return sorted(rows)


def record(row):
    version, parameter, _, (target, local, surface) = row
    master = 2 if is_local(target) else master_of(target)[0]
    return ",".join(map(str, (98, version, parameter, 1, 0, *target, master, local, *surface)))


def by_eccodes(row, folder):
    """What ecCodes makes of a message with this parameter at the surface: parameter, local tables, surfaces."""
    version, parameter = row[0], row[1]
    with open(SAMPLE, "rb") as file:
        octets = bytearray(file.read())
    for octet, value in {4: version, 5: 98, 9: parameter, 10: 1, 11: 0, 12: 0}.items():
        octets[8 + octet - 1] = value
    with open(f"{folder}/1", "wb") as file:
        file.write(octets)
    if subprocess.run(["grib_set", "-s", "edition=2", f"{folder}/1", f"{folder}/2"], stderr=subprocess.DEVNULL).returncode:
        return None
    keys = ",".join((*PARAMETER, "localTablesVersion", "typeOfFirstFixedSurface:l", *SURFACE[1:], "typeOfSecondFixedSurface:l"))
    said = subprocess.run(["grib_get", "-p", keys, f"{folder}/2"], capture_output=True, text=True, check=True).stdout.split()
    said = [MISSING if word == "MISSING" else word for word in said]
    return tuple(map(int, said[:3])), int(said[3]), tuple(said[4:7]), said[7]


def compare(rows):
    with tempfile.TemporaryDirectory() as folder:
        for row in rows:
            theirs = by_eccodes(row, folder)
            if theirs is None or theirs[:3] != row[3]:
                print(f"differs: {record(row)}  {row[2]}  ecCodes: {theirs}")
            elif theirs[3] != "255":
                print(f"second surface {theirs[3]}: {record(row)}  {row[2]}")


def main():
    words = sys.argv[1:]
    check = words[:1] == ["check"]
    folder = words[check] if len(words) > check else os.path.dirname(os.path.abspath(__file__))
    rows = made()
    if len({row[:2] for row in rows}) < len(rows):
        fail("a parameter stands twice")
    records = [record(row) for row in rows]
    for name, lines in (("surfaces.csv", records), ("surfaces.txt", [f"{line:44} {row[2]}" for line, row in zip(records, rows)])):
        with open(f"{folder}/{name}", "w", encoding="utf-8") as file:
            file.write("".join(line + "\n" for line in lines))
    if check:
        compare(rows)
    print(f"{len(records)} records")


if __name__ == "__main__":
    main()
