#!/usr/bin/env python3
"""Compares share/python/tachilwe.py with ecCodes for Python on files: python.py PROGRAM [FILE..]

Needs NumPy and ecCodes for Python (Debian: python3-eccodes; run it by the Python that has them, as /usr/bin/python3).
FILE.. are by default all files of Debian's python-grib-doc. Each is opened with `profile="open"` and `refused="pass"`, and
each field is compared with the one that ecCodes reads at its place: the shape, nine keys, which points are missing, and
each value. Where a value differs, ours has to be the number of 64 bits that is nearest to the exact one, by fractions of
Python (50 such values of each field); by how many units in the last place ecCodes is off is counted. Then come what the
module raises, slices, values of 32 bits, columns that are stored one after another, and the Python of docs/GUIDE.md
and of share/python/tachilwe.py itself. The status is 1 if there is a finding."""
import collections
import glob
import math
import os
import re
import subprocess
import sys
import tempfile
from fractions import Fraction

import gribapi
import numpy

from eccodes import exact
from messages import reference_of

top = os.path.dirname(os.path.dirname(os.path.abspath(__file__)))
sys.path.insert(0, f"{top}/share/python")
import tachilwe

FILES = "/usr/share/doc/python-grib-doc/examples"
MISSING = 1.5e300  # what ecCodes is told to put at missing points
TRIED = 50  # of the values of a field that differ, by fractions
NAMES = {"discipline": "discipline", "year": "year", "month": "month", "category": "parameterCategory", "number": "parameterNumber",
         "points": "numberOfDataPoints", "scanning": "scanningMode", "packing": "dataRepresentationTemplateNumber", "bits": "bitsPerValue"}
NAMES_1 = {"Version": "table2Version", "Process": "generatingProcessIdentifier", "Parameter": "indicatorOfParameter", "Month": "month",
           "Day": "day", "P1": "P1", "P2": "P2", "DecimalScale": "decimalScaleFactor", "Century": "centuryOfReferenceTimeOfData"}
program, counts, findings = "", collections.Counter(), []


def hold(so, what):
    counts["comparisons"] += 1
    if not so:
        findings.append(what)


def lines(path, *words):
    with open(path, "rb") as file:
        return subprocess.run([program, *words, "profile=open", "refused=pass"], stdin=file, capture_output=True, check=False).stdout.decode().splitlines()


def handles(path):
    """What ecCodes reads: a handle for each field, by the places of messages in the file, which has to be done with one by one."""
    with open(path, "rb") as file:
        while True:
            try:
                handle = gribapi.grib_new_from_file(file)
            except gribapi.GribInternalError:
                continue
            if handle is None:
                return
            yield gribapi.grib_get_long(handle, "offset"), handle
            gribapi.grib_release(handle)


def long_of(handle, name):
    try:
        return None if gribapi.grib_is_missing(handle, name) else gribapi.grib_get_long(handle, name)
    except gribapi.GribInternalError:
        return None


def values_of(handle):
    """NaN where a value is missing; None if ecCodes does not read them."""
    try:
        gribapi.grib_set(handle, "missingValue", MISSING)
        values = gribapi.grib_get_values(handle)
    except gribapi.GribInternalError:
        return None
    values[values == MISSING] = math.nan
    return values


def scales(path):
    """R, E and D of each field whose values are read, by message and field."""
    place, found = "", {}
    for line in lines(path, "stats", "kept=pass") or lines(path, "stats"):
        words = line.split()
        if words[0] == "reference":
            found[place] = reference_of(words)
        else:
            place = words[0]
    return found


def nearest(value, scale):
    """The number that is nearest to the exact value that a number stands for."""
    number = round((Fraction(value) - exact(*scale, 0)) / (exact(*scale, 1) - exact(*scale, 0)))
    return float(exact(*scale, number))


def words_of(values):
    """Numbers that follow one another as the numbers of 64 bits do."""
    words = values.view(numpy.int64)
    return numpy.where(words < 0, numpy.int64(-(2**63)) - words, words)


def compare_values(name, ours, theirs, scale):
    ours = numpy.ascontiguousarray(ours).ravel()
    hold(len(ours) == len(theirs), f"{name}: {len(ours)} values, and ecCodes has {len(theirs)}")
    if len(ours) != len(theirs):
        return
    hold(numpy.array_equal(numpy.isnan(ours), numpy.isnan(theirs)), f"{name}: other points are missing")
    there = ~numpy.isnan(ours)
    ours, theirs = ours[there], theirs[there]
    off = numpy.abs(words_of(ours) - words_of(theirs))
    off[(ours == 0) & (theirs == 0)] = 0
    counts["points"] += len(there)
    counts["missing points"] += len(there) - len(ours)
    counts["values that are the same number"] += int(numpy.count_nonzero(off == 0))
    counts["values of ecCodes that are one unit in the last place off"] += int(numpy.count_nonzero(off == 1))
    counts["values of ecCodes that are further off"] += int(numpy.count_nonzero(off > 1))
    counts["units in the last place, the most"] = max(counts["units in the last place, the most"], int(off.max(initial=0)))
    if scale is None:
        return
    for place in numpy.flatnonzero(off)[:TRIED]:
        counts["differing values tried by fractions"] += 1
        hold(ours[place] == nearest(ours[place], scale), f"{name}: value {place} is not the nearest number")
        hold(nearest(ours[place], scale) == nearest(theirs[place], scale), f"{name}: value {place} is another one than ecCodes reads")


def compare_field(name, field, handle, scale):
    counts["fields"] += 1
    for key, other in (NAMES if field.edition == 2 else NAMES_1).items():
        if key in field.keys:
            hold(field.keys[key] == long_of(handle, other), f"{name}: {key} is {field.keys[key]}, and ecCodes reads {long_of(handle, other)}")
            counts["keys"] += 1
    try:
        values = field.values
    except tachilwe.GribError as error:
        counts["fields whose packing is not read"] += 1
        hold(error.status == 3 and error.note.startswith(f"kept message {field.place.split('.')[0]} at "), f"{name}: {error}")
        return
    theirs = values_of(handle)
    if theirs is None:
        counts["fields that ecCodes does not read"] += 1
        return
    if field.edition == 2 and field.keys["packing"] in (2, 3) and long_of(handle, "numberOfGroupsOfDataValues") == 0:
        counts["fields with no groups, which ecCodes reads otherwise"] += 1
        return
    shape = long_of(handle, "Nj"), long_of(handle, "Ni")
    if values.ndim == 2:
        hold(shape == values.shape or None in shape, f"{name}: shape {values.shape}, and ecCodes reads {shape}")
    else:
        counts["fields of one axis"] += 1
        hold("ni" not in field.keys or None in shape or math.prod(shape) != len(values), f"{name}: one axis, and ecCodes reads {shape}")
    compare_values(name, values, theirs, scale)


def compare_file(path):
    fields = tachilwe.open(path, profile="open", refused="pass", program=program)
    places = [int(line.split()[3]) for line in lines(path, "check") if line.startswith("message ")]
    skipped = {int(line.split()[4]) for line in fields.skipped}
    scale, rest, name = scales(path), iter(fields), os.path.basename(path)
    for at, handle in handles(path):
        if at in skipped:
            counts["fields of messages that are refused"] += 1
            continue
        field = next(rest, None)
        hold(field is not None and places[int(field.place.split(".")[0]) - 1] == at, f"{name}: ecCodes has a field at {at}, and here is {field}")
        if field is not None:
            compare_field(f"{name} {field.place}", field, handle, scale.get(field.place))
    hold(next(rest, None) is None, f"{name}: more fields than ecCodes has")
    counts["files"] += 1


def raises(what, kind, call, *said):
    try:
        call()
        hold(False, f"{what}: nothing was raised")
    except kind as error:
        hold(all(one in str(error) for one in said), f"{what}: {error}")


def compare_rest(folder):
    """What is raised, slices, values of 32 bits, and columns that are stored one after another."""
    two = f"{top}/examples/two-fields.grib2"
    with open(two, "rb") as file:
        octets = file.read()
    cut = f"{folder}/cut"
    with open(cut, "wb") as file:
        file.write(octets[:-3])
    raises("no file", FileNotFoundError, lambda: tachilwe.open(f"{folder}/nothing", program=program), "nothing")
    raises("no program", FileNotFoundError, lambda: len(tachilwe.open(two, program=f"{folder}/no program")), "no program")
    raises("a file that is cut", tachilwe.GribError, lambda: len(tachilwe.open(cut, program=program)), "refused message 2 octet ", "Truncated")
    hold(len(tachilwe.open(cut, refused="pass", program=program)) == 1, "a file that is cut, with refused=pass")
    raises("another kind", tachilwe.GribError, lambda: tachilwe.open(two, kind="f2", program=program)[0].values, "usage word ")
    fields = tachilwe.open(two, program=program)
    hold([field.place for field in fields] == ["1.1", "2.1"] == [field.place for field in fields[:]], "the fields of a file")
    hold(fields[-1].keys["surface2"] is None and numpy.isnan(fields[1].values[0, 3:5]).all(), "what is missing")
    raises("no such field", IndexError, lambda: fields[2])
    short = tachilwe.open(two, kind="f4", program=program)
    for one, other in zip(fields, short):
        hold(other.values.dtype == numpy.float32 and numpy.array_equal(one.values.astype("f4"), other.values, equal_nan=True), "values of 32 bits")
    made = subprocess.run([program, "make", "seed=1", "ni=5", "nj=3", "to=0"], capture_output=True, check=True).stdout
    for name, message in (("rows", made), ("columns", subprocess.run([program, "set", "scanning=32"], input=made, capture_output=True, check=True).stdout)):
        with open(f"{folder}/{name}", "wb") as file:
            file.write(message)
    rows, columns = (tachilwe.open(f"{folder}/{name}", program=program)[0].values for name in ("rows", "columns"))
    hold(rows.shape == columns.shape == (3, 5) and numpy.array_equal(rows.ravel(), columns.T.ravel(), equal_nan=True), "columns that are stored one after another")


def run_pages(folder):
    """The Python of the guide, with what it is said to print, and the example in the module itself."""
    environment = {**os.environ, "GRIB": program, "PYTHONPATH": f"{top}/share/python", "MPLBACKEND": "Agg"}
    os.symlink(f"{top}/examples", f"{folder}/examples")
    with open(f"{folder}/fields.npy", "wb") as file, open(f"{top}/examples/two-fields.grib2", "rb") as source:
        subprocess.run([program, "values"], stdin=source, stdout=file, check=True)
    with open(f"{top}/docs/GUIDE.md", encoding="utf-8") as page:
        blocks = re.findall(r"^```python\n(.*?)^```\n(?:\nprints\n\n```\n(.*?)^```\n)?", page.read(), re.M | re.S)
    hold(len(blocks) >= 2, "the guide has no Python")
    for code, wanted in blocks:
        counts["blocks of the guide"] += 1
        done = subprocess.run([sys.executable, "-c", code], cwd=folder, env=environment, capture_output=True, check=False, text=True)
        hold(done.returncode == 0 and wanted in ("", done.stdout), f"a block of the guide prints {done.stdout}{done.stderr}, and it says {wanted}")
    code = re.search(r"((?:^ {4}.*\n|^\n)+)", tachilwe.__doc__, re.M).group(1).replace("\n    ", "\n").replace("gfs.grb", "examples/two-fields.grib2")
    done = subprocess.run([sys.executable, "-c", code], cwd=folder, env=environment, capture_output=True, check=False, text=True)
    hold(done.stdout.startswith("1.1 0 (4, 6) "), f"the example of the module prints {done.stdout}{done.stderr}")


def main():
    global program
    if len(sys.argv) < 2:
        sys.exit(__doc__)
    program = os.path.abspath(sys.argv[1])
    gribapi.grib_multi_support_on()
    for path in sys.argv[2:] or sorted(glob.glob(f"{FILES}/*")):
        compare_file(path)
    with tempfile.TemporaryDirectory() as folder:
        compare_rest(folder)
        run_pages(folder)
    for what, number in counts.items():
        print(f"{number:,} {what}")
    for what in findings[:100]:
        print(f"FINDING {what}")
    print(f"{len(findings)} findings")
    sys.exit(bool(findings))


if __name__ == "__main__":
    main()
