#!/usr/bin/env python3
"""Compares CCSDS packing (5.42) with ecCodes and libaec on files: ccsds.py PROGRAM [FILE..]

Needs ecCodes' tools, ecCodes for Python with NumPy, libaec and a C compiler (Debian: libeccodes-tools, python3-eccodes,
libaec-dev, gcc; run it by the Python that has these, as /usr/bin/python3). FILE.. are by default all files of Debian's
python-grib-doc. The messages of edition 2 of a file are handed over together, so that a program runs once for each file:

- ours: `repack to=42 profile=open`. ecCodes has to read the same values from it as from the messages, each to its last
  bit; libaec has to read the numbers that `repack to=0` writes; Section 7 may not be larger than what libaec codes of
  them; `repack to=0` of what was packed has to give the octets that `repack to=0` gives of the messages, so that each
  scaled integer and each missing point is the same. The four block sizes of `repack to=least profile=open` are tried by
  that too: no message may become longer, nor be longer than in blocks of 32.
- theirs: `grib_set -r -s packingType=grid_ccsds` of the messages in simple packing, or as they are if their packing is not
  read here (JPEG 2000). Of what is accepted ecCodes has to read the values that `values profile=open` writes: the same
  scaled integer at each point, and the same points missing (how many are the same number of 64 bits is counted), and
  `repack to=42` of it may have no more octets. What is refused by ScaledRange is counted, and what
  is accepted though ecCodes reads other values than it packed: ecCodes 2.28 writes such messages, as far as was seen,
  where neither the decimal nor the binary scale factor is 0. Refused for another reason, or with one of them 0, is a
  finding.

Prints for each file what agrees and what does not, how many octets Sections 7 have and how many libaec codes, at the end
the sums, and each finding; the status is 1 if there is one."""
import collections
import glob
import itertools
import math
import os
import struct
import subprocess
import sys
import tempfile

import gribapi
import numpy

from keys import fields
from messages import messages

top = os.path.dirname(os.path.dirname(os.path.abspath(__file__)))
FILES = "/usr/share/doc/python-grib-doc/examples"
MISSING = 1.5e300  # what ecCodes is told to put at missing points
UNSTATED = [("refused", reason) for reason in ("Ccsds", "GridTemplate", "ProductTemplate")]
program, findings = "", []


class Inputs:
    """Files of one folder, which the programs read and write."""

    def __init__(self, folder, name):
        self.folder, self.name, self.counts = folder, name, collections.Counter()

    def write(self, name, parts):
        with open(f"{self.folder}/{name}", "wb") as file:
            file.writelines(parts)

    def read(self, name):
        with open(f"{self.folder}/{name}", "rb") as file:
            return file.read()

    def ran(self, source, target, *words):
        """The status of a run of the program from one file to another, and what its notes say of messages, by their places."""
        with open(f"{self.folder}/{source}", "rb") as file, open(f"{self.folder}/{target}", "wb") as to:
            done = subprocess.run([program, *words], stdin=file, stdout=to, stderr=subprocess.PIPE, check=False)
        notes = [line.split() for line in done.stderr.decode().splitlines()]
        said = {int(words[4]): (words[0], *(words[5:7] if words[0] == "kept" else words[7:8])) for words in notes if words[3:4] == ["at"]}
        return done.returncode, said

    def hold(self, what, results):
        """Counts what agrees, and notes what does not, by the number of the message or field."""
        for number, so in enumerate(results, 1):
            self.counts[what] += bool(so)
            if not so:
                self.counts[what + ": NOT SO"] += 1
                findings.append(f"{self.name}, {number}: not so: {what}")


def places(parts):
    """Where messages that follow one another begin."""
    return [0, *itertools.accumulate(len(part) for part in parts)][: len(parts)]


def kept_of(parts, said):
    return [part for at, part in zip(places(parts), parts) if at not in said]


def five_of(message):
    """The Section 5 of each field of a message."""
    return [sections[5] for sections in fields(message)]


def scale_of(five):
    """R, E and D of a field."""
    reference, binary, decimal = struct.unpack(">fHH", five[11:19])
    signed = [(0x8000 - scale) if scale & 0x8000 else scale for scale in (binary, decimal)]
    return (reference, *signed)


def has_no_groups(five):
    """Whether a field has groups by its template and none by its number: ecCodes then reads what Section 7 does not hold."""
    return five[9:11] in (b"\0\2", b"\0\3") and five[31:35] == bytes(4)


def by_eccodes(path):
    """The values of each field that ecCodes reads, NaN where they are missing; None for a field that it does not read."""
    with open(path, "rb") as file:
        while True:
            try:
                handle = gribapi.grib_new_from_file(file)
            except gribapi.GribInternalError:
                yield None
                continue
            if handle is None:
                return
            try:
                gribapi.grib_set(handle, "missingValue", MISSING)
                values = gribapi.grib_get_values(handle)
                values[values == MISSING] = math.nan
                yield values
            except gribapi.GribInternalError:
                yield None
            finally:
                gribapi.grib_release(handle)


def by_ours(path):
    """The arrays that `values` writes, as they come."""
    with open(path, "rb") as file, subprocess.Popen([program, "values", "profile=open"], stdin=file, stdout=subprocess.PIPE) as run:
        while run.stdout.peek(1):
            numpy.lib.format.read_magic(run.stdout)
            shape, _, form = numpy.lib.format.read_array_header_1_0(run.stdout)
            yield numpy.frombuffer(run.stdout.read(math.prod(shape) * form.itemsize), form)


def same(one, other):
    """Whether ecCodes reads the same numbers in both."""
    return one is not None and other is not None and numpy.array_equal(one, other, equal_nan=True)


def scaled(values, five):
    """The scaled integers that values stand for."""
    reference, binary, decimal = scale_of(five)
    return numpy.rint((values * 10.0**decimal - reference) / 2.0**binary)


def compare_libaec(files, tool, simple, coded):
    """Coded messages beside the same ones in simple packing, by libaec."""
    done = subprocess.run([tool, "compare", f"{files.folder}/{simple}", f"{files.folder}/{coded}"], capture_output=True, check=False)
    lines = [line.split() for line in done.stdout.decode().splitlines()]
    files.hold("files that libaec takes", [done.returncode == 0])
    some = [(int(ours), int(theirs), told == "same") for bits, values, ours, theirs, told in lines if bits != "0" and values != "0"]
    files.counts["values"] += sum(int(line[1]) for line in lines)
    files.counts["fields of one value or none"] += len(lines) - len(some)
    files.hold("fields that libaec reads", [told for _, _, told in some])
    files.hold("fields with no more octets than libaec's", [ours <= theirs for ours, theirs, _ in some])
    files.counts["octets of ours"] += sum(ours for ours, _, _ in some)
    files.counts["octets of libaec"] += sum(theirs for _, theirs, _ in some)


def compare_ours(files, tool, parts):
    """What ours packs of these messages; the messages in simple packing, as far as their packing is read."""
    _, said = files.ran("all", "simple", "repack", "to=0", "profile=open", "refused=copy", "kept=copy")
    files.counts.update(f"left out: {' '.join(cause)}" for cause in said.values())
    every = list(messages(files.read("simple")))
    parts, simple = kept_of(parts, said), [one for at, one in zip(places(parts), every, strict=True) if at not in said]
    if parts:
        compare_packed(files, tool, parts, simple)
    return every


def compare_packed(files, tool, parts, simple):
    """What ours packs of messages that are here in simple packing too."""
    files.write("in", parts)
    _, said = files.ran("in", "coded", "repack", "to=42", "profile=open", "kept=pass")
    files.counts.update(f"not packed: {' '.join(cause)}" for cause in said.values())
    simple = [part for at, part in zip(places(parts), simple) if at not in said]
    parts, coded = kept_of(parts, said), list(messages(files.read("coded")))
    files.write("in", parts)
    files.write("simple", simple)
    files.hold("files of which each message is packed", [len(parts) == len(simple) == len(coded)])
    files.counts["messages"] += len(parts)

    files.ran("coded", "back", "repack", "to=0", "profile=open")
    back = list(messages(files.read("back")))
    files.hold("messages that come back", [one == other for one, other in itertools.zip_longest(simple, back)])
    _, said = files.ran("coded", "refused", "check", "refused=pass")
    files.hold("messages that are refused without profile=open", [said.get(at) in UNSTATED for at in places(coded)])
    compare_read(files, parts)
    compare_libaec(files, tool, "simple", "coded")

    files.ran("in", "least", "repack", "to=least", "profile=open")
    files.ran("least", "back", "repack", "to=0", "profile=open")
    least, back = list(messages(files.read("least"))), list(messages(files.read("back")))
    files.hold("messages that come back from the fewest octets", [one == other for one, other in itertools.zip_longest(simple, back)])
    files.hold("messages that do not become longer", [len(one) <= len(other) for one, other in zip(least, parts, strict=True)])
    files.hold("messages that are no longer than in blocks of 32", [len(one) <= len(other) for one, other in zip(least, coded, strict=True)])
    files.counts["octets of the messages"] += sum(map(len, parts))
    files.counts["octets in blocks of 32"] += sum(map(len, coded))
    files.counts["octets in the fewest"] += sum(map(len, least))


def compare_read(files, parts):
    """What ecCodes reads of the messages before and after."""
    fives = [five for part in parts for five in five_of(part)]
    told = []
    for five, before, after in zip(fives, by_eccodes(f"{files.folder}/in"), by_eccodes(f"{files.folder}/coded"), strict=True):
        if before is None:
            files.counts["fields that ecCodes does not read"] += 1
        elif has_no_groups(five):
            files.counts["fields with no groups, which ecCodes reads otherwise"] += 1
        else:
            told.append(same(before, after))
            files.counts["values that ecCodes reads"] += len(before)
    files.hold("fields of which ecCodes reads the same values", told)


def set_by_eccodes(files, parts):
    """The messages that grib_set packs, together or each by itself if it does not take all, and what it packs."""
    words = ["grib_set", "-r", "-s", "packingType=grid_ccsds", f"{files.folder}/in", f"{files.folder}/set"]

    def done_with(some):
        files.write("in", some)
        files.write("set", [])
        return files.read("set") if subprocess.run(words, capture_output=True, check=False).returncode == 0 else b""

    if octets := done_with(parts):
        return parts, list(messages(octets))
    packed = [(part, octets) for part in parts if (octets := done_with([part]))]
    files.counts["messages that ecCodes does not pack"] += len(parts) - len(packed)
    return [part for part, _ in packed], [one for _, octets in packed for one in messages(octets)]


def compare_theirs(files, parts):
    """What ecCodes packs of these messages, which becomes a message for each field."""
    parts, coded = set_by_eccodes(files, parts)
    files.hold("files of which ecCodes packs each field", [sum(len(five_of(part)) for part in parts) == len(coded)])
    if not coded:
        return
    files.counts["messages packed by ecCodes"] += len(coded)
    files.write("in", parts)
    files.write("theirs", coded)
    _, said = files.ran("theirs", "checked", "check", "profile=open", "refused=pass")
    count_wrong(files, parts, coded, said)
    coded = kept_of(coded, said)
    if not coded:
        return
    files.write("theirs", coded)
    told = []
    for part, ours, theirs in zip(coded, by_ours(f"{files.folder}/theirs"), by_eccodes(f"{files.folder}/theirs"), strict=True):
        five, = five_of(part)
        told.append(theirs is not None and numpy.array_equal(scaled(ours, five), scaled(theirs, five), equal_nan=True))
        if told[-1]:
            files.counts["values of them"] += len(ours)
            files.counts["values that are the same number of 64 bits"] += int(numpy.count_nonzero((ours == theirs) | numpy.isnan(ours)))
    files.hold("messages packed by ecCodes that are read alike", told)
    files.ran("theirs", "ours", "repack", "to=42", "profile=open")
    ours = list(messages(files.read("ours")))
    files.hold("messages with no more octets than ecCodes wrote", [len(one) <= len(other) for one, other in zip(ours, coded, strict=True)])
    files.counts["octets by ecCodes"] += sum(map(len, coded))
    files.counts["octets by ours of the same"] += sum(map(len, ours))


def count_wrong(files, parts, coded, said):
    """Which messages are refused, and which ones ecCodes itself does not read again, or reads values of that are further off
    than a step: findings, but where neither scale factor of the field was 0."""
    fives = [five for part in parts for five in five_of(part)]
    pairs = zip(by_eccodes(f"{files.folder}/in"), by_eccodes(f"{files.folder}/theirs"), strict=True)
    for at, part, five, (before, after) in zip(places(coded), coded, fives, pairs, strict=True):
        own, = five_of(part)
        reference, binary, decimal = scale_of(own)
        step = (2.0**binary + abs(reference) * 2.0**-23) / 10.0**decimal
        refused = f"refused by {said[at][1]}" if at in said else "accepted"
        if before is None or has_no_groups(five):
            what = "not compared with what ecCodes packed"
        elif after is None:
            what = "ecCodes does not read what it wrote"
        elif not numpy.array_equal(numpy.isnan(before), numpy.isnan(after)) or numpy.nanmax(abs(before - after), initial=0) > step:
            what = "ecCodes reads other values than it packed"
        else:
            what = "ecCodes reads what it packed"
        files.counts[f"messages packed by ecCodes: {refused}, {what}"] += 1
        known = said.get(at) in (None, ("refused", "ScaledRange")) and 0 not in scale_of(five)[1:]
        if not known and (at in said or what.startswith("ecCodes reads other") or after is None):
            findings.append(f"{files.name}: packed by ecCodes with {scale_of(five)}, at {at}: {refused}, {what}")


def listed(counts):
    return ", ".join(f"{number:,} {what}" for what, number in counts.items() if number)


def main():
    global program
    if len(sys.argv) < 2:
        sys.exit(__doc__)
    program = os.path.abspath(sys.argv[1])
    gribapi.grib_multi_support_on()
    sums = collections.Counter()
    with tempfile.TemporaryDirectory() as folder:
        tool = f"{folder}/ccsds"
        words = ["gcc", "-O2", "-Wall", "-Wextra", "-std=gnu11", "-o", tool, f"{top}/bench/ccsds.c", "-laec"]
        if subprocess.run(words, check=False).returncode != 0:
            sys.exit("bench/ccsds.c was not built (Debian: gcc, libaec-dev)")
        for path in sys.argv[2:] or sorted(glob.glob(f"{FILES}/*")):
            with open(path, "rb") as file:
                parts = list(messages(file.read()))
            if not parts:
                continue
            files = Inputs(folder, os.path.basename(path))
            files.write("all", parts)
            compare_theirs(files, compare_ours(files, tool, parts))
            sums += files.counts
            print(f"{path}: {listed(files.counts)}", flush=True)
    print(f"in all: {listed(sums)}")
    for finding in findings:
        print(finding)
    print(f"{len(findings)} findings")
    sys.exit(bool(findings))


if __name__ == "__main__":
    main()
