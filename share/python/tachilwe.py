"""Fields of GRIB files as NumPy arrays, read by the program `grib`.

    import tachilwe

    for field in tachilwe.open("gfs.grb"):
        print(field.place, field.keys["discipline"], field.values.shape, field.values.max())

`grib` has to be in PATH, or the variable GRIB of the environment has to name it. A file is read by two runs of it: one
for the keys of all fields, when the first field is asked for, and one for all values, when the first values are; these
are then in a temporary file, from which each field takes its own. Latitudes and longitudes of points, names of
parameters and units are not here. Needs Python 3.8 and NumPy."""
import builtins
import collections.abc
import functools
import math
import os
import subprocess
import tempfile

import numpy


class GribError(Exception):
    """What `grib` says where it does not read a file or a field: `note` is what it wrote to standard error, as `refused
    message 3 octet 153 Jpeg2000 40`, and `status` its exit status. The statuses, refusals and causes are explained by
    `man grib`, and each by `grib help NAME`."""

    def __init__(self, status, note):
        super().__init__(note or f"status {status}")
        self.status, self.note = status, note


class Field:
    """A field of a file.

    place    the number of its message and its own number in it, both from 1, as "3.1"
    edition  1 or 2
    keys     a dict: each key that `grib keys` prints, with its number, or None where that is missing
    values   an array, as `Field.values` says"""

    def __init__(self, fields, index, line):
        self.place, edition, *words = line.split()
        self.edition = int(edition.split("=")[1])
        self.keys = {key: None if value == "missing" else int(value) for key, value in (word.split("=") for word in words)}
        self._fields, self._index = fields, index

    @functools.cached_property
    def values(self):
        """The values as an array of shape (nj, ni): rows in the order of the data, by the keys `scanning`, `la1` and `lo1`.

        Each is the number of the format that is nearest to the exact value, and NaN where the field has none. A grid
        that has rows of differing lengths, or that is not known (`profile="open"`), has the shape (points,). A field of
        edition 1 whose columns are stored one after another has the shape (ni, nj). GribError is raised if the values
        of the field cannot be read, as those of JPEG 2000."""
        array = self._fields._array(self)
        return array.T if array.ndim == 2 and self.keys.get("scanning", 0) & 0x20 else array

    def __repr__(self):
        return f"<field {self.place} of {self._fields.path}>"


class Fields(collections.abc.Sequence):
    """The fields of a file in their order, of which nothing is read before it is asked for; `open` makes them.

    `skipped` has a line on each message that was skipped with `refused="pass"`."""

    def __init__(self, path, profile, refused, kind, program):
        self.path, self._kind, self._program = path, kind, program
        self._words = [f"{name}={value}" for name, value in (("profile", profile), ("refused", refused)) if value]
        with builtins.open(path, "rb"):  # a file that is not there is told of now
            pass

    def _run(self, output, command, *words):
        """What a run writes to standard error, as lines. It has to come to the end of the file."""
        with builtins.open(self.path, "rb") as file:
            run = subprocess.run([self._program, command, *words, *self._words], stdin=file, stdout=output, stderr=subprocess.PIPE)
        note = run.stderr.decode(errors="replace").strip()
        ended = {0} | ({2} if "refused=pass" in self._words else set()) | ({3} if "kept=pass" in words else set())
        if run.returncode not in ended:
            raise GribError(run.returncode, note)
        return note.splitlines()

    @functools.cached_property
    def _lines(self):
        """The line of each field, and those on messages that were skipped."""
        with tempfile.TemporaryFile() as output:
            notes = self._run(output, "keys")
            output.seek(0)
            return output.read().decode().splitlines(), [line for line in notes if line.startswith("refused message ")]

    @property
    def skipped(self):
        return self._lines[1]

    @functools.cached_property
    def _values(self):
        """The file of the arrays, the place of each of them in it, by field, and what is said of messages that have none."""
        output = tempfile.TemporaryFile()
        notes = [line.split(maxsplit=3) for line in self._run(output, "values", f"as={self._kind}", "kept=pass")]
        without = {words[2]: " ".join(words) for words in notes if words[:2] == ["kept", "message"]}
        places, at = {}, 0
        for index, line in enumerate(self._lines[0]):
            if line.split(".")[0] in without:
                continue
            places[index] = at
            output.seek(at)
            numpy.lib.format.read_magic(output)
            shape, _, form = numpy.lib.format.read_array_header_1_0(output)
            at = output.tell() + math.prod(shape) * form.itemsize
        return output, places, without

    def _array(self, field):
        output, places, without = self._values
        if field._index not in places:
            raise GribError(3, without[field.place.split(".")[0]])
        output.seek(places[field._index])
        return numpy.lib.format.read_array(output)

    def __len__(self):
        return len(self._lines[0])

    def __getitem__(self, index):
        indices = range(len(self))[index]
        if isinstance(index, slice):
            return [self[one] for one in indices]
        return Field(self, indices, self._lines[0][indices])


def open(path, profile=None, refused=None, kind="f8", program=None):
    """The fields of a file, as `Fields`.

    profile  "open" reads CCSDS packing too, and takes any grid, product and packing of edition 2
    refused  "pass" skips messages that are not accepted; without it the first of them raises GribError
    kind     "f8" for values of 64 bits, "f4" for 32
    program  the program, if it is not the one that GRIB names, or `grib`"""
    return Fields(path, profile, refused, kind, program or os.environ.get("GRIB", "grib"))
