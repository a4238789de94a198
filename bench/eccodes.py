"""What the comparisons with ecCodes and with exact fractions share: runs of a program, the values and keys that ecCodes
reads (grib_get_data, grib_get and grib_filter; Debian: libeccodes-tools), and exact values as fractions of Python."""
import subprocess
import tempfile
from fractions import Fraction

from messages import reference_of


def run(words, octets, **more):
    """A program with these octets as its input."""
    return subprocess.run(words, input=octets, capture_output=True, check=False, **more)


def values_of_fields(message):
    """For each field of a message the texts of its values in their order, `missing` where there is none. None where ecCodes
    reads nothing."""
    done = run(["grib_get_data", "-m", "missing", "-F", "%.17g", "-L", "%.2f %.2f", "-"], message)
    if done.returncode != 0:
        return None
    fields = []
    for line in done.stdout.decode().splitlines():
        if line.startswith("Lat"):
            fields.append([])
        elif line.strip():
            fields[-1].append(line.replace(",", " ").split()[-1])
    return fields


def values(message):
    """The same of all fields, one after another."""
    fields = values_of_fields(message)
    return None if fields is None else [text for field in fields for text in field]


def keys(message, names):
    """The values of keys of the first field, by the names that ecCodes has."""
    done = run(["grib_get", "-f", "-p", ",".join(names), "-"], message)
    return dict(zip(names, done.stdout.decode().split()))


def filtered(message, rules):
    """What grib_filter prints by these rules."""
    with tempfile.NamedTemporaryFile("w") as file:
        file.write(rules)
        file.flush()
        return run(["grib_filter", file.name, "-"], message).stdout


def fields_of(lines):
    """For each field that `dump` prints its reference value as mantissa and exponent, its scale factors, and the texts of its
    points."""
    fields = []
    for line in lines:
        words = line.split()
        if words[0] == "reference":
            fields.append((*reference_of(words), []))
        elif "." not in words[0]:
            fields[-1][4].append(words[1])
    return fields


def exact(mantissa, exponent, binary, decimal, number):
    """The value that a scaled number stands for."""
    return (mantissa * Fraction(2) ** exponent + number * Fraction(2) ** binary) / Fraction(10) ** decimal
