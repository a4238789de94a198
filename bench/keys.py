#!/usr/bin/env python3
"""Cuts files of edition 2 into fields and picks fields from them, and compares: keys.py PROGRAM FILE..

Needs grib_filter of ecCodes (Debian: libeccodes-tools). Of each file the messages that PROGRAM accepts are taken,
one after another. What `split` makes of them, joined again, has to give ecCodes the same values, field by field;
so has what `filter` gives for each key of the first field with its value there, of the fields that have that value
by the reading of this script; and what `set` gives for a centre. What `keys` prints has to be what this script reads,
and of the keys for which ecCodes has a name what ecCodes reads. Prints for each file what agrees and what differs."""
import collections
import hashlib
import os
import sys
import tempfile

from eccodes import filtered, run
from messages import messages, sections

# The section of each key with its first and its last octet, 's' for a number with sign and 'm' for one that may be
# missing. The places of scanning, la1 and lo1 and those of ensembles and intervals go by the template.
PLACES = {
    "discipline": (0, 7, 7, ""), "centre": (1, 6, 7, ""), "subCentre": (1, 8, 9, ""), "masterTables": (1, 10, 10, ""),
    "localTables": (1, 11, 11, ""), "significance": (1, 12, 12, ""), "year": (1, 13, 14, ""), "month": (1, 15, 15, ""),
    "day": (1, 16, 16, ""), "hour": (1, 17, 17, ""), "minute": (1, 18, 18, ""), "second": (1, 19, 19, ""),
    "status": (1, 20, 20, ""), "dataType": (1, 21, 21, ""), "earthShape": (3, 15, 15, ""), "points": (3, 7, 10, ""),
    "gridTemplate": (3, 13, 14, ""), "ni": (3, 31, 34, "m"), "nj": (3, 35, 38, "m"), "productTemplate": (4, 8, 9, ""),
    "category": (4, 10, 10, ""), "number": (4, 11, 11, ""), "process": (4, 12, 12, ""), "generator": (4, 14, 14, ""),
    "timeUnit": (4, 18, 18, ""), "forecastTime": (4, 19, 22, "s"), "surface1": (4, 23, 23, "m"),
    "surface1Scale": (4, 24, 24, "sm"), "surface1Value": (4, 25, 28, "m"), "surface2": (4, 29, 29, "m"),
    "surface2Scale": (4, 30, 30, "sm"), "surface2Value": (4, 31, 34, "m"), "packing": (5, 10, 11, ""),
    "bits": (5, 20, 20, ""),
}
ENSEMBLE = {"ensembleType": (4, 35, 35, ""), "ensembleNumber": (4, 36, 36, ""), "ensembleMembers": (4, 37, 37, "")}
# Of an interval by the octets from its beginning on, octet 35 of template 4.8 and octet 38 of template 4.11: its end,
# and the first of its time ranges.
END = {"endYear": (0, 1), "endMonth": (2, 2), "endDay": (3, 3), "endHour": (4, 4), "endMinute": (5, 5), "endSecond": (6, 6)}
RANGES, RANGE = 7, {"rangeProcess": (12, 12), "rangeIncrementType": (13, 13), "rangeUnit": (14, 14), "rangeLength": (15, 18)}
INTERVAL = {8: 35, 11: 38}
SCANNING = {0: 72, 1: 72, 40: 72, 10: 60, 20: 65, 30: 65}


def fields(message):
    """The sections in force for each field, by their numbers."""
    own = {0: message[:16]}
    for at, length, number in sections(message):
        own[number] = message[at : at + length]
        if number == 7:
            yield dict(own)


def keys(sections):
    """The keys of a field with their values, as a command line has them."""
    places = dict(PLACES)
    template = int.from_bytes(sections[3][12:14], "big")
    scanning, first = SCANNING[template], 47 if SCANNING[template] == 72 else 39
    places |= {"scanning": (3, scanning, scanning, ""), "la1": (3, first, first + 3, "s"), "lo1": (3, first + 4, first + 7, "")}
    product = int.from_bytes(sections[4][7:9], "big")
    if product in (1, 11):
        places |= ENSEMBLE
    if product in INTERVAL:
        begin = INTERVAL[product]
        has_range = sections[4][begin + RANGES - 1] != 0
        for key, (start, end) in (END | (RANGE if has_range else {})).items():
            places[key] = (4, begin + start, begin + end, "")
    values = {}
    for key, (section, start, end, kind) in places.items():
        octets = sections[section][start - 1 : end]
        number, sign = int.from_bytes(octets, "big"), 1 << 8 * len(octets) - 1
        if "m" in kind and number == 2 * sign - 1:
            values[key] = "missing"
        else:
            values[key] = str(sign - number if "s" in kind and number > sign else number % sign if "s" in kind else number)
    return values


def eccodes(octets, known):
    """The values of each field that ecCodes reads, as checksums. What was read of a message is known from then on."""
    read = []
    for message in messages(octets):
        digest = hashlib.sha256(message).digest()
        if digest not in known:
            text = filtered(message, 'print "field";\nprint "[values%.17g!1]";')
            known[digest] = [hashlib.sha256(values).digest() for values in text.split(b"field\n")[1:]]
        read += known[digest]
    return read


# The names that ecCodes has for the keys of products. Of a centre it has a name in place of the number, of a surface
# its own text, and missing scales and values it prints as 'MISSING': those are read with ':i' or left out.
NAMES = {
    "discipline": "discipline", "masterTables": "tablesVersion", "localTables": "localTablesVersion",
    "significance": "significanceOfReferenceTime", "year": "year", "month": "month", "day": "day", "hour": "hour",
    "minute": "minute", "second": "second", "status": "productionStatusOfProcessedData", "dataType": "typeOfProcessedData",
    "earthShape": "shapeOfTheEarth", "points": "numberOfDataPoints", "gridTemplate": "gridDefinitionTemplateNumber",
    "productTemplate": "productDefinitionTemplateNumber", "category": "parameterCategory", "number": "parameterNumber",
    "process": "typeOfGeneratingProcess", "generator": "generatingProcessIdentifier",
    "timeUnit": "indicatorOfUnitOfTimeRange", "surface1": "typeOfFirstFixedSurface",
    "surface1Scale": "scaleFactorOfFirstFixedSurface", "surface1Value": "scaledValueOfFirstFixedSurface",
    "surface2": "typeOfSecondFixedSurface", "surface2Scale": "scaleFactorOfSecondFixedSurface",
    "surface2Value": "scaledValueOfSecondFixedSurface", "ensembleType": "typeOfEnsembleForecast",
    "ensembleNumber": "perturbationNumber", "ensembleMembers": "numberOfForecastsInEnsemble",
    "endYear": "yearOfEndOfOverallTimeInterval", "endMonth": "monthOfEndOfOverallTimeInterval",
    "endDay": "dayOfEndOfOverallTimeInterval", "endHour": "hourOfEndOfOverallTimeInterval",
    "endMinute": "minuteOfEndOfOverallTimeInterval", "endSecond": "secondOfEndOfOverallTimeInterval",
    "rangeProcess": "typeOfStatisticalProcessing", "rangeIncrementType": "typeOfTimeIncrement",
    "rangeUnit": "indicatorOfUnitForTimeRange", "rangeLength": "lengthOfTimeRange",
    "packing": "dataRepresentationTemplateNumber", "bits": "bitsPerValue",
}


def eccodes_keys(message):
    """The keys of each field for which ecCodes has a name, by ecCodes."""
    rules = "".join(f'print "{key}=[{name}:i!1]";\n' for key, name in NAMES.items()) + 'print "field";\n'
    text = filtered(message, rules).decode()
    return [dict(line.split("=") for line in field.split() if "=" in line) for field in text.split("field\n")[:-1]]


def printed(program, octets):
    """The keys of each field that `keys` prints."""
    lines = run([program, "keys"], octets).stdout.decode().splitlines()
    return [dict(word.split("=") for word in line.split()[2:]) for line in lines]


def split(program, octets):
    """The parts that `split` makes, joined again."""
    with tempfile.TemporaryDirectory() as folder:
        name = os.path.join(folder, "part")
        if run([program, "split", "out=" + name], octets).returncode != 0:
            return b""
        return b"".join(open(f"{name}.{n}", "rb").read() for n in range(1, len(os.listdir(folder)) + 1))


def main():
    program, failed = sys.argv[1], False
    for path in sys.argv[2:]:
        counts = collections.Counter()
        every = list(messages(open(path, "rb").read()))
        accepted = [message for message in every if run([program, "check"], message).returncode == 0]
        counts["messages"], counts["refused"] = len(accepted), len(every) - len(accepted)
        own = [keys(sections) for message in accepted for sections in fields(message)]
        octets, known = b"".join(accepted), {}
        theirs = eccodes(octets, known)
        counts["fields"] = len(own)
        counts["fields DIFFER in number"] = len(own) != len(theirs)
        if own and len(own) == len(theirs):
            counts["split DIFFERS"] = eccodes(split(program, octets), known) != theirs
            counts["keys DIFFERS"] = printed(program, octets) != own
            by_name = [named for message in accepted for named in eccodes_keys(message)]
            for field, named in zip(own, by_name):
                for key, value in named.items():
                    counts["keys read by ecCodes"] += key in field
                    counts[f"{key} DIFFERS from ecCodes"] += key in field and "missing" != field[key] != value
            changed = run([program, "set", "centre=255"], octets).stdout
            counts["set DIFFERS"] = eccodes(changed, known) != theirs
            for key, value in own[0].items():
                picked = run([program, "filter", f"{key}={value}"], octets)
                wanted = [values for values, field in zip(theirs, own) if field.get(key) == value]
                counts["keys"] += 1
                counts["fields picked"] += len(wanted)
                counts["filter DIFFERS"] += picked.returncode != 0 or eccodes(picked.stdout, known) != wanted
        failed |= any("DIFFER" in what and number for what, number in counts.items())
        print(path + ": " + ", ".join(f"{number} {what}" for what, number in counts.items() if number), flush=True)
    sys.exit(failed)


if __name__ == "__main__":
    main()
