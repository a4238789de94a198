#!/usr/bin/env python3
"""Goes through files past what is refused, and compares the places of the messages with those that ecCodes finds.

    bench/passing.py PROGRAM FILE..

Of each file `check refused=pass` tells where a message begins that is accepted, and the notes where one is refused;
`grib_get -p offset` of ecCodes tells where it finds one. A place that only one of the two has is printed. The last lines
are sums, with the reasons of the refusals. Needs Python 3.8 and libeccodes-tools."""
import collections
import re
import subprocess
import sys


def places(program, file):
    """The places of accepted messages and those of refusals, with their reasons."""
    with open(file, "rb") as octets:
        run = subprocess.run([program, "check", "refused=pass"], stdin=octets, capture_output=True, check=False)
    if run.returncode not in (0, 2):
        raise SystemExit(f"{file}: status {run.returncode}, {run.stderr.decode()}")
    accepted = [int(line.split()[3]) for line in run.stdout.decode().splitlines() if line.startswith("message ")]
    refused = re.findall(r"^refused message \d+ at (\d+) octet \d+ (\w+)", run.stderr.decode(), re.M)
    return accepted, [(int(at), reason) for at, reason in refused]


def found(file):
    """The places where ecCodes finds a message."""
    run = subprocess.run(["grib_get", "-f", "-p", "offset:i", file], capture_output=True, text=True, check=False)
    return [int(line) for line in run.stdout.split() if line.isdigit()]


program, *files = sys.argv[1:]
sums, reasons = collections.Counter(), collections.Counter()
for file in files:
    accepted, refused = places(program, file)
    theirs = set(found(file))
    ours = set(accepted) | {at for at, _ in refused}
    for at in sorted(ours ^ theirs):
        print(f"{file}: at {at}, found by {'ecCodes' if at in theirs else 'the program'} alone")
    sums.update(files=1, accepted=len(accepted), refused=len(refused), both=len(ours & theirs), only=len(ours ^ theirs))
    reasons.update(reason for _, reason in refused)
print(f"{sums['files']} files, {sums['accepted']} messages accepted, {sums['refused']} refused and passed; "
      f"{sums['both']} places found by both, {sums['only']} by one alone")
print(", ".join(f"{reason} {count}" for reason, count in reasons.most_common()))
