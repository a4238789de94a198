#!/usr/bin/env python3
"""Migrates the edition 1 messages of files, and compares what ecCodes reads before and after:
migrate.py PROGRAM [shipped] FILE..

Needs grib_get and grib_get_data of ecCodes (Debian: libeccodes-tools). Each message is handed to PROGRAM by itself.
First it is migrated by the shipped tables alone, params/standard.csv and params/surfaces.csv; each message that stays
is named by its number, with its loss. With `shipped` that is all. Then the parameter table is params/standard.csv and,
for each parameter of the files that has no row there, a row of some parameter, so that a message is only kept for another
loss; octets for local use are kept. Of what is written then ecCodes has to read the same value, or none, at each
point, and the same date, time, level and step. PROGRAM has to check it as one message of edition 2 with one field. Prints
a line for each file: what was migrated, which losses were named, what was refused, and what differs."""
import collections
import os
import sys
import tempfile

from eccodes import keys, run, values
from messages import cause, messages, told

top = os.path.dirname(os.path.dirname(os.path.abspath(__file__)))
KEYS = ["dataDate", "dataTime", "typeOfLevel", "level", "stepRange", "numberOfPoints", "Ni", "Nj", "centre"]


def table(paths):
    """The parameter table, with a row for each parameter of these files."""
    with open(f"{top}/params/standard.csv", encoding="ascii") as file:
        text = file.read()
    known = {tuple(line.split(",")[:3]) for line in text.splitlines()}
    for path in paths:
        with open(path, "rb") as file:
            for message in messages(file.read(), edition=1):
                centre, version, parameter = str(message[12]), str(message[11]), str(message[16])
                if not known & {(centre, version, parameter), ("*", version, parameter)}:
                    known.add((centre, version, parameter))
                    text += f"{centre},{version},{parameter},0,0,0,2,0\n"
    return text


def by_shipped(program, message):
    """What is lost of a message by the shipped tables alone, or None."""
    words = [f"params={top}/params/standard.csv", f"surfaces={top}/params/surfaces.csv", "local=keep"]
    done = run([program, "migrate"] + words, message)
    return cause(done.stderr.decode()) if done.returncode else None


def compared(program, work, message, counts):
    """Counts what comes of a message."""
    done = run([program, "migrate", "params=table", "local=keep"], message, cwd=work)
    if done.returncode != 0:
        counts[cause(done.stderr.decode())] += 1
        return
    counts["migrated"] += 1
    checked = run([program, "check"], done.stdout)
    lines = checked.stdout.decode().splitlines()
    counts["NOT ACCEPTED"] += checked.returncode != 0 or len(lines) != 2 or lines[0].split()[5] != "2"
    before, after = values(message), values(done.stdout)
    if before is None:
        counts["not read by ecCodes"] += 1
        return
    counts["points"] += len(before)
    counts["messages whose values DIFFER"] += before != after
    old, new = keys(message, KEYS), keys(done.stdout, KEYS)
    for key in KEYS:
        if old.get(key) != new.get(key):
            counts[f"{key} DIFFERS ({old.get(key)}, {new.get(key)})"] += 1


def main():
    program, paths, failed = os.path.abspath(sys.argv[1]), sys.argv[2:], False
    shipped = paths[0] == "shipped"
    paths = paths[shipped:]
    with tempfile.TemporaryDirectory() as work:
        with open(f"{work}/table", "w", encoding="ascii") as file:
            file.write(table(paths))
        for path in paths:
            counts, causes = collections.Counter(), []
            with open(path, "rb") as file:
                for message in messages(file.read(), edition=1):
                    causes.append(by_shipped(program, message))
                    if not shipped:
                        counts["messages"] += 1
                        compared(program, work, message, counts)
            failed |= any(("DIFFER" in what or "NOT" in what) and number for what, number in counts.items())
            if causes:
                print(f"{path}, by the shipped tables alone: {told(causes, 'migrated')}")
            if counts:
                print(path + ": " + ", ".join(f"{number} {what}" for what, number in counts.items() if number), flush=True)
    sys.exit(failed)


main()
