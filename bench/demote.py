#!/usr/bin/env python3
"""Demotes the edition 2 messages of files, and goes from edition 1 to 2 and back with those of edition 1:
demote.py PROGRAM [shipped] FILE..

Needs grib_get_data of ecCodes (Debian: libeccodes-tools). Each message is handed to PROGRAM by itself. First those of
edition 2 are demoted by the shipped table alone, params/standard.csv with tables=any; each that stays is named by its
number, with its loss. Of the others ecCodes has to read the same value, or missing mark, at each point, and `list` and
`dump` have to be the same, as below, when they are migrated again by that table. With `shipped` that is all. Then the
parameter table is params/standard.csv and, for each parameter of the files that has no row there, a row of some number that no
other has, so that a message is only kept for another loss; octets for local use are kept, and any earth is taken.

Of what a message of edition 2 is demoted to, ecCodes has to read the same value, or none, at each point. It is
migrated again: `list`, but for the packing, and `dump` of the result have to be those of the fields before. A message
of edition 1 that migrates without loss is demoted and migrated again: the octets have to be those of the first time.
Prints a line for each file: what was demoted and came back, which losses were named, what was refused, and what
differs."""
import collections
import os
import re
import sys
import tempfile

from eccodes import run, values
from messages import cause, messages, sections, told

top = os.path.dirname(os.path.dirname(os.path.abspath(__file__)))


def parameters(message):
    """The centre and the parameter of each field of a message of edition 2."""
    discipline, centre, tables = message[6], None, None
    for at, _, number in sections(message):
        if number == 1:
            centre, tables = int.from_bytes(message[at + 5 : at + 7], "big"), (message[at + 9], message[at + 10])
        if number == 4:
            yield centre, (discipline, message[at + 9], message[at + 10], *tables)


def table(paths):
    """The parameter table, with a row for each parameter of these files."""
    with open(f"{top}/params/standard.csv", encoding="ascii") as file:
        text = file.read()
    rows = [line.split(",") for line in text.splitlines()]
    known = {tuple(row[:3]) for row in rows}
    targets = {(row[0], tuple(map(int, row[3:8]))) for row in rows}
    free = ((version, parameter) for version in range(255, 128, -1) for parameter in range(1, 255))
    for path in paths:
        with open(path, "rb") as file:
            data = file.read()
        for message in messages(data, edition=1):
            key = str(message[12]), str(message[11]), str(message[16])
            if key not in known and ("*", *key[1:]) not in known:
                version, parameter = next(free)
                target = 0, version, parameter, 2, 0
                known.add(key)
                targets.add((key[0], target))
                text += ",".join(map(str, (*key, *target))) + "\n"
        for message in messages(data):
            for centre, target in parameters(message):
                if centre < 256 and (str(centre), target) not in targets and ("*", target) not in targets:
                    version, parameter = next(free)
                    targets.add((str(centre), target))
                    text += ",".join(map(str, (centre, version, parameter, *target))) + "\n"
    return text


class Program:
    """The program, run where the table is."""

    def __init__(self, path, work):
        self.path, self.work = path, work

    def run(self, words, message):
        """The output of a run, and its note where it did not end well."""
        done = run([self.path, *words.split()], message, cwd=self.work)
        return done.stdout, done.stderr.decode() if done.returncode != 0 else None

    def demote_by_shipped(self, message):
        return self.run(f"demote params={top}/params/standard.csv tables=any local=keep earth=any", message)

    def migrate_by_shipped(self, message):
        return self.run(f"migrate params={top}/params/standard.csv local=keep", message)

    def demote(self, message):
        return self.run("demote params=table local=keep earth=any", message)

    def migrate(self, message):
        return self.run("migrate params=table local=keep", message)

    def lines(self, command, message):
        """The lines on each field, without its number and its packing. A level that edition 1 tells by its type alone
        may have the number 0, and then comes back without one."""
        text, _ = self.run(command, message)
        lines = []
        for line in text.decode().splitlines():
            words = line.split()
            if words and "." in words[0] and words[0][0].isdigit() and len(words) > 3:
                words = [word for word in words[1:] if not word.startswith(("packing=", "bits="))]
                words = [re.sub(r"^surface=([1-9]|101):0:0$", r"surface=\1:missing:missing", word) for word in words]
            lines.append(" ".join(words))
        return lines


def by_shipped(program, message, counts):
    """What is lost of a message of edition 2 by the shipped table alone, or None."""
    old, note = program.demote_by_shipped(message)
    if note is not None:
        return cause(note)
    same_again(program, message, old, program.migrate_by_shipped, counts)
    return None


def goes_back(program, message, counts):
    """Counts what comes of a message of edition 2."""
    old, note = program.demote(message)
    if note is not None:
        counts[cause(note)] += 1
        return
    counts["demoted"] += 1
    same_again(program, message, old, program.migrate, counts)


def same_again(program, message, old, migrate, counts):
    """Counts what differs in a message of edition 2 that became these octets of edition 1, here and migrated again."""
    before, after = values(message), values(old)
    if before is None:
        counts["not read by ecCodes"] += 1
    else:
        counts["points"] += len(before)
        counts["messages whose values DIFFER"] += before != after
    new, note = migrate(old)
    if note is not None:
        counts["NOT migrated: " + cause(note)] += 1
        return
    counts["messages whose list DIFFERS"] += program.lines("list", message) != program.lines("list", new)
    counts["messages whose dump DIFFERS"] += program.lines("dump", message) != program.lines("dump", new)


def comes_back(program, message, counts):
    """Counts what comes of a message of edition 1."""
    new, note = program.migrate(message)
    if note is not None:
        counts[cause(note)] += 1
        return
    counts["migrated"] += 1
    old, note = program.demote(new)
    if note is not None:
        counts["NOT demoted: " + cause(note)] += 1
        return
    again, _ = program.migrate(old)
    if again != new:
        counts["NOT the same octets again"] += 1
        return
    counts["and came back"] += 1


def print_counts(what, counts):
    print(what + ", ".join(f"{number} {one}" for one, number in counts.items() if number), flush=True)


def main():
    path, paths, failed = os.path.abspath(sys.argv[1]), sys.argv[2:], False
    shipped = paths[0] == "shipped"
    paths = paths[shipped:]
    with tempfile.TemporaryDirectory() as work:
        with open(f"{work}/table", "w", encoding="ascii") as file:
            file.write(table(paths))
        program = Program(path, work)
        for name in paths:
            counts, first = collections.Counter(), collections.Counter()
            with open(name, "rb") as file:
                data = file.read()
            causes = [by_shipped(program, message, first) for message in messages(data)]
            if causes:
                print_counts(f"{name}, by the shipped table alone: {told(causes, 'demoted')}; ", first)
            for message in [] if shipped else messages(data):
                counts["messages of edition 2"] += 1
                goes_back(program, message, counts)
            for message in [] if shipped else messages(data, edition=1):
                counts["messages of edition 1"] += 1
                comes_back(program, message, counts)
            failed |= any(("DIFFER" in what or "NOT" in what) and number for what, number in (*counts.items(), *first.items()))
            if counts:
                print_counts(name + ": ", counts)
    sys.exit(failed)


main()
