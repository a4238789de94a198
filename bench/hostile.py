#!/usr/bin/env python3
"""Gives a program damaged messages in hostile ways, and holds each run to what has to be true of any run.

    bench/hostile.py PROGRAM FILE.. [profile=stated] [runs=10000] [seed=1] [jobs=1] [case=N] [keep=FOLDER]

First, what costs the most for its octets (bench/bombs.py): the time and memory of each run on it are printed, and held to the
bounds of docs/PROFILE.md, as are those of all runs that follow. A case takes a few messages of the files, of docs/WORKED.md and of `make`, and some of them in CCSDS packing, damages them
(cuts, flips, splices, repeats, other lengths and counts, sizes that are claimed, other packed data), and gives them to `check` and to one command with words that
it may have, all arguments of all commands among them: from a file,
and in one more way: through a pipe in random pieces, to a reader that goes away, to a full device, to a closed
output, with notes that cannot be written, with a directory as input or none, with 3 to 60 MB of address space. With
`profile=open` each run of a command that reads messages has this argument, `to=42` is among the commands, and what the
stated profile answers has to be what the open one answers, as far as it goes; with `profile=stated`, or nothing, no run has
it. At the end it prints the runs, the findings, and the most time and memory that a case took for each octet that came and
went, beyond what it takes without an input. The cases hang on `seed`, the profile and their number alone; `case=N` runs one of them. `runs` is how often the program is started,
`jobs` how many processes share the work; an interrupt ends it after the case at hand, with the sums so far. Each
finding is a line, and its input is kept in the folder `keep` (hostile-findings), as small as cutting makes it. A run ends
after 200 seconds of processor time; runs of `values` that would take longer by their scale factors are left out, and counted.
What is printed and written is also worked out here: arrays, latitudes and longitudes, boxes in degrees, columns of lists, names, keys
of edition 1, what `compare` says of each field. Commands and arguments that the program does not have yet are left out. Needs
Python 3.8, Linux and GNU time."""
import calendar
import collections
import fractions
import multiprocessing
import os
import random
import re
import resource
import shutil
import signal
import sys
import tempfile
import time

import bombs
from eccodes import fields_of
from grids import ROUND, arrays, cause, degrees, grids, has_steps, in_box, nearest, texts
from messages import reference_of, sections
from values import words_of

top = os.path.dirname(os.path.dirname(os.path.abspath(__file__)))
MEGABYTE = 1 << 20
MOST_POINTS = 40_000  # fields of more points are not dumped here
REASONS = """Truncated Edition TotalLength SectionLength SectionOrder GridSource GridTemplate PointCount ListShape
ProductTemplate PackingTemplate Jpeg2000 PngPacked Ccsds ReferenceNotFinite BitmapIndicator NoEarlierBitmap BitmapSize
ValueCount MissingManagement GroupCount GroupWidth GroupShape DifferenceOrder ExtraOctets FirstValueSign DataTooShort
ScaledRange EndMark LengthDisagrees BitWidth FieldCount NoGridSection GridType SecondOrder Harmonics
ExtraFlags BlockCode""".split()
# Why the stated profile refuses what the open one accepts, or tries by other rules.
UNSTATED = "GridSource GridTemplate ProductTemplate PackingTemplate Jpeg2000 PngPacked Ccsds".split()
LOSSES = r"(Parameter|LevelType|TimeUnit|TimeRange|Date|AverageCount|LocalUse|GridFlags|Reference|(GridNumber|Coordinate) \d+)"
DEMOTIONS = r"(Product|GridTemplate|Centre|Parameter|Level|TimeUnit|Process|Date|Interval|LocalUse|EarthShape|GridFlags|RowList|Reference)"
NUMBERED = r"(GridNumber|Coordinate|SecondaryMissing|OutOfRange|TooLong)"
CAUSES = {
    "filter": ["EditionOne"], "split": ["EditionOne"], "set": ["EditionOne", "EditionTwo", "Date", r"KeyRange \w+", r"KeyAbsent \w+ field \d+"],
    "repack": ["EditionOne", r"SecondaryMissing field \d+ point \d+", r"OutOfRange field \d+ point \d+",
               r"DifferenceRange field \d+", r"OutputTooLong \d+"],
    "migrate": ["Loss " + LOSSES], "demote": [rf"Demotion ({DEMOTIONS} field \d+|{NUMBERED} \d+ field \d+)"],
    "coordinates": ["EditionOne", r"(GridKind|ScanMode) field \d+"], "compare": [],
}
CAUSES["dump"] = CAUSES["coordinates"] + [r"DecimalRange field \d+ point \d+"]
CAUSES["rescan"] = CAUSES["crop"] = CAUSES["repack"] + [r"(GridKind|ScanMode|OutsideBox|Increments) field \d+"]
PACKING = r"Packing (\d+) field \d+"  # of a field whose packing the open profile does not read
READ_PACKINGS = (0, 2, 3, 42)
TARGETS = (["to=0"], ["to=2"], ["to=3", "order=1"], ["to=3", "order=2"])
COPIES = ("filter", "split", "set", "repack", "migrate", "demote", "rescan", "crop")
READERS = ("check", "list", "keys", "stats", "dump", "values", "coordinates")
READ_VALUES = ("dump", "values", "stats", "repack", "rescan", "crop", "demote", "compare")
# The keys of edition 1: the octet of Section 1 at which each begins, and its octets.
FIRST_KEYS = {"Version": (4, 1), "Centre": (5, 1), "Process": (6, 1), "GridNumber": (7, 1), "Flags": (8, 1), "Parameter": (9, 1), "LevelType": (10, 1),
              "Level": (11, 2), "YearOfCentury": (13, 1), "Month": (14, 1), "Day": (15, 1), "Hour": (16, 1), "Minute": (17, 1), "Unit": (18, 1), "P1": (19, 1),
              "P2": (20, 1), "TimeRange": (21, 1), "AverageCount": (22, 2), "AverageMissing": (24, 1), "Century": (25, 1), "SubCentre": (26, 1), "DecimalScale": (27, 2)}
FIXED_FIRST = ("Flags", "DecimalScale")
NAMES = f"names={top}/params/names2.csv"
NO_INPUT = ("make", "help", "version", "--help", "--version")
OPEN = []  # `profile=open`, where the runs are by the open profile
FAULTS = {5: "read fault", 6: "", 7: "shelf fault", 8: "memory", 9: "input too long"}

Run = collections.namedtuple("Run", "status output note octets seconds")


def said_by_run(note, status):
    """A note without the line of a device that failed."""
    return re.sub(rb"^grib: [^\n]+: [^\n]+\n\Z", b"", note, flags=re.M) if status in (5, 6, 7) else note


def given(words):
    """The words that a run has: those of its case, and `profile=open` behind them where the command takes it."""
    return words + OPEN if words and words[0] in (*COPIES, *READERS, "compare") else words


class Wrong(Exception):
    """What a run did that no run may do."""


def hold(so, what, *about):
    if not so:
        raise Wrong(what + "".join(f" [{str(one)[:300]}]" for one in about))


# The program, run in one of the hostile ways.

class Runner:
    """Starts the program and counts how often. Files stand in a folder of its own."""

    def __init__(self, program):
        self.program, self.count, self.seen, self.worst = program, 0, collections.Counter(), {}
        memory = "/dev/shm" if os.access("/dev/shm", os.W_OK) else None
        self.work = tempfile.mkdtemp(prefix="hostile-", dir=memory)
        self.shelf = f"{self.work}/shelf"

    def close(self):
        shutil.rmtree(self.work, ignore_errors=True)

    def parts(self, gaps=False):
        """The files of `split`, in the order of their numbers; with gaps where messages of edition 1 may stand between."""
        names = sorted(os.listdir(self.shelf), key=lambda name: int(name.rsplit(".", 1)[1]))
        hold(gaps or names == [f"part.{n}" for n in range(1, len(names) + 1)], "split wrote other names", names[:5])
        return [open(f"{self.shelf}/{name}", "rb").read() for name in names]

    def run(self, words, data, way="file", draw=None, stated=False):
        """Runs the program on these words and octets, by the profile of all runs or by the stated one. The output of a
        reader that goes away is what it read."""
        self.count += 1
        words = words if stated else given(words)
        shutil.rmtree(self.shelf, ignore_errors=True)
        os.mkdir(self.shelf)
        names = {name: f"{self.work}/{name}" for name in ("input", "output", "note")}
        with open(names["input"], "wb") as file:
            file.write(data)
        feeder = os.pipe() if way == "pieces" else None
        reader = os.pipe() if way == "leaves" else None
        child = os.fork()
        if child == 0:
            try:
                self.become(words, names, way, draw, feeder, reader)
            finally:
                os._exit(127)
        if feeder:
            os.close(feeder[0])
            feed(feeder[1], data, draw)
        seen = None
        if reader:
            os.close(reader[1])
            seen = read_some(reader[0], draw)
        _, status, used = os.wait4(child, 0)
        seconds = used.ru_utime + used.ru_stime
        hold(os.WIFEXITED(status), "ended by a signal", words, way, os.WTERMSIG(status) if os.WIFSIGNALED(status) else "")
        with open(names["output"], "rb") as file:
            output = file.read() if seen is None else seen
        with open(names["note"], "rb") as file:
            note = said_by_run(file.read(), os.WEXITSTATUS(status))
        most = 0
        if way == "file":
            with open(f"{self.work}/said", encoding="ascii") as file:
                most = 1024 * int(file.read())
            hold(os.WEXITSTATUS(status) <= 127, "ended by a signal", words, way, os.WEXITSTATUS(status) - 128)
        return Run(os.WEXITSTATUS(status), output, note, most, seconds)

    def become(self, words, names, way, draw, feeder, reader):
        """In the child: the three streams, the limit, the program."""
        os.setpgid(0, 0)  # an interrupt is for the one that holds it to account
        os.chdir(self.work)
        source = os.open(self.work if way == "directory" else names["input"], os.O_RDONLY)
        if feeder:
            os.close(feeder[1])
            source = feeder[0]
        os.dup2(source, 0)
        made = os.open(names["output"], os.O_WRONLY | os.O_CREAT | os.O_TRUNC)
        if reader:
            os.close(reader[0])
            made = reader[1]
        if way == "full":
            made = os.open("/dev/full", os.O_WRONLY)
        os.dup2(made, 1)
        noted = os.open(names["note"], os.O_WRONLY | os.O_CREAT | os.O_TRUNC)
        os.dup2(os.open("/dev/full", os.O_WRONLY) if way == "full notes" else noted, 2)
        closed = {"closed input": 0, "closed": 1, "closed notes": 2}.get(way)
        if closed is not None:
            os.close(closed)
        os.closerange(3, 20)
        resource.setrlimit(resource.RLIMIT_CPU, (200, 200))
        if way == "little memory":
            limit = draw.choice((3, 4, 5, 6, 8, 60)) * MEGABYTE
            resource.setrlimit(resource.RLIMIT_AS, (limit, limit))
        if way == "file":
            # A process that was forked from this one counts its memory as its own.
            os.execvp("time", ["time", "-q", "-o", f"{self.work}/said", "-f", "%M", self.program, *words])
        os.execv(self.program, ["grib", *words])


def feed(pipe, data, draw):
    """Writes the octets into the pipe in random pieces, as far as they are taken."""
    at, most = 0, draw.choice((3, 50, 1000, 70_000))
    if len(data) > 300 * most:
        most = len(data) // 300 + 1
    try:
        while at < len(data):
            at += os.write(pipe, data[at:at + draw.randint(1, most)])
    except BrokenPipeError:
        pass
    os.close(pipe)


def read_some(pipe, draw):
    """Reads some of the output and goes away."""
    left, seen = draw.choice((0, 1, 100, 5_000, 200_000)), b""
    while left > 0:
        piece = os.read(pipe, left)
        if not piece:
            break
        seen, left = seen + piece, left - len(piece)
    os.close(pipe)
    return seen


# Messages, and how they are damaged.

def messages_of(data):
    """The messages of a file, by their stated total length."""
    at, found = data.find(b"GRIB"), []
    while at >= 0 and at + 16 <= len(data):
        edition = data[at + 7]
        length = int.from_bytes(data[at + 8:at + 16], "big") if edition == 2 else int.from_bytes(data[at + 4:at + 7], "big")
        if edition in (1, 2) and data[at + length - 4:at + length] == b"7777":
            found.append(data[at:at + length])
            at += length - 4
        at = data.find(b"GRIB", at + 4)
    return found


def worked_messages():
    """The messages of docs/WORKED.md, which stand there in hexadecimal."""
    with open(f"{top}/docs/WORKED.md", encoding="utf-8") as page:
        blocks = re.findall(r"^```\n(47524942[0-9A-F\s]*)```", page.read(), re.M)
    return [bytes.fromhex("".join(block.split())) for block in blocks]


# The numbers of each section that are worth changing: first octet and width, from 1.
PLACES = {
    2: {0: [(7, 1), (8, 1), (9, 8)], 1: [(1, 4), (5, 1), (13, 2), (15, 1)],
        3: [(1, 4), (6, 1), (7, 4), (11, 1), (12, 1), (13, 2), (31, 4), (35, 4), (39, 4), (47, 4), (55, 1), (64, 4), (68, 4), (72, 1)],
        4: [(1, 4), (6, 2), (8, 2), (18, 1), (19, 4), (23, 1), (24, 1), (25, 4), (42, 1), (46, 1)],
        5: [(1, 4), (6, 4), (10, 2), (12, 4), (16, 2), (18, 2), (20, 1), (21, 1), (22, 1), (23, 1), (24, 2), (32, 4), (36, 1),
            (37, 1), (38, 4), (42, 1), (43, 4), (47, 1), (48, 1), (49, 1)],
        6: [(1, 4), (6, 1), (7, 1)], 7: [(1, 4), (6, 2), (8, 4), (12, 4)]},
    1: {0: [(5, 3), (8, 1)], 1: [(1, 3), (4, 1), (8, 1), (9, 1), (10, 1), (13, 1), (18, 1), (21, 1), (25, 1), (27, 2)],
        2: [(1, 3), (4, 1), (5, 1), (6, 1), (7, 2), (9, 2), (17, 1), (28, 1), (33, 2)],
        3: [(1, 3), (4, 1), (5, 2)], 4: [(1, 3), (4, 1), (5, 2), (7, 4), (11, 1)]},
}


def number_in_place_of(draw, old, width):
    top_bit = 1 << 8 * width - 1
    return draw.choice((old + 1, old - 1, old + draw.randint(-9, 9), 2 * old, old // 2, 0, 1, 2 * top_bit - 1, top_bit, top_bit - 1,
                        top_bit + 1, 255, 256, 65_535, 1 << 28, (1 << 28) + 1, 1 << 25, (1 << 25) + 1, draw.getrandbits(8 * width),
                        draw.randint(0, 60))) % (2 * top_bit)


def change_number(draw, message):
    places = PLACES[1 if message[7:8] == b"\1" else 2]
    at, _, number = draw.choice([(0, 0, 0)] + sections(message))
    first, width = draw.choice(places.get(number, [(1, 4)]))
    place = at + first - 1
    old = int.from_bytes(message[place:place + width], "big")
    return message[:place] + number_in_place_of(draw, old, width).to_bytes(width, "big") + message[place + width:]


def flip(draw, message):
    octets = bytearray(message)
    for _ in range(draw.choice((1, 1, 2, 10))):
        octets[draw.randrange(len(octets))] ^= 1 << draw.randrange(8)
    return bytes(octets)


def move_sections(draw, message):
    """A section repeated, left out, or put in another place; or the last group again, a field more."""
    found = sections(message)
    if not found:
        return message
    at, length, _ = draw.choice(found)
    section = message[at:at + length]
    kind = draw.randrange(4)
    if kind == 0:
        return message[:at] + section * draw.choice((2, 3, 50)) + message[at + length:]
    if kind == 1:
        return message[:at] + message[at + length:]
    if kind == 2:
        other = draw.choice(found)[0]
        return message[:other] + section + message[other:]
    first = draw.choice((2, 3, 4))
    group = [start for start, _, number in found if number >= first]
    end = found[-1][0] + found[-1][1]
    return message[:end] + message[min(group, default=end):end] * draw.choice((1, 2, 9)) + message[end:]


def longer_section(draw, message):
    """Octets added to a section, its length with them: surplus that is not read."""
    found = sections(message)
    if not found:
        return message
    at, length, _ = draw.choice(found)
    head = 4 if message[7:8] == b"\2" else 3
    more = draw.randbytes(draw.choice((1, 2, 40))) if hasattr(draw, "randbytes") else bytes(draw.choice((1, 2, 40)))
    return message[:at] + (length + len(more)).to_bytes(head, "big") + message[at + head:at + length] + more + message[at + length:]


def spoil_data(draw, message):
    """Some octets of a Section 7 of edition 2 set to what ends or lengthens sequences and runs, or some of its last ones
    left out."""
    found = [(at, length) for at, length, number in sections(message) if number == 7 and length > 6] if message[7:8] == b"\2" else []
    if not found:
        return flip(draw, message)
    at, length = draw.choice(found)
    if draw.random() < 0.3:
        left = draw.randrange(5, length)
        return message[:at] + left.to_bytes(4, "big") + message[at + 4:at + left] + message[at + length:]
    octets = bytearray(message)
    for _ in range(draw.choice((1, 1, 2, 5))):
        first = at + draw.randrange(5, min(length, draw.choice((7, 20, length))))
        last = min(first + draw.choice((1, 1, 2, 12, 40)), at + length)
        octets[first:last] = bytes(draw.choice((0, 0, 1, 127, 128, 255, draw.randrange(256))) for _ in range(last - first))
    return bytes(octets)


def cut(draw, message):
    return message[:draw.randrange(len(message))]


def lose(draw, message):
    at = draw.randrange(len(message))
    return message[:at] + message[at + draw.choice((1, 2, 16, 300)):]


def add(draw, message):
    at = draw.randrange(len(message))
    return message[:at] + message[at - draw.randint(0, min(at, 300)):at] + message[at:]


def with_own_length(message):
    """The message with its number of octets as total length."""
    if message[7:8] == b"\2" and len(message) >= 16:
        return message[:8] + len(message).to_bytes(8, "big") + message[16:]
    if message[7:8] == b"\1" and len(message) < 1 << 24:
        return message[:4] + len(message).to_bytes(3, "big") + message[7:]
    return message


def damaged(draw, message):
    for _ in range(draw.choice((1, 1, 1, 2, 4))):
        if len(message) > 20:
            message = draw.choice((change_number, change_number, change_number, flip, spoil_data, move_sections, longer_section, cut, lose, add))(draw, message)
    return with_own_length(message) if draw.random() < 0.7 else message


JUNK = (b"",) * 9 + (b"G", b"GRI", b"7777", b"SXXX01 EDZW\r\r\n", bytes(40), b"GGRIGR", b"GRIBGRIB", b"GRIB\0\0\0\2" + b"\xff" * 8)


def stream_of(draw, pool):
    """A few messages, some of them damaged, and what stands between them."""
    data, often = draw.choice(JUNK), draw.choice((0, 0.2, 0.6))
    for _ in range(draw.choice((1, 1, 2, 3, 5))):
        message = draw.choice(pool)
        chance = draw.random()
        if chance < often:
            message = damaged(draw, message)
        elif chance < 1.1 * often:
            other = draw.choice(pool)
            message = message[:draw.randrange(len(message))] + other[draw.randrange(len(other)):]
        data += message + (draw.choice(JUNK) if draw.random() < 0.3 else b"")
    return data[:draw.randrange(len(data) + 1)] if draw.random() < 0.05 else data


# What is asked.

def key_table():
    """The keys of chapter 6 of docs/PROFILE.md: section, first and last octet (none where the template decides), kind,
    and whether it can be set."""
    with open(f"{top}/docs/PROFILE.md", encoding="utf-8") as page:
        rows = re.findall(r"^\| (\w+) \| (\d) \| (.*?) \| ([usm ]+) \| (yes|no) \|$", page.read(), re.M)
    table = {}
    for name, section, octets, kind, can_set in rows:
        place = re.fullmatch(r"(\d+)(?:-(\d+))?", octets)
        first, last = (int(place[1]), int(place[2] or place[1])) if place else (None, None)
        table[name] = (int(section), first, last, kind, can_set == "yes")
    return table


KEYS = key_table()


def name_table():
    """The names of parameters, by the three numbers as `list` prints them."""
    with open(f"{top}/params/names2.csv", encoding="utf-8") as table:
        rows = [line.rstrip().split(",") for line in table]
    return {".".join(row[:3]): row[3] for row in rows if len(row) == 4}


TABLE_OF_NAMES = name_table()


def first_value(message, key):
    """The value of a key of edition 1, as it is written."""
    at, width = FIRST_KEYS[key]
    value = int.from_bytes(message[7 + at:7 + at + width], "big")
    return str(32768 - value if key == "DecimalScale" and value > 32768 else value % 32768 if key == "DecimalScale" else value)


def first_words(draw, can_set, pool):
    """One to three keys of edition 1, with values of some message in most cases."""
    found = [one for one in pool if one[7] == 1 and len(one) > 40]
    message, words = draw.choice(found) if found else None, []
    for key in draw.sample([key for key in FIRST_KEYS if not can_set or key not in FIXED_FIRST], draw.choice((1, 1, 2, 3))):
        value = draw.choice((0, 1, 2, 11, 98, 100, 255, 256, 500, 65_535, 65_536, -1))
        if message and draw.random() < 0.7:
            value = first_value(message, key)
        mark = ""
        if not can_set and draw.random() < 0.3:
            value = draw.choice((f"{value},7", f"..{abs(int(value))}", f"{value}..", f"1..5,{value},300.."))
            mark = draw.choice(("", "!"))
        words.append(f"{key}{mark}={value}")
    return words


def column_words(draw, name):
    """A list of columns for `list` or `keys`."""
    return f"{name}=" + ",".join(draw.choices(list(KEYS) + list(FIRST_KEYS) + ["octets"] + ["at"] * (name == "with"), k=draw.choice((1, 2, 3, 8))))


def name_words(draw):
    """Names of parameters, some of which no parameter has, and their table."""
    names = draw.sample(list(TABLE_OF_NAMES.values()), draw.choice((1, 2, 40))) + draw.choice(([], ["t", "gh", "u", "v"], ["none-of-these"]))
    words = ["name=" + ",".join(names), draw.choice((NAMES,) * 9 + ("names=absent",))]
    draw.shuffle(words)
    return words


def degree_words(draw):
    """A box in degrees or a place."""
    def angle(most):
        return degrees(draw.choice((0, most, -most, draw.randint(-most, most), draw.randint(-most, most) // 1_000_000 * 1_000_000, draw.randint(-most // 4, most // 4))))
    if draw.random() < 0.4:
        words = [f"lat={angle(90_000_000)}", f"lon={angle(ROUND)}"]
    elif draw.random() < 0.5:
        words = ["north=90", "south=-90", f"west={angle(ROUND)}", f"east={angle(ROUND)}"]
    else:
        north, south = sorted((angle(90_000_000), angle(90_000_000)), key=float, reverse=True)
        words = [f"north={north}", f"south={south}", f"west={angle(ROUND)}", f"east={angle(ROUND)}"]
    draw.shuffle(words)
    return words


def in_force(message):
    """For each field of a message of edition 2 where the sections begin that are in force for it."""
    starts = {0: 0}
    for at, _, number in sections(message):
        starts[number] = at
        if number == 7:
            yield dict(starts)


def key_value(message, starts, key):
    """The value of a key, as it is written."""
    section, first, last, kind, _ = KEYS[key]
    octets = message[starts[section] + first - 1:starts[section] + last]
    number, top_bit = int.from_bytes(octets, "big"), 1 << 8 * len(octets) - 1
    if "m" in kind and number == 2 * top_bit - 1:
        return "missing"
    if "s" in kind and number >= top_bit:
        number = top_bit - number
    return str(number)


def key_words(draw, can_set, pool):
    """One to three keys, with values of some field in half of the cases."""
    names = [key for key, row in KEYS.items() if row[4] or not can_set]
    message = draw.choice([one for one in pool if one[7] == 2])
    starts, words = draw.choice(list(in_force(message)) or [{}]), []
    for key in draw.sample(names, draw.choice((1, 1, 2, 3))):
        value = draw.choice((0, 1, 2, 7, 98, 100, 103, 255, 256, 2024, 50_000, -1, -90, "missing", 65_536, 2**32 - 1))
        if KEYS[key][1] and KEYS[key][0] in starts and draw.random() < 0.7:
            value = key_value(message, starts, key)
        mark = ""
        if not can_set and draw.random() < 0.3:
            value = draw.choice((f"{value},missing", f"7,{value},98", f"-5..-1,{value}", "..255,missing", "0..", "0..255,300..65536"))
            mark = draw.choice(("", "", "!"))
        words.append(f"{key}{mark}={value}")
    return words


def wrong_words(draw):
    return draw.choice(([], ["--list"], ["check", "x"], ["dump", "dump"], ["filter"], ["filter", "centre"], ["set", "points=3"],
                        ["set", "centre=98", "centre=98"], ["repack", "to=1"], ["repack", "to=3"], ["repack", "to=03"], ["split", "out="],
                        ["filter", "centre=1e3"], ["filter", "centre=7,,98"], ["filter", "centre=98..7"], ["filter", f"year={2**63}"], ["filter", "year=-0"], ["make", "seed=1"], ["Check"],
                        ["make", f"seed={2**31}", "ni=1", "nj=1", "to=0"], ["repack", "to=2", "order=1"], ["check", ""], [""],
                        ["help", "x"], ["version", "refused=pass"], ["make", "seed=1", "ni=1", "nj=1", "to=least"], ["filter", "centre!"],
                        ["filter", "centre!!=7"], ["filter", "refused=copy"], ["set", "kept=pass", "refused=copy"], ["migrate"],
                        ["migrate", "params="], ["migrate", "params=absent", "surfaces="], ["migrate", "params=absent", "local=any"],
                        ["migrate", "params=absent", "tables=any"], ["demote", "params=absent", "tables=all"], ["demote", "local=keep"],
                        ["demote", "params=absent", "surfaces=absent"], ["rescan", "x=1"], ["crop", "i0=1", "i1=0", "j0=0", "j1=0"],
                        ["crop", "i0=0", "i1=33554432", "j0=0", "j1=0"], ["list", "refused=copy"], ["keys", "refused=copy"],
                        ["split", "out=shelf/part", "kept=copy", "kept=pass"], ["repack", "to=0", "refused=copy", "refused=copy"],
                        ["values", "as=f2"], ["values", "place=yes"], ["coordinates", "as=f4"], ["coordinates", "kept=copy"], ["dump", "place=no"],
                        ["dump", "place=yes", "place=yes"], ["crop", "lat=1"], ["crop", "lat=1", "lon=1", "i0=0"], ["crop", "lat=90.0000001", "lon=0"],
                        ["crop", "lat=91", "lon=0"], ["crop", "lat=01", "lon=0"], ["crop", "lat=1.", "lon=0"], ["crop", "lat=1e1", "lon=0"],
                        ["crop", "north=0", "south=0.000001", "west=0", "east=0"], ["crop", "north=1", "south=0", "west=0"],
                        ["crop", "north=1", "south=0", "west=0", "east=360.5"], ["crop", "i0=0", "i1=1", "j0=0", "j1=1", "north=1"],
                        ["list", "with=none"], ["list", "with=centre,"], ["list", "show=centre"], ["keys", "with=centre"], ["keys", "show="],
                        ["filter", "name=t"], ["filter", NAMES], ["filter", "name=t", NAMES, "Centre=98"], ["filter", "centre=98", "Centre=98"],
                        ["set", "Flags=1"], ["set", "Centre=98", "year=2024"], ["set", "Centre=missing"], ["set", "dates=valid"],
                        ["set", "centre=98", "dates=any"], ["split", "editions=both"], ["split", "out=shelf/part", "editions=one"],
                        ["check", "refused=skip"], ["list", "kept=pass"], ["dump", "kept=copy"], ["filter", "refused=pass"],
                        ["repack", "to=42", "order=1"], ["check", "profile=stated"], ["check", "profile=open", "profile=open"],
                        ["make", "seed=1", "ni=1", "nj=1", "to=42"], ["make", "seed=1", "ni=1", "nj=1", "to=0", "profile=open"])
                       + ((["repack", "to=42"],) if not OPEN else ()))


def policy_words(draw, name):
    """What of a run goes on after what it refuses or keeps."""
    refused = ["refused=pass"] + ["refused=copy"] * (name in COPIES)
    kept = ["kept=copy", "kept=pass"] if name in COPIES else ["kept=pass"] if name in ("dump", "values", "coordinates") else []
    one, other = [draw.choice(refused)], [draw.choice(kept)] if kept else []
    return draw.choice((one, other, one + other))


def command_of(draw, has, pool):
    """The arguments of a command, with those on refusals and on what is kept in some cases."""
    words = plain_command_of(draw, has, pool)
    if "policy" in has and words and words[0] in COPIES + READERS and draw.random() < 0.3:
        more = policy_words(draw, words[0])
        return words + more if draw.random() < 0.7 else words[:1] + more + words[1:]
    return words


def plain_command_of(draw, has, pool):
    """The arguments of a command, valid ones in most cases."""
    name = draw.choice([one for one in ("check", "list", "dump", "filter", "filter", "split", "set", "set", "repack", "repack", "repack",
                                        "make", "stats", "keys", "rescan", "crop", "migrate", "migrate", "demote", "demote", "decimals", "words", "help",
                                        "values", "coordinates", "coordinates", "places", "degrees", "degrees", "columns", "names", "names", "first", "first", "dates", "editions", "compare", "compare")
                        if one in has])
    if name == "help":
        return draw.choice((["help"], ["version"], ["--help"], ["--version"], ["help"] + plain_command_of(draw, has - {"help"}, pool), ["help", draw.choice(list(KEYS) + REASONS)]))
    if name == "compare":
        more = draw.choice(([], ["sections=all"], ["quiet=yes"], ["quiet=yes", "sections=all"]))
        words = [f"with={draw.choice(BESIDE)}"] + more
        draw.shuffle(words)
        return ["compare"] + words
    if name == "decimals":
        return ["dump", f"decimals={draw.choice((0, 1, 2, 3, 7, 18))}"]
    if name == "values":
        return ["values"] + draw.choice(([], ["as=f8"], ["as=f4"]))
    if name == "places":
        return draw.choice((["dump", "place=yes"], ["dump", "place=yes", f"decimals={draw.choice((0, 2, 18))}"]))
    if name == "degrees":
        return ["crop"] + degree_words(draw)
    if name == "columns":
        command, name = draw.choice((("list", "with"), ("keys", "show")))
        return [command, column_words(draw, name)]
    if name == "names":
        return draw.choice((["list", NAMES], ["keys", NAMES], ["list", column_words(draw, "with"), NAMES], ["keys", NAMES, column_words(draw, "show")],
                            ["list", "names=absent"], ["filter"] + name_words(draw), ["filter"] + key_words(draw, False, pool) + name_words(draw)))
    if name == "first":
        return draw.choice((["filter"] + first_words(draw, False, pool), ["set"] + first_words(draw, True, pool)))
    if name == "dates":
        edits = key_words(draw, True, pool) if draw.random() < 0.3 else draw.choice((["month=2", f"day={draw.choice((28, 29, 30))}"], ["hour=24"], ["year=0"], ["second=59", "minute=60"], ["Month=2", "Day=30"], ["Hour=23"], ["Century=0"]))
        return ["set"] + edits + ["dates=valid"]
    if name == "editions":
        return ["split", "out=shelf/part", "editions=both"]
    if name == "filter":
        return ["filter"] + key_words(draw, False, pool)
    if name == "set":
        return ["set"] + key_words(draw, True, pool)
    if name == "split":
        return ["split", draw.choice(("out=shelf/part",) * 9 + ("out=absent/part",))]
    if name == "repack":
        return ["repack"] + draw.choice((["to=0"], ["to=2"], ["to=3", "order=1"], ["order=2", "to=3"]) + ((["to=least"],) if "least" in has else ())
                                        + ((["to=42"],) * 2 if OPEN and "coded" in has else ()))
    if name == "crop":
        i0, j0 = draw.choice((0, 0, 1)), draw.choice((0, 0, 2))
        return ["crop", f"i0={i0}", f"i1={i0 + draw.choice((0, 1, 9))}", f"j0={j0}", f"j1={j0 + draw.choice((0, 1, 9))}"]
    if name == "migrate":
        table = f"surfaces={top}/params/surfaces.csv"
        surfaces = draw.choice(([], [table], [table], ["surfaces=absent"]))
        return ["migrate", f"params={top}/params/standard.csv"] + surfaces + draw.choice(([], ["local=keep"], ["local=ecmwf"]))
    if name == "demote":
        return ["demote", f"params={draw.choice((f'{top}/params/standard.csv',) * 9 + ('absent',))}"] + \
            [word for word in ("local=keep", "earth=any", "tables=any") if draw.random() < 0.6]
    if name == "make":
        return ["make", f"seed={draw.getrandbits(31)}", f"ni={draw.randint(1, 40)}", f"nj={draw.randint(1, 40)}"] + \
            draw.choice(TARGETS)
    return wrong_words(draw) if name == "words" else [name]


def commands_of(program):
    """The commands that this program has."""
    runner = Runner(program)
    try:
        has = {"check", "list", "dump", "filter", "split", "set", "repack", "make", "words", "help"}
        for name, words in (("stats", ["stats"]), ("rescan", ["rescan"]), ("crop", ["crop", "i0=0", "i1=0", "j0=0", "j1=0"]),
                            ("decimals", ["dump", "decimals=2"]), ("migrate", ["migrate", f"params={top}/params/standard.csv"]), ("keys", ["keys"]),
                            ("least", ["repack", "to=least"]), ("policy", ["repack", "to=0", "refused=copy", "kept=copy"]),
                            ("demote", ["demote", f"params={top}/params/standard.csv"]), ("coded", ["repack", "to=42"] + OPEN),
                            ("values", ["values"]), ("coordinates", ["coordinates"]), ("places", ["dump", "place=yes"]), ("degrees", ["crop", "lat=0", "lon=0"]),
                            ("columns", ["list", "with=centre"]), ("names", ["list", NAMES]), ("first", ["filter", "Centre=98"]), ("dates", ["set", "centre=98", "dates=valid"]),
                            ("editions", ["split", "out=shelf/part", "editions=both"]), ("compare", ["compare", "with=absent"])):
            if runner.run(words, b"").status == (4 if name == "compare" else 0):
                has.add(name)
        return has
    finally:
        runner.close()


# What has to be true.

def lines_of(text):
    return text.decode("ascii").splitlines()


def accepted_of(checked):
    """Start, octets, edition and fields of each message that `check` prints."""
    found = re.findall(r"^message (\d+) at (\d+) edition ([12]) octets (\d+) fields (\d+)$", checked.output.decode(), re.M)
    hold([int(one[0]) for one in found] == list(range(1, len(found) + 1)), "check counts otherwise")
    return [(int(at), int(octets), int(edition), int(fields)) for _, at, edition, octets, fields in found]


def hold_check(data, checked):
    """`check` of the plain file: its lines are true of the octets, and its note belongs to its status."""
    accepted = accepted_of(checked)
    end = 0
    for at, octets, edition, fields in accepted:
        hold(at >= end and data[at:at + 4] == b"GRIB" and data[at + 7] == edition, "check names a place that has no message", at)
        hold(data.find(b"GRIB", end) == at, "check skipped a GRIB", at)
        hold(octets <= len(data) - at and data[at + octets - 4:at + octets] == b"7777" and fields >= 1, "check names other octets", at)
        end = at + octets
    printed = lines_of(checked.output)
    if checked.status == 0:
        total = f"messages {len(accepted)} fields {sum(one[3] for one in accepted)} skipped {len(data) - sum(one[1] for one in accepted)}"
        hold(printed[len(accepted):] == [total], "the total line is another", printed[-1], total)
        hold(checked.note == b"", "check noted something", checked.note)
        hold(data.find(b"GRIB", end) < 0, "check skipped a GRIB at the end")
    else:
        hold(checked.status == 2 and len(printed) == len(accepted), "check ended otherwise", checked.status, checked.note)
        refusal = re.fullmatch(rb"refused message (\d+) octet (\d+) (\w+) (\d+)\n", checked.note)
        hold(refusal and int(refusal[1]) == len(accepted) + 1 and refusal[3].decode() in REASONS, "no such refusal", checked.note)
        mark = data.find(b"GRIB", end)
        hold(mark >= 0 and 1 <= int(refusal[2]) <= max(len(data) - mark + 1, 9), "a refusal outside the message", checked.note)
        if refusal[3] == b"Truncated":
            hold(int(refusal[2]) == len(data) - mark + 1 and int(refusal[4]) == len(data) - mark, "Truncated elsewhere", checked.note)
    return accepted


def hold_note(words, plain, checked, accepted, written):
    """The plain run: its status and its note belong together."""
    name, fields = words[0] if words else "", sum(one[3] for one in accepted)
    if plain.status == 0:
        hold(checked.status == 0 or name in NO_INPUT, "answered what check refuses")
        wanted = b""
        if name in COPIES:
            wanted = b"messages %d fields %d written %d\n" % (len(accepted), fields, written)
        if name == "make":
            hold(re.fullmatch(rb"made \d+ written %d present \d+ sum \d+\n" % written, plain.note), "the note of make", plain.note)
        else:
            hold(plain.note == wanted, "another note of Done", plain.note, wanted)
    elif plain.status == 1:
        usage = re.fullmatch(rb"usage word (\d+)\n", plain.note)
        hold(usage and int(usage[1]) <= len(given(words)) and plain.output == b"", "usage", plain.note)
    elif plain.status == 2:
        hold(plain.note == checked.note, "another refusal than that of check", plain.note, checked.note)
    elif plain.status == 3:
        kept = re.fullmatch(r"kept message (\d+) (.*)\n", plain.note.decode())
        hold(kept and 1 <= int(kept[1]) <= len(accepted), "kept a message that is not accepted", plain.note)
        packing = re.fullmatch(PACKING, kept[2]) if OPEN and name in READ_VALUES else None
        known = any(re.fullmatch(cause, kept[2]) for cause in CAUSES.get(name, []))
        hold(known or packing and int(packing[1]) not in READ_PACKINGS, "no such cause", plain.note)
        hold(("EditionOne" in kept[2]) <= (accepted[int(kept[1]) - 1][2] == 1), "EditionOne of edition 2", plain.note)
        hold(("EditionTwo" in kept[2]) <= (accepted[int(kept[1]) - 1][2] == 2), "EditionTwo of edition 1", plain.note)
    else:
        absent = b"surfaces absent\n" if "surfaces=absent" in words else b"table absent\n" if {"params=absent", "names=absent"} & set(words) else None
        fault = plain.status == 7 and words[0] == "split" and "out=absent/part" in words and plain.note.endswith(b"shelf fault\n")
        hold(fault or (plain.status, plain.note, plain.output) == (4, absent, b""), "another status", plain.status, plain.note)


def has_passing(runner):
    """Whether the program has arguments on what a run carries on after."""
    if not hasattr(runner, "passing"):
        runner.passing = runner.run(["check", "refused=pass"], b"").status == 0
    return runner.passing


def hold_passed(runner, data, checked):
    """`check` past refusals: what is answered before the first stays, each line is that of the octets at its place alone,
    and each octet of the input is one of a message or skipped."""
    passed = runner.run(["check", "refused=pass"], data)
    if checked.status == 0:
        hold((passed.status, passed.output, passed.note) == (0, checked.output, b""), "passed what is not refused", passed.note)
        return
    *lines, last = passed.note.decode().splitlines()
    hold(passed.status == 2 and last == f"refused {len(lines)} kept 0" and lines, "the note of what was passed", passed.status, passed.note)
    hold(passed.output.startswith(checked.output), "what stands before the first refusal is answered otherwise", passed.output)
    hold(re.sub(r" at \d+ ", " ", lines[0]) + "\n" == checked.note.decode(), "another first refusal", lines[0], checked.note)
    for line in lines[:3]:
        said = re.fullmatch(r"refused message \d+ at (\d+) (octet .*)", line)
        alone = runner.run(["check"], data[int(said[1]):])
        hold(alone.note.decode() == f"refused message 1 {said[2]}\n", "another refusal of these octets alone", line, alone.note)
    octets = sum(int(line.split()[7]) for line in passed.output.decode().splitlines() if line.startswith("message "))
    skipped = int(passed.output.split()[-1])
    hold(octets + skipped == len(data), "octets that are neither in a message nor skipped", octets, skipped, len(data))


def stated(data, at, reason):
    """The octets that are refused for a reason up to their stated end, if they have one: the rules of Section 0 do not
    refuse them, and `7777` ends the octets of their total length."""
    edition, length = data[at + 7:at + 8], int.from_bytes(data[at + 8:at + 16], "big")
    if edition == b"\1":
        length = int.from_bytes(data[at + 4:at + 7], "big")
    if reason in ("Edition", "TotalLength") or edition not in (b"\1", b"\2") or length > len(data) - at:
        return b""
    return data[at:at + length] if data[at + length - 4:at + length] == b"7777" else b""


def without_numbers(output):
    """Lines on fields without the number of the message that stands before them, and its place."""
    return re.sub(rb" at=\d+", b"", re.sub(rb"^\d+\.(?=\d+ )", b"", output, flags=re.M))


def wanted_of(runner, words, data, refused, kept):
    """What a run with these words on refusals and on what is kept has to write, as output and as parts, its lines, how many
    messages and fields it has, and the status where it does not go on: from runs of the command on each message alone.
    The words say nothing of it themselves."""
    passed = runner.run(["check", "refused=pass"], data)
    items = [(at, octets, fields) for at, octets, _, fields in accepted_of(passed)]
    items += [(int(at), 0, line) for line, at in re.findall(r"^(refused message \d+ at (\d+) octet .*)$", passed.note.decode(), re.M)]
    output, parts, lines, sums = b"", [], [], [0, 0]
    for at, octets, about in sorted(items, key=lambda one: one[0]):
        if octets == 0:
            if not refused:
                return output, parts, lines + [re.sub(r" at \d+", "", about)], sums, 2
            whole = stated(data, at, about.split()[7])
            if refused == "copy" and whole:
                output, about = output + whole, f"copied{about[7:]}"
            lines.append(about)
            continue
        message = data[at:at + octets]
        alone = runner.run(words, message)
        sums = [sums[0] + 1, sums[1] + about]
        if alone.status == 3:
            said = re.sub(r"^kept message 1 ", f"kept message {sums[0]} ", alone.note.decode().rstrip())
            if not kept:
                return output, parts, lines + [said], sums, 3
            lines.append(re.sub(r"^(kept message \d+) ", rf"\1 at {at} ", said))
            output += message if kept == "copy" else b""
        else:
            hold(alone.status == 0, "a message alone is answered otherwise", words, alone.status, alone.note)
            output += alone.output
            parts += runner.parts() if words[0] == "split" else []
    return output, parts, lines, sums, 0


def hold_policy(runner, words, data, plain, parts):
    """A run with words on refusals and on what is kept answers each message as the command does alone."""
    said = dict(word.split("=") for word in words if word.startswith(("refused=", "kept=")))
    command = [word for word in words if not word.startswith(("refused=", "kept="))]
    output, wanted_parts, lines, sums, status = wanted_of(runner, command, data, said.get("refused"), said.get("kept"))
    hold(parts == wanted_parts, "split wrote other files", words)
    if command[0] == "check":
        octets = [[line.split()[7] for line in lines_of(text) if line.startswith("message ")] for text in (plain.output, output)]
        hold(octets[0] == octets[1], "check prints other messages", words)
    else:
        same = without_numbers(plain.output) == without_numbers(output)
        hold(same, "not what the messages give alone", words, len(plain.output), len(output))
    if status:
        same = (plain.status, lines_of(plain.note)) == (status, lines)
        hold(same, "ends otherwise", words, plain.status, plain.note[-200:], lines[-1:])
        return
    counts = [sum(line.startswith(("refused", "copied")) for line in lines), sum(line.startswith("kept") for line in lines)]
    last = []
    if command[0] in COPIES:
        written = len(output) + sum(map(len, wanted_parts))
        last = [f"messages {sums[0]} fields {sums[1]} written {written}"]
    if any(counts):
        last = [" ".join(last + [f"refused {counts[0]} kept {counts[1]}"])]
    wanted = 2 if counts[0] else 3 if counts[1] else 0
    same = (plain.status, lines_of(plain.note)) == (wanted, lines + last)
    hold(same, "another note", words, plain.status, plain.note[-200:], lines[-1:] + last)


def messages_before(plain, accepted):
    """How many messages a run that ended with status 2 or 3 has answered."""
    return int(plain.note.split()[2]) - 1 if plain.status == 3 else len(accepted)


# The bounds of docs/PROFILE.md, chapter 10: seconds beyond one, for an octet that comes or goes, and for a point where values are
# unpacked; octets of memory beyond eight million, for an octet that comes or goes, for a point, and for a group in `check` and
# `list`. Times are three times those of the page, since the machine has other work.
SECONDS, MEMORY = (600e-9, 900e-9), (3, 44, 10)
NO_VALUES = ("check", "list", "keys", "filter", "split", "set")


def most_time(octets, points, name):
    return 1 + SECONDS[0] * octets + (0 if name in NO_VALUES else SECONDS[1] * points)


def most_memory(octets, points, name):
    # An octet has the bits of at most eight groups.
    taken = MEMORY[2] * min(points, 8 * octets) if name in ("check", "list") else MEMORY[1] * points
    return 8_000_000 + MEMORY[0] * octets + taken


def claimed_points(data):
    """The points of each field of each message that begins at a GRIB, accepted or not, as far as their sections can be followed."""
    found, at = [], data.find(b"GRIB")
    while at >= 0:
        points = 0
        for start, length, number in sections(data[at:]) if data[at + 7:at + 8] == b"\2" else []:
            if number == 3 and length > 10:
                points = int.from_bytes(data[at + start + 6:at + start + 10], "big")
            if number == 5 and points <= 1 << 25:
                found.append(points)
        at = data.find(b"GRIB", at + 4)
    return found


def scale_seconds(words, data, accepted, points):
    """The most processor time of `values` by the greatest D of its messages."""
    if words[:1] != ["values"]:
        return 0
    greatest = 0
    for at, octets, edition, _ in accepted:
        message = data[at:at + octets]
        places = [start + 17 for start, _, number in sections(message) if number == 5] if edition == 2 else [8 + 26]
        greatest = max([greatest] + [int.from_bytes(message[one:one + 2], "big") % 32768 for one in places])
    return 0.42e-9 * points * greatest ** 2


def hold_bounds(runner, words, data, run, largest, total, written, more=0):
    """Processor time and memory of a run, and the most of each that was seen for an octet."""
    octets, name = len(data) + written, words[0] if words else ""
    hold(run.octets <= most_memory(octets, largest, name), "more memory than it may", words, run.octets, most_memory(octets, largest, name))
    hold(run.seconds <= most_time(octets, total, name) + more, "more time than it may", words, run.seconds, most_time(octets, total, name))
    about = f"{' '.join(words)}: {run.seconds:.3f} s and {run.octets / 1e6:.0f} MB for {len(data):,} octets that came, {written:,} that went and {total:,} points"
    for what, of, beyond in (("time", lambda one: one.seconds, 0.005), ("memory", lambda one: one.octets, MEGABYTE)):
        most = runner.worst.get(what, (0, ""))[0]
        if octets and of(run) > 2 * beyond and of(run) / octets > most:
            # The program's own start, and the tables that it reads, cost as much without an input.
            cost = of(run) - min(of(runner.run(words, b"")) for _ in range(3))
            if cost > beyond and cost / octets > most:
                runner.worst[what] = cost / octets, about


def costs(program):
    """Runs on what costs the most for its octets, each a line; how many are beyond the bounds."""
    wrong, opened = 0, bool(OPEN)
    with tempfile.TemporaryDirectory() as folder:
        for what, octets, points, commands in bombs.few_octets():
            with open(f"{folder}/in", "wb") as file:
                file.write(octets)
            for words in commands:
                status, note, seconds, most = bombs.run(program, words, f"{folder}/in", f"{folder}/said", opened)
                said = re.search(r"written (\d+)", note)
                written = int(said[1]) if said else 60 * points if words[0] in ("dump", "values") else 100 * octets.count(b"GRIB")
                factor = 0.42e-9 * points * 32767 ** 2 if what.startswith("D of") and words[0] == "values" else 0
                is_beyond = seconds > most_time(len(octets) + written, points, words[0]) + factor or 1e6 * most > most_memory(len(octets) + written, points, words[0])
                wrong += is_beyond
                print(f"{what}, {len(octets):,} octets, {points:,} points: {' '.join(words)}: status {status}, {seconds:.2f} s, {most:.0f} MB"
                      + (f", written {written:,}" if said else "") + " BEYOND THE BOUNDS" * is_beyond, flush=True)
    return wrong


def column_lines(dumped):
    """The reference and point lines of a dump."""
    return [line for line in lines_of(dumped) if " ed=" not in line]


def columns(runner, octets):
    """The reference and point lines that `dump` prints of messages."""
    return column_lines(runner.run(["dump"], octets).output)


def value_text(reference, x, places):
    """The value of a point, rounded half to even once, as `dump decimals=` prints it."""
    mantissa, exponent, binary, decimal = reference_of(reference)
    value = mantissa * fractions.Fraction(2) ** exponent
    value = (value + x * fractions.Fraction(2) ** binary) / fractions.Fraction(10) ** decimal
    rounded = round(value * 10**places)
    digits = str(abs(rounded)).rjust(places + 1, "0")
    return ("-" if rounded < 0 else "") + (f"{digits[:-places]}.{digits[-places:]}" if places else digits)


def hold_decimals(words, plain, dumped):
    """The decimals are those of the exact values."""
    places, reference = int(words[1].split("=")[1]), None
    for line, exact in zip(lines_of(plain.output), lines_of(dumped.output)):
        parts = exact.split()
        if parts[0] == "reference":
            reference = parts
        wanted = exact if "." in parts[0] or parts[0] == "reference" or "missing" in parts[1] else \
            f"{parts[0]} {value_text(reference, int(parts[1]), places)}"
        hold(line == wanted, "another decimal", line, wanted)


def processed(plain, data, accepted):
    """The messages that a run has answered."""
    count = messages_before(plain, accepted) if plain.status in (2, 3) else len(accepted)
    return [data[at:at + octets] for at, octets, _, _ in accepted[:count]]


def hold_coordinates(plain, data, accepted):
    """The arrays of the messages that were answered, octet for octet, and the cause of the one that was not."""
    answered = processed(plain, data, accepted)
    hold(plain.output == b"".join([array for one in answered for array in map(arrays, grids(one))]), "other coordinates")
    hold_unplaced(plain, data, accepted, answered)


def unplaced(message):
    """Why the places of the points of a message are not told."""
    causes = [cause(section) for section in grids(message)] if message[7] == 2 else []
    return "EditionOne" if message[7] == 1 else next((f"{one} field {n}" for n, one in enumerate(causes, 1) if one), None)


def hold_unplaced(plain, data, accepted, answered):
    hold(not any(map(unplaced, answered)), "places that are not told are written")
    if plain.status == 3:
        at, octets = accepted[len(answered)][:2]
        said = " ".join(plain.note.decode().split()[3:])
        hold(said == unplaced(data[at:at + octets]) or said.startswith(("Packing", "DecimalRange")), "another cause of places", said)


def hold_placed(runner, words, plain, data, accepted):
    """The lines of `dump` of the messages that were answered, with the places of the points between."""
    answered = processed(plain, data, accepted)
    hold_unplaced(plain, data, accepted, answered)
    dumped = runner.run([word for word in words if word != "place=yes"], b"".join(answered))
    sections, places, wanted = iter([section for one in answered for section in grids(one)]), [], []
    for line in lines_of(dumped.output):
        if " ed=" in line:
            places = texts(next(sections))
        elif not line.startswith("reference"):
            point, rest = line.split(" ", 1)
            line = f"{point} {places[int(point) - 1]} {rest}"
        wanted.append(line)
    hold(lines_of(plain.output) == wanted and dumped.status == 0, "other lines with places", dumped.note)


def hold_values(runner, words, plain, data, accepted):
    """The words of the arrays are those of the exact values, and each shape has as many points."""
    dumped = runner.run(["dump"], b"".join(processed(plain, data, accepted)))
    form, at = (words[1:] or ["as=f8"])[0][3:], 0
    hold(dumped.status == 0, "values of what dump does not print", dumped.note)
    for field in fields_of(lines_of(dumped.output)):
        octets = words_of(field, form)
        head = re.fullmatch(rb"\x93NUMPY\x01\0v\0\{'descr': '<(f\d)', 'fortran_order': False, 'shape': \((\d+), ?(\d*)\), \} *\n", plain.output[at:at + 128])
        hold(head and head[1].decode() == form and int(head[2]) * int(head[3] or 1) == len(field[4]), "another header of an array", plain.output[at:at + 128])
        hold(plain.output[at + 128:at + 128 + len(octets)] == octets, "other values in an array", words)
        at += 128 + len(octets)
    hold(at == len(plain.output), "arrays of no field")


def hold_degrees(runner, words, plain, data, accepted):
    """The points of boxes in degrees, by their places, and the cause of the message that was not cut."""
    asked = {name: int(fractions.Fraction(value) * 1_000_000) for name, value in conditions(words)}
    answered, wanted = processed(plain, data, accepted), []

    def part(section):
        return nearest(section, asked["lat"], asked["lon"]) if "lat" in asked else in_box(section, *(asked[name] for name in ("north", "south", "west", "east")))

    def uncut(section):
        if cause(section) == "GridKind" and (section[5] or section[12:14] != b"\0\0" or section[10]):
            return "GridKind"
        if section[71]:
            return "ScanMode"
        return "Increments" if section[38:42] != b"\0\0\0\0" or not has_steps(section) else None if part(section) else "OutsideBox"

    if plain.status == 3:
        at, octets = accepted[len(answered)][:2]
        message, said = data[at:at + octets], plain.note.decode().split()[3:]
        causes = [f"{uncut(section)} {n}" for n, section in enumerate(grids(message), 1) if uncut(section)] if message[7] == 2 else []
        if said[0] in ("GridKind", "ScanMode", "Increments", "OutsideBox"):
            hold(f"{said[0]} {said[2]}" in causes[:1], "another cause of a box", said, causes)
    for message in answered:
        fields = points_of(runner.run(["dump"], message).output)
        for section, points in zip(grids(message), fields):
            hold(uncut(section) is None, "cut what cannot be cut")
            ni, (columns, rows) = int.from_bytes(section[30:34], "big"), part(section)
            wanted.append([points[j * ni + i] for j in rows for i in columns])
    hold(points_of(runner.run(["dump"], plain.output).output) == wanted, "other points in a box", words)


def points_of(dumped):
    """The points of each field, as `dump` prints them."""
    fields = []
    for line in lines_of(dumped):
        if " ed=" in line:
            fields.append([])
        elif not line.startswith("reference"):
            fields[-1].append(line.split()[1])
    return fields


def hold_columns(runner, words, plain, data, accepted):
    """The lines of `list` and `keys` with columns and names."""
    source = b"".join(data[at:at + octets] for at, octets, _, _ in accepted)
    told = lines_of(runner.run(words[:1], source).output)
    listed_lines, keyed = lines_of(runner.run(["list"], source).output), lines_of(runner.run(["keys"], source).output)
    asked = dict(conditions(words))
    columns = [one for one in (asked.get("with") or asked.get("show") or "").split(",") if one]
    wanted = []
    for line, whole, keys in zip(told, listed_lines, keyed):
        at, octets = accepted[int(line.split(".")[0]) - 1][:2]
        has = {**dict(word.split("=") for word in keys.split()[2:]), "at": str(at), "octets": str(octets)}
        param = re.search(r" ed=2 .* param=(\S+) ", whole)
        name = TABLE_OF_NAMES.get(param[1]) if param and "names" in asked else None
        shown = [has.get(one, "-") for one in columns]
        line = " ".join([line.split()[0]] + shown) if "show" in asked else " ".join([line] + [f"{one}={value}" for one, value in zip(columns, shown)])
        wanted.append(line + (f" name={name}" if name else ""))
    hold(lines_of(plain.output) == wanted, "other columns", words, plain.output[:200], wanted[:1])


def is_real(*numbers):
    """Whether this is a date and time of the years 1 to 9999."""
    year, month, day, hour, minute, second = numbers
    return year <= 9999 and 1 <= month <= 12 and 1 <= day <= calendar.monthrange(2000 if year % 400 == 0 else 2000 + year % 400, month)[1] and hour < 24 and minute < 60 and second < 60


def is_on_first(words):
    """Whether a filter or set is by keys of edition 1."""
    return words[0] in ("filter", "set") and any(word.split("=")[0].rstrip("!") in FIRST_KEYS for word in words[1:])


def with_first(words, message):
    """The message of edition 1 with new values of keys."""
    octets = bytearray(message)
    for key, value in conditions(words):
        if key in FIRST_KEYS:
            at, width = FIRST_KEYS[key]
            octets[7 + at:7 + at + width] = int(value).to_bytes(width, "big")
    return bytes(octets)


def hold_first(runner, words, messages, output):
    """What `filter` and `set` make of messages by keys of edition 1."""
    if words[0] == "set":
        hold(output == b"".join(with_first(words, one) for one in messages), "set wrote other octets of edition 1", words)
    else:
        held = [one for one in messages if one[7] == 1 and all(fulfils(first_value(one, key.rstrip("!")), value) != key.endswith("!") for key, value in conditions(words))]
        hold(output == b"".join(held), "picked other messages of edition 1", words)
    hold(runner.run(words, output).output == output, "twice is not once", words)


def hold_names(runner, words, source, output):
    """The fields whose parameter has one of these names, where nothing else is asked."""
    names = dict(conditions(words))["name"].split(",")
    named = [line for line in lines_of(runner.run(["list"], source).output) if TABLE_OF_NAMES.get(re.search(r" param=(\S+) ", line)[1]) in names]
    if len(words) == 3:
        hold(len(lines_of(runner.run(["list"], output).output)) == len(named), "picked other names", words)
    hold(runner.run(words, output).output == output, "filter of its output is another")


def hold_dates(words, messages):
    """The reference times of what was written with `dates=valid`."""
    for one in messages:
        if one[7] == 2:
            first = with_keys([word for word in words if word != "dates=valid"], one)[16:]
            hold(is_real(int.from_bytes(first[12:14], "big"), *first[14:19]), "no date and time", words)
        else:
            first = with_first(words, one)[8:]
            hold(is_real(100 * (first[24] - 1) + first[12], *first[13:17], 0), "no date and time of edition 1", words)


def hold_stats(plain, dumped):
    """The least and greatest are those of the column."""
    wanted, label, points, reference = [], None, [], None

    def told():
        numbers = [(x, place) for place, x in points if isinstance(x, int)]
        counts = [sum(x == mark for _, x in points) for mark in ("missing", "missing2")]
        text = f"{label} present {len(numbers)} missing {counts[0]} missing2 {counts[1]}"
        if numbers:
            least, greatest = min(numbers), max(numbers, key=lambda one: (one[0], -one[1]))
            text += f" least {least[0]} at {least[1]} greatest {greatest[0]} at {greatest[1]}"
        wanted.extend((text, reference))
    for line in lines_of(dumped.output):
        words = line.split()
        if words[0] == "reference":
            reference = line
        elif "." in words[0]:
            if label:
                told()
            label, points = words[0], []
        else:
            points.append((int(words[0]), words[1] if "missing" in words[1] else int(words[1])))
    if label:
        told()
    hold(lines_of(plain.output) == wanted, "other stats", plain.output[:200], wanted[:2])


def hold_keys(plain, fields, runner, data, accepted):
    """A line for each field; what it has of edition 2 selects its own field, and its numbers are those of the list line."""
    printed = [dict(word.split("=", 1) for word in line.split()[1:]) for line in lines_of(plain.output)]
    hold(len(printed) == len(fields), "keys prints other fields", len(printed), len(fields))
    for line, field in zip(printed, fields):
        hold(line["ed"] == field["ed"], "keys names another edition")
        hold(line["ed"] == "1" or (line["points"], "5." + line["packing"]) == (field["points"], field["packing"]), "keys prints other numbers", line)
    for line in lines_of(plain.output)[:2]:
        label, edition, *words = [word for word in line.split() if not word.startswith("name=")]
        if edition != "ed=2":
            return
        message = int(label.split(".")[0])
        at, octets = accepted[message - 1][:2]
        picked = runner.run(["filter"] + words, data[at:at + octets])
        hold(picked.status == 0 and picked.output, "what keys prints does not pick its field", label, picked.note)


BESIDE = "absent same packed bit less more none".split()


def put_beside(runner, words, data):
    """The file of `compare`, by its name: the input itself, its messages packed anew, with a bit changed, or without the
    first or behind another one, or nothing."""
    name = dict(conditions(words))["with"]
    octets = data
    if name == "packed":
        octets = runner.run(["repack", "to=2", "refused=copy", "kept=copy"], data).output
    if name == "bit" and data:
        octets = data[:-9] + bytes([data[-9:-8][0] ^ 4]) + data[-8:] if len(data) > 9 else data
    if name == "less":
        octets = data[data.find(b"GRIB", 4):] if data.find(b"GRIB", 4) > 0 else b""
    if name == "more":
        octets = worked_messages()[0] + data
    if name != "absent":
        with open(f"{runner.work}/{name}", "wb") as file:
            file.write(b"" if name == "none" else octets)


def side(runner, data, accepted):
    """For each field of the messages its message and number, its values, exactly, and its Sections 1 to 4; None in place of
    both where they are not read."""
    source, found = b"".join(data[at:at + octets] for at, octets, _, _ in accepted), {}
    reference, values = None, None
    for line in lines_of(runner.run(["dump", "kept=pass"], source).output):
        words = line.split()
        if words[0] == "reference":
            mantissa, exponent, binary, decimal = reference_of(words)
            top_part = mantissa * fractions.Fraction(2) ** exponent
            step, shift = fractions.Fraction(2) ** binary, fractions.Fraction(10) ** decimal
        elif "." in words[0]:
            values = found[words[0]] = []
        else:
            values.append(words[1] if "missing" in words[1] else (top_part + int(words[1]) * step) / shift)
    fields = []
    for n, (at, octets, edition, count) in enumerate(accepted, 1):
        message = data[at:at + octets]
        own = {number: message[start:start + length] for start, length, number in sections(message)} if edition == 1 else None
        starts = list(in_force(message)) if edition == 2 else [None]
        for i in range(1, count + 1):
            if own:
                parts = [own[1], own[2] if message[15] & 128 else b"", b"", b""]
            else:
                parts = [message[starts[i - 1][one]:][:int.from_bytes(message[starts[i - 1][one]:][:4], "big")] if one in starts[i - 1] else b"" for one in (1, 2, 3, 4)]
            fields.append((n, i, found.get(f"{n}.{i}"), parts, message))
    return fields


def opaque_template(message):
    """The template of the first opaque packing of a message, or None."""
    numbers = [int.from_bytes(message[at + 9:at + 11], "big") for at, _, number in sections(message) if number == 5] if message[7] == 2 else []
    return next(((one, n) for n, one in enumerate(numbers, 1) if one not in READ_PACKINGS), None)


def comparison(one, other, words):
    """What is said of two fields."""
    if len(one[2]) != len(other[2]):
        return f"shape {len(one[2])} {len(other[2])}"
    for n, (left, right) in enumerate(zip(one[2], other[2]), 1):
        if left != right:
            return f"differs point {n}"
    for n, (left, right) in enumerate(zip(one[3], other[3]), 1) if "sections=all" in words else []:
        if left != right:
            return f"section {n} octet {next((k for k, (a, b) in enumerate(zip(left, right), 1) if a != b), min(len(left), len(right)) + 1)}"
    return "same"


def hold_compared(runner, words, plain, data, accepted):
    """What `compare` says of each field and at the end."""
    name = dict(conditions(words))["with"]
    if name == "absent":
        hold((plain.status, plain.output, plain.note) == (4, b"", b"file absent\n"), "a file that is absent", plain.status, plain.note)
        return
    with open(f"{runner.work}/{name}", "rb") as file:
        there = file.read()
    checked = runner.run(["check"], there)
    if checked.status == 2:
        hold((plain.status, plain.output, plain.note) == (2, b"", b"file " + checked.note), "a refusal of the file", plain.status, plain.note)
        return
    input_checked = runner.run(["check"], data)
    others, mine = side(runner, there, accepted_of(checked)), side(runner, data, accepted)
    lines, status, note, counts, done = [], None, b"", [0, 0], 0
    for n, message in enumerate([data[at:at + octets] for at, octets, _, _ in accepted], 1):
        ours = [one for one in mine if one[0] == n]
        pairs = list(zip(ours, others[done:]))
        cause = opaque_template(message)
        if not cause:
            cause = next(((opaque_template(other[4])[0], one[1]) for one, other in pairs if opaque_template(other[4])), None)
        if cause:
            status, note = 3, f"kept message {n} Packing {cause[0]} field {cause[1]}\n".encode()
            break
        for one, other in pairs:
            said = comparison(one, other, words)
            counts[said != "same"] += 1
            if said != "same" or "quiet=yes" not in words:
                lines.append(f"{n}.{one[1]} {said}\n")
        done += len(ours)
    if status is None and input_checked.status == 2:
        status, note = 2, input_checked.note
    if status is None:
        more, left = max(done - len(others), 0), max(len(others) - done, 0)
        lines.append(f"fields {done} same {counts[0]} differ {counts[1]} only-input {more} only-file {left}\n")
        status = 12 if counts[1] or more or left else 0
    wanted = status, "".join(lines).encode(), note
    hold((plain.status, plain.output, plain.note) == wanted, "compared otherwise", words, plain.status, plain.note, status, note, plain.output[-200:], wanted[1][-200:])


def listed(runner, data):
    return [dict(word.split("=", 1) for word in line.split()[1:]) for line in lines_of(runner.run(["list"], data).output)]


def is_opaque(message):
    """Whether a grid, product or packing of a message is not read: its keys, or its values, are then not those of chapter 6
    of docs/PROFILE.md."""
    own = [(number, message[at:at + length]) for at, length, number in sections(message)] if message[7] == 2 else []
    return any(number == 3 and (octets[5] != 0 or octets[12:14] not in (b"\0\0", b"\0\1", b"\0\n", b"\0\x14", b"\0\x1e", b"\0\x28"))
               or number == 4 and octets[7:9] not in (b"\0\0", b"\0\1", b"\0\x08", b"\0\x0b")
               or number == 5 and int.from_bytes(octets[9:11], "big") not in READ_PACKINGS for number, octets in own)


def hold_stated(data, checked, stated):
    """What the stated profile accepts the open one does, and what it refuses for another reason than a template."""
    lines = [line for line in lines_of(stated.output) if line.startswith("message ")]
    hold(lines_of(checked.output)[:len(lines)] == lines, "profile=open accepts otherwise", stated.output[-200:])
    if stated.status == 0 or stated.note.split()[5].decode() not in UNSTATED:
        hold((checked.status, checked.output, checked.note) == (stated.status, stated.output, stated.note),
             "profile=open answers otherwise", stated.note, checked.note)


def conditions(words):
    return [word.split("=", 1) for word in words[1:]]


def fulfils(value, listed):
    """Whether a value is in a list of values and ranges."""
    for element in listed.split(","):
        low, dots, high = element.partition("..")
        if not dots and element == value:
            return True
        if dots and value != "missing" and (low == "" or int(low) <= int(value)) and (high == "" or int(value) <= int(high)):
            return True
    return False


def hold_picked(words, messages, output, written):
    """The fields with all these values are written, and a message whose fields all have them as it is."""
    asked = [(key.rstrip("!"), listed, key.endswith("!")) for key, listed in conditions(words)]
    if any(KEYS[key][1] is None for key, _, _ in asked) or any(map(is_opaque, messages)):
        return
    matches = [[all(fulfils(key_value(message, starts, key), listed) != negated for key, listed, negated in asked)
                for starts in in_force(message)] for message in messages]
    hold(sum(one[3] for one in written) == sum(map(sum, matches)), "picked other fields", words)
    if all(all(one) or not any(one) for one in matches):
        hold(output == b"".join(message for message, one in zip(messages, matches) if all(one)), "picked other messages", words)


def with_keys(words, message):
    """The message with new values of the keys whose octets the template does not decide."""
    octets = bytearray(message)
    for key, value in conditions(words):
        section, first, last, kind, _ = KEYS[key]
        if first is None:
            continue
        bits = 8 * (last - first + 1)
        number = (1 << bits) - 1 if value == "missing" else (1 << bits - 1) - int(value) if int(value) < 0 else int(value)
        for start in [0] if section == 0 else [at for at, _, found in sections(message) if found == section]:
            octets[start + first - 1:start + last] = number.to_bytes(bits // 8, "big")
    return bytes(octets)


def hold_written(runner, words, data, plain, accepted, parts):
    """What is written is accepted, and holds what it has to hold."""
    name = words[0]
    output = b"".join(parts) if name == "split" else plain.output
    again = runner.run(["check"], output)
    hold(again.status == 0, "wrote what check refuses", words, again.note)
    written = accepted_of(again)
    hold(lines_of(again.output)[-1].endswith("skipped 0"), "wrote octets of no message", words)
    count = messages_before(plain, accepted) if plain.status in (2, 3) else len(accepted)
    if name == "demote":
        hold(all(edition == 1 for _, _, edition, _ in written), "demote wrote edition 2")
        hold(len(written) == sum(one[3] for one in accepted[:count]), "demote wrote other fields", words)
    if name in ("set", "repack", "migrate", "rescan", "crop"):
        hold([one[3] for one in written] == [one[3] for one in accepted[:count]], "wrote other fields", words)
    messages = [data[at:at + octets] for at, octets, _, _ in accepted[:count]]
    source = b"".join(messages)
    if name == "make":
        hold(len(written) == 1, "made other messages")
    if name == "crop" and len(words) in (3, 5) and words[1][0] not in "ij":
        hold_degrees(runner, words, plain, data, accepted)
    if name == "split":
        hold(len(parts) == sum(one[3] for one in accepted[:count]) == len(written), "split wrote other files")
        if all(one[3] == 1 for one in accepted[:count]):
            hold(output == source, "the parts are not the messages")
        hold(any(map(is_opaque, messages)) or columns(runner, output) == columns(runner, source), "split changed a value")
    if "dates=valid" in words:
        hold_dates(words, messages)
        words = [word for word in words if word != "dates=valid"]
    if is_on_first(words):
        hold_first(runner, words, messages, output)
        return
    if any(word.startswith("name=") for word in words):
        hold_names(runner, words, source, output)
        return
    if name == "filter":
        hold_picked(words, messages, output, written)
        hold(runner.run(words, output).output == output, "filter of its output is another")
    if name == "set":
        hold(len(output) == len(source), "set changed a length")
        wanted = b"".join(with_keys(words, one) for one in messages)
        elsewhere = any(KEYS[key][1] is None for key, _ in conditions(words)) or any(map(is_opaque, messages))
        hold(output == wanted or elsewhere, "set wrote other octets", words)
        hold(runner.run(words, output).output == output, "set of its output is another")
    if words[1:] == ["to=least"]:
        hold(plain.status != 3 or plain.note.split()[3] in (b"EditionOne", b"Packing"), "to=least kept a message", plain.note)
        hold(all(new[1] <= old[1] for new, old in zip(written, accepted)), "to=least made a message longer")
    if name == "repack":
        hold(columns(runner, output) == columns(runner, source), "repack changed a value", words)
        hold(runner.run(words, output).output == output, "repack of its output is another", words)
        simple, there = runner.run(["repack", "to=0"], source), runner.run(["repack", "to=0"], output)
        hold((there.status, there.output) == (simple.status, simple.output), "repack there and back is not repack once", words)
    if name == "rescan":
        hold(runner.run(words, output).output == output, "rescan twice is not rescan once")
    if name == "demote":
        demoted = columns(runner, output)
        hold(demoted == columns(runner, source), "demote changed a value")
        hold(runner.run(words, output).output == output, "demote of its output is another")
        back = runner.run(["migrate", words[1]] + [word for word in words[2:] if word == "local=keep"], output)
        hold(columns(runner, back.output) == demoted or back.status == 3, "demote and migrate changed a value", back.status)
        hold(back.status == 0 or any(one[2] == 1 for one in accepted[:count]), "what was demoted does not migrate", back.note)
    if name == "migrate":
        hold(columns(runner, output) == columns(runner, source), "migrate changed a value")


def begun_alike(note, other):
    """Whether the other has the first lines of a note, or none."""
    return note.startswith(other) and (other == b"" or other.endswith(b"\n"))


def hold_way(words, data, plain, other, way, parts, other_parts):
    """A run in another way answers as the plain one, or says what failed, with a prefix of the output."""
    if way in ("directory", "closed input") and words and words[0] not in NO_INPUT and plain.status not in (1, 4) and not plain.note.startswith(b"file "):
        hold((other.status, other.output, other.note) == (5, b"", b"read fault\n"), "a directory", words, other.status, other.note)
        return
    same = (other.status, other.note) == (plain.status, plain.note)
    hold(plain.output.startswith(other.output), "no prefix of the output", words, way)
    if way in ("closed notes", "full notes"):
        hold(other.status == (6 if plain.note else plain.status) and other.note == b"", way, words, other.status, other.note)
        hold(plain.note or other.output == plain.output, "other output " + way, words)
    elif way in ("pieces", "directory", "closed input"):
        hold(same and other.output == plain.output and other_parts == parts, "otherwise " + way, words, other.status, other.note)
    elif way == "little memory":
        if other.status == 127 and b"shared libraries" in other.note:
            return  # too little to begin
        said = other.note.endswith(b"memory\n") and begun_alike(plain.note, other.note[:-len(b"memory\n")])
        none = other.status == 8 and (said or (other.note, other.output) == (b"", b""))
        hold(same and other.output == plain.output or none, way, words, other.status, other.note)
        hold(all(whole.startswith(part) for whole, part in zip(parts, other_parts)) and len(other_parts) <= len(parts), "other parts", way)
    elif plain.output == b"":
        hold(same, "nothing was written, and yet", way, words, other.status, other.note)
    else:
        # What waits to be written is tried last, after the note.
        failed = other.status == 6 and begun_alike(plain.note, other.note)
        hold(same and way == "leaves" or failed, way, words, other.status, other.note)


def try_case(runner, draw, words, data, way):
    """All runs of one case. Raises Wrong at the first thing that may not be."""
    checked = runner.run(["check"], data)
    accepted = hold_check(data, checked)
    claimed = claimed_points(data)
    hold_bounds(runner, ["check"], data, checked, max(claimed, default=0), sum(claimed), len(checked.output))
    if OPEN:
        hold_stated(data, checked, runner.run(["check"], data, stated=True))
    fields = listed(runner, data)
    hold(len(fields) == sum(one[3] for one in accepted), "list prints other fields")
    points = max((int(field["points"]) for field in fields), default=0)
    if points > MOST_POINTS and not (words and words[0] in ("check", "list", "filter", "set", "split")):
        return
    if has_passing(runner):
        hold_passed(runner, data, checked)
    slow = scale_seconds(words, data, accepted, sum(int(field["points"]) for field in fields))
    if slow > 20:
        runner.seen["values left out, by their scale factors"] += 1
        return
    if words[:1] == ["compare"]:
        put_beside(runner, words, data)
    plain = runner.run(words, data)
    name = words[0] if words else ""
    if name == "help" and words[1:]:
        hold((plain.status, plain.note) == (0, b"") and plain.output.endswith(b"\n"), "help says nothing", words, plain.status, plain.note)
        runner.seen["help on arguments"] += 1
        hold_other_way(runner, draw, words, data, plain, way, [], False)
        return
    going_on = plain.status != 1 and any(word.startswith(("refused=", "kept=")) for word in words)
    parts = runner.parts(going_on) if name == "split" and plain.status not in (1, 7) else []
    runner.seen[f"status {plain.status}"] += 1
    if plain.status in (2, 3) and not going_on:
        runner.seen[plain.note.replace(b"file ", b"").split()[5 if plain.status == 2 else 3].decode()] += 1
    claimed += [int(field["points"]) for field in fields]
    hold_bounds(runner, words, data, plain, max(claimed, default=0), sum(claimed), len(plain.output) + sum(map(len, parts)) + len(plain.note), slow)
    if words[:1] == ["compare"] and plain.status != 1:
        hold_compared(runner, words, plain, data, accepted)
        hold_other_way(runner, draw, words, data, plain, way, parts, going_on)
        return
    if going_on and plain.status not in (4, 7):
        runner.seen["runs that go on"] += 1
        hold_policy(runner, words, data, plain, parts)
        hold_other_way(runner, draw, words, data, plain, way, parts, True)
        return
    written = sum(map(len, parts)) if name == "split" else len(plain.output)
    hold_note(words, plain, checked, accepted, written)
    if plain.status in (2, 3) and words:
        count = messages_before(plain, accepted)
        at, octets = accepted[count - 1][:2] if count else (0, 0)
        front = runner.run(words, data[:at + octets])
        front_parts = runner.parts() if name == "split" else []
        output = front.output[:front.output.rfind(b"messages ")] if name == "check" else front.output
        hold((front.status, output, front_parts) == (0, plain.output, parts), "not the output of the messages before", words, front.status, front.note)
    if plain.status in (0, 2, 3) and name in COPIES + ("make",) and points <= MOST_POINTS:
        hold_written(runner, words, data, plain, accepted, parts)
    if words in (["keys"], ["keys", NAMES]) and plain.status != 1:
        hold_keys(plain, fields, runner, data, accepted)
    if words[:1] in (["list"], ["keys"]) and words[1:] and plain.status in (0, 2):
        hold_columns(runner, words, plain, data, accepted)
    if words[:1] == ["coordinates"] and plain.status in (0, 2, 3):
        hold_coordinates(plain, data, accepted)
    if words[:1] == ["values"] and plain.status in (0, 2, 3) and len(plain.output) < 100_000:
        hold_values(runner, words, plain, data, accepted)
    if "place=yes" in words and plain.status in (0, 2, 3):
        hold_placed(runner, words, plain, data, accepted)
    if words[:1] == ["stats"]:
        hold_stats(plain, runner.run(["dump"], data))
    if words[:1] == ["dump"] and len(words) == 2 and words[1] != "place=yes" and plain.status != 1:
        hold_decimals(words, plain, runner.run(["dump"], data))
    hold_other_way(runner, draw, words, data, plain, way, parts, going_on)


def hold_other_way(runner, draw, words, data, plain, way, parts, gaps):
    """The run in another way, if the case has one."""
    if way != "file":
        other = runner.run(words, data, way, draw)
        other_parts = runner.parts(gaps) if words[:1] == ["split"] and other.status not in (1, 7) else []
        hold_way(words, data, plain, other, way, parts, other_parts)


WAYS = ("file", "pieces", "pieces", "leaves", "full", "closed", "directory", "closed input", "full notes", "closed notes",
        "little memory", "little memory")


def case_of(seed, number, pool, has):
    draw = random.Random(f"{seed} {number}{' open' * bool(OPEN)}")
    return draw, command_of(draw, has, pool), stream_of(draw, pool), draw.choice(WAYS)


def wrong_in(runner, seed, words, data, way):
    """What is wrong with a case, or None. Its random pieces hang on the case alone."""
    try:
        try_case(runner, random.Random(f"{seed} pieces"), words, data, way)
    except Wrong as wrong:
        return str(wrong)
    except Exception as wrong:  # what the program printed could not be read
        return f"{type(wrong).__name__}: {wrong}"
    return None


def smaller(runner, seed, words, data, way, wrong):
    """The octets of a finding, cut as long as what is wrong with them begins alike."""
    size = len(data) // 2
    tries = 0
    while size > 0 and tries < 400:
        at = 0
        while at < len(data) and tries < 400:
            tries += 1
            less = data[:at] + data[at + size:]
            found = wrong_in(runner, seed, words, less, way)
            if found and found[:12] == wrong[:12]:
                data = less
            else:
                at += size
        size //= 2
    return data


def work(arguments):
    """The cases of one process: every jobs-th one, until its part of the runs is made."""
    program, pool, has, options, first = arguments
    OPEN[:] = ["profile=open"] * (options["profile"] == "open")
    runner, counts, number = Runner(program), collections.Counter(), first
    most, stopped = options["runs"] // options["jobs"], []
    for name in signal.SIGINT, signal.SIGTERM:
        signal.signal(name, lambda *_: stopped.append(True))
    try:
        while runner.count < most and not stopped:
            _, words, data, way = case_of(options["seed"], number, pool, has)
            wrong = wrong_in(runner, options["seed"], words, data, way)
            counts["cases"] += 1
            if wrong:
                counts["findings"] += 1
                if counts["findings"] <= 20:
                    report(runner, options, number, words, data, way, wrong)
            if options["case"] is not None:
                break
            number += options["jobs"]
        counts["runs"] = runner.count
        return counts + runner.seen, runner.worst
    finally:
        runner.close()


def report(runner, options, number, words, data, way, wrong):
    data = smaller(runner, options["seed"], words, data, way, wrong)
    os.makedirs(options["keep"], exist_ok=True)
    name = f"{options['keep']}/{options['seed']}-{number}"
    with open(name, "wb") as file:
        file.write(data)
    print(f"case {number} ({way}): {' '.join(words)} < {name} ({len(data)} octets): {wrong}", flush=True)


def coded_of(runner, pool):
    """Those of some messages that are read, in CCSDS packing: in blocks of 32, and in the fewest octets."""
    for message in pool:
        for target in ("to=42", "to=least"):
            packed = runner.run(["repack", target, "profile=open"], message, stated=True)
            if packed.status == 0 and any(number == 5 and packed.output[at + 9:at + 11] == b"\0\x2a" for at, _, number in sections(packed.output)):
                yield packed.output


def pool_of(program, files):
    """Messages to begin with: small ones of the files, the worked ones, and some that are made, and these in CCSDS packing;
    of those that are refused one for each reason."""
    pool = worked_messages()
    for path in files:
        with open(path, "rb") as file:
            found = messages_of(file.read())
        small = sorted((one for one in found if len(one) <= 60_000), key=len)
        pool += small[::max(len(small) // 12, 1)]
    runner = Runner(program)
    try:
        for ni, nj in ((1, 1), (7, 3), (40, 30)):
            for target in TARGETS:
                pool.append(runner.run(["make", "seed=5", f"ni={ni}", f"nj={nj}", *target], b"").output)
        pool += list(dict.fromkeys(coded_of(runner, [one for one in pool if len(one) <= 20_000])))
        noted = [runner.run(["check"], one).note.split()[5:6] for one in pool]
    finally:
        runner.close()
    return [one for n, one in enumerate(pool) if one and (not noted[n] or noted[n] not in noted[:n])]


def main():
    options = {"profile": "stated", "runs": "10000", "seed": "1", "jobs": "1", "case": None, "keep": "hostile-findings"}
    words = [word for word in sys.argv[1:] if word.split("=", 1)[0] in options and "=" in word]
    options.update(word.split("=", 1) for word in words)
    paths = [word for word in sys.argv[1:] if word not in words]
    if len(paths) < 2 or options["profile"] not in ("stated", "open"):
        sys.exit(__doc__)
    if not shutil.which("time"):
        sys.exit("time is not here (Debian: time)")
    OPEN[:] = ["profile=open"] * (options["profile"] == "open")
    options["runs"], options["jobs"] = int(options["runs"]), int(options["jobs"])
    program = os.path.abspath(paths[0])
    beyond = costs(program) if options["case"] is None else 0
    pool, has = pool_of(program, paths[1:]), commands_of(program)
    if options["case"] is not None:
        options["jobs"] = 1
    begun, firsts = time.monotonic(), range(options["jobs"]) if options["case"] is None else [int(options["case"])]
    given = [(program, pool, has, options, first) for first in firsts]
    if options["jobs"] == 1:
        results = [work(given[0])]
    else:
        with multiprocessing.Pool(options["jobs"]) as processes:
            results = processes.map(work, given, chunksize=1)
    counts = sum((one for one, _ in results), collections.Counter())
    print(f"{counts['runs']} runs, {counts['cases']} cases over {len(pool)} messages, {counts['findings']} findings, "
          f"{time.monotonic() - begun:.0f} seconds; profile {options['profile']}, seed {options['seed']}; commands {' '.join(sorted(has - {'words'}))}")
    told = sorted((what, count) for what, count in counts.items() if what not in ("runs", "cases", "findings"))
    print("plain runs: " + ", ".join(f"{what} {count}" for what, count in told))
    for what, unit in (("time", 1e9), ("memory", 1)):
        cost, about = max([worst.get(what, (0, "no run took 5 ms, or 1 MB, more than without an input")) for _, worst in results])
        print(f"most {what} in a case: {cost * unit:,.0f} {'ns' if what == 'time' else 'octets'} an octet ({about})")
    sys.exit(counts["findings"] + beyond > 0)


if __name__ == "__main__":
    main()
