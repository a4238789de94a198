#!/usr/bin/env python3
"""Tries each row of docs/FROM-ECCODES.md with both programs: from_eccodes.py PROGRAM [FILE..]

Needs the tools of ecCodes (Debian: libeccodes-tools). Of the rows on tools and options both commands are run, and what
the last column says is compared. Of the rows on keys the number of ecCodes is worked out here from what `keys`, `list`
and `stats` print, as the last column says, and compared on every field of the files, of examples/ and of
python-grib-doc where none are given, if the field has the key. Prints each row that does not hold, or that was not
tried since no file has its key, and ends with status 1 if there is one."""
import datetime
import os
import re
import shutil
import subprocess
import sys
import tempfile

top = os.path.dirname(os.path.dirname(os.path.abspath(__file__)))
REAL = "/usr/share/doc/python-grib-doc/examples"
FILES = [f"{top}/examples/two-fields.grib2", f"{top}/examples/four-points.grib2"] + [f"{REAL}/{name}" for name in ("gfs.grb", "eta.grb", "ecmwf_tigge.grb", "ngm.grb", "ds.maxt.bin")]
# A message of edition 1, that of GUIDE.
OLD = bytes.fromhex("475249420000580100001c026201ff800b6401f418010f0c00010600000000001500000100002000ff000002000200c3500027108000bf68002af803e803e80000000000000010088003c276a00008000102ff0037373737")
# The field without groups (NG = 0), of which ecCodes prints what the section does not hold.
NO_GROUPS = {("gfs.grb", 231)}
HOURS = {0: 1 / 60, 1: 1, 2: 24, 10: 3, 11: 6, 12: 12, 13: 1 / 3600}
GRIDS = {0: "regular_ll", 1: "rotated_ll", 10: "mercator", 20: "polar_stereographic", 30: "lambert", 40: "regular_gg"}
PACKINGS = {0: "grid_simple", 2: "grid_complex", 3: "grid_complex_spatial_differencing", 40: "grid_jpeg", 41: "grid_png", 42: "grid_ccsds"}
failed = []


def hold(so, what):
    if not so:
        failed.append(what)


def rows(title):
    """The rows of the table of a chapter of the page, cell by cell."""
    with open(f"{top}/docs/FROM-ECCODES.md", encoding="utf-8") as page:
        chapter = re.search(rf"^## {title}\n(.*?)(?=^## |\Z)", page.read(), re.M | re.S).group(1)
    for line in re.findall(r"^\| (.*) \|$", chapter, re.M)[2 - 1 :]:
        if not line.startswith("---"):
            yield [cell.strip() for cell in re.split(r"(?<!\\) \| ", line)]


def quoted(cell):
    return re.findall(r"`([^`]+)`", cell)


def numbers(text):
    return [float(word) for word in re.findall(r"(?<![\w.])-?\d+(?:\.\d+)?(?:e[-+]\d+)?(?![\w.])", text)]


# ---- tools and options


class Ran:
    """A command that was run in a folder of its own with the input, and what it printed and left."""

    def __init__(self, command, program, work):
        os.makedirs(work)
        shutil.copy(f"{top}/examples/two-fields.grib2", f"{work}/in")
        octets = open(f"{work}/in", "rb").read()
        with open(f"{work}/changed", "wb") as file:
            file.write(octets[:17 + 12] + bytes([octets[29] ^ 1]) + octets[30:208] + bytes([octets[208] ^ 4]) + octets[209:])
        with open(f"{work}/in1", "wb") as file:
            file.write(OLD)
        shutil.copy(f"{top}/examples/four-points.grib2", f"{work}/four")
        for name in ("standard.csv", "names2.csv"):
            shutil.copy(f"{top}/params/{name}", work)
        os.mkdir(f"{work}/bin")
        os.symlink(program, f"{work}/bin/grib")
        made = {"bin", "in", "in1", "four", "changed", "standard.csv", "names2.csv"}
        run = subprocess.run(["bash", "-c", command], cwd=work, env={**os.environ, "PATH": f"{work}/bin:{os.environ['PATH']}"}, capture_output=True, text=True)
        self.text, self.status = run.stdout, run.returncode
        self.files = {name: open(f"{work}/{name}", "rb").read() for name in sorted(os.listdir(work)) if name not in made}


def eccodes_values(octets):
    """The values of each point of a file, as ecCodes reads them."""
    with tempfile.NamedTemporaryFile() as file:
        file.write(octets)
        file.flush()
        text = subprocess.run(["grib_get_data", "-m", "9999", file.name], capture_output=True, text=True).stdout
    return [float(line.split()[2]) for line in text.splitlines() if not line.startswith("Lat")]


def near(first, second, step=0.0):
    return len(first) == len(second) and first and all(abs(a - b) <= step + 1e-4 * max(1, abs(a)) for a, b in zip(first, second))


def point_values(text):
    """The last number of each line of points, of either program."""
    lines = [line for line in text.splitlines() if re.match(r"\s*-?[\d.]", line) and " ed=" not in line]
    return [float(line.split()[-1]) for line in lines if line.split()[-1] != "missing"]


def is_the_same(what, theirs, ours):
    if what == "a line for each field":
        listed = [line for line in theirs.text.splitlines() if re.match(r"\d", line) and " of " not in line and " total " not in line]
        return len(listed) == len(ours.text.splitlines())
    if what == "the number of messages":
        return numbers(theirs.text)[0] == numbers(ours.text)[0]
    if what == "the numbers":
        return [line.split() for line in theirs.text.splitlines()] == [line.split()[1:] for line in ours.text.splitlines()]
    if what == "the octets":
        return bool(theirs.files.get("out")) and theirs.files["out"] == ours.files["out"]
    if what == "the files":
        return bool(theirs.files) and theirs.files == ours.files
    if what.startswith("the values to a step of "):
        return near(eccodes_values(theirs.files["out"]), eccodes_values(ours.files["out"]), float(what.split()[6]))
    if what == "the values":
        if "out" in theirs.files:
            return near(eccodes_values(theirs.files["out"]), eccodes_values(ours.files["out"]))
        if "grib_get " in theirs.command:
            return near(numbers(theirs.text), point_values(ours.text))
        return near(point_values(theirs.text), point_values(ours.text))
    if what == "status 0":
        return theirs.status == 0 and ours.status == 0
    return theirs.status == 1 and ours.status == 12


def try_tools(program, work):
    count = 0
    for theirs, ours, what in rows("Tools and options"):
        count += 1
        ran = []
        for number, cell in enumerate((theirs, ours)):
            command = quoted(cell.replace("\\|", "|"))[0]
            ran.append(Ran(command, program, f"{work}/{count}.{number}"))
            ran[-1].command = command
        hold(is_the_same(what, *ran), f"not {what}: {theirs} and {ours}")
    return count


# ---- keys


def step_of(key):
    unit = HOURS.get(key["timeUnit"])
    return None if unit is None or key["forecastTime"] is None else key["forecastTime"] * unit


def range_of(key):
    start = step_of(key)
    if start is None:
        return None
    if key.get("rangeLength") is None:
        return f"{start:g}"
    return f"{start:g}-{start + key['rangeLength'] * HOURS[key['rangeUnit']]:g}" if key["rangeUnit"] in HOURS else None


def validity(key):
    if key.get("endYear") is not None:
        return key["endYear"] * 10000 + key["endMonth"] * 100 + key["endDay"]
    step = step_of(key)
    if step is None:
        return None
    day = datetime.datetime(key["year"], key["month"], key["day"], key["hour"], key["minute"]) + datetime.timedelta(hours=step)
    return day.year * 10000 + day.month * 100 + day.day


def level(key):
    if key["surface1"] not in (100, 103) or key["surface2"] is not None or None in (key["surface1Scale"], key["surface1Value"]):
        return None
    value = key["surface1Value"] / 10 ** key["surface1Scale"] / (100 if key["surface1"] == 100 else 1)
    return int(value) if value == int(value) else None


def type_of_level(key):
    if key["surface2"] is not None:
        return None
    return {100: "isobaricInhPa" if level(key) is not None else None, 1: "surface", 101: "meanSea", 103: "heightAboveGround"}.get(key["surface1"])


def extreme(key, name):
    if key.get(name) is None:
        return None
    return (key["R"] + key[name] * 2.0 ** key["E"]) / 10.0 ** key["D"]


WORKED_OUT = {
    "dataDate": lambda key: key["year"] * 10000 + key["month"] * 100 + key["day"],
    "dataTime": lambda key: key["hour"] * 100 + key["minute"],
    "gridType": lambda key: GRIDS.get(key["gridTemplate"]) if key.get("ni") is not None else None,
    "latitudeOfFirstGridPointInDegrees": lambda key: key["la1"] / 1e6 if key.get("la1") is not None else None,
    "shortName": lambda key: key.get("name"),
    "startStep": step_of,
    "stepRange": range_of,
    "validityDate": validity,
    "level": level,
    "typeOfLevel": type_of_level,
    "packingType": lambda key: PACKINGS.get(key["packing"]),
    "totalLength": lambda key: key["octets"] if key["alone"] else None,
    "offset": lambda key: key["at"] if key["alone"] else None,
    "numberOfMissing": lambda key: key["missing"] + key["missing2"] if "missing" in key else None,
    "max": lambda key: extreme(key, "greatest"),
    "min": lambda key: extreme(key, "least"),
}
WORKED_OUT_1 = {
    "dataDate": lambda key: ((key["Century"] - 1) * 100 + key["YearOfCentury"]) * 10000 + key["Month"] * 100 + key["Day"],
    "dataTime": lambda key: key["Hour"] * 100 + key["Minute"],
}


def fields_here(program, octets, edition):
    """What `keys`, `list` and `stats` say of each field, by name."""

    def lines(*words):
        return subprocess.run([program, *words, "profile=open", "refused=pass"], input=octets, capture_output=True, text=False).stdout.decode().splitlines()

    found = []
    for line in lines("keys", *([f"names={top}/params/names2.csv"] if edition == 2 else [])):
        pairs = dict(word.split("=") for word in line.split()[1:])
        found.append({name: None if value == "missing" else int(value) if re.fullmatch(r"-?\d+", value) else value for name, value in pairs.items()})
    for key, line in zip(found, lines("list", "with=at,octets")):
        key["at"], key["octets"] = (int(re.search(rf" {name}=(\d+)", line).group(1)) for name in ("at", "octets"))
    places = [key["at"] for key in found]
    for key in found:
        key["alone"] = places.count(key["at"]) == 1
    stats = subprocess.run([program, "stats"], input=octets, capture_output=True).stdout.decode().splitlines()
    if len(stats) == 2 * len(found):
        for key, first, second in zip(found, stats[::2], stats[1::2]):
            words = first.split()
            key["missing"], key["missing2"] = int(words[4]), int(words[6])
            mantissa, power, key["E"], key["D"] = (int(number) for number in re.fullmatch(r"reference (-?\d+)\*2\^(-?\d+) binary (-?\d+) decimal (-?\d+)", second).groups())
            key["R"] = mantissa * 2.0**power
            if "greatest" in words:
                key["least"], key["greatest"] = int(words[8]), int(words[12])
    return found


def eccodes_says(path, names):
    text = subprocess.run(["grib_get", "-f", "-p", ",".join(names), path], capture_output=True, text=True).stdout
    return [line.split() for line in text.splitlines()]


def agrees(said, value):
    if isinstance(value, str):
        return said == value
    try:
        return abs(float(said) - value) <= 1e-5 * max(1, abs(value))
    except ValueError:
        return False


def try_keys(program, title, files, edition, worked_out):
    table = list(rows(title))
    theirs = [name for cells in table for name in quoted(cells[0])]
    ours = {name: quoted(cells[1]) for cells in table for name in quoted(cells[0])}
    tried, other = dict.fromkeys(theirs, 0), dict.fromkeys(theirs, 0)
    for path in files:
        with open(path, "rb") as file:
            found = fields_here(program, file.read(), edition)
        said = eccodes_says(path, theirs)
        hold(len(found) == len(said), f"{path}: {len(found)} fields, and {len(said)} of ecCodes")
        for number, (key, words) in enumerate(zip(found, said), 1):
            for name, word in zip(theirs, words):
                plain = name.partition(":")[0]
                value = worked_out[plain](key) if plain in worked_out else key.get(ours[name][0])
                if value is None or word in ("not_found", "MISSING", "unknown") or (plain in ("max", "min") and (os.path.basename(path), number) in NO_GROUPS):
                    continue
                if plain in ("Ni", "Nj") and word in ("not_found", str(2**31 - 1)):
                    continue
                tried[name] += 1
                if not agrees(word, value):
                    other[name] += 1
                    if plain != "shortName":
                        hold(False, f"{path}, field {number}: {name} is {word}, and {value} by {', '.join(ours[name])}")
    for name in theirs:
        hold(tried[name] > 0, f"no field has {name}")
    if "shortName" in theirs:
        print(f"shortName: {tried['shortName']} fields, of {other['shortName']} another name")
    return sum(tried.values()), len(theirs)


def main():
    if len(sys.argv) < 2:
        sys.exit(__doc__)
    program = os.path.abspath(sys.argv[1])
    files = sys.argv[2:] or [name for name in FILES if os.path.exists(name)]
    with tempfile.TemporaryDirectory() as work:
        tools = try_tools(program, f"{work}/tools")
        with open(f"{work}/old.grib1", "wb") as file:
            file.write(OLD)
        second, names = try_keys(program, "Keys of edition 2", files, 2, WORKED_OUT)
        first, names1 = try_keys(program, "Keys of edition 1", [f"{work}/old.grib1"], 1, WORKED_OUT_1)
    for line in failed[:40]:
        print(line)
    print(f"{tools} commands, {names} keys of edition 2 in {second} numbers, {names1} of edition 1 in {first}, {len(failed)} differ")
    sys.exit(bool(failed))


main()
