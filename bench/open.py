#!/usr/bin/env python3
"""Tries `profile=open` on messages of many grids, products and packings: open.py PROGRAM [FILE..]

Needs ecCodes' tools and samples (Debian: libeccodes-tools). The messages are made by `grib_set` of samples: each grid,
product and packing that ecCodes writes, or by octets where it does not (run-length packing, a grid that octet 6 of
Section 3 says is defined elsewhere, two fields of two packings in one message, half of each). Those of edition 2 in ecCodes'
samples and in FILE.. come behind them, by default the files of Debian's python-grib-doc, if they are here. Of each message

- `check profile=open` has to accept it; what it refuses is listed by its reason;
- without `profile=open` it has to be accepted, or refused at the first grid, product or packing that is not stated;
- `list` and `keys` have to print what this script reads in its octets, and what ecCodes reads under its names;
- `filter` has to give it for each of its keys, and nothing for another value, as `grib_copy -w` does;
- `set` of a parameter number has to give what `grib_set` gives, and set back the message again;
- `split`, joined, has to be what this script cuts, and what `grib_copy` writes;
- if a packing is opaque, what reads values has to say so and write nothing, and with `kept=copy` the message; if not,
  `dump` has to print the values that ecCodes reads, and repacked, to CCSDS packing (5.42) too, they have to stay.

All of them in one file are then repacked in one run with `kept=copy`. At last 2,000 of them are damaged, an octet or a
few each: what is accepted without `profile=open` has to give the same lines with it. Prints how many runs there were, what ecCodes could not
be asked, and each finding; the status is 1 if there is one."""
import collections
import glob
import os
import random
import shutil
import subprocess
import sys
import tempfile

from keys import INTERVAL, NAMES, END, ENSEMBLE, PLACES, RANGE, RANGES, SCANNING, fields
from messages import message_of, messages, our_fields, section

SAMPLES = "/usr/share/eccodes/samples"
FILES = "/usr/share/doc/python-grib-doc/examples"
GRIDS = [2, 3, 12, 13, 31, 41, 42, 43, 50, 51, 90, 100, 101, 110, 120, 140, 1000, 1100, 1200, 32769]
PRODUCTS = [*range(16), 20, *range(30, 36), *range(40, 50), 51, *range(53, 62), 67, 68, *range(70, 74), *range(76, 89),
            91, 254, 1000, 1001, 1002, 1100, 1101]
PACKINGS = ["grid_simple", "grid_complex", "grid_jpeg", "grid_png", "grid_ccsds", "grid_ieee", "grid_simple_matrix",
            "grid_simple_log_preprocessing", "grid_second_order"]
SPECTRAL = ["spectral_simple", "spectral_complex", "spectral_ieee"]
STATED_GRIDS, STATED_PRODUCTS, STATED_PACKINGS = (0, 1, 10, 20, 30, 40), (0, 1, 8, 11), (0, 2, 3)
READ_PACKINGS = (*STATED_PACKINGS, 42)  # those whose values are read with `profile=open`
# Templates that begin as 4.0 does, with how many octets later its octets 12 to 34 stand.
SHIFT = {**dict.fromkeys([*range(16), 51, 60, 61, 91], 0), **dict.fromkeys(range(40, 44), 2)}
INSTANT = ("process", "generator", "timeUnit", "forecastTime", "surface1", "surface1Scale", "surface1Value", "surface2",
           "surface2Scale", "surface2Value")
# What reads values, with arguments that suit each message.
READING = [["dump"], ["stats"], ["values"], ["dump", "decimals=3"]]
CHANGING = [["repack", "to=0"], ["repack", "to=3", "order=1"], ["repack", "to=least"], ["rescan"], ["crop", "i0=0", "i1=0", "j0=0", "j1=0"],
            ["demote", "params={table}", "earth=any", "tables=any", "local=keep"]]

counts, findings, unasked, refusals = collections.Counter(), [], collections.Counter(), collections.defaultdict(list)
program, table = "", ""


def ran(words, octets):
    """Status, output and note of a run of the program."""
    counts["runs"] += 1
    run = subprocess.run([program, *(word.format(table=table) for word in words)], input=octets, capture_output=True, check=False)
    return run.returncode, run.stdout, run.stderr.decode()


def opened(words, octets):
    return ran([words[0], "profile=open", *words[1:]], octets)


def hold(so, name, what):
    if not so:
        findings.append(" ".join(f"{name}: {what}".split()))


def tool(words, octets):
    """What a tool of ecCodes writes to a file, None where it fails or writes nothing."""
    with tempfile.TemporaryDirectory() as folder:
        with open(f"{folder}/in", "wb") as file:
            file.write(octets)
        run = subprocess.run([*words, f"{folder}/in", f"{folder}/out"], capture_output=True, check=False, cwd=folder)
        if run.returncode != 0 or not os.path.exists(f"{folder}/out"):
            return None
        with open(f"{folder}/out", "rb") as file:
            return file.read()


def printed(rules, octets):
    """What grib_filter prints of the fields of some messages by these rules, None where it fails."""
    with tempfile.NamedTemporaryFile("w") as file:
        file.write(rules)
        file.flush()
        run = subprocess.run(["grib_filter", file.name, "-"], input=octets, capture_output=True, check=False)
    return run.stdout.decode(errors="replace") if run.returncode == 0 else None


# What is made


def set_by(pairs, octets, again=False):
    return tool(["grib_set", *(["-r"] if again else []), "-s", pairs], octets)


def made():
    """Messages by name. What ecCodes cannot write is counted."""
    with open(f"{SAMPLES}/regular_ll_pl_grib2.tmpl", "rb") as file:
        plain = file.read()
    with open(f"{SAMPLES}/sh_pl_grib2.tmpl", "rb") as file:
        spectral = file.read()
    values = ran(["make", "seed=7", "ni=60", "nj=40", "to=0"], b"")[1]
    jobs = [(f"grid 3.{grid}", f"centre=7,gridDefinitionTemplateNumber={grid}" if grid > 32767 else f"gridDefinitionTemplateNumber={grid}", plain, False) for grid in GRIDS]
    jobs += [(f"product 4.{product}", f"productDefinitionTemplateNumber={product}", plain, False) for product in PRODUCTS]
    # ecCodes 2.28 packs to grid_ccsds wrongly where neither scale factor is 0.
    five = next(fields(values))[5]
    whole = values.replace(five, five[:17] + bytes(2) + five[19:])
    jobs += [(f"packing {packing}", f"packingType={packing}", whole if packing == "grid_ccsds" else values, True) for packing in PACKINGS]
    jobs += [(f"packing {packing}", f"packingType={packing}", spectral, True) for packing in SPECTRAL]
    for name, pairs, octets, again in jobs:
        done = set_by(pairs, octets, again)
        if done is None:
            unasked[f"{name} is not written by ecCodes"] += 1
        else:
            yield name, done
    yield from by_octets(plain, values)


def by_octets(plain, values):
    """Messages by octets, from one with simple packing and one of the program's own."""
    parts = next(fields(values))
    five, jpeg = parts[5], next(fields(set_by("packingType=grid_jpeg", values, True)))
    # Run-length packing with level values: 8 bits, greatest level 3 of 3, scale 0, three values; octets of two runs.
    levels = five[5:9] + (200).to_bytes(2, "big") + bytes([8, 0, 3, 0, 3, 0]) + bytes([0, 0, 0, 1, 0, 2])
    yield "packing 5.200", message_of([parts[1], parts[3], parts[4], section(5, levels), parts[6], section(7, bytes([1, 255, 2]))])
    yield "packing 5.65535", message_of([parts[1], parts[3], parts[4], section(5, five[5:9] + b"\xff\xff"), parts[6], section(7, b"")])
    yield "packing 5.42", ran(["repack", "to=42", "profile=open"], values)[1]
    elsewhere = section(3, b"\x01" + parts[3][6:10] + b"\0\0\0\0")
    yield "a grid that is defined elsewhere", message_of([parts[1], elsewhere, *(parts[n] for n in (4, 5, 6, 7))])
    by_centre = section(3, b"\xff" + parts[3][6:10] + b"\0\0\xff\xff" + b"anything")
    yield "a grid of no template", message_of([parts[1], by_centre, *(parts[n] for n in (4, 5, 6, 7))])
    product = section(4, b"\0\0\xff\xfe" + bytes([3, 5]))
    yield "a product of 11 octets", message_of([parts[1], parts[3], product, parts[5], parts[6], parts[7]])
    first = [parts[n] for n in (1, 3, 4, 5, 6, 7)]
    yield "two packings", message_of(first + [jpeg[n] for n in (4, 5, 6, 7)])
    yield "two packings, the opaque one first", message_of([jpeg[n] for n in (1, 3, 4, 5, 6, 7)] + [parts[n] for n in (4, 5, 6, 7)])
    other = next(fields(set_by("gridDefinitionTemplateNumber=101", plain)))
    yield "two grids", message_of(first + [other[n] for n in (3, 4, 5, 6, 7)])


# What is read in the octets


def number_at(octets, first, last):
    return int.from_bytes(octets[first - 1 : last], "big")


def text_at(octets, first, last, kind):
    number, sign = number_at(octets, first, last), 1 << 8 * (last - first + 1) - 1
    if "m" in kind and number == 2 * sign - 1:
        return "missing"
    return str(sign - number if "s" in kind and number > sign else number % sign if "s" in kind else number)


def templates(sections):
    return number_at(sections[3], 13, 14), number_at(sections[4], 8, 9), number_at(sections[5], 10, 11)


def is_opaque_grid(sections):
    return sections[3][5] != 0 or templates(sections)[0] not in STATED_GRIDS


def places(sections):
    """The keys of a field, with their sections, first and last octets and kinds."""
    grid, product, packing = templates(sections)
    own = dict(PLACES)
    if is_opaque_grid(sections):
        for key in ("earthShape", "ni", "nj"):
            del own[key]
    else:
        first = 47 if SCANNING[grid] == 72 else 39
        own |= {"scanning": (3, SCANNING[grid], SCANNING[grid], ""), "la1": (3, first, first + 3, "s"), "lo1": (3, first + 4, first + 7, "")}
    for key in INSTANT:
        number, first, last, kind = own.pop(key)
        if product in SHIFT:
            own[key] = (number, first + SHIFT[product], last + SHIFT[product], kind)
    if product in (1, 11):
        own |= ENSEMBLE
    if product in INTERVAL:
        begin = INTERVAL[product]
        for key, (start, end) in (END | (RANGE if sections[4][begin + RANGES - 1] else {})).items():
            own[key] = (4, begin + start, begin + end, "")
    if packing not in READ_PACKINGS:
        del own["bits"]
    return own


def keys_of(sections):
    return {key: text_at(sections[number], first, last, kind) for key, (number, first, last, kind) in places(sections).items()}


def list_line(number, sections):
    """The line of `list`, without the number of the message."""
    (grid, product, packing), key = templates(sections), keys_of(sections)
    time = "{:04}-{:02}-{:02}T{:02}:{:02}:{:02}".format(*(int(key[name]) for name in ("year", "month", "day", "hour", "minute", "second")))
    words = [f".{number}", "ed=2", f"centre={key['centre']}", f"time={time}", f"grid=3.{grid}", f"points={key['points']}", f"product=4.{product}",
             f"param={key['discipline']}.{key['category']}.{key['number']}"]
    if product in SHIFT:
        words += [f"unit={key['timeUnit']}", f"ahead={key['forecastTime']}", f"surface={key['surface1']}:{key['surface1Scale']}:{key['surface1Value']}"]
    words += [f"packing=5.{packing}"] + ([f"bits={key['bits']}"] if "bits" in key else [])
    return " ".join(words + [f"values={number_at(sections[5], 6, 9)}"])


def refused_without(octets):
    """The note of `check` without the open profile, for a message that the open profile accepts; nothing where it is
    accepted. Of a message whose other rows are not those of an opaque grid, product or packing it is what is tried first."""
    at = 16
    while octets[at : at + 4] != b"7777":
        number, own = octets[at + 4], octets[at:]
        if number == 3 and own[5] != 0:
            return f"octet {at + 6} GridSource {own[5]}"
        if number == 3 and number_at(own, 13, 14) not in STATED_GRIDS:
            return f"octet {at + 13} GridTemplate {number_at(own, 13, 14)}"
        if number == 4 and number_at(own, 8, 9) not in STATED_PRODUCTS:
            return f"octet {at + 8} ProductTemplate {number_at(own, 8, 9)}"
        if number == 5 and number_at(own, 10, 11) not in STATED_PACKINGS:
            template = number_at(own, 10, 11)
            return f"octet {at + 10} {({40: 'Jpeg2000', 41: 'PngPacked', 42: 'Ccsds'}).get(template, 'PackingTemplate')} {template}"
        at += number_at(own, 1, 4)
    return ""


def cut(octets):
    """Each field as a message of its own."""
    bits = None
    for own in fields(octets):
        six = own[6]
        bits = six if six[5] == 0 else bits
        six = bits if six[5] == 254 else six
        body = b"".join(own[n] for n in (1, 2, 3, 4, 5) if n in own) + six + own[7] + b"7777"
        yield octets[:8] + (16 + len(body)).to_bytes(8, "big") + body


# What is compared


def compare_lines(name, octets, own):
    """`check`, `list` and `keys` by the octets; whether the message is accepted."""
    status, lines, note = opened(["check"], octets)
    if status == 2:
        refusals[note.split()[5]].append(name)
        return False
    wanted = f"message 1 at 0 edition 2 octets {len(octets)} fields {len(own)}\nmessages 1 fields {len(own)} skipped 0\n"
    hold((status, lines.decode(), note) == (0, wanted, ""), name, f"check: status {status}, {lines.decode()}{note}")
    for command, line in (("list", list_line), ("keys", lambda n, sections: f".{n} ed=2 " + " ".join(f"{key}={value}" for key, value in ordered(sections)))):
        status, lines, note = opened([command], octets)
        wanted = "".join(f"1{line(n, sections)}\n" for n, sections in enumerate(own, 1))
        hold((status, lines.decode(), note) == (0, wanted, ""), name, f"{command}: status {status}, {note}{lines.decode()}  wanted {wanted}")
    wanted = refused_without(octets)
    status, _, note = ran(["check"], octets)
    told = (0, "") if not wanted else (2, f"refused message 1 {wanted}\n")
    hold((status, note) == told, name, f"without profile=open: status {status}, {note}  wanted {wanted}")
    return True


ORDER = [*list(PLACES)[:14], "earthShape", "points", "gridTemplate", "ni", "nj", "scanning", "la1", "lo1", "productTemplate", "category", "number",
         *INSTANT, *ENSEMBLE, *END, *RANGE, "packing", "bits"]


def ordered(sections):
    values = keys_of(sections)
    return [(key, values[key]) for key in ORDER if key in values]


def compare_keys(name, octets, own):
    """The keys by ecCodes, as far as it has a name for them and reads the message. Those of the first field that it reads."""
    rules = 'print "field";\n' + "".join(f'if (defined({name})) {{ print "{key}=[{name}:i!1]"; }}\n' for key, name in NAMES.items())
    text = printed(rules, octets)
    theirs = [dict(line.split("=") for line in field.split() if "=" in line) for field in text.split("field\n")[1:]] if text else []
    if len(theirs) != len(own):
        unasked["messages of which ecCodes reads no keys"] += 1
        return []
    for sections, theirs_of in zip(own, theirs):
        values = keys_of(sections)
        for key, value in theirs_of.items():
            if key in values and values[key] != "missing":
                counts["keys as ecCodes reads them"] += 1
                hold(values[key] == value, name, f"{key} is {values[key]}, by ecCodes {value}")
    return list(theirs[0])


def compare_picked(name, octets, own, read):
    """`filter` for each key of the first field, and `split`."""
    parts = list(cut(octets))
    for key, value in keys_of(own[0]).items():
        compare_filter(name, octets, f"{key}={value}", parts, [keys_of(sections).get(key) == value for sections in own])
    for key in ("category", "packing"):
        value = keys_of(own[0])[key]
        compare_filter(name, octets, f"{key}!={value}", parts, [keys_of(sections)[key] != value for sections in own])
        if len(own) == 1 and key in read:
            compare_copied(name, octets, f"{NAMES[key]}:i={value}", octets)
            compare_copied(name, octets, f"{NAMES[key]}:i!={value}", None)
    with tempfile.TemporaryDirectory() as folder:
        status, _, note = opened(["split", f"out={folder}/part"], octets)
        files = [open(f"{folder}/part.{n}", "rb").read() for n in range(1, len(os.listdir(folder)) + 1)]
    hold((status, files) == (0, parts), name, f"split: status {status}, {len(files)} files, {note}")
    copied = tool(["grib_copy"], octets)
    if copied is None:
        unasked["messages that grib_copy does not write"] += 1
    else:
        counts["split as grib_copy"] += copied == b"".join(files)
        counts["split otherwise than grib_copy"] += copied != b"".join(files)
        hold(len(own) > 1 or copied == b"".join(files), name, "split gives other octets than grib_copy")


def compare_filter(name, octets, condition, parts, have):
    wanted = octets if all(have) else b"".join(part for part, has in zip(parts, have) if has)
    status, picked, note = opened(["filter", condition], octets)
    hold((status, picked) == (0, wanted), name, f"filter {condition}: status {status}, {len(picked)} octets, {note}")


def compare_copied(name, octets, condition, wanted):
    copied = tool(["grib_copy", "-w", condition], octets)
    counts["filter as grib_copy"] += 1
    hold((copied or None) == wanted, name, f"grib_copy -w {condition} gives other octets than filter")


def compare_set(name, octets, own):
    """`set` there and back, and as `grib_set` does it."""
    number = keys_of(own[0])["number"]
    other = str((int(number) + 1) % 192)
    status, there, note = opened(["set", f"number={other}"], octets)
    hold(status == 0 and len(there) == len(octets) and there != octets, name, f"set number={other}: status {status}, {note}")
    if len({keys_of(sections)["number"] for sections in own}) == 1:
        status, back, note = opened(["set", f"number={number}"], there)
        hold((status, back) == (0, octets), name, f"set number={number} back: status {status}, {note}")
    theirs = set_by(f"parameterNumber={other}", octets) if len(own) == 1 else None
    if theirs is None:
        unasked["messages that grib_set does not write"] += 1
    else:
        counts["set as grib_set" if theirs == there else "set otherwise than grib_set"] += 1
    for key in ("earthShape", "timeUnit", "bits"):
        lacking = [n for n, sections in enumerate(own, 1) if key not in keys_of(sections)]
        if lacking and key != "bits":
            wanted = (3, b"", f"kept message 1 KeyAbsent {key} field {lacking[0]}\n")
            hold(opened(["set", f"{key}=1"], octets) == wanted, name, f"set {key}=1 is not {wanted[2]}")


def compare_values(name, octets, own):
    """What reads values."""
    opaque = [(n, templates(sections)[2]) for n, sections in enumerate(own, 1) if templates(sections)[2] not in READ_PACKINGS]
    if not opaque:
        compare_dumped(name, octets)
        return
    field, template = opaque[0]
    told = f"Packing {template} field {field}\n"
    for words in READING + CHANGING:
        hold(opened(words, octets) == (3, b"", f"kept message 1 {told}"), name, f"{words[0]}: not kept by {told.strip()}")
        counts["kept by their packing"] += 1
    for words in CHANGING:
        status, out, note = opened([*words, "kept=copy"], octets)
        hold((status, out) == (3, octets) and note.startswith(f"kept message 1 at 0 {told}"), name, f"{words[0]} kept=copy: status {status}, {note}")
    for words in (["dump", "kept=pass"], ["values", "kept=pass"]):
        status, out, note = opened(words, octets)
        hold((status, out) == (3, b"") and note == f"kept message 1 at 0 {told}refused 0 kept 1\n", name, f"{words}: status {status}, {note}")


def compare_dumped(name, octets):
    """`dump` by the values that ecCodes reads, and what is repacked by `dump`."""
    status, lines, note = opened(["dump"], octets)
    hold(status == 0, name, f"dump: status {status}, {note}")
    ours = our_fields(lines.decode()) if status == 0 else []
    text = printed('print "field";\nprint "[values%.17g!1]";', octets)
    theirs = [[float(word) for word in values.split()] for values in text.split("field\n")[1:]] if text else []
    if len(theirs) != len(ours):
        unasked["values that ecCodes does not read"] += 1
    for (reference, binary, decimal, points), values in zip(ours, theirs):
        scaled = [round((value * 10.0**decimal - reference) / 2.0**binary) if point is not None else None for value, point in zip(values, points)]
        counts["fields with values as ecCodes reads them"] += 1
        hold(len(values) == len(points) and scaled == points, name, "dump differs from ecCodes")
    for target in (["to=0"], ["to=3", "order=2"], ["to=42"], ["to=least"]):
        status, packed, note = opened(["repack", *target], octets)
        if status == 3 and "Packing" not in note:
            counts["misfits of repack"] += 1
            continue
        hold(status == 0, name, f"repack {target}: status {status}, {note}")
        again = opened(["dump"], packed)[1].decode()
        strip = lambda text: [line.split(" packing=")[0] for line in text.splitlines()]
        hold(strip(again) == strip(lines.decode()), name, f"repack {target} changes values")


def compare(name, octets):
    own = list(fields(octets))
    counts["messages"] += 1
    counts["fields"] += len(own)
    if not compare_lines(name, octets, own):
        return False
    compare_picked(name, octets, own, compare_keys(name, octets, own))
    compare_set(name, octets, own)
    compare_values(name, octets, own)
    return True


def compare_archive(all_of_them):
    """One run over all that is accepted: what can be packed is, and all else is copied."""
    octets = b"".join(all_of_them)
    wanted = b"".join(opened(["repack", "to=least", "kept=copy"], one)[1] for one in all_of_them)
    status, packed, note = opened(["repack", "to=least", "kept=copy"], octets)
    hold(packed == wanted and status in (0, 3), "the archive", f"repack: status {status}, {note.splitlines()[-1:]}")
    hold(len(list(messages(packed))) == len(all_of_them), "the archive", "another number of messages")
    counts["octets of the archive"], counts["octets repacked"] = len(octets), len(packed)


def compare_damaged(all_of_them):
    draw = random.Random(1)
    short = [octets for octets in all_of_them if len(octets) < 4096]
    for case in range(2000):
        octets = bytearray(draw.choice(short))
        for _ in range(draw.randint(1, 3)):
            octets[draw.randrange(16, len(octets) - 4)] = draw.choice((0, 1, 127, 128, 255, draw.randrange(256)))
        octets = bytes(octets)
        for words in (["check"], ["list"], ["stats"]):
            stated = ran(words, octets)
            if stated[0]:
                break
            counts["damaged messages that both profiles accept"] += words == ["check"]
            hold(opened(words, octets) == stated, f"damaged {case}", f"{words[0]} is another with profile=open")


def inputs(paths):
    """Messages by name: those that are made, and of the samples together and of each file two of the same templates."""
    yield from made()
    tried = collections.Counter()
    for path in sorted(glob.glob(f"{SAMPLES}/*.tmpl")) + paths:
        with open(path, "rb") as file:
            for number, one in enumerate(messages(file.read()), 1):
                kind = (path in paths and path, *(templates(sections) for sections in fields(one)))
                tried[kind] += 1
                if tried[kind] <= 2:
                    yield f"{os.path.basename(path)} {number}", one


def main():
    global program, table
    if len(sys.argv) < 2:
        sys.exit(__doc__)
    for need in ("grib_set", "grib_copy", "grib_filter"):
        if not shutil.which(need):
            sys.exit(f"{need} is not here: apt-get install libeccodes-tools")
    program = os.path.abspath(sys.argv[1])
    table = os.path.join(os.path.dirname(os.path.dirname(os.path.abspath(__file__))), "params/standard.csv")
    paths = sys.argv[2:] or sorted(path for path in glob.glob(f"{FILES}/*") if path.endswith((".grb", ".grb2", ".grib2", ".bin")))
    accepted = []
    for name, octets in inputs(paths):
        if compare(name, octets):
            accepted.append(octets)
    compare_archive(accepted)
    compare_damaged(accepted)
    for what, number in sorted(counts.items()):
        print(f"{number} {what}")
    for what, number in sorted(unasked.items()):
        print(f"{what}: {number}")
    for reason, names in sorted(refusals.items()):
        print(f"still refused by {reason}: {', '.join(names)}")
    for what in findings:
        print(f"FINDING {what}")
    refused = sum(len(names) for names in refusals.values())
    print(f"{counts['messages']} messages, {counts['runs']} runs, {refused} still refused, {len(findings)} findings")
    sys.exit(bool(findings))


if __name__ == "__main__":
    main()
