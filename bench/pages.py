#!/usr/bin/env python3
"""Compares the arguments of docs/grib.1 and of the completion with those of a program, the pages with one another, the
man page with `man`, and the links of the pages with what is there, here and where install.sh puts them.

    bench/pages.py PROGRAM

Each command, name and key of the page is valid in the program and stands in the completion, and the completion has no
others; so have `refused=`, `kept=` and `profile=`, each with the commands that take it. `help` of the program has a line on each
command, and no others, and the page has the version. The keys of edition 2 of the page, of GUIDE and of PROFILE are the same, with
what can be set and may be missing, and those of edition 1 of the page are those of the program, and each page that says how many keys there are has their number. The reasons,
causes and losses of PROFILE stand in GUIDE and in the man page. The statuses of README and of the man page
are those of chapter 9 of docs/PROFILE.md, with 11, 70 and 127. A shell completes names of files, odd ones too. Each
link of a page leads to a page and heading, here and in what install.sh puts under PREFIX, and so does each path that
the man page has. No page has a word of the list OLD outside of what is printed (blocks and backquotes), and README has at
most 130 lines of at most 60 words. What does not hold is printed, and the end is status 1. Without `man`, or without terminals, what
needs them is left out, and said. The index of GUIDE leads to each of its chapters, and README to GUIDE."""
import glob
import os
import pty
import re
import select
import shutil
import subprocess
import sys
import tempfile
import time

top = os.path.dirname(os.path.dirname(os.path.abspath(__file__)))
# For each command arguments that are valid.
WORDS = {
    "check": [], "list": ["with=centre,Centre,at,octets", "names=/nonexistent/names"], "stats": [], "dump": ["decimals=2", "place=yes"], "values": ["as=f4"], "coordinates": [],
    "filter": ["centre=98", "name=t,gh", "names=/nonexistent/names"], "set": ["centre=98", "dates=valid"],
    "split": ["out=/nonexistent/part", "editions=both"], "repack": ["to=3", "order=1"], "rescan": [], "crop": ["i0=0", "i1=0", "j0=0", "j1=0"],
    "migrate": ["params=/nonexistent/table", "surfaces=/nonexistent/surfaces", "local=ecmwf"],
    "demote": ["params=/nonexistent/table", "local=keep", "earth=any", "tables=any"],
    "keys": ["show=centre,octets", "names=/nonexistent/names"], "help": [], "version": [],
    "compare": ["with=/nonexistent/file", "sections=all", "quiet=yes"], "make": ["seed=1", "ni=1", "nj=1", "to=3", "order=2"],
}
# Other arguments of a command that do not stand beside these.
OTHER_WAYS = {"crop": [["north=1", "south=0", "west=-0.5", "east=1"], ["lat=1.25", "lon=-360"]]}
# `refused=` and `kept=`, of the commands that have them.
PAST = {command: ["refused=pass", "kept=copy"] for command in ("filter", "set", "split", "repack", "rescan", "crop", "migrate", "demote")}
PAST.update({command: ["refused=pass"] for command in ("check", "list", "keys", "stats")}, dump=["refused=pass", "kept=pass"], values=["refused=pass", "kept=pass"],
            coordinates=["refused=pass", "kept=pass"])
# `profile=open`, of each command that reads messages.
PROFILE = {command: ["profile=open"] for command in [*PAST, "compare"]}
# The pages that say how many keys there are.
COUNTING = ["README.md", "docs/GUIDE.md", "docs/PROFILE.md", "docs/GLOSSARY.md", "docs/GUARANTEES.md", "docs/DEFINITIONS.md"]
NOT_PAST = {"check": "kept=pass", "compare": "refused=pass", "list": "refused=skip", "dump": "kept=copy", "values": "kept=copy", "coordinates": "kept=copy", "make": "refused=pass", "version": "refused=pass"}
NOT_PROFILE = {**dict.fromkeys(PROFILE, "profile=stated"), "make": "profile=open", "version": "profile=open"}
# Words that no page uses outside of what is printed, each with what is written in its place.
OLD = {
    r"kept": "not changed, preserved, held",
    r"shelf|shelves": "files, or the trait `Shelf` in backquotes",
    r"told|tells?": "said, printed, says",
    r"heard|hearers?|deaf": "judged incrementally",
    r"behind": "after",
    r"besides?": "next to, together with, in addition to",
    r"stands?(?! (for|by)\b)|stood(?! for\b)|standing(?! for\b)": "is, are",
    r"no date and time": "not a valid date and time",
    r"(there (is|was)|or|for) no memory|lack of memory|want of memory": "memory ran out",
    r"goes on|go on|going on|gone past": "continues, carries on, skipped",
    r"goes round|way eastward": "is global, eastward distance",
    r"by turns": "alternately",
    r"at hand": "available",
    r"a face": "an interface",
    r"bitmaps?": "bit map",
    r"counterparts?": "the field with the same number",
    r"greatest": "largest",
    r"rows? (of Section|[HFSB]\d)|no row refuses|first (failing )?row that fails": "rule",
    r"ours": "this project's",
    r"stated profile": "default profile",
}
failed = []


def hold(so, what):
    if not so:
        failed.append(what)


def has_reading(program, *words):
    run = subprocess.run([program, *words], stdin=subprocess.DEVNULL, capture_output=True)
    return not run.stderr.startswith(b"usage")


def printed(program, word):
    return subprocess.run([program, word], stdin=subprocess.DEVNULL, capture_output=True, text=True).stdout


def completed(line):
    """What the completion gives for a line."""
    script = f'source "{top}/share/bash-completion/completions/grib"; COMP_LINE=$1 COMP_POINT=${{#1}}; _grib; printf "%s\\n" "${{COMPREPLY[@]}}"'
    return subprocess.run(["bash", "-c", script, "bash", line], capture_output=True, text=True).stdout.split()


# What is typed, and the words and the input that the command then has. The names of files are these.
NAMES = ["a b.grib2", "star*x", "new\nline", "-dash", "quote'\"d", "$(touch ran)"]
TYPED = [
    ("grib list < a\t", "[list]a b.grib2"),
    ("grib list <a\t", "[list]a b.grib2"),
    ("grib list 2> /dev/null < st\t", "[list]star*x"),
    ("grib list < ne\t", "[list]new\nline"),
    ("grib li\t< qu\t", "[list]quote'\"d"),
    ("grib list < ./-d\t", "[list]-dash"),
    ("grib list < \\$\t", "[list]$(touch ran)"),
    ("grib < a\tli\t", "[list]a b.grib2"),
    ("grib migrate params=a\t< st\t", "[migrate][params=a b.grib2]star*x"),
    ("grib migrate params=st\tlo\tke\t< a\t", "[migrate][params=star*x][local=keep]a b.grib2"),
    ("grib migrate params=ne\t< a\t", "[migrate][params=new\nline]a b.grib2"),
    ("grib split out=qu\t< a\t", "[split][out=quote'\"d]a b.grib2"),
    ("grib-parallel 2 resc\t< a\t", "[2][rescan]a b.grib2"),
]


def typed(lines):
    """What a shell with the completion hands to the commands, each line typed at its terminal."""
    with tempfile.TemporaryDirectory() as folder:
        os.mkdir(f"{folder}/files")
        for name in NAMES:
            with open(f"{folder}/files/{name}", "w", encoding="utf-8") as file:
                file.write(name)
        with open(f"{folder}/start", "w", encoding="utf-8") as file:
            file.write(f'source "{top}/share/bash-completion/completions/grib"\nbind "set bell-style none"\nbind "set enable-bracketed-paste off"\n')
            file.write(f'grib() {{ {{ printf "[%s]" "$@"; cat; printf "\\0"; }} >>"{folder}/had"; }}\ngrib-parallel() {{ grib "$@"; }}\ncd "{folder}/files"\n')
        process, terminal = pty.fork()
        if process == 0:
            os.environ.update(TERM="dumb", PS1="", INPUTRC="/dev/null", HISTFILE="/dev/null")
            os.execvp("bash", ["bash", "--noprofile", "--rcfile", f"{folder}/start", "-i"])
        had, until = [], time.monotonic() + 60
        for number, line in enumerate(lines, 1):
            os.write(terminal, line.encode() + b"\n")
            while len(had) < number and time.monotonic() < until:
                if select.select([terminal], [], [], 0.05)[0]:
                    os.read(terminal, 65536)
                if os.path.exists(f"{folder}/had"):
                    with open(f"{folder}/had", encoding="utf-8") as file:
                        had = file.read().split("\0")[:-1]
        os.close(terminal)
        os.waitpid(process, 0)
        hold(sorted(os.listdir(f"{folder}/files")) == sorted(NAMES), f"files of the completion: {os.listdir(f'{folder}/files')}")
        return had


def headings(name, level="#+"):
    """The anchors of a page: its headings, of this level alone, in small letters, with hyphens for blanks."""
    text = re.sub(r"^```.*?^```$", "", read(name), flags=re.M | re.S)
    return {re.sub(r"[^\w -]", "", line.lower()).strip().replace(" ", "-") for line in re.findall(rf"^{level} (.*)$", text, re.M)}


def check_links(page):
    """The links of the pages, as they lie here and as install.sh puts them, and the places that the man page names."""
    with open(f"{top}/install.sh", encoding="ascii") as file:
        script = file.read()
    files = re.findall(r"^\d{3} (\S+) (\S+)$", script, re.M)
    places = {place for _, place in files} | set(re.findall(r"^put \d{3} .* (\S+)$", script.replace("  put", "put"), re.M))
    places |= set(re.findall(r"^installed=(\S+)$", script, re.M))
    places |= set(re.search(r"<<LINKS\n(.*?)^LINKS", script, re.M | re.S).group(1).split()[1::2])
    pages = [os.path.relpath(name, top) for folder in ("", "*/") for name in glob.glob(f"{top}/{folder}*.md")]
    hold(pages and files, "pages")
    for name in pages:
        with open(f"{top}/{name}", encoding="utf-8") as file:
            links = [link for link in re.findall(r"\]\(([^)#]+)[^)]*\)", file.read()) if "://" not in link]
        for link in links:
            hold(os.path.exists(os.path.join(top, os.path.dirname(name), link)), f"link of {name}: {link}")
        for link, anchor in re.findall(r"\]\(([^)#:]*)#([^)]*)\)", read(name)):
            there = os.path.normpath(os.path.join(os.path.dirname(name), link)) if link else name
            hold(os.path.exists(f"{top}/{there}") and anchor in headings(there), f"heading that {name} leads to: {link}#{anchor}")
        for place in (place for source, place in files if source == name):
            for link in links:
                hold(os.path.normpath(os.path.join(os.path.dirname(place), link)) in places, f"link of {place}, installed: {link}")
    for source, _ in files:
        hold(os.path.isfile(f"{top}/{source}"), f"not here, and installed: {source}")
    named = re.findall(r"PREFIX /?(\S+)", section(page, "FILES")) + re.findall(r"\$HOME/\.local/(\S+)", page)
    for place in named:
        hold(place.strip("/") in places | {os.path.dirname(place.strip("/")) for place in places}, f"place of the man page: {place}")


def check_words():
    """Each page has none of the words that are no longer used, and README is short."""
    for name in [os.path.relpath(name, top) for folder in ("", "*/") for name in glob.glob(f"{top}/{folder}*.md")]:
        text, *_ = read(name).partition("\n## Every name\n")
        # The list of crates has the words of the crates.
        text = re.sub(r"<!-- by docs/names.py -->.*?<!-- up to here -->", "", text, flags=re.S)
        text = re.sub(r"^```.*?^```$", lambda block: "\n" * block.group().count("\n"), text, flags=re.M | re.S)
        if name == "docs/DEFINITIONS.md":
            text = re.sub(r"^\| [^|]* \|", "|", text, flags=re.M)
        for number, line in enumerate(text.splitlines(), 1):
            line = re.sub(r"`[^`]*`|\]\([^)]*\)", "`", line)
            for old, new in OLD.items():
                found = re.search(rf"(?<!\w)({old})(?!\w)", line)
                hold(not found, f"{name}:{number}: '{found and found.group()}': write {new}")
    said = re.sub(r"^\.(B|BR|BI|I|IR|IB|RB|RI) [^\n]*$|^\.nf$.*?^\.fi$|\\f[BI].*?\\fR", "", read("docs/grib.1"), flags=re.M | re.S)
    for old, new in OLD.items():
        found = re.search(rf"(?<!\w)({old})(?!\w).*", said)
        hold(not found, f"docs/grib.1: '{found and found.group()}': write {new}")
    lines = read("README.md").splitlines()
    hold(len(lines) <= 130, f"README has {len(lines)} lines")
    for number, line in enumerate(lines, 1):
        hold(len(line.split()) <= 60, f"README.md:{number} has {len(line.split())} words")


def check_index():
    """Each chapter of GUIDE is led to by the table at its head, and GUIDE by README: two steps to any task."""
    index, *_ = read("docs/GUIDE.md").partition("\n## ")
    led = set(re.findall(r"\]\(#([^)]*)\)", index))
    chapters = set(headings("docs/GUIDE.md", "##"))
    hold(chapters and chapters <= led, f"chapters of GUIDE that its index does not have: {sorted(chapters - led)}")
    hold("](docs/GUIDE.md)" in read("README.md"), "README leads to GUIDE")


def section(page, name):
    return re.search(rf'^\.SH "?{name}"?\n(.*?)(?=^\.SH|\Z)', page, re.M | re.S).group(1)


def plain(text):
    """The words of a part of the page, without what marks them."""
    text = re.sub(r"^\.(TP|PP|br|nf|fi)$", "", text, flags=re.M)
    return re.sub(r"^\.(B|I|BR|IR|RI) ", "", re.sub(r"\\f[BIR]", "", text), flags=re.M)


def read(name):
    with open(f"{top}/{name}", encoding="utf-8") as file:
        return file.read()


def check_keys(page, profile):
    """The keys of the pages, each with whether it can be set, and how many the pages say that they are."""
    table = re.search(r"^## 6\. Keys\n(.*?)^## 7", profile, re.M | re.S).group(1)
    wanted = {key: (can == "yes", "m" in kind) for key, kind, can in re.findall(r"^\| (\w+) \| \d \|.*\| ([usm ]+) \| (yes|no) \|$", table, re.M)}
    here = {key: ("f" not in marks, "m" in marks) for key, marks in re.findall(r"^(\w+)\t\d\t[^\t]*\t([fms ]*)\t", section(page, "KEYS"), re.M)}
    hold(here == wanted, f"keys of the man page: {sorted(set(here.items()) ^ set(wanted.items()))}")
    guide = {key: (can == "yes", missing == "yes") for key, can, missing in re.findall(r"^\| `(\w+)` \|.*\| (yes|no) \| ?(yes|) ?\|$", read("docs/GUIDE.md"), re.M)}
    hold(guide == wanted, f"keys of GUIDE: {sorted(set(guide.items()) ^ set(wanted.items()))}")
    can_set = sum(can for can, _ in wanted.values())
    for name in COUNTING:
        counts = {int(count) for count in re.findall(r"\b(\d+) keys\b", read(name))}
        hold(counts == {len(wanted)}, f"numbers of keys of {name}: {sorted(counts)}")
        counts = {int(count) for count in re.findall(r"\b(\d+) can be set", read(name))}
        hold(counts <= {can_set}, f"numbers of keys that can be set of {name}: {sorted(counts)}")
    return {key: can for key, (can, _) in wanted.items()}


def keys_of_edition_1(page):
    """The keys of edition 1 of the man page, each with whether it can be set."""
    keys = {key: mark != "f" for key, mark in re.findall(r"^(\w+)\t[\d\\-]+\t(f?)\t", section(page, "KEYS"), re.M)}
    hold(len(keys) == 22, f"{len(keys)} keys of edition 1")
    return keys


def check_names(page, profile):
    """The reasons, causes and losses of PROFILE stand in GUIDE and in the man page."""
    names = re.findall(r"^\| \d+ \| (\w+) \|", re.search(r"^### The reasons\n(.*?)^###", profile, re.M | re.S).group(1), re.M)
    hold(len(names) == 38, f"{len(names)} reasons")
    for losses in re.findall(r"^\| loss \| if \|\n\|.*\n((?:\|.*\n)+)", profile, re.M):
        names += [name for line in losses.splitlines() for name in re.findall(r"(\w+)(?:\(\w+\))?(?:, |$)", line.split("|")[1].strip())]
    causes = re.search(r"^\| cause of Kept \|.*\n\|.*\n((?:\|.*\n)+)", profile, re.M).group(1)
    names += [line.split("`")[-2].split()[0] for line in causes.splitlines() if "`Loss" not in line and "`Demotion" not in line]
    for where, text in (("GUIDE", read("docs/GUIDE.md")), ("the man page", section(page, "DIAGNOSTICS"))):
        said = set(re.findall(r"\w+", text))
        hold(set(names) <= said, f"not in {where}: {sorted(set(names) - said)}")


def main():
    if len(sys.argv) != 2:
        sys.exit(__doc__)
    program = os.path.abspath(sys.argv[1])
    with open(f"{top}/docs/grib.1", encoding="ascii") as file:
        page = file.read()
    with open(f"{top}/docs/PROFILE.md", encoding="utf-8") as file:
        profile = file.read()

    commands = list(dict.fromkeys(re.match(r"[a-z]+", plain(line)).group() for line in re.findall(r"^\.TP\n(.*)\n", section(page, "COMMANDS"), re.M)))
    hold(commands and set(commands) == set(WORDS), f"commands of the page: {commands}")
    hold(set(completed("grib ")) == set(commands), "commands of the completion")
    helped = dict.fromkeys(re.findall(r"^grib (\w+) ", printed(program, "help"), re.M))
    hold(sorted(helped) == sorted(commands), f"commands of help: {helped}")
    hold(f'"{printed(program, "version").strip()}"' in re.search(r"^\.TH.*", page, re.M).group(), "version of the page")
    for word in ("help", "version"):
        hold(printed(program, f"--{word}") == printed(program, word), f"--{word}")
    for command in commands:
        words = WORDS.get(command, [])
        past = PAST.get(command, []) + PROFILE.get(command, [])
        hold(has_reading(program, command, *past, *words), f"not in the program: {command} {' '.join(past + words)}")
        if command not in ("filter", "set"):
            ways = OTHER_WAYS.get(command, [])
            names = {word.split("=")[0] + "=" for word in words + past + sum(ways, [])}
            told = {*commands, "commands", "refusals", "causes"} if command == "help" else set()
            hold(set(completed(f"grib {command} ")) == names | told, f"names of {command} in the completion")
            shown = plain(section(page, "COMMANDS") + section(page, "CARRYING ON AFTER REFUSALS") + section(page, "ANY GRID, PRODUCT AND PACKING"))
            hold(all(name in shown for name in names), f"names of {command} in the page")
            for way in ways:
                hold(has_reading(program, command, *past, *way), f"not in the program: {command} {' '.join(way)}")
                hold(not has_reading(program, command, *words, *way[:1]), f"read by the program: {command} {' '.join(words + way[:1])}")
                beside = {word.split("=")[0] + "=" for word in way[1:] + past}
                hold(set(completed(f"grib {command} {way[0]} ")) == beside, f"names beside {way[0]} in the completion")

    hold(has_reading(program, "repack", "to=42", "profile=open"), "not in the program: repack to=42 profile=open")
    hold(not has_reading(program, "repack", "to=42"), "read by the program: repack to=42 alone")
    hold(set(completed("grib repack to=")) == {"0", "2", "3", "42", "least"}, "targets of repack in the completion")
    for command, word in [*NOT_PAST.items(), *NOT_PROFILE.items()]:
        hold(not has_reading(program, command, *WORDS[command], word), f"read by the program: {command} {word}")

    wanted = check_keys(page, profile)
    check_names(page, profile)
    past = {word.split("=")[0] + "=" for word in PAST["filter"] + PROFILE["filter"]}
    first = keys_of_edition_1(page)
    both = {**wanted, **first}
    hold(set(completed("grib filter ")) == {key + "=" for key in both} | past | {"name=", "names="}, "keys of filter in the completion")
    hold(set(completed("grib set ")) == {key + "=" for key, can in both.items() if can} | past | {"dates="}, "keys of set in the completion")
    hold(set(completed("grib filter Centre=98 ")) == {key + "=" for key in first if key != "Centre"} | past, "keys beside one of edition 1 in the completion")
    hold(set(completed("grib set centre=98 ")) == {key + "=" for key, can in wanted.items() if can and key != "centre"} | past | {"dates="}, "keys beside one of edition 2 in the completion")
    hold(completed("grib list with=centre,subC") == ["centre,subCentre"], "columns in the completion")
    hold(completed("grib dump place=") == ["yes"], "places in the completion")
    for key, can in both.items():
        hold(has_reading(program, "filter", f"{key}=1"), f"not in the program: filter {key}")
        hold(has_reading(program, "set", f"{key}=1") == can, f"otherwise in the program: set {key}")
        hold(has_reading(program, "list", f"with={key}"), f"not in the program: list with={key}")
    hold(not has_reading(program, "filter", "Centre=98", "centre=98"), "read by the program: filter with keys of both editions")
    hold(not has_reading(program, "filter", "name=t"), "read by the program: filter name= without names=")

    statuses = {int(number) for number in re.findall(r"^\.B (\d+)$", section(page, "EXIT STATUS"), re.M)}
    rows = {int(number) for number in re.findall(r"^\| \w+(?:\(i\))? \| (\d+) \|", re.search(r"^### Outcomes and statuses\n(.*?)^###", profile, re.M | re.S).group(1), re.M)}
    hold(statuses == rows - {10} | {11, 70, 127}, f"statuses of the man page: {sorted(statuses)}, of PROFILE: {sorted(rows)}")
    for name in ("README.md",):
        here = {int(number) for number in re.findall(r"^\| (\d+) \| [^|]*\|(?:[^|]*\|)?$", read(name).split("| status | means |")[1].split("\n\n")[0], re.M)}
        hold(here == statuses, f"statuses of {name}: {sorted(here)}")
    check_links(page)
    check_index()
    check_words()
    left_out = []
    try:
        for end in pty.openpty():
            os.close(end)
        had = typed([line for line, _ in TYPED])
        for (line, words), got in zip(TYPED, had + ["nothing"] * len(TYPED)):
            hold(got == words, f"completed {line!r}: {got!r}")
    except OSError:
        left_out.append("terminals")
    if shutil.which("man"):
        said = subprocess.run(["man", "--warnings", "-l", f"{top}/docs/grib.1"], env={**os.environ, "MANWIDTH": "80"}, capture_output=True, text=True)
        hold(said.returncode == 0 and said.stderr == "", f"man: {said.stderr}")
    else:
        left_out.append("man")
    for what in failed:
        print(what)
    print(f"{len(commands)} commands, {len(wanted)} keys, {len(statuses)} statuses, {len(failed)} differences" + (f", left out: {', '.join(left_out)}" if left_out else ""))
    sys.exit(bool(failed))


main()
