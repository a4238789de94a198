#!/usr/bin/env python3
"""Writes what the pages take from the sources, and says which names in the pages stand nowhere.

    docs/names.py            writes
    docs/names.py --check    says what is not as it would be written, and which names are wrong

Written are the last chapter of docs/DEFINITIONS.md, with every name that the definitions of the crates declare; the
drawing and the list of the crates in docs/ARCHITECTURE.md, by crates.txt and by the first sentence of each crate; and
the number of keys, in each page that says how many there are; and in docs/GUARANTEES.md how many lines of definitions the
crates of each row of its table have, in hundreds.

A name in the table of a chapter of docs/DEFINITIONS.md has to be declared by a crate of its heading, in the file of its
row. In every page a name with `_` or with a capital inside, a crate and a file of a crate have to be somewhere in the
sources; `law` or `laws` before a name wants it in the crate of the chapter, where one is named."""
import glob
import os
import re
import sys
import textwrap

top = os.path.dirname(os.path.dirname(os.path.abspath(__file__)))
DEFINITIONS, ARCHITECTURE = "docs/DEFINITIONS.md", "docs/ARCHITECTURE.md"
TITLE = "## Every name\n"
DECLARED = re.compile(r"^(?:(?:abbrev|unfoldable) pub|pub (?:abbrev|unfoldable|record|data)|pub) ([^\s:(){}]+)(?=[\s:({]|$)", re.M)
BEGIN, END = "<!-- by docs/names.py -->\n", "<!-- up to here -->\n"
# The pages that say how many keys there are, and those whose names are looked up in the sources.
COUNTING = ["README.md", "docs/GUIDE.md", "docs/PROFILE.md", "docs/GLOSSARY.md", "docs/GUARANTEES.md", DEFINITIONS, "docs/FROM-ECCODES.md"]
NAMING = ["README.md", "CONTRIBUTING.md", "docs/GUARANTEES.md", ARCHITECTURE, "docs/PROFILE.md", "docs/WORKED.md", "docs/GLOSSARY.md", "docs/LIBRARY.md", "docs/DECISIONS.md", DEFINITIONS]
# Names of other programs.
OTHERS = re.compile(r"what_is_shown$|grib_(ls|get|get_data|set|copy|filter|compare|dump|count)$|grid_\w+$|codes_\w+$|AEC_\w+$|code_table_[\w.]+$|flag_table_[\w.]+$|[a-z]+(_[a-z]+)*_template_\w+$")


def read(name):
    with open(f"{top}/{name}", encoding="utf-8") as file:
        return file.read()


def chapters():
    """The chapters of crates.txt, lowest first: the title of each, and its crates with those that they name."""
    found = []
    for line in read("crates.txt").splitlines():
        if line.startswith("#"):
            found.append((line[1:].strip(), {}))
        elif ":" in line:
            crate, _, names = line.partition(":")
            found[-1][1][crate.split()[0]] = names.split()
    return [(title, crates) for title, crates in found if crates]


def layers():
    """The crates in the order of crates.txt, lowest first."""
    return [crate for _, crates in chapters() for crate in crates]


def rows_of(crates):
    """The crates of a chapter in rows, lowest first: a crate names those of rows below its own."""
    row = {}
    for crate, names in crates.items():
        row[crate] = 1 + max((row[name] for name in names if name in row), default=0)
    return [[crate for crate in crates if row[crate] == number] for number in range(1, max(row.values()) + 1)]


def drawing():
    """The crates as a drawing, the lowest at the bottom."""
    lines = []
    for title, crates in reversed(chapters()):
        texts = textwrap.wrap(title, 30)
        rows = [line for row in reversed(rows_of(crates)) for line in textwrap.wrap("  ".join(row), 92, break_on_hyphens=False)]
        for i in range(max(len(texts), len(rows))):
            lines.append(f" {texts[i] if i < len(texts) else '':32}{rows[i] if i < len(rows) else ''}".rstrip())
    return "\n".join(lines) + "\n"


def sentence(crate):
    """The first sentence that a crate says of itself, without what it cites."""
    for name in ("lib.rt", "main.rt"):
        if os.path.exists(f"{top}/crates/{crate}/src/{name}"):
            said = re.match(r"(?://!.*\n)+", read(f"crates/{crate}/src/{name}"))
            break
    else:
        sys.exit(f"crates.txt has {crate}, and crates/{crate}/src has no lib.rt and no main.rt")
    words = " ".join(line[3:].strip() for line in said.group().split("\n//!\n")[0].splitlines())
    words = re.sub(r" \([^()]*(WMO-No|CCSDS 121)[^()]*\)", "", words)
    return re.split(r"(?<=\.) (?=[A-Z`])", words)[0].removesuffix(".")


def crate_list():
    rows = "".join(f"| `{crate}` | {sentence(crate)} |\n" for crate in layers())
    return f"\n```\n{drawing()}```\n\n| crate | |\n|---|---|\n{rows}\n"


def names_of(file):
    with open(file, encoding="utf-8") as text:
        found = DECLARED.findall(text.read())
    return [name for name in dict.fromkeys(found) if name not in ("mod", "use")]


def declared():
    """What each crate declares: the names of each file of its definitions."""
    return {crate: {os.path.basename(file)[:-5]: names_of(file) for file in sorted(glob.glob(f"{top}/crates/{crate}/specs/*.antt"))} for crate in layers()}


def every_name():
    lines = [TITLE, "\n", "Written by `docs/names.py` from the definitions as they are, crate by crate and file by file. A line in a file says next to each name what it is.\n", "\n", "| crate | file | names |\n", "|---|---|---|\n"]
    count = 0
    for crate, files in declared().items():
        for file, names in files.items():
            if names:
                count += len(names)
                lines.append(f"| `{crate}` | {file} | {', '.join(f'`{name}`' for name in names)} |\n")
    lines += ["\n", f"These are {count} names.\n"]
    return "".join(lines)


def key_numbers():
    """How many keys of edition 2 there are, and how many of them can be set."""
    table = re.search(r"^## 6\. Keys\n(.*?)^## 7", read("docs/PROFILE.md"), re.M | re.S).group(1)
    said = re.findall(r"^\| \w+ \| \d \|.*\| (yes|no) \|$", table, re.M)
    count = int(re.search(r"const KEYS: \[Key; (\d+)\]", read("crates/grib_keys/src/key.rt")).group(1))
    if len(said) != count:
        sys.exit(f"PROFILE has {len(said)} keys, and grib_keys {count}")
    return count, said.count("yes")


def lines_of(crates):
    return sum(read(os.path.relpath(file, top)).count("\n") for crate in crates for file in glob.glob(f"{top}/crates/{crate}/specs/*.antt"))


def counted_lines(page):
    """The page with the lines of definitions of each row of its table, and of all."""
    named = []

    def row(found):
        crates = re.findall(r"`(\w+)`", found.group(2))
        named.extend(crates)
        return f"{found.group(1)}{found.group(2)}| {round(lines_of(crates or set(layers()) - set(named)), -2):,} |"

    before, title, rest = page.partition("In what order to read the definitions, of which there are some ")
    table, end, after = rest.partition("\n## ")
    table = re.sub(r"^[\d,]+ lines", f"{round(lines_of(layers()), -2):,} lines", table)
    table = re.sub(r"^(\| \d? ?\| )(`grib[^|]*|all others )\| [\d,]+ \|", row, table, flags=re.M)
    return before + title + table + end + after


def made():
    """The pages as they are to be."""
    pages = {name: read(name) for name in COUNTING + [ARCHITECTURE] if os.path.exists(f"{top}/{name}")}
    pages[DEFINITIONS] = pages[DEFINITIONS].partition(TITLE)[0].rstrip() + "\n\n" + every_name()
    before, _, rest = pages[ARCHITECTURE].partition(BEGIN)
    pages[ARCHITECTURE] = before + BEGIN + crate_list() + END + rest.partition(END)[2]
    pages["docs/GUARANTEES.md"] = counted_lines(pages["docs/GUARANTEES.md"])
    keys, can_set = key_numbers()
    for name in COUNTING:
        if name in pages:
            pages[name] = re.sub(r"\b\d+ keys\b", f"{keys} keys", pages[name])
            pages[name] = re.sub(r"\b\d+ can be set", f"{can_set} can be set", pages[name])
    return pages


def quoted(text):
    return re.findall(r"`([^`\n]+)`", text)


def wrong_definitions():
    """What of the tables of DEFINITIONS is not declared where they say."""
    names = declared()
    where = {}
    for crate, files in names.items():
        for file, found in files.items():
            for name in found:
                where.setdefault(name, []).append((crate, file))
    for part in re.split(r"^## ", read(DEFINITIONS).partition(TITLE)[0], flags=re.M)[1:]:
        title = part.splitlines()[0]
        crates = [crate for crate in re.findall(r"\bgrib\w*\b", title) if crate in names]
        if "grib_command to grib_engine" in title:
            order = layers()
            crates += [crate for crate in order[order.index("grib_io"):] if crate in names and not crate.startswith("grib_tests")]
        if not crates:
            yield f"a chapter of no crate: {title}"
        file = ""
        for line in re.findall(r"^\|.*\|$", part, re.M):
            cells = [cell.strip() for cell in line.strip("|").split("|")]
            if len(cells) < 3 or cells[0] in ("file", "---"):
                continue
            file = cells[0] or file
            files = [re.sub(r" \(.*", "", name) for name in re.split(r", |; ", re.sub(r"\([^)]*\)", "", file).strip())]
            known = {name for crate in crates for name in names[crate]}
            for name in files:
                if name and name not in known:
                    yield f"{title}: no file {name}"
            for name in (word.split()[0] for word in quoted(cells[1])):
                places = where.get(name, [])
                if not places:
                    yield f"{title}, {file}: no longer declared: {name}"
                elif not any(crate in crates for crate, _ in places):
                    yield f"{title}, {file}: {name} is of {' and '.join(crate for crate, _ in places)}"
                elif not any(crate in crates and place in files for crate, place in places):
                    yield f"{title}, {file}: {name} is in {' and '.join(f'{place} of {crate}' for crate, place in places if crate in crates)}"


def words_of_sources():
    words = set()
    for folder in ("crates/*/src/**", "crates/*/specs/**", "crates/*/proofs/**", "bench", "dist", "share/**", ".ci", "params", "examples", "."):
        for file in glob.glob(f"{top}/{folder}/*", recursive=True):
            if os.path.isfile(file) and not re.search(r"\.(md|1|png|svg|csv|grib2)$", file) and os.path.getsize(file) < 1_000_000:
                with open(file, encoding="utf-8", errors="ignore") as text:
                    words |= set(re.findall(r"\w+", text.read()))
                words.add(os.path.basename(file))
                words.add(os.path.basename(file).rpartition(".")[0])
    return words | set(os.listdir(f"{top}/crates"))


def wrong_names():
    """Names in the pages that stand nowhere in the sources."""
    words = words_of_sources()
    for page in NAMING:
        text = re.sub(r"^```.*?^```", "", read(page).partition(TITLE)[0], flags=re.M | re.S)
        for name in dict.fromkeys(word for quote in quoted(text) for word in re.findall(r"[A-Za-z]\w*", re.sub(r"\S*[/=$]\S*", " ", quote))):
            is_name = "_" in name or re.search(r"^[A-Z][a-z]+[A-Z]", name)
            if is_name and name not in words and not OTHERS.match(name):
                yield f"{page}: {name} stands nowhere in the sources"


def main():
    if sys.argv[1:] not in ([], ["--check"]):
        sys.exit(__doc__)
    wrong = []
    lower = set()
    for _, crates in chapters():
        for crate, names in crates.items():
            wrong += [f"crates.txt: {crate} names {name}, which comes later" for name in names if name in layers() and name not in lower]
            lower.add(crate)
    for name, text in made().items():
        if read(name) != text:
            if sys.argv[1:]:
                wrong.append(f"{name} is not as the sources are: run docs/names.py")
            else:
                with open(f"{top}/{name}", "w", encoding="utf-8") as page:
                    page.write(text)
    wrong += [*wrong_definitions(), *wrong_names()]
    for line in wrong:
        print(line)
    sys.exit(bool(wrong))


main()
