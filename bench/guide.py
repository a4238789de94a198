#!/usr/bin/env python3
"""Runs each block of commands in docs/GUIDE.md, in order and in one folder, and compares what it prints, notes
among it, with the block that follows it, where one does.

    bench/guide.py PROGRAM

A block of commands begins with ```sh. A plain block that follows it is what it prints, where the text between
them has the word `prints`; `...` in it stands for anything. What the examples call `in`, `file` and `archive.grib2` is
the example with two fields. Blocks with grib-parallel are left out, and counted, if GNU parallel (Debian: parallel) is
not here."""
import os
import re
import shutil
import subprocess
import sys
import tempfile

top = os.path.dirname(os.path.dirname(os.path.abspath(__file__)))


def blocks(text):
    """The fenced blocks with their language and the text before each."""
    parts = re.split(r"^```(\w*)\n(.*?)^```\n", text, flags=re.M | re.S)
    return [(parts[i], parts[i + 1], parts[i + 2]) for i in range(0, len(parts) - 1, 3)]


def pattern(printed):
    return re.compile(".*".join(re.escape(part) for part in printed.split("...")), re.S)


def main():
    if len(sys.argv) != 2:
        sys.exit(__doc__)
    program = os.path.abspath(sys.argv[1])
    with open(f"{top}/docs/GUIDE.md", encoding="utf-8") as page:
        found = blocks(page.read())
    failed = left_out = 0
    with tempfile.TemporaryDirectory() as work:
        os.mkdir(f"{work}/bin")
        os.symlink(program, f"{work}/bin/grib")
        os.symlink(f"{top}/grib-parallel", f"{work}/bin/grib-parallel")
        for folder in ("examples", "params"):
            shutil.copytree(f"{top}/{folder}", f"{work}/{folder}")
        for name in ("in", "file", "archive.grib2"):
            shutil.copy(f"{top}/examples/two-fields.grib2", f"{work}/{name}")
        environment = {**os.environ, "PATH": f"{work}/bin:{os.environ['PATH']}", "LC_ALL": "C", "GRIB": program}
        for i, (_, language, body) in enumerate(found):
            if language != "sh":
                continue
            if "grib-parallel" in body and not shutil.which("parallel"):
                left_out += 1
                continue
            ran = subprocess.run(["bash", "-c", body], cwd=work, env=environment, stdin=subprocess.DEVNULL, stdout=subprocess.PIPE, stderr=subprocess.STDOUT)
            printed = ran.stdout.decode(errors="replace")
            wanted = None
            if i + 1 < len(found) and found[i + 1][1] == "" and "prints" in found[i + 1][0]:
                wanted = found[i + 1][2]
            if wanted is None and ran.returncode == 0:
                continue
            if wanted is None or not pattern(wanted).fullmatch(printed):
                failed += 1
                print(f"== {body}-- status {ran.returncode}, printed\n{printed}-- wanted\n{wanted}")
    count = sum(language == "sh" for _, language, _ in found)
    print(f"{count} blocks, {failed} failed" + (f", {left_out} left out: GNU parallel is not here" if left_out else ""))
    sys.exit(failed != 0)


main()
