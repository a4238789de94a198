#!/usr/bin/env python3
"""Refuses a program each of its calls for memory in turn, and looks at what it does then.

    bench/refused.py PROGRAM [most=400]

Every command runs on the messages of docs/WORKED.md, and on messages of some thousand points, once with all
memory, to see how many calls for memory there are, and then once for each of them, with that one refused (`most` of
them, spread evenly, where there are more; bench/refused.c is loaded in front of the C library). A run that is refused
memory has to answer what the whole run answers, or to end with status 8 and the note `memory`, the note being empty
where not even the arguments were there; what it wrote has to be a prefix of the result, and what `split` wrote a prefix
of each file. Prints the number of runs and what differs. Needs gcc and Linux."""
import os
import shutil
import subprocess
import sys
import tempfile

from hostile import TARGETS, top, worked_messages


class Refuser:
    """Runs the program with one call for memory refused."""

    def __init__(self, program, work):
        self.program, self.work, self.library = program, work, f"{work}/refused.so"
        subprocess.run(["gcc", "-O2", "-shared", "-fPIC", "-o", self.library, f"{top}/bench/refused.c"], check=True)

    def run(self, words, data, call):
        """Status, output, note, the files of the shelf, and how many calls for memory there were."""
        shelf = f"{self.work}/shelf"
        shutil.rmtree(shelf, ignore_errors=True)
        os.mkdir(shelf)
        counted = f"{self.work}/calls"
        environment = {**os.environ, "LD_PRELOAD": self.library, "REFUSED_CALL": str(call), "REFUSED_FILE": counted}
        ran = subprocess.run([self.program, *words], input=data, stdout=subprocess.PIPE, stderr=subprocess.PIPE, env=environment, cwd=self.work)
        files = {name: open(f"{shelf}/{name}", "rb").read() for name in sorted(os.listdir(shelf))}
        with open(counted, encoding="ascii") as file:
            return ran.returncode, ran.stdout, ran.stderr, files, int(file.read())


def wrong_in(whole, status, output, note, files):
    """What is wrong with a run for which memory was refused, or None."""
    if (status, output, note, files) == whole[:4]:
        return None
    if status != 8 or note not in (b"memory\n", b""):
        return f"status {status} with the note {note!r}"
    if not whole[1].startswith(output):
        return "no prefix of the output"
    if note == b"" and (output or files):
        return "no note, and yet something was written"
    if any(name not in whole[3] or not whole[3][name].startswith(octets) for name, octets in files.items()):
        return "no prefix of a file"
    return None


def inputs(refuser):
    """Streams of messages by what they are for."""
    worked = worked_messages()
    made = [refuser.run(["make", "seed=3", "ni=90", "nj=70", *target], b"", 0)[1] for target in TARGETS]
    return [b"".join(worked), b"".join(one for one in worked if one[7] == 2), b"".join(made), made[0] + made[3][:4000]]


def commands():
    table = f"params={top}/params/standard.csv"
    return [["check"], ["list"], ["keys"], ["stats"], ["dump"], ["dump", "decimals=3"], ["dump", "place=yes"], ["values"], ["values", "as=f4"], ["coordinates"], ["filter", "centre=98"], ["filter", "surface1=103", "year=2024"],
            ["split", "out=shelf/part"], ["set", "centre=7", "year=2025"], *(["repack", *target] for target in TARGETS),
            ["repack", "to=least"], ["rescan"], ["crop", "i0=0", "i1=0", "j0=0", "j1=0"], ["crop", "north=90", "south=-90", "west=0", "east=180"],
            ["crop", "lat=50", "lon=10"], ["migrate", table], ["demote", table, "earth=any"],
            ["make", "seed=1", "ni=50", "nj=40", "to=2"], ["repack", "to=1"]]


def main():
    options = dict(word.split("=", 1) for word in sys.argv[2:])
    if len(sys.argv) < 2 or set(options) - {"most"}:
        sys.exit(__doc__)
    most, runs, ended, found = int(options.get("most", 400)), 0, 0, 0
    with tempfile.TemporaryDirectory() as work:
        refuser = Refuser(os.path.abspath(sys.argv[1]), work)
        for number, data in enumerate(inputs(refuser)):
            for words in commands():
                whole = refuser.run(words, data, 0)
                step = max(1, -(-whole[4] // most))
                for call in range(1, whole[4] + 1, step):
                    *told, _ = refuser.run(words, data, call)
                    runs, ended = runs + 1, ended + (told[0] == 8)
                    wrong = wrong_in(whole, *told)
                    if wrong:
                        found += 1
                        print(f"input {number}, {' '.join(words)}, call {call} of {whole[4]}: {wrong}", flush=True)
    print(f"{runs} runs, each refused one call for memory: {ended} ended with status 8, {found} findings")
    sys.exit(found > 0)


if __name__ == "__main__":
    main()
