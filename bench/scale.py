#!/usr/bin/env python3
"""What an archive costs in processor hours and in time, from one run of each command: scale.py PROGRAM [NAME=NUMBER ..]

gfs.grb of Debian's python-grib-doc is repeated to MEGABYTES in a temporary folder, and each command runs once on that file,
from a file to a file; for `migrate` it is the messages of gfs.grb that `demote` makes messages of edition 1. Measured are
the processor time of the run, the user's and the system's together, and the octets that it read and wrote. All else is
multiplied out for an archive of TERABYTES (10^12 octets) on MACHINES, each with PROCESSORS for it, a disk that reads and
writes DISK megabytes (10^6 octets) a second together, and a net that does NET each way: the processor hours; the hours
that processors, disks and nets take if every machine has as many runs as processors and nothing else holds them up; and
which of the three is the slowest. From a disk of its own a machine needs no net; from a server all octets go by the net,
and none by its disk. The limit is the slower of processor and disk, and of processor and net."""
import os
import resource
import subprocess
import sys
import tempfile

top = os.path.dirname(os.path.dirname(os.path.abspath(__file__)))
FILE = "/usr/share/doc/python-grib-doc/examples/gfs.grb"
SIZES = {"MEGABYTES": 500, "TERABYTES": 100, "MACHINES": 50, "PROCESSORS": 16, "DISK": 500, "NET": 1250}
TABLE = f"params={top}/params/standard.csv"
COMMANDS = [
    ("check", "edition 2", ["check"]),
    ("filter surface1=100 surface1Value=50000", "edition 2", ["filter", "surface1=100", "surface1Value=50000"]),
    ("repack to=least", "edition 2", ["repack", "to=least"]),
    ("repack to=least profile=open", "edition 2", ["repack", "to=least", "profile=open"]),
    ("migrate", "edition 1", ["migrate", TABLE]),
]


def repeated(octets, megabytes, path):
    with open(path, "wb") as file:
        for _ in range(max(1, round(megabytes * 10**6 / len(octets)))):
            file.write(octets)
    return os.path.getsize(path)


def spent():
    used = resource.getrusage(resource.RUSAGE_CHILDREN)
    return used.ru_utime + used.ru_stime


def run(program, words, source, target):
    """The processor seconds of a run."""
    begun = spent()
    with open(source, "rb") as file, open(target, "wb") as to:
        done = subprocess.run([program, *words], stdin=file, stdout=to, stderr=subprocess.PIPE, check=False)
    if done.returncode != 0:
        sys.exit(f"{' '.join(words)}: status {done.returncode}, {done.stderr.decode().strip()[-200:]}")
    return spent() - begun


def cost(sizes, seconds, read, written):
    """Processor hours, and the hours by processors, by disks and by nets."""
    times = sizes["TERABYTES"] * 10**12 / read
    hours = times * seconds / 3600
    moved = times / sizes["MACHINES"] / 10**6 / 3600
    return hours, hours / sizes["MACHINES"] / sizes["PROCESSORS"], moved * (read + written) / sizes["DISK"], moved * max(read, written) / sizes["NET"]


def main():
    if len(sys.argv) < 2:
        sys.exit(__doc__)
    program, sizes = os.path.abspath(sys.argv[1]), dict(SIZES)
    for word in sys.argv[2:]:
        name, number = word.split("=")
        if name not in sizes:
            sys.exit(__doc__)
        sizes[name] = float(number)
    print(", ".join(f"{name} {number:g}" for name, number in sizes.items()))
    with open(FILE, "rb") as file:
        octets = file.read()
    with tempfile.TemporaryDirectory() as folder:
        old = subprocess.run([program, "demote", TABLE, "earth=any", "tables=any", "kept=pass"], input=octets, capture_output=True, check=False).stdout
        paths = {"edition 2": f"{folder}/2", "edition 1": f"{folder}/1"}
        read = {"edition 2": repeated(octets, sizes["MEGABYTES"], paths["edition 2"]), "edition 1": repeated(old, sizes["MEGABYTES"], paths["edition 1"])}
        print("| command | MB/s a processor | out of 100 octets | processor hours | hours by processors | by disks | by nets | limit: own disk, server |")
        print("|---|---|---|---|---|---|---|---|")
        for name, edition, words in COMMANDS:
            seconds = run(program, words, paths[edition], f"{folder}/out")
            written = os.path.getsize(f"{folder}/out")
            hours, busy, disk, net = cost(sizes, seconds, read[edition], written)
            limits = [("processor" if busy >= other else what) for what, other in (("disk", disk), ("net", net))]
            print(f"| `{name}` | {read[edition] / seconds / 10**6:.{1 if seconds * 10**8 > read[edition] else 0}f} | {100 * written / read[edition]:.1f} | {hours:,.0f} | {busy:.2f} | {disk:.2f} | {net:.2f} | {', '.join(limits)} |", flush=True)


if __name__ == "__main__":
    main()
