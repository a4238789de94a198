#!/usr/bin/env python3
"""Packs files of edition 2 to each template and back, and compares: repack.py PROGRAM FILE..

Needs grib_filter and grib_set of ecCodes (Debian: libeccodes-tools). Each message is handed over by itself.
What PROGRAM writes by `repack` to each target that can hold it has to print the same points and reference values
by `dump` as the message, before and after it is packed back to the template that it came from; and ecCodes has to
read the same values from it. With `to=least` no message may have more octets than it had, and written again it has
to stay as it is; how many are longer than in some target is printed (fields that share a bitmap may be). Prints for
each file what agrees, what cannot be kept by its cause, what differs, and how many octets all messages have in each
packing, with those that ecCodes itself writes."""
import collections
import subprocess
import sys
import tempfile

from messages import messages

TARGETS = ["to=0", "to=2", "to=3 order=1", "to=3 order=2", "to=least"]
PACKINGS = ["grid_simple", "grid_complex", "grid_complex_spatial_differencing"]


def run(words, octets):
    return subprocess.run(words, input=octets, capture_output=True)


def values(program, message):
    """What `dump` prints, without the list lines' words on the packing."""
    text = run([program, "dump"], message).stdout.decode()
    return "\n".join(line.split(" packing=")[0] for line in text.splitlines())


def template(program, message):
    """The arguments for the packing of the first field."""
    words = run([program, "list"], message).stdout.decode().split("\n")[0]
    number = words.split("packing=5.")[1].split()[0]
    return "to=3 order=2" if number == "3" else f"to={number}"


def eccodes(message):
    """The values that ecCodes reads, in the order of the data, its own number where missing. `grib_get_data` would
    lay the bitmap otherwise than the values where rows go to and fro."""
    with tempfile.NamedTemporaryFile("w") as rules:
        rules.write('print "[values%.17g!1]";')
        rules.flush()
        return run(["grib_filter", rules.name, "-"], message).stdout


def main():
    program, failed = sys.argv[1], False
    for path in sys.argv[2:]:
        counts, sizes = collections.Counter(), collections.Counter()
        for message in messages(open(path, "rb").read()):
            if run([program, "check"], message).returncode != 0:
                counts["refused"] += 1
                continue
            counts["messages"] += 1
            sizes["file"] += len(message)
            before, theirs, home = values(program, message), eccodes(message), template(program, message)
            for packing in PACKINGS:
                own = run(["grib_set", "-r", "-s", "packingType=" + packing, "-", "/dev/stdout"], message)
                sizes[packing + " by ecCodes"] += len(own.stdout)
            shortest = len(message)
            for target in TARGETS:
                packed = run([program, "repack"] + target.split(), message)
                if packed.returncode != 0:
                    counts[target + " " + packed.stderr.decode().split()[3]] += 1
                    continue
                sizes[target] += len(packed.stdout)
                if target == "to=least":
                    counts["LONGER THAN IT WAS (DIFFER)"] += len(packed.stdout) > len(message)
                    counts["longer than a target"] += len(packed.stdout) > shortest
                    counts["DIFFER when written again"] += run([program, "repack", target], packed.stdout).stdout != packed.stdout
                shortest = min(shortest, len(packed.stdout))
                back = run([program, "repack"] + home.split(), packed.stdout)
                counts["packed"] += 1
                counts["DIFFER"] += values(program, packed.stdout) != before
                counts["DIFFER after the way back"] += values(program, back.stdout) != before
                counts["ecCodes DIFFERS"] += eccodes(packed.stdout) != theirs
        failed |= any("DIFFER" in what and number for what, number in counts.items())
        print(path + ": " + ", ".join(f"{number} {what}" for what, number in counts.items() if number))
        print("  octets: " + ", ".join(f"{what} {number}" for what, number in sizes.items()), flush=True)
    sys.exit(failed)


main()
