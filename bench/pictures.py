#!/usr/bin/env python3
"""Draws the pictures of the pages, from what a program prints of files of Debian's python-grib-doc.

    bench/pictures.py PROGRAM [sizes|field]    both if none is given

docs/pictures/sizes.svg: the octets of five files as they are and in each packing, which bench/sizes.sh counts.
docs/pictures/field.png: the height of 500 hPa in gfs.grb, with what is land in the same file, as examples/plot.py draws
them. It needs matplotlib (Debian: python3-matplotlib; run it by the Python that has it, as /usr/bin/python3)."""
import io
import os
import re
import subprocess
import sys

import matplotlib

matplotlib.use("Agg")
from matplotlib import pyplot
from PIL import Image

top = os.path.dirname(os.path.dirname(os.path.abspath(__file__)))
sys.path[:0] = [f"{top}/share/python", f"{top}/examples"]
import plot

EXAMPLES = "/usr/share/doc/python-grib-doc/examples"
FOLDER = f"{top}/docs/pictures"
# Each packing with its colour: the file as it is grey, the smallest packing the darkest, with CCSDS packing in red.
SHOWN = {"as it is": "#999999", "to=2": "#9ecae1", "to=3 order=1": "#6baed6", "to=3 order=2": "#3182bd", "to=least": "#08306b",
         "to=42 profile=open": "#fc9272", "to=least profile=open": "#99000d"}


def sizes_of(program):
    """The octets of each file, by packing."""
    printed = subprocess.run([f"{top}/bench/sizes.sh", program], stdout=subprocess.PIPE, text=True, check=True).stdout
    files = {}
    for line in printed.splitlines():
        name, octets = re.match(r"(\S+) (\d+)", line).groups()
        files[name] = {"as it is": int(octets), **{how: int(count) for how, count in re.findall(r", (to=[^,]*) (\d+)", line)}}
    return files


def draw_sizes(program):
    files = sizes_of(program)
    figure, axes = pyplot.subplots(figsize=(7.5, 6.5), layout="constrained")
    width = 0.8 / len(SHOWN)
    for number, (how, colour) in enumerate(SHOWN.items()):
        percents = [100 * octets[how] / octets["to=0"] for octets in files.values()]
        bars = axes.barh([file + number * width for file in range(len(files))], percents, width, color=colour, label=how)
        axes.bar_label(bars, fmt="%.0f", padding=2, fontsize=7)
    axes.set_yticks([file + 0.4 - width / 2 for file in range(len(files))], [f"{name}\n{octets['as it is']:,} octets" for name, octets in files.items()])
    axes.invert_yaxis()
    axes.set_xlim(0, 112)
    axes.set_xlabel("octets, in percent of simple packing (to=0)")
    axes.spines[["top", "right"]].set_visible(False)
    axes.legend(loc="lower right", frameon=False)
    figure.savefig(f"{FOLDER}/sizes.svg", metadata={"Date": None})


def draw_field(program):
    """By the example, which reads the file with share/python/tachilwe.py."""
    os.environ["GRIB"] = program
    picture = io.BytesIO()
    plot.draw(f"{EXAMPLES}/gfs.grb").savefig(picture, format="png", dpi=100)
    # Few colours, and so few octets.
    Image.open(picture).convert("RGB").quantize(64).save(f"{FOLDER}/field.png", optimize=True)


def main():
    draws = {"sizes": draw_sizes, "field": draw_field}
    if not 2 <= len(sys.argv) <= 3 or not set(sys.argv[2:]) <= set(draws):
        sys.exit(__doc__)
    os.makedirs(FOLDER, exist_ok=True)
    pyplot.rcParams["svg.fonttype"] = "none"
    pyplot.rcParams["svg.hashsalt"] = "grib"
    for name in sys.argv[2:] or draws:
        draws[name](os.path.abspath(sys.argv[1]))


main()
