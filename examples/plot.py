#!/usr/bin/env python3
"""Draws the height of 500 hPa, with the coasts, of a GRIB file: plot.py FILE PICTURE

FILE has the fields on one grid of latitude and longitude around the globe, from north to south, as files of GFS have.
Needs matplotlib, and tachilwe.py in PYTHONPATH: `PYTHONPATH=~/.local/share/grib/python` where grib is installed,
`PYTHONPATH=share/python` in the folder of its sources."""
import sys

import numpy
from matplotlib import pyplot

import tachilwe

HEIGHT = {"discipline": 0, "category": 3, "number": 5, "surface1": 100, "surface1Value": 50000}
LAND = {"discipline": 2, "category": 0, "number": 0}


def found(fields, wanted):
    """The first field that has these keys."""
    return next(field for field in fields if wanted.items() <= field.keys.items())


def around(values):
    """The first column again after the last, at 360 degrees east."""
    return numpy.column_stack([values, values[:, :1]])


def draw(path):
    fields = tachilwe.open(path, profile="open")
    height, land = found(fields, HEIGHT), found(fields, LAND)
    nj, ni = height.values.shape
    east, north = numpy.linspace(0, 360, ni + 1), numpy.linspace(90, -90, nj)
    figure, axes = pyplot.subplots(figsize=(7.5, 4), layout="constrained")
    drawn = axes.contourf(east, north, around(height.values), levels=range(4600, 6001, 100), cmap="viridis", extend="both")
    axes.contour(east, north, around(land.values), levels=[0.5], colors="black", linewidths=0.7)
    axes.set_xticks(range(0, 361, 60))
    axes.set_yticks(range(-90, 91, 30))
    axes.set_xlabel("degrees east")
    axes.set_ylabel("degrees north")
    begun = "{year}-{month:02}-{day:02} {hour:02} UTC".format(**height.keys)
    axes.set_title(f"Height of 500 hPa, {begun} + {height.keys['forecastTime']} hours", fontsize=10)
    figure.colorbar(drawn, label="metres")
    return figure


if __name__ == "__main__":
    if len(sys.argv) != 3:
        sys.exit(__doc__)
    draw(sys.argv[1]).savefig(sys.argv[2], dpi=100)
