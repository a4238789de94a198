"""What the scripts on latitudes and longitudes share: Section 3 of grids of template 3.0, the places of their points as exact
fractions, and the points of boxes in degrees. The numbers are those of chapter 11 of docs/PROFILE.md, worked out anew."""
import struct
from fractions import Fraction

from messages import sections

ROUND = 360_000_000


def number(octets, first, last):
    return int.from_bytes(octets[first - 1:last], "big")


def signed(octets, first, last):
    value, top = number(octets, first, last), 1 << 8 * (last - first + 1) - 1
    return value if value < top else top - value


def grids(message):
    """The Section 3 in force for each field."""
    found, grid = [], b""
    for at, length, one in sections(message):
        grid = message[at:at + length] if one == 3 else grid
        found += [grid] * (one == 7)
    return found


def cause(section):
    """Why the places of a grid are not told."""
    if number(section, 6, 6) or number(section, 13, 14) or section[10] or number(section, 39, 42):
        return "GridKind"
    return "ScanMode" if section[71] % 16 else None


def size(section):
    return number(section, 31, 34), number(section, 35, 38)


def steps(section):
    """The column and the row of each point, in steps from the first one."""
    ni, nj = size(section)
    by_columns, turns = section[71] & 32, section[71] & 16
    inner, outer = (nj, ni) if by_columns else (ni, nj)
    for n in range(outer):
        for m in range(inner):
            m = inner - 1 - m if turns and n % 2 else m
            yield (n, m) if by_columns else (m, n)


def quotients(section):
    """The longitudes of the columns and the latitudes of the rows, as pairs of whole numbers, in 10^-6 degree."""
    (ni, nj), (la1, la2, lo1, lo2) = size(section), (signed(section, 47, 50), signed(section, 56, 59), number(section, 51, 54), number(section, 60, 63))
    way = -((lo1 - lo2) % ROUND or ROUND) if section[71] & 128 else (lo2 - lo1) % ROUND or ROUND
    columns, rows = max(ni - 1, 1), max(nj - 1, 1)
    return [(lo1 * columns + way * i, columns) for i in range(ni)], [(la1 * rows + (la2 - la1) * j, rows) for j in range(nj)]


def arrays(section):
    """What `coordinates` has to write of a field."""
    ni, nj = size(section)
    shape = (ni, nj) if section[71] & 32 else (nj, ni)
    head = b"\x93NUMPY\x01\0v\0" + f"{{'descr': '<f8', 'fortran_order': False, 'shape': {shape}, }}".ljust(117).encode() + b"\n"
    longitudes, latitudes = ([struct.pack("<d", above / (1_000_000 * below)) for above, below in line] for line in quotients(section))
    places = list(steps(section))
    return head + b"".join([latitudes[j] for _, j in places]) + head + b"".join([longitudes[i] for i, _ in places])


def text(above, below):
    """A number of degrees with six decimals, rounded half to even."""
    rounded = round(Fraction(above, below))
    digits = str(abs(rounded)).zfill(7)
    return ("-" if rounded < 0 else "") + f"{digits[:-6]}.{digits[-6:]}"


def texts(section):
    """The places of all points, as `dump place=yes` has to print them."""
    longitudes, latitudes = ([text(*one) for one in line] for line in quotients(section))
    return [f"{latitudes[j]} {longitudes[i]}" for i, j in steps(section)]


def latitude(section, j):
    return signed(section, 47, 50) - j * number(section, 68, 71)


def longitude(section, i):
    return (number(section, 51, 54) + i * number(section, 64, 67)) % ROUND


def has_steps(section):
    ni, nj = size(section)
    return (2**32 - 1 not in (number(section, 64, 67), number(section, 68, 71)) and latitude(section, nj - 1) == signed(section, 56, 59)
            and longitude(section, ni - 1) == number(section, 60, 63) % ROUND)


def in_box(section, north, south, west, east):
    """The columns and rows that lie in a box, in their order; None where they are no subarea."""
    ni, nj = size(section)
    width = min(east - west, ROUND) if west <= east else (east - west) % ROUND
    rows = [j for j in range(nj) if south <= latitude(section, j) <= north]
    order = list(range(ni))
    if ni * number(section, 64, 67) == ROUND:
        first = min(order, key=lambda i: (longitude(section, i) - west) % ROUND)
        order = order[first:] + order[:first]
    held = [(longitude(section, i) - west) % ROUND <= width for i in order]
    columns = [i for i, holds in zip(order, held) if holds]
    if not rows or not columns or sum(a != b for a, b in zip([False, *held], [*held, False])) > 2:
        return None
    return columns, rows


def nearest(section, north, east):
    ni, nj = size(section)

    def way(i):
        one = (longitude(section, i) - east) % ROUND
        return min(one, ROUND - one)

    return [min(range(ni), key=way)], [min(range(nj), key=lambda j: abs(latitude(section, j) - north))]


def degrees(micro):
    """As an argument."""
    whole, part = divmod(abs(micro), 1_000_000)
    return ("-" if micro < 0 else "") + (f"{whole}.{part:06}".rstrip("0") if part else str(whole))
