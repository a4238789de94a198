#!/usr/bin/env python3
"""Compares NCEP's records of params/standard.csv with NCL, which has NCEP's table of edition 1 and code tables of its own.

usage: bench/ncep.py [PROGRAM]     (Debian: ncl-ncarg, libncarg-data)

For each record of centre 7 a message of edition 1 is made; ncl_filedump names its parameter. The message is migrated
by the table, and the number that it has then is looked up in NCL's code tables of edition 2. A line is printed for each
record whose two short names differ, with both names and units, to be read by eye.
"""
import glob
import os
import re
import subprocess
import sys
import tempfile

TOP = os.path.dirname(os.path.dirname(os.path.abspath(__file__)))
TABLE = f"{TOP}/params/standard.csv"
CODES = "/usr/share/ncarg/grib2_codetables/ncep/4"
FIRST = bytes.fromhex(
    "47524942 000058 01"
    "00001C 02 62 01 FF 80 0B 64 01F4 18 01 0F 0C 00 01 06 00 00 0000 00 15 00 0001"
    "000020 00 FF 00 0002 0002 00C350 002710 80 00BF68 002AF8 03E8 03E8 00 00000000"
    "000010 08 8003 C276A000 08 000102FF 00 37373737"
)


def first_edition(version, parameter):
    message = bytearray(FIRST)
    # model 80 of NCEP
    message[11:14] = bytes([version, 7, 80])
    message[16] = parameter
    return bytes(message)


def named(folder, messages):
    """The short name, the name and the unit of each parameter, as NCL prints them."""
    path = os.path.join(folder, "all.grb")
    with open(path, "wb") as file:
        file.write(b"".join(messages))
    text = subprocess.run(["ncl_filedump", path], capture_output=True, text=True, check=True).stdout
    found = {}
    for part in re.split(r"\n\s+float ", text)[1:]:
        fields = {
            name: value.strip()
            for name, value in re.findall(r"^\s+(long_name|units|parameter_number) :(.*)$", part, re.M)
        }
        if "parameter_number" in fields:
            short = part.split("_GDS")[0]
            found[int(fields["parameter_number"])] = (short, fields["long_name"], fields["units"])
    return found


def coded(discipline, category, number):
    """The short name, the name and the unit of a parameter of edition 2, as NCL's code tables have it."""
    for path in glob.glob(f"{CODES}/4.2.{discipline}.{category}.table"):
        with open(path, errors="replace") as file:
            for line in file:
                fields = line.strip().split(":")
                if fields[0] == str(number) and len(fields) >= 5:
                    return fields[4], fields[2], fields[3]
    return None


def main():
    program = sys.argv[1] if len(sys.argv) > 1 else f"{TOP}/dist/grib-x86_64-linux-gnu"
    with open(TABLE) as file:
        records = [line.strip().split(",") for line in file]
    pairs = [(int(record[1]), int(record[2])) for record in records if record[0] == "7"]
    messages = [first_edition(*pair) for pair in pairs]
    ran = subprocess.run([program, "migrate", f"params={TABLE}"], input=b"".join(messages), capture_output=True, check=True)
    assert len(ran.stdout) == 183 * len(messages), ran.stderr
    with tempfile.TemporaryDirectory() as folder:
        first = named(folder, messages)
    same = unknown = 0
    for at, (_, parameter) in enumerate(pairs):
        message = ran.stdout[183 * at : 183 * (at + 1)]
        # the discipline, and the category and number in Section 4, which begins at octet 110
        target = (message[6], message[118], message[119])
        one, other = first.get(parameter), coded(*target)
        if one is None or other is None:
            unknown += 1
            print(parameter, target, one, other)
        elif one[0].replace("_", "") == other[0].replace("_", ""):
            same += 1
        else:
            print(parameter, ".".join(map(str, target)), *one, "|", *other)
    print(f"records {len(pairs)} alike {same} unknown {unknown}")


if __name__ == "__main__":
    main()
