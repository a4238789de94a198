#!/usr/bin/env python3
"""Makes the parameter table of `migrate`, standard.csv, and beside it names.txt, which has each record with the name of
its parameter in edition 1 and in edition 2, to be read by eye; and the tables of short names of edition 2, names2.csv
with WMO's parameters and names2-ncep.csv with NCEP's own.

    params/make.py [FOLDER]     the folder that they are written to, or this one

Needs the definitions of ecCodes (Debian: libeccodes-data) in /usr/share/eccodes/definitions. The pairs of numbers below
are the choice; the script takes the names from the definitions, finds the first version of the master tables that has a
number, and stops where a number has no name, where two records have the same parameter of edition 1, or where two
parameters of a centre and version have the same target. Short names come from the definitions by the rule of
`short_name`."""
import os
import re
import sys

DEFINITIONS = "/usr/share/eccodes/definitions"

# Code table 2 of edition 1, parameters 1 to 126, and the parameter of code table 4.2 that is the same thing. 127, image
# data, has none.
WMO = """
1 0.3.0    2 0.3.1    3 0.3.2    4 0.2.14   5 0.3.3    6 0.3.4    7 0.3.5    8 0.3.6    9 0.3.7    10 0.14.0
11 0.0.0   12 0.0.1   13 0.0.2   14 0.0.3   15 0.0.4   16 0.0.5   17 0.0.6   18 0.0.7   19 0.0.8   20 0.19.0
21 0.15.6  22 0.15.7  23 0.15.8  24 0.7.0   25 0.0.9   26 0.3.8   27 0.3.9   28 10.0.0  29 10.0.1  30 10.0.2
31 0.2.0   32 0.2.1   33 0.2.2   34 0.2.3   35 0.2.4   36 0.2.5   37 0.2.6   38 0.2.7   39 0.2.8   40 0.2.9
41 0.2.10  42 0.2.11  43 0.2.12  44 0.2.13  45 0.2.15  46 0.2.16  47 10.1.0  48 10.1.1  49 10.1.2  50 10.1.3
51 0.1.0   52 0.1.1   53 0.1.2   54 0.1.3   55 0.1.4   56 0.1.5   57 0.1.6   58 0.6.0   59 0.1.7   60 0.19.2
61 0.1.8   62 0.1.9   63 0.1.10  64 0.1.12  65 0.1.13  66 0.1.11  67 0.19.3  68 10.4.2  69 10.4.0  70 10.4.1
71 0.6.1   72 0.6.2   73 0.6.3   74 0.6.4   75 0.6.5   76 0.6.6   77 0.7.1   78 0.1.14  79 0.1.15  80 10.3.0
81 2.0.0   82 10.3.1  83 2.0.1   84 0.19.1  85 2.0.2   86 2.0.3   87 2.0.4   88 10.4.3  89 0.3.10  90 2.0.5
91 10.2.0  92 10.2.1  93 10.2.2  94 10.2.3  95 10.2.4  96 10.2.5  97 10.2.6  98 10.2.7  99 0.1.16  100 10.0.3
101 10.0.4 102 10.0.5 103 10.0.6 104 10.0.7 105 10.0.8 106 10.0.9 107 10.0.10 108 10.0.11 109 10.0.12 110 10.0.13
111 0.4.0  112 0.5.0  113 0.4.1  114 0.5.1  115 0.5.2  116 0.4.2  117 0.4.3  118 0.4.4  119 0.4.5  120 0.4.6
121 0.0.10 122 0.0.11 123 0.2.20 124 0.2.17 125 0.2.18 126 0.2.19
"""

# NCEP (centre 7), version 2, parameters 128 to 254: Office Note 388, table 2. Of edition 2 the number that NCEP writes.
NCEP = """
129 0.3.198   Mean sea level pressure (MAPS system reduction)
130 0.3.192   Mean sea level pressure (Eta model reduction)
131 0.7.192   Surface lifted index
132 0.7.193   Best (4-layer) lifted index
133 0.7.2     K index
134 0.7.5     Sweat index
136 0.2.192   Vertical speed shear
137 0.3.199   3-hour pressure tendency (standard atmosphere reduction)
140 0.1.192   Categorical rain
141 0.1.193   Categorical freezing rain
142 0.1.194   Categorical ice pellets
143 0.1.195   Categorical snow
144 2.0.192   Volumetric soil moisture content
145 0.1.200   Potential evaporation rate
146 0.6.193   Cloud work function
147 0.3.194   Zonal flux of gravity wave stress
148 0.3.195   Meridional flux of gravity wave stress
150 0.2.205   Covariance between meridional and zonal components of the wind
151 0.2.206   Covariance between temperature and zonal component of the wind
152 0.2.207   Covariance between temperature and meridional component of the wind
153 0.1.22    Cloud mixing ratio
154 0.14.192  Ozone mixing ratio
155 2.0.193   Ground heat flux
156 0.7.7     Convective inhibition
157 0.7.6     Convective available potential energy
158 0.19.11   Turbulent kinetic energy
159 0.1.216   Condensation pressure of parcel lifted from indicated surface
160 0.4.198   Clear sky upward solar flux
161 0.4.196   Clear sky downward solar flux
162 0.5.195   Clear sky upward long wave flux
163 0.5.196   Clear sky downward long wave flux
164 0.4.199   Cloud forcing net solar flux
165 0.5.197   Cloud forcing net long wave flux
166 0.4.200   Visible beam downward solar flux
167 0.4.201   Visible diffuse downward solar flux
168 0.4.202   Near IR beam downward solar flux
169 0.4.203   Near IR diffuse downward solar flux
170 0.1.24    Rain water mixing ratio
171 0.1.25    Snow mixing ratio
173 0.3.210   Mass point model surface
174 0.2.218   Velocity point model surface
175 0.191.195 Model layer number (from bottom up)
176 0.191.192 Latitude (-90 to +90)
177 0.191.193 East longitude (0 to 360)
178 0.1.23    Ice mixing ratio
179 0.1.32    Graupel mixing ratio
181 0.3.201   x-gradient of log pressure
182 0.3.202   y-gradient of log pressure
183 0.3.203   x-gradient of height
184 0.3.204   y-gradient of height
187 0.17.192  Lightning
189 0.0.15    Virtual potential temperature
190 0.7.8     Storm relative helicity
194 1.1.193   Percent of frozen precipitation
196 0.2.194   u-component of storm motion
197 0.2.195   v-component of storm motion
199 2.3.198   Direct evaporation from bare soil
200 2.0.229   Canopy water evaporation
201 2.0.207   Ice-free water surface
202 0.7.195   Convective weather detection index
204 0.4.192   Downward short wave radiation flux
205 0.5.192   Downward long wave radiation flux
207 2.0.194   Moisture availability
208 2.0.195   Exchange coefficient
209 0.19.204  Number of mixed layers next to surface
210 2.0.230   Transpiration
211 0.4.193   Upward short wave radiation flux
212 0.5.193   Upward long wave radiation flux
213 0.6.192   Amount of non-convective cloud
214 0.1.196   Convective precipitation rate
215 0.0.198   Temperature tendency by all physics
216 0.0.193   Temperature tendency by all radiation
217 0.0.199   Temperature tendency by non-radiation physics
219 0.0.200   Standard deviation of IR temperature over 1x1 degree area
220 0.3.206   Natural log of surface pressure
221 0.3.18    Planetary boundary layer height
222 0.3.193   5-wave geopotential height
223 2.0.196   Plant canopy surface water
225 2.0.198   Vegetation type
226 2.0.197   Blackadar's mixing length scale
227 2.0.219   Asymptotic mixing length scale
228 0.1.199   Potential evaporation
229 0.0.192   Snow phase-change heat flux
230 0.3.197   5-wave geopotential height anomaly
231 0.6.200   Convective cloud mass flux
232 0.4.204   Downward total radiation flux
233 0.4.205   Upward total radiation flux
234 1.0.192   Baseflow-groundwater runoff
235 1.0.193   Storm surface runoff
238 0.1.201   Snow cover
239 0.1.208   Snow temperature
241 0.0.195   Large scale condensate heating rate
242 0.0.196   Deep convective heating rate
243 0.1.213   Deep convective moistening rate
244 0.0.201   Shallow convective heating rate
245 0.1.214   Shallow convective moistening rate
246 0.0.202   Vertical diffusion heating rate
247 0.2.208   Vertical diffusion zonal acceleration
248 0.2.209   Vertical diffusion meridional acceleration
249 0.1.215   Vertical diffusion moistening rate
250 0.4.197   Solar radiative heating rate
251 0.5.194   Long wave radiative heating rate
252 0.2.196   Drag coefficient
253 0.2.197   Friction velocity
254 0.7.194   Richardson number
"""

# ECMWF (centre 98): version and parameters. Those of ecCodes whose parameter of edition 2 asks for nothing else (a level,
# a statistical process, a wavelength) are taken from the definitions, but for the ones of LEFT_OUT; these are the others.
ECMWF = """
128.31 10.2.0   128.59 0.7.6    128.78 0.1.69   128.79 0.1.70   128.136 0.1.51  128.137 0.1.64  128.151 0.3.1
128.172 2.0.0   128.235 0.0.17  160.136 0.1.51  160.151 0.3.1   160.172 2.0.0   160.235 0.0.17  162.71 0.1.150
162.72 0.1.151  170.151 0.3.1   171.172 2.0.0   174.172 2.0.0   175.172 2.0.0   180.137 0.1.64  180.151 0.3.1
180.172 2.0.0   190.151 0.3.1   190.172 2.0.0   228.1 0.7.7     228.89 0.1.45   228.90 0.1.46   228.218 0.1.76
228.219 0.1.77
"""
LEFT_OUT = {
    "128.43": "soil type: ECMWF counts other types than code table 4.213",
}

# What a short name of ecCodes may ask of a field besides its parameter, and still be the name of the parameter: its level,
# and its time range. Not a constituent, a wavelength or a probability, each of which is another thing under one number.
NUMBERS = ("discipline", "parameterCategory", "parameterNumber")
SURFACES = {f"{what}Of{which}FixedSurface" for what in ("type", "scaleFactor", "scaledValue") for which in ("First", "Second")}
TIME_RANGE = {"typeOfStatisticalProcessing", "lengthOfTimeRange", "indicatorOfUnitForTimeRange"}


def fail(what):
    sys.exit(f"make.py: {what}")


def concepts(name):
    """The values of a concept file with the keys of each: [(value, {key: number})]."""
    with open(f"{DEFINITIONS}/{name}", encoding="utf-8") as file:
        text = re.sub("#.*", "", file.read())
    found = []
    for value, body in re.findall(r"'([^']*)'\s*=\s*{([^}]*)}", text):
        pairs = [part.split("=") for part in body.split(";") if part.strip()]
        found.append((value, {key.strip(): number.strip() for key, number in pairs}))
    return found


def rows_of_table(name):
    """Number and name of the lines of a code table, reserved ones left out."""
    try:
        with open(f"{DEFINITIONS}/{name}", encoding="utf-8") as file:
            lines = [line.split(None, 2) for line in file if re.match(r" *\d+ ", line)]
    except FileNotFoundError:
        return {}
    return {int(line[0]): line[2].strip() for line in lines if len(line) > 2 and not line[2].startswith("Reserved")}


def number_of(target):
    return tuple(int(part) for part in target.split("."))


def is_local(target):
    return any(192 <= part <= 254 for part in target)


def master_of(target):
    """The first version of the master tables from 2 on that has the number, and its name in the last version."""
    discipline, category, number = target
    versions = sorted(int(name) for name in os.listdir(f"{DEFINITIONS}/grib2/tables") if name.isdigit() and int(name) >= 2)
    having = [version for version in versions if number in rows_of_table(f"grib2/tables/{version}/4.2.{discipline}.{category}.table")]
    if not having:
        fail(f"{target} is in no master table")
    return having[0], rows_of_table(f"grib2/tables/{having[-1]}/4.2.{discipline}.{category}.table")[number]


def local_names():
    """The names of NCEP's own numbers of edition 2."""
    return {tuple(int(found[key]) for key in NUMBERS): name
            for name, found in concepts("grib2/localConcepts/kwbc/name.def") if set(found) == set(NUMBERS)}


def wmo():
    for version in 1, 2, 3:
        names = rows_of_table(f"grib1/2.0.{version}.table")
        for parameter, target in re.findall(r"(\d+) +(\d+\.\d+\.\d+)", WMO):
            short = names.get(int(parameter)) or fail(f"table 2 version {version} lacks {parameter}")
            yield "*", version, int(parameter), number_of(target), re.sub(r"^\S+ ", "", short)


def ncep():
    for parameter, target, name in re.findall(r"^(\d+) +(\d+\.\d+\.\d+) +(.*)$", NCEP, re.M):
        yield 7, 2, int(parameter), number_of(target), name


def ecmwf():
    plain = {}
    for identity, found in concepts("grib2/paramId.def"):
        if set(found) == set(NUMBERS):
            plain.setdefault(identity, tuple(int(found[key]) for key in NUMBERS))
    by_hand = {place: number_of(target) for place, target in re.findall(r"(\d+\.\d+) (\d+\.\d+\.\d+)", ECMWF)}
    names = {(found["table2Version"], found["indicatorOfParameter"]): name for name, found in concepts("grib1/localConcepts/ecmf/name.def")}
    for identity, found in concepts("grib1/localConcepts/ecmf/paramId.def"):
        version, parameter = found["table2Version"], found["indicatorOfParameter"]
        place = f"{version}.{parameter}"
        target = by_hand.get(place) or plain.get(identity)
        if target and place not in LEFT_OUT and not is_local(target):
            yield 98, int(version), int(parameter), target, names[version, parameter]


def short_name(given):
    """Of the short names that ecCodes has under three numbers, each with what else it asks of a field, the one that asks
    the least of the time range; of these one that asks nothing of the level, or else the shortest; none where each asks
    for more."""
    ranked = [(len(asked & TIME_RANGE), bool(asked), len(name), name) for name, asked in given
              if asked <= SURFACES | TIME_RANGE and re.fullmatch("[A-Za-z0-9_-]{1,32}", name)]
    return min(ranked)[-1] if ranked else None


def short_names(name, is_wanted):
    """The records of a table of short names, by their numbers. Of several with one name the first stays."""
    given, seen, records = {}, set(), []
    for short, found in concepts(name):
        given.setdefault(tuple(int(found[key]) for key in NUMBERS), []).append((short, set(found) - set(NUMBERS)))
    for numbers in sorted(filter(is_wanted, given)):
        short = short_name(given[numbers])
        if short and short not in seen:
            seen.add(short)
            records.append(",".join(map(str, (*numbers, short))))
    return records


def main():
    folder = sys.argv[1] if len(sys.argv) == 2 else os.path.dirname(os.path.abspath(__file__))
    local, seen, targets, records, lines = local_names(), set(), set(), [], []
    for block in wmo(), ncep(), ecmwf():
        for centre, version, parameter, target, name in sorted(block, key=lambda row: row[1:3]):
            if (centre, version, parameter) in seen or (centre, version, target) in targets:
                fail(f"twice: {centre} {version} {parameter} {target}")
            seen.add((centre, version, parameter))
            targets.add((centre, version, target))
            if is_local(target):
                master, its_name = 2, local.get(target) or fail(f"NCEP has no {target}")
            else:
                master, its_name = master_of(target)
            records.append(",".join(map(str, (centre, version, parameter, *target, master, int(is_local(target))))))
            lines.append(f"{records[-1]:26} {name}  =  {its_name}")
    names = short_names("grib2/shortName.def", lambda numbers: max(numbers) < 192)
    ncep_names = short_names("grib2/localConcepts/kwbc/shortName.def", is_local)
    for name, text in (("standard.csv", records), ("names.txt", lines), ("names2.csv", names), ("names2-ncep.csv", ncep_names)):
        with open(f"{folder}/{name}", "w", encoding="utf-8") as file:
            file.write("".join(line + "\n" for line in text))
    print(f"{len(records)} records, {len(names)} short names, {len(ncep_names)} of NCEP")


if __name__ == "__main__":
    main()
