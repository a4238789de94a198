#!/usr/bin/env bash
# Measures, in one run, `coordinates` against a small program that takes the latitudes and longitudes from the iterator of
# ecCodes (places.c; Debian: libeccodes-dev), `dump decimals=2 place=yes` against `grib_get_data`, `crop` in degrees against
# `cdo sellonlatbox` (Debian: cdo), and a series at a place, `filter` and `crop lat= lon=` and `dump`, against
# `grib_get -w .. -l` (libeccodes-tools) and, beside it, the part that `filter` alone takes. A ratio is the time of the other over ours:
# above 1, ours is the faster.
#
#     bench/places.sh PROGRAM [FIELDS [SIDE]]     this many fields of SIDE times SIDE points, 40 and 512 where none is given
#
# shellcheck disable=SC2015 # what stands behind || is meant for either
# shellcheck disable=SC2154,SC2317 # common.sh sets some names; it calls ours and theirs
set -euo pipefail
# shellcheck source=bench/common.sh
source "$(dirname "$0")/common.sh"
grib=$(realpath "${1:?PROGRAM}")
fields=${2:-40}
side=${3:-512}
need grib_set "Debian: libeccodes-tools"
need cdo "Debian: cdo"
need gcc
gcc -O2 -Wall -Wextra -std=gnu11 -o "$work/places" "$top/bench/places.c" -leccodes || fail "places.c was not built (Debian: libeccodes-dev)"
step=100000 # 10^-6 degree
last=$(((side - 1) * step))
field_of_14_bits "$side" /usr/share/eccodes/samples/regular_ll_pl_grib2.tmpl "$work/one.grib2"
grid="latitudeOfFirstGridPoint=80000000,latitudeOfLastGridPoint=$((80000000 - last)),longitudeOfFirstGridPoint=0"
grid+=",longitudeOfLastGridPoint=$last,iDirectionIncrement=$step,jDirectionIncrement=$step,scanningMode=0"
# Each field is on one of eight levels.
for ((level = 1; level <= 8; level++)); do
  grib_set -s "$grid,level=$((level * 100))" "$work/one.grib2" "$work/level.grib2"
  cat "$work/level.grib2" >>"$work/levels.grib2"
done
for ((n = 0; n < fields; n += 8)); do cat "$work/levels.grib2"; done >"$work/all.grib2"
input=$work/all.grib2

# Both write the same latitudes and longitudes, but for the last digits: ecCodes adds up increments.
ours() { "$grib" coordinates <"$input" >"$work/ours.npy"; }
theirs() { "$work/places" "$input" >"$work/theirs.raw"; }
ours && theirs || fail "coordinates: a program failed"
(($(wc -c <"$work/ours.npy") == $(wc -c <"$work/theirs.raw") + 256 * $(grib_count "$input"))) || fail "the two write other numbers of points"
ratio "coordinates" 3

ours() { "$grib" dump decimals=2 place=yes <"$input" >"$work/ours.txt"; }
theirs() { grib_get_data -L '%.6f %.6f ' -F '%.2f' "$input" >"$work/theirs.txt"; }
ratio "dump decimals=2 place=yes" 3

west=$((side / 40)) # the grid has side / 10 degrees each way
north=$((80 - west))
ours() { "$grib" crop north="$north" south=$((north - side / 20)) west="$west" east=$((west + side / 20)) <"$input" >"$work/ours.grib2"; }
theirs() { cdo -s "sellonlatbox,$west,$((west + side / 20)),$((north - side / 20)),$north" "$input" "$work/theirs.grib2"; }
ratio "crop of a quarter, in degrees" 3

ours() {
  "$grib" filter surface1=100 surface1Value=50000 <"$input" 2>/dev/null | "$grib" crop lat="$north.02" lon="$west.03" 2>/dev/null |
    "$grib" dump decimals=2 >"$work/ours.txt"
}
theirs() { grib_get -w typeOfLevel=isobaricInhPa,level=500 -F '%.2f' -l "$north.02,$west.03,1" "$input" >"$work/theirs.txt"; }
ours && theirs || fail "a series: a program failed"
diff <(awk 'NF == 2 && $1 == 1 { print $2 }' "$work/ours.txt") <(awk '{ print $NF }' "$work/theirs.txt") >/dev/null || fail "the two have other values at the place"
ratio "a series at a place" 3
filter_alone() { "$grib" filter surface1=100 surface1Value=50000 <"$input" >"$work/ours.grib2"; }
whole=$(least "$work/ours")
for ((round = 0; round < 3; round++)); do seconds filter_alone; done | sort -g | head -n 1 |
  awk -v whole="$whole" '{ printf "a series at a place: %.3f seconds, of which filter alone takes %.3f\n", whole, $1 }'
