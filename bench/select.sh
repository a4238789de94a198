#!/usr/bin/env bash
# Measures, in one run, `filter`, `set` and `split` against `grib_copy -w`, `grib_set -s` and `grib_copy` to a file
# for each field of ecCodes (Debian's libeccodes-tools) on the same messages. A ratio is the time of ecCodes over
# ours: above 1, ours is the faster.
#
#     bench/select.sh [FIELDS [SIDE]]     this many fields of SIDE times SIDE points, 400 and 256 where none is given
#
# The fields lie on 8 levels, of which one is picked, so that one field of eight is written. Beside each ratio stands
# the part that `check` takes of the time of ours: the rows of acceptance.
#
# shellcheck disable=SC2015 # what stands behind || is meant for either
# shellcheck disable=SC2154 # common.sh sets some names
set -euo pipefail
# shellcheck source=bench/common.sh
source "$(dirname "$0")/common.sh"
need grib_copy "Debian: libeccodes-tools"
fields=${1:-400}
side=${2:-256}
grib=$(our_program)
mkdir "$work/our-parts" "$work/their-parts"

# The messages: 5.0 and 5.3, each field on one of eight levels.
field_of_14_bits "$side" /usr/share/eccodes/samples/regular_ll_pl_grib2.tmpl "$work/one.grib2"
for packing in simple spatial; do
  : >"$work/levels.grib2"
  for ((level = 1; level <= 8; level++)); do
    grib_set -s level=$((level * 100)) "$work/one.grib2" "$work/level.grib2"
    if [[ $packing == spatial ]]; then
      "$grib" repack to=3 order=2 <"$work/level.grib2" 2>/dev/null >>"$work/levels.grib2"
    else
      cat "$work/level.grib2" >>"$work/levels.grib2"
    fi
  done
  for ((n = 0; n < fields; n += 8)); do cat "$work/levels.grib2"; done >"$work/$packing.grib2"
done

# The ratio, and the part that accepting the messages takes.
compare() { # WHAT
  local whole accepted
  whole=$(ratio "$1" 3)
  accepted=$(for ((round = 0; round < 3; round++)); do seconds accept; done | sort -g | head -1)
  awk -v whole="$whole" -v accepted="$accepted" '{ printf "%s, of which check takes %.2f\n", whole, accepted / $1; exit }' \
    "$work/ours.sorted"
}

for packing in simple spatial; do
  input=$work/$packing.grib2
  accept() { "$grib" check <"$input"; }
  ours() { "$grib" filter surface1=100 surface1Value=50000 <"$input" >"$work/ours.grib2"; }
  theirs() { grib_copy -w typeOfLevel=isobaricInhPa,level=500 "$input" "$work/theirs.grib2"; }
  ours 2>/dev/null && theirs && cmp "$work/ours.grib2" "$work/theirs.grib2" || fail "the two pick other fields"
  compare "filter, $packing packing"
  ours() { "$grib" set centre=7 <"$input" >"$work/ours.grib2"; }
  theirs() { grib_set -s centre=7 "$input" "$work/theirs.grib2"; }
  ours 2>/dev/null && theirs && cmp "$work/ours.grib2" "$work/theirs.grib2" || fail "the two set other octets"
  compare "set, $packing packing"
  ours() { "$grib" split out="$work/our-parts/field" <"$input"; }
  theirs() { grib_copy "$input" "$work/their-parts/field.[count]"; }
  ours 2>/dev/null && theirs && diff -r "$work/our-parts" "$work/their-parts" || fail "the two write other files"
  compare "split, $packing packing"
done
