#!/usr/bin/env bash
# Measures, in one run, `compare` against `grib_compare` of ecCodes (Debian: libeccodes-tools), and against `check` of both
# sides with `values` of one, and with `stats` of one, on messages of SIDE times SIDE points that hold the same values in
# other packings. A ratio is the time of the other over ours: above 1, ours is the faster.
#
#     bench/compare.sh [SIDE]     4096 where none is given
#
# shellcheck disable=SC2015 # what stands behind || is meant for either
# shellcheck disable=SC2154 # common.sh sets some names
# shellcheck disable=SC2317 # common.sh runs `ours` and `theirs`
set -euo pipefail
# shellcheck source=bench/common.sh
source "$(dirname "$0")/common.sh"
need grib_compare "Debian: libeccodes-tools"
side=${1:-4096}
sample=/usr/share/eccodes/samples/regular_ll_pl_grib2.tmpl
grib=$(our_program)
field_of_14_bits "$side" "$sample" "$work/0.grib2"
"$grib" repack to=2 <"$work/0.grib2" >"$work/2.grib2" 2>/dev/null
"$grib" repack to=3 order=2 <"$work/0.grib2" >"$work/3.grib2" 2>/dev/null

ours() { "$grib" compare with="$work/$there.grib2" <"$work/$here.grib2" >"$work/said"; }
for pair in "0 0" "0 2" "0 3" "3 3"; do
  read -r here there <<<"$pair"
  ours && [[ $(head -n 1 "$work/said") == "1.1 same" ]] || fail "5.$here and 5.$there: not the same"
  # Values alone: of the headers the packings differ.
  theirs() { grib_compare -c data:n "$work/$here.grib2" "$work/$there.grib2"; }
  ratio "compare 5.$here with 5.$there, grib_compare" 3
  for command in values stats; do
    theirs() {
      "$grib" check <"$work/$here.grib2" && "$grib" check <"$work/$there.grib2" && "$grib" "$command" <"$work/$here.grib2"
    }
    ratio "compare 5.$here with 5.$there, check of both and $command of one" 3
  done
done

# The most memory of a run.

peak=$({ /usr/bin/time -f %M "$grib" compare with="$work/3.grib2" <"$work/0.grib2" >/dev/null; } 2>&1 | tail -1)
awk -v peak="$peak" -v here="$(wc -c <"$work/0.grib2")" -v there="$(wc -c <"$work/3.grib2")" -v points=$((side * side)) \
  'BEGIN { printf "compare: %.1f MB for a message of %.1f MB and a file of %.1f MB with %d points, %.1f octets a point besides\n", peak * 1024 / 1e6, here / 1e6, there / 1e6, points, (peak * 1024 - here - there) / points }'
