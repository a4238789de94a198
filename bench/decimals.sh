#!/usr/bin/env bash
# Measures, in one run, `dump decimals=3` against `grib_get_data` and against `dump`, and `stats` against
# `grib_ls -p min,max` of ecCodes (Debian's libeccodes-tools), on the same messages. A ratio is the time of the
# other over ours: above 1, ours is the faster.
#
#     bench/decimals.sh [SIDE [FILE..]]     the messages have SIDE times SIDE points, 4096 where none is given
#
# Files are measured beside them, as one with spatial differencing (Debian's python-grib-doc has some).
#
# shellcheck disable=SC2154 # common.sh sets some names
# shellcheck disable=SC2317 # common.sh runs `ours` and `theirs`
set -euo pipefail
# shellcheck source=bench/common.sh
source "$(dirname "$0")/common.sh"
need grib_ls "Debian: libeccodes-tools"
side=${1:-4096}
sample=/usr/share/eccodes/samples/regular_ll_pl_grib2.tmpl
grib=$(our_program)

field_of_14_bits "$side" "$sample" "$work/simple.grib2"
grib_set -r -s packingType=grid_complex "$work/simple.grib2" "$work/complex.grib2"

message=$work/simple.grib2
ours() { "$grib" dump decimals=3 <"$message"; }
theirs() { grib_get_data "$message"; }
ratio "dump decimals=3, simple, grib_get_data" 1
theirs() { "$grib" dump <"$message"; }
ratio "dump decimals=3, simple, dump without decimals" 5

for message in "$work/simple.grib2" "$work/complex.grib2" "${@:2}"; do
  ours() { "$grib" stats <"$message"; }
  theirs() { grib_ls -p min,max "$message"; }
  ratio "stats, $(basename "$message")" 5
done
