#!/usr/bin/env bash
# Measures, in one run, `check`, `list` and `dump` against ecCodes (Debian's libeccodes-tools) on the same
# messages. A ratio is the time of ecCodes over ours: above 1, ours is the faster.
#
#     bench/read.sh [SIDE [FILE..]]     the large messages have SIDE times SIDE points, 4096 where none is given
#
# Files are measured beside them, as one with spatial differencing (Debian's python-grib-doc has some): ecCodes
# 2.28 writes order 0 of it, which is not in the profile.
#
# `check` decides every row of the format, and is compared with `grib_ls -p max`, which decodes every value.
# `dump` prints the scaled integer of every point, where `grib_get_data` prints places and rounded values.
#
# shellcheck disable=SC2154 # common.sh sets some names
# shellcheck disable=SC2317 # common.sh runs `ours` and `theirs`
set -euo pipefail
# shellcheck source=bench/common.sh
source "$(dirname "$0")/common.sh"
need grib_ls "Debian: libeccodes-tools"
side=${1:-4096}
sample=/usr/share/eccodes/samples/regular_ll_pl_grib2.tmpl
grib=$(our_program)

field_of_14_bits "$side" "$sample" "$work/simple.grib2"
grib_set -r -s packingType=grid_complex "$work/simple.grib2" "$work/complex.grib2"

for message in "$work/simple.grib2" "$work/complex.grib2" "${@:2}"; do
  ours() { "$grib" check <"$message"; }
  theirs() { grib_ls -p max "$message"; }
  ratio "check, $(basename "$message")" 3
done
message=$work/simple.grib2
ours() { "$grib" dump <"$message"; }
theirs() { grib_get_data "$message"; }
ratio "dump, simple" 1

# 500 messages of 496 points each.
for ((copy = 0; copy < 500; copy++)); do cat "$sample"; done >"$work/many.grib2"
ours() { "$grib" list <"$work/many.grib2"; }
theirs() { grib_ls "$work/many.grib2"; }
ratio "list of 500 messages" 3

# The most memory of a run.
for command in check dump; do
  for packing in simple complex; do
    message=$work/$packing.grib2
    peak=$({ /usr/bin/time -f %M "$grib" "$command" <"$message" >/dev/null; } 2>&1)
    awk -v what="$command, $packing" -v peak="$peak" -v size="$(wc -c <"$message")" -v points=$((side * side)) \
      'BEGIN { printf "%s: %.1f MB for a message of %.1f MB with %d points\n", what, peak * 1024 / 1e6, size / 1e6, points }'
  done
done
