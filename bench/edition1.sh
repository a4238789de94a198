#!/usr/bin/env bash
# Measures, in one run, `check`, `list` and `dump` of messages of edition 1 against ecCodes (Debian's
# libeccodes-tools). A ratio is the time of ecCodes over ours: above 1, ours is the faster.
#
#     bench/edition1.sh [SIDE [FILE..]]     the large messages have SIDE times SIDE points, 2048 where none is given
#
# Files are measured beside them, as gfs.grb of Debian's python-grib-doc. ecCodes 2.28 reads total lengths from
# 8,388,608 octets on as multiples of 120, so a message is to have fewer: 2048 times 2048 points of 14 bits have.
#
# `check` decides every row of the format, and is compared with `grib_ls -p max`, which decodes every value.
# `dump` prints the scaled integer of every point, where `grib_get_data` prints places and rounded values.
#
# shellcheck disable=SC2154 # common.sh sets some names
# shellcheck disable=SC2317 # common.sh runs `ours` and `theirs`
set -euo pipefail
# shellcheck source=bench/common.sh
source "$(dirname "$0")/common.sh"
need grib_ls "Debian: libeccodes-tools"
side=${1:-2048}
sample=/usr/share/eccodes/samples/regular_ll_pl_grib1.tmpl
grib=$(our_program)

field_of_14_bits "$side" "$sample" "$work/plain.grib1"

# The same with every third value left out by a bitmap.
{
  printf 'set bitmapPresent = 1; set missingValue = 9999; set bitsPerValue = 14; set Ni = %d; set Nj = %d;\n' "$side" "$side"
  printf 'set values = {\n'
  awk -v side="$side" 'BEGIN {
    srand(1)
    for (j = 0; j < side; j++) for (i = 0; i < side; i++)
      printf "%s%.2f\n", (i + j ? "," : ""), (i % 3 ? 250 + 30 * sin(i / 97) * cos(j / 61) + rand() : 9999)
  }'
  printf '};\nwrite;\n'
} >"$work/filter"
grib_filter -o "$work/bitmap.grib1" "$work/filter" "$sample"

# Ten messages in one input: then the memory that a message takes is touched for the first time only once.
for ((copy = 0; copy < 10; copy++)); do cat "$work/plain.grib1"; done >"$work/ten.grib1"

for message in "$work/plain.grib1" "$work/bitmap.grib1" "$work/ten.grib1" "${@:2}"; do
  ours() { "$grib" check <"$message"; }
  theirs() { grib_ls -p max "$message"; }
  ratio "check, $(basename "$message")" 3
done
for message in "$work/plain.grib1" "$work/bitmap.grib1" "${@:2}"; do
  ours() { "$grib" dump <"$message"; }
  theirs() { grib_get_data "$message"; }
  ratio "dump, $(basename "$message")" 1
done

# 500 messages of 496 points each.
for ((copy = 0; copy < 500; copy++)); do cat "$sample"; done >"$work/many.grib1"
ours() { "$grib" list <"$work/many.grib1"; }
theirs() { grib_ls "$work/many.grib1"; }
ratio "list of 500 messages" 3

# The most memory of a run.
for command in check dump; do
  message=$work/plain.grib1
  peak=$({ /usr/bin/time -f %M "$grib" "$command" <"$message" >/dev/null; } 2>&1)
  awk -v what="$command" -v peak="$peak" -v size="$(wc -c <"$message")" -v points=$((side * side)) \
    'BEGIN { printf "%s: %.1f MB for a message of %.1f MB with %d points\n", what, peak * 1024 / 1e6, size / 1e6, points }'
done
