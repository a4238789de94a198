#!/usr/bin/env bash
# Measures, in one run, `demote` against `grib_set -s edition=1` of ecCodes (Debian's libeccodes-tools) on the same
# messages. A ratio is the time of ecCodes over ours: above 1, ours is the faster.
#
#     bench/demote.sh [SIDE]     the large messages have SIDE times SIDE points, 1500 where none is given
#
# A message of edition 1 of more than 8,388,607 octets is one that ecCodes 2.28 states otherwise: 2.25 million points
# of 14 bits stay below.
#
# shellcheck disable=SC2154 # common.sh sets some names
set -euo pipefail
# shellcheck source=bench/common.sh
source "$(dirname "$0")/common.sh"
need grib_set "Debian: libeccodes-tools"
side=${1:-1500}
sample=/usr/share/eccodes/samples/regular_ll_pl_grib2.tmpl
grib=$(our_program)
cd "$work"
cp "$top/params/standard.csv" table
echo "98,200,130,0,0,0,4,0" >>table # the parameter of the sample, by version 4 of the master tables

compare() { # WHAT FILE ROUNDS
  local message=$work/$2
  ours() { "$grib" demote params=table local=keep earth=any <"$message" >ours.grib1; }
  theirs() { grib_set -s edition=1 "$message" theirs.grib1; }
  # ecCodes turns simple packing alone into edition 1.
  [[ $2 == plain || $2 == many ]] ||
    theirs() { grib_set -r -s packingType=grid_simple "$message" simple.grib2 && grib_set -s edition=1 simple.grib2 theirs.grib1; }
  ours || fail "$1: $("$grib" demote params=table local=keep earth=any <"$message" 2>&1 >/dev/null)"
  ratio "$1" "$3"
}

field_of_14_bits "$side" "$sample" plain
"$grib" repack to=2 <plain >complex
"$grib" repack to=3 order=1 <plain >first
"$grib" repack to=3 order=2 <plain >second
compare "$((side * side)) points, 5.0" plain 5
compare "$((side * side)) points, 5.2" complex 5
compare "$((side * side)) points, 5.3 of order 1" first 5
compare "$((side * side)) points, 5.3 of order 2" second 5

# 500 messages of 496 points each.
for ((copy = 0; copy < 500; copy++)); do cat "$sample"; done >many
compare "500 messages" many 5

# The most memory of a run.
for message in plain second; do
  peak=$({ /usr/bin/time -f %M "$grib" demote params=table local=keep earth=any <"$message" >/dev/null; } 2>&1 | tail -1)
  awk -v what="$message" -v peak="$peak" -v size="$(wc -c <"$message")" \
    'BEGIN { printf "%s: %.1f MB for a message of %.1f MB\n", what, peak * 1024 / 1e6, size / 1e6 }'
done
