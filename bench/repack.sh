#!/usr/bin/env bash
# Measures, in one run, `repack` against `grib_set -r -s packingType=..` of ecCodes (Debian's libeccodes-tools)
# on the same messages, and says how many octets each writes. A ratio is the time of ecCodes over ours: above 1,
# ours is the faster.
#
#     bench/repack.sh [SIDE [FILE..]]     the messages have SIDE times SIDE points, 4096 where none is given
#
# Files are packed to each template too, and the octets that ours writes are said beside those of the file.
# ecCodes 2.28 writes order 0 of differences whatever is asked for, which is not in the profile, so the message
# with differences is made by ours.
#
# shellcheck disable=SC2154 # common.sh sets some names
set -euo pipefail
# shellcheck source=bench/common.sh
source "$(dirname "$0")/common.sh"
need grib_set "Debian: libeccodes-tools"
side=${1:-4096}
sample=/usr/share/eccodes/samples/regular_ll_pl_grib2.tmpl
grib=$(our_program)
field_of_14_bits "$side" "$sample" "$work/simple.grib2"
"$grib" repack to=3 order=2 <"$work/simple.grib2" >"$work/spatial.grib2" 2>/dev/null

# How fast each packs a message, and in how many octets.
compare() { # WHAT FROM PACKING_TYPE WORD..
  local message=$work/$2 type=$3
  local words=("${@:4}")
  ours() { "$grib" repack "${words[@]}" <"$message" >"$work/ours.grib2"; }
  theirs() { grib_set -r -s packingType="$type" "$message" "$work/theirs.grib2"; }
  ratio "$1" 3
  echo "$1: $(wc -c <"$work/ours.grib2") octets, and $(wc -c <"$work/theirs.grib2") by ecCodes"
}
compare "5.0 to 5.0" simple.grib2 grid_simple to=0
compare "5.3 to 5.0" spatial.grib2 grid_simple to=0
compare "5.0 to 5.2" simple.grib2 grid_complex to=2
compare "5.0 to 5.3" simple.grib2 grid_complex_spatial_differencing to=3 order=2

for file in "${@:2}"; do
  for words in "to=0" "to=2" "to=3 order=1" "to=3 order=2"; do
    # The words of a target are words of their own.
    # shellcheck disable=SC2086
    if note=$("$grib" repack $words <"$file" 2>&1 >"$work/ours.grib2"); then
      echo "$(basename "$file"), $words: $(wc -c <"$work/ours.grib2") octets of $(wc -c <"$file")"
    else
      echo "$(basename "$file"), $words: $note"
    fi
  done
done

# The most memory of a run.
for words in "simple to=2" "simple to=3 order=2" "spatial to=0"; do
  message=$work/${words%% *}.grib2
  # shellcheck disable=SC2086
  peak=$({ /usr/bin/time -f %M "$grib" repack ${words#* } <"$message" >/dev/null; } 2>&1 | tail -1)
  awk -v what="$words" -v peak="$peak" -v size="$(wc -c <"$message")" -v points=$((side * side)) \
    'BEGIN { printf "%s: %.1f MB for a message of %.1f MB with %d points, %.1f octets a point\n", what, peak * 1024 / 1e6, size / 1e6, points, peak * 1024 / points }'
done
