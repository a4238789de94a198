#!/usr/bin/env bash
# Measures, in one run, `migrate` against `grib_set -s edition=2` of ecCodes (Debian's libeccodes-tools) on the same
# messages. A ratio is the time of ecCodes over ours: above 1, ours is the faster.
#
#     bench/migrate.sh [SIDE]     the large messages have SIDE times SIDE points, 2000 where none is given
#
# ecCodes 2.28 reads total lengths from 8,388,608 octets on as multiples of 120, so a message is to have fewer: four
# million points of 16 bits have.
#
# shellcheck disable=SC2154 # common.sh sets some names
set -euo pipefail
# shellcheck source=bench/common.sh
source "$(dirname "$0")/common.sh"
need grib_set "Debian: libeccodes-tools"
side=${1:-2000}
sample=/usr/share/eccodes/samples/regular_ll_pl_grib1.tmpl
grib=$(our_program)
cd "$work"
cp "$top/params/standard.csv" table
echo "98,128,167,0,0,0,2,0" >>table # the parameter of the sample, which the shipped table leaves out since it names its level

# A message of this many bits a point, every third point left out by a bitmap where one is asked for.
field() { # BITS BITMAP FILE
  {
    printf 'set Ni = %d; set Nj = %d; set bitmapPresent = %d; set missingValue = 9999; set bitsPerValue = %d;\n' "$side" "$side" "$2" "$1"
    printf 'set values = {\n'
    awk -v side="$side" -v bitmap="$2" 'BEGIN {
      srand(1)
      for (j = 0; j < side; j++) for (i = 0; i < side; i++)
        printf "%s%.2f\n", (i + j ? "," : ""), (bitmap && i % 3 == 0 ? 9999 : 250 + 30 * sin(i / 97) * cos(j / 61) + rand())
    }'
    printf '};\nwrite;\n'
  } >filter
  grib_filter -o "$3" filter "$sample"
}

compare() { # WHAT FILE ROUNDS
  local message=$work/$2
  ours() { "$grib" migrate params=table local=keep <"$message" >ours.grib2; }
  theirs() { grib_set -s edition=2 "$message" theirs.grib2; }
  ratio "$1" "$3"
}

for bits in 8 12 16; do
  for bitmap in 0 1; do
    field "$bits" "$bitmap" "field.$bits.$bitmap"
    compare "$((side * side)) points of $bits bits$([[ $bitmap == 1 ]] && echo ', with a bitmap')" "field.$bits.$bitmap" 5
  done
done

# 500 messages of 496 points each.
for ((copy = 0; copy < 500; copy++)); do cat "$sample"; done >many
compare "500 messages" many 5

# The most memory of a run.
for message in field.16.0 field.16.1; do
  peak=$({ /usr/bin/time -f %M "$grib" migrate params=table local=keep <"$message" >/dev/null; } 2>&1 | tail -1)
  awk -v what="$message" -v peak="$peak" -v size="$(wc -c <"$message")" \
    'BEGIN { printf "%s: %.1f MB for a message of %.1f MB\n", what, peak * 1024 / 1e6, size / 1e6 }'
done
