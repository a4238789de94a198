#!/usr/bin/env bash
# Measures, in one run, how fast CCSDS packing is written and read: against `grib_set -r -s packingType=..` and `grib_ls`
# of ecCodes (Debian's libeccodes-tools), and against libaec alone (libaec-dev), which a small program calls on the same
# numbers (ccsds.c). A ratio is the time of the other over ours: above 1, ours is the faster. Against libaec alone that is
# the time of whole runs: ours tests a message and writes one, the small program only codes or decodes its numbers. Then
# the time that libaec takes in memory, by value, and that of a whole run of ours; and the octets of each packing.
#
#     bench/ccsds.sh PROGRAM [SIDE [FILE..]]     the messages have SIDE times SIDE points, 2048 where none is given
#
# The messages that are made have a decimal scale factor of 0: with another one ecCodes 2.28 writes CCSDS packing wrongly
# unless the binary scale factor is 0. Of a FILE, which may have such fields, the time of `grib_set` to CCSDS packing
# counts whatever it wrote.
#
# shellcheck disable=SC2154,SC2317 # common.sh sets some names; it calls ours and theirs
set -euo pipefail
# shellcheck source=bench/common.sh
source "$(dirname "$0")/common.sh"
grib=$(realpath "${1:?PROGRAM}")
side=${2:-2048}
rounds=5
need grib_set "Debian: libeccodes-tools"
need gcc
gcc -O2 -Wall -Wextra -std=gnu11 -o "$work/ccsds" "$top/bench/ccsds.c" -laec || fail "ccsds.c was not built (Debian: libaec-dev)"
sample=/usr/share/eccodes/samples/regular_ll_pl_grib2.tmpl

# Makes a message of SIDE times SIDE points of 12 bits, most of them 0, as rain is: some showers with noise.
field_of_rain() { # SIDE SAMPLE FILE
  {
    printf 'set Ni = %d; set Nj = %d; set bitsPerValue = 12;\nset values = {\n' "$1" "$1"
    awk -v side="$1" 'BEGIN {
      srand(1)
      for (j = 0; j < side; j++) for (i = 0; i < side; i++) {
        rain = 40 * sin(i / 53) * sin(j / 71) - 25 + 4 * rand()
        printf "%s%.2f\n", (i + j ? "," : ""), (rain > 0 ? rain : 0)
      }
    }'
    printf '};\nwrite;\n'
  } >"$work/filter"
  grib_filter -o "$3" "$work/filter" "$2"
}

# The message in simple and in CCSDS packing, by ours and by ecCodes.
pack() { # NAME FILE
  "$grib" repack to=0 profile=open kept=pass <"$2" >"$work/$1.simple" 2>/dev/null || true
  "$grib" repack to=42 profile=open <"$work/$1.simple" >"$work/$1.coded" 2>"$work/note" || fail "$1: $(cat "$work/note")"
  "$grib" repack to=least profile=open <"$work/$1.simple" >"$work/$1.least" 2>/dev/null || fail "$1: to=least"
  grib_set -r -s packingType=grid_ccsds "$work/$1.simple" "$work/$1.theirs" 2>/dev/null || true
  echo "$1: $(wc -c <"$work/$1.simple") octets in 5.0, $(wc -c <"$work/$1.coded") in 5.42, $(wc -c <"$work/$1.theirs") in 5.42 by ecCodes, $(wc -c <"$work/$1.least") by to=least profile=open"
}

# The time of ours by value, of the runs that `ratio` made last.
by_value() { # WHAT VALUES
  awk -v what="$1" -v values="$2" 'NR == 1 { printf "%s: %.1f ns a value, the whole run\n", what, $1 * 1e9 / values }' "$work/ours.sorted"
}

measure() { # NAME
  local name=$1 simple=$work/$1.simple coded=$work/$1.coded values
  values=$("$grib" list <"$simple" | sed 's/.* values=//' | awk '{ sum += $1 } END { print sum }')
  ours() { "$grib" repack to=42 profile=open <"$simple" >"$work/ours.grib2"; }
  theirs() { grib_set -r -s packingType=grid_ccsds "$simple" "$work/theirs.grib2"; }
  (ratio "$name, 5.0 to 5.42, against ecCodes" "$rounds") || echo "$name, 5.0 to 5.42: ecCodes fails"
  theirs() { "$work/ccsds" encode "$simple" "$work/theirs.coded"; }
  ratio "$name, 5.0 to 5.42, against libaec alone" "$rounds"
  by_value "$name, repack to=42" "$values"

  ours() { "$grib" repack to=0 profile=open <"$coded" >"$work/ours.grib2"; }
  theirs() { grib_set -r -s packingType=grid_simple "$coded" "$work/theirs.grib2"; }
  (ratio "$name, 5.42 to 5.0, against ecCodes" "$rounds") || echo "$name, 5.42 to 5.0: ecCodes fails"
  theirs() { "$work/ccsds" decode "$coded" "$work/theirs.numbers"; }
  ratio "$name, 5.42 to 5.0, against libaec alone" "$rounds"
  by_value "$name, repack to=0 of 5.42" "$values"

  ours() { "$grib" check profile=open <"$coded"; }
  theirs() { grib_ls -p max "$coded"; }
  (ratio "$name, check of 5.42, against grib_ls -p max" "$rounds") || echo "$name, grib_ls: ecCodes fails"
  theirs() { "$work/ccsds" decode "$coded" "$work/theirs.numbers"; }
  ratio "$name, check of 5.42, against libaec alone" "$rounds"
  by_value "$name, check" "$values"

  # libaec in memory, of the first field.
  "$work/ccsds" time "$simple" "$rounds" || echo "$name: the first field has one value alone"
}

# The most memory of a run.
memory() { # NAME POINTS
  local words peak
  for words in "simple repack to=42" "simple repack to=least" "coded repack to=0" "coded check"; do
    # shellcheck disable=SC2086 # the words of a command are words of their own
    peak=$({ /usr/bin/time -f %M "$grib" ${words#* } profile=open <"$work/$1.${words%% *}" >/dev/null; } 2>&1 | tail -1)
    awk -v what="$1, ${words#* }" -v peak="$peak" -v points="$2" 'BEGIN { printf "%s: %.1f MB, %.1f octets a point\n", what, peak * 1024 / 1e6, peak * 1024 / points }'
  done
}

field_of_14_bits "$side" "$sample" "$work/waves.grib2"
field_of_rain "$side" "$sample" "$work/rain.grib2"
for name in waves rain; do
  pack "$name" "$work/$name.grib2"
  measure "$name"
  memory "$name" $((side * side))
done
for file in "${@:3}"; do
  name=$(basename "$file")
  pack "$name" "$file"
  measure "$name"
done
