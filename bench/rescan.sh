#!/usr/bin/env bash
# Measures, in one run, `rescan` against `repack` to the packing that the message has, and `crop` of a quarter
# against `cdo selindexbox` (Debian: cdo), on messages of SIDE times SIDE points. A ratio is the time of the other
# over ours: above 1, ours is the faster.
#
#     bench/rescan.sh [SIDE]     4096 where none is given
#
# shellcheck disable=SC2154 # common.sh sets some names
# shellcheck disable=SC2317 # common.sh runs `ours` and `theirs`
set -euo pipefail
# shellcheck source=bench/common.sh
source "$(dirname "$0")/common.sh"
need grib_set "Debian: libeccodes-tools"
need cdo "Debian: cdo"
side=${1:-4096}
sample=/usr/share/eccodes/samples/regular_ll_pl_grib2.tmpl
grib=$(our_program)
step=20000 # 10^-6 degree
last=$(((side - 1) * step))
field_of_14_bits "$side" "$sample" "$work/raw.grib2"
grid="latitudeOfFirstGridPoint=80000000,latitudeOfLastGridPoint=$((80000000 - last)),longitudeOfFirstGridPoint=0"
grid+=",longitudeOfLastGridPoint=$last,iDirectionIncrement=$step,jDirectionIncrement=$step"
grib_set -s "$grid,scanningMode=0" "$work/raw.grib2" "$work/plain.grib2"
"$grib" repack to=3 order=2 <"$work/plain.grib2" >"$work/spatial.grib2" 2>/dev/null

# How fast the points are put in another order, beside packing them again alone.
compare_rescan() { # WHAT FROM SCANNING TARGET..
  local words=("${@:4}")
  grib_set -s "scanningMode=$3" "$work/$2" "$work/turned.grib2"
  ours() { "$grib" rescan <"$work/turned.grib2" >"$work/ours.grib2"; }
  theirs() { "$grib" repack "${words[@]}" <"$work/turned.grib2" >"$work/theirs.grib2"; }
  ratio "$1" 3
}
compare_rescan "rescan 64, 5.0" plain.grib2 64 to=0
compare_rescan "rescan 144, 5.0" plain.grib2 144 to=0
compare_rescan "rescan 32, 5.0" plain.grib2 32 to=0
compare_rescan "rescan 64, 5.3" spatial.grib2 64 to=3 order=2

# How fast a quarter is cut out.
low=$((side / 4))
high=$((low + side / 2 - 1))
compare_crop() { # WHAT FROM
  local message=$work/$2
  ours() { "$grib" crop i0=$low i1=$high j0=$low j1=$high <"$message" >"$work/ours.grib2"; }
  theirs() {
    cdo -s "selindexbox,$((low + 1)),$((high + 1)),$((low + 1)),$((high + 1))" "$message" "$work/theirs.grib2"
  }
  ratio "$1" 3
}
compare_crop "crop, 5.0" plain.grib2

# The most memory of a run.
peak_of() { # WHAT FILE WORD..
  local peak
  peak=$({ /usr/bin/time -f %M "$grib" "${@:3}" <"$work/$2" >/dev/null; } 2>&1 | tail -1)
  awk -v what="$1" -v peak="$peak" -v size="$(wc -c <"$work/$2")" -v points=$((side * side)) \
    'BEGIN { printf "%s: %.1f MB for a message of %.1f MB with %d points, %.1f octets a point\n", what, peak * 1024 / 1e6, size / 1e6, points, peak * 1024 / points }'
}
peak_of "rescan" turned.grib2 rescan
peak_of "crop" plain.grib2 crop i0="$low" i1="$high" j0="$low" j1="$high"
