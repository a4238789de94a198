#!/usr/bin/env bash
# Measures, in one run, the commands of another program of this repository, as one of an earlier commit, against ours on
# the same messages. A ratio is the time of the other over ours: above 1, ours is the faster.
#
#     bench/against.sh OTHER [SIDE [MANY]]     large messages of SIDE times SIDE points, 2048 where none is given,
#                                              and as many small ones as MANY says, 300,000 where none is given
#
# The shipped program of an earlier commit: git show COMMIT:dist/grib-x86_64-linux-gnu > OTHER
#
# shellcheck disable=SC2015 # what stands behind || is meant for either
# shellcheck disable=SC2034 # names for functions of common.sh
# shellcheck disable=SC2154 # common.sh sets some names
set -euo pipefail
# shellcheck source=bench/common.sh
source "$(dirname "$0")/common.sh"
[[ $# -ge 1 && -x $1 ]] || fail "which other program?"
other=$(readlink -f "$1")
side=${2:-2048}
many=${3:-300000}
grib=$(our_program)
packings=("to=0" "to=2" "to=3 order=1" "to=3 order=2")

compare() { # WHAT INPUT ROUNDS WORD..
  local what=$1 input=$2 rounds=$3 words=("${@:4}")
  ours() { "$grib" "${words[@]}" <"$input" >"$work/ours.out"; }
  theirs() { "$other" "${words[@]}" <"$input" >"$work/theirs.out"; }
  ours 2>/dev/null && theirs 2>/dev/null && cmp "$work/ours.out" "$work/theirs.out" || fail "$what: the two answer otherwise"
  ratio "$what" "$rounds"
}

# Few points take a time that is too short to measure, so that each message stands eight times in an input.
for packing in "${packings[@]}"; do
  message=$work/large.${packing//[^0-9]/}
  # shellcheck disable=SC2086
  "$grib" make seed=7 ni="$side" nj="$side" $packing >"$message" 2>/dev/null
  for copy in 1 2 3 4 5 6 7 8; do cat "$message"; done >"$message.8"
  compare "check, $packing" "$message.8" 5 check
  rm "$message.8"
done
for to in 0 2 32; do
  message=$work/large.$to
  compare "dump, $to" "$message" 3 dump
  for packing in "to=0" "to=2" "to=3 order=2"; do
    # shellcheck disable=SC2086
    compare "repack $packing, $to" "$message" 3 repack $packing
  done
done

# Small messages of 183 octets, into a file and into a pipe.
"$grib" make seed=1 ni=2 nj=2 to=0 >"$work/small" 2>/dev/null
xargs cat < <(yes "$work/small" | head -n "$many") >"$work/many"
for words in check list "filter centre=98" "set centre=7" "repack to=2"; do
  # shellcheck disable=SC2086
  compare "$words, $many small messages" "$work/many" 3 $words
  # shellcheck disable=SC2086
  ours() { "$grib" $words <"$work/many" | cat >/dev/null; }
  # shellcheck disable=SC2086
  theirs() { "$other" $words <"$work/many" | cat >/dev/null; }
  ratio "$words, $many small messages, into a pipe" 3
done
