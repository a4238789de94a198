#!/usr/bin/env bash
# The octets of files as they are and repacked to each packing.
#
#     bench/sizes.sh PROGRAM FILE..    the files of python-grib-doc where none is given
set -uo pipefail
program=${1:?PROGRAM}
shift
files=("$@")
examples=/usr/share/doc/python-grib-doc/examples
((${#files[@]} > 0)) || files=("$examples"/{eta.grb,gfs.grb,ngm.grb,ds.maxt.bin,ds.waveh.bin})
for file in "${files[@]}"; do
  printf '%s %d' "${file##*/}" "$(wc -c <"$file")"
  for to in "to=0" "to=2" "to=3 order=1" "to=3 order=2" "to=least" "to=42 profile=open" "to=least profile=open"; do
    # shellcheck disable=SC2086 # arguments of their own
    printf ', %s %d' "$to" "$("$program" repack $to refused=pass kept=copy <"$file" 2>/dev/null | wc -c)"
  done
  printf '\n'
done
