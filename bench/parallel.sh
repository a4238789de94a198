#!/usr/bin/env bash
# Compares grib-parallel with one run of the program: the same octets, note and status, on gfs.grb of Debian's
# python-grib-doc ten times over, on damaged and mixed input, where a device fails, and with names that a shell or GNU
# parallel would read as something else. What it starts ends with it, and its folder goes, whatever signal comes. Then
# the time of one run over that of four jobs, and how many megabytes a second a host does by ssh; these ask for four free
# processors, and are left out where a second word is given.
#
#     bench/parallel.sh PROGRAM [WITHOUT TIMES]
#
# shellcheck disable=SC2015 # what stands behind || is meant for either
# shellcheck disable=SC2016 # what looks like code is a name
# shellcheck disable=SC2053 # notes are compared with patterns
# shellcheck disable=SC2154 # common.sh sets `top` and `work`
set -euo pipefail
# shellcheck source=bench/common.sh
source "$(dirname "$0")/common.sh"
[[ $# -ge 1 ]] || fail "the program has to be named"
GRIB=$(readlink -f "$1")
export GRIB
need parallel "Debian: parallel"
file=/usr/share/doc/python-grib-doc/examples/gfs.grb
[[ -f $file ]] || fail "$file is not here (Debian: python-grib-doc)"
failed=0

# Runs both on the input and compares all that they answer.
alike() { # WHAT JOBS INPUT WORD..
  local what=$1 jobs=$2 input=$3 one=0 many=0
  shift 3
  "$GRIB" "$@" <"$input" >"$work/one.out" 2>"$work/one.note" || one=$?
  timeout 300 "$top/grib-parallel" "$jobs" "$@" <"$input" >"$work/many.out" 2>"$work/many.note" || many=$?
  if ((one == many)) && cmp "$work/one.out" "$work/many.out" && cmp "$work/one.note" "$work/many.note"; then
    echo "$what: the same, status $one, $(wc -c <"$work/one.out") octets"
  else
    echo "$what: status $one and $many, notes '$(cat "$work/one.note")' and '$(cat "$work/many.note")'" >&2
    failed=1
  fi
}

ten=$work/ten
for _ in 1 2 3 4 5 6 7 8 9 10; do cat "$file"; done >"$ten"
twice=$work/twice
cat "$file" "$file" >"$twice"
# Octets changed at a place.
with() { # FROM TO PLACE OCTETS
  cp "$1" "$2" && printf '%b' "$4" | dd of="$2" bs=1 seek="$3" conv=notrunc status=none
}
some=$("$GRIB" check <"$twice" | awk '$1 == "message" && $2 == 432 { print $4 }')
last=$("$GRIB" check <"$twice" | awk '$1 == "message" && $2 == 616 { print $4 }')
with "$twice" "$work/template" $((some + 16 + 21 + 12)) '\0\143'    # another grid template in the 432nd message
with "$twice" "$work/longer" $((some + 8)) '\0\0\0\0\0\1\0\0'       # its total length is another
with "$twice" "$work/claims" $((some + 8)) '\0\0\0\0\17\377\377\377' # one that goes beyond the input
with "$twice" "$work/huge" $((some + 8)) '\377\377\377\377\377\377\377\377'
with "$twice" "$work/edition" $((some + 7)) '\3'
with "$twice" "$work/mark" "$some" 'GRIX'                           # its mark is lost, and it is skipped
with "$twice" "$work/end" $((last - 1)) '8'                          # the end mark of the last but one
head -c -7 "$twice" >"$work/cut"
{ printf 'GRI'; head -c 100000 /dev/zero; cat "$file"; printf 'SXXX01 EDZW\r\r\nGG'; cat "$file"; printf 'GRIB'; } >"$work/junk"
{ cat "$file" /usr/share/doc/python-grib-doc/examples/regular_latlon_surface.grib1 "$file"; } >"$work/mixed"
: >"$work/nothing"
printf 'no message at all' >"$work/text"

alike "repack of ten times gfs.grb, 4 jobs" 4 "$ten" repack to=3 order=2
alike "filter, 3 jobs" 3 "$ten" filter surface1=100 surface1Value=50000
alike "set, 1 job" 1 "$ten" set centre=98
alike "set of any template" 4 "$work/template" set centre=98 profile=open
alike "rescan of an opaque grid" 3 "$work/template" rescan profile=open
for damaged in template longer claims huge edition mark end cut junk mixed nothing text; do
  alike "set, $damaged" 4 "$work/$damaged" set centre=98
  alike "filter, $damaged" 2 "$work/$damaged" filter centre=7 surface1=100
done
alike "a folder as input" 2 "$work" set centre=98
alike "words without a reading" 4 "$twice" set points=3
alike "a value that does not fit" 4 "$twice" set month=256
alike "a message that has no such key" 4 "$twice" set ensembleNumber=1
# Two hosts: a command in place of ssh runs what it is given in a folder of its own.
mkdir "$work/home" "$work/there"
cat >"$work/ssh" <<SSH
#!/usr/bin/env bash
while [[ \$1 == -* ]]; do case \$1 in -[lpoi]) shift 2 ;; *) shift ;; esac; done
host=\$1
shift
[[ \$host != absent ]] || exit 255
echo "a greeting of the host" >&2
cd "$work/home" && HOME=$work/home TMPDIR=$work/there exec bash -c "\$*"
SSH
chmod +x "$work/ssh"
cp "$top/params/standard.csv" "$top/params/surfaces.csv" "$work"
table=$work/standard.csv
# 2 metre temperature as ERA5 has it: only the table of surfaces has a record for it.
{
  printf 'GRIB\0\0\154\1\0\0\64\200\142\200\377\200\247\1\0\0\30\1\17\14\0\1\6\0\0\0\0\0\25\0\0\0'
  printf '\0\0\0\0\0\0\0\0\0\0\0\0\1\27\13\4\0060042\3\12\0'
  printf '\0\0\40\0\377\0\0\20\0\37\0\352\140\0\0\0\200\0\0\0\0\165\60\7\320\7\320\0\0\0\0\0'
  printf '\0\0\14\10\200\12\101\20\0\0\0\0007777'
} >"$work/era5"
for _ in 1 2 3 4 5 6 7 8; do cat "$work/era5"; done >"$work/era5s"
both_tables() { # WHAT
  (cd "$work" && alike "$1" 2 "$work/era5s" migrate surfaces=surfaces.csv params=standard.csv local=ecmwf && ((failed == 0))) || failed=1
}
both_tables "both tables"
# What each of two hosts is to do, under the names that stand in GRIB_HOSTS.
on_hosts() { # WHAT
  alike "$1: set" 2 "$file" set centre=98
  alike "$1: set, damaged" 1 "$work/mixed" set centre=98
  alike "$1: filter, cut" 2 "$work/cut" filter centre=7 surface1=100
  alike "$1: nothing" 2 "$work/nothing" set centre=98
  alike "$1: migrate" 1 /usr/share/doc/python-grib-doc/examples/regular_latlon_surface.grib1 migrate params="$table" local=keep
  both_tables "$1: both tables"
  alike "$1: demote" 2 "$file" demote params="$table" earth=any
  alike "$1: a value that does not fit" 2 "$twice" set month=256
}
PARALLEL_SSH=$work/ssh GRIB_HOSTS=first,me@second:2222 on_hosts "two hosts"
PARALLEL_SSH=$work/ssh GRIB_HOSTS=first,: alike "a host and this machine: migrate" 1 "$work/mixed" migrate params="$table"
PARALLEL_SSH=$work/ssh GRIB_HOSTS=absent,first alike "a host that is not there, and one that is" 1 "$twice" set centre=98
stayed=$(find "$work/home" "$work/there" -type f)
[[ -z $stayed ]] || { echo "files stayed on a host: $stayed" >&2; failed=1; }
# This machine by ssh, where a server for it is installed.
sshd=$(PATH=$PATH:/usr/sbin type -P sshd) || sshd=''
server=''
if [[ -n $sshd ]]; then
  mkdir "$work/keys"
  ssh-keygen -q -t ed25519 -N '' -f "$work/keys/host"
  ssh-keygen -q -t ed25519 -N '' -f "$work/keys/user"
  port=$((20000 + RANDOM % 10000))
  printf '%s\n' "Port $port" "ListenAddress 127.0.0.1" "HostKey $work/keys/host" "AuthorizedKeysFile $work/keys/user.pub" "PidFile none" \
    "StrictModes no" "UsePAM no" "MaxStartups 200" "PermitRootLogin yes" >"$work/keys/conf"
  [[ $(id -u) != 0 ]] || mkdir -p /run/sshd
  "$sshd" -D -f "$work/keys/conf" 2>"$work/keys/log" &
  server=$!
  trap 'kill "$server" 2>/dev/null; rm -rf "$work"' EXIT
  by_ssh="ssh -q -i $work/keys/user -p $port -o StrictHostKeyChecking=no -o UserKnownHostsFile=/dev/null 127.0.0.1"
  for ((n = 0; n < 100; n++)); do ${by_ssh} true 2>/dev/null && break; sleep 0.1; done
  GRIB_HOSTS=$by_ssh on_hosts "by ssh"
  GRIB_HOSTS=$by_ssh alike "by ssh: ten times gfs.grb" 2 "$ten" set centre=98
else
  echo "hosts by ssh: not tried, sshd is not here"
fi
# From a pipe, to a full device, and without GNU parallel.
"$GRIB" filter centre=7 <"$file" >"$work/one.out" 2>/dev/null
# shellcheck disable=SC2002 # a pipe is what is tried
cat "$file" | "$top/grib-parallel" 2 filter centre=7 2>/dev/null | cmp - "$work/one.out" || failed=1
mkdir "$work/temporary" "$work/bin"
export TMPDIR=$work/temporary
for name in bash cat cut head mkfifo mktemp perl readlink rm sed seq tail touch wc dirname ln sleep; do ln -s "$(command -v "$name")" "$work/bin/$name"; done
without_parallel() { PATH=$work/bin "$top/grib-parallel" "$@"; }

# A run by its status, and by its note, which is a line.
ends() { # WHAT STATUS NOTE COMMAND WORD..
  local what=$1 wanted=$2 note=$3 status=0
  shift 3
  timeout 100 bash -c '"$@"' bash "$@" >"$work/many.out" 2>"$work/many.note" || status=$?
  if ((status == wanted)) && [[ $(cat "$work/many.note") == $note ]] && clean "$what"; then
    echo "$what: status $status"
  else
    echo "$what: status $status, note '$(head -c 300 "$work/many.note")'" >&2
    failed=1
  fi
}
# Whether no temporary file is left.
clean() { # WHAT
  [[ -z $(ls -A "$TMPDIR") ]] && return
  echo "$1: temporary files are left" >&2
  failed=1 && rm -rf "${TMPDIR:?}"/*
}
parallel=$top/grib-parallel
export top work TMPDIR
export -f without_parallel
ends "no GNU parallel" 70 "*in the package 'parallel'" without_parallel 2 filter centre=7
for word in check list keys dump values stats split make help version --help --version; do
  ends "$word" 70 "grib-parallel: $word * run it by itself" "$parallel" 2 "$word"
done
ends "no such command" 1 "usage word 0" "$parallel" 2 frob
for number in 0 1000 99999 4x '{}'; do ends "$number jobs" 1 "Runs a command of grib*" "$parallel" "$number" set centre=98; done
GRIB=/absent/grib ends "no program" 70 "grib-parallel: /absent/grib is no program" "$parallel" 2 set centre=98
GRIB=$work ends "a folder as program" 70 "grib-parallel: * is no program" "$parallel" 2 set centre=98
GRIB="eval" ends "a word of the shell as program" 70 "grib-parallel: eval is neither *" "$parallel" 2 'touch ran'
ends "no folder for temporary files" 70 "*grib-parallel: no folder for temporary files" bash -c 'TMPDIR=/absent "$top/grib-parallel" 2 set centre=98'
for names in 'one;touch ran' '$(touch ran)' $'one\ntouch ran' '-oProxyCommand=touch ran' '{= system("touch ran") =}' '`touch ran`'; do
  GRIB_HOSTS=$names ends "hosts named $names" 70 "grib-parallel: GRIB_HOSTS has to be names of hosts *" "$parallel" 2 set centre=98
done

# Standard input from where it stands, closed, or not for reading; output and notes closed or full; no room for
# temporary files.
with_standard() { # REDIRECTIONS COMMAND WORD..
  bash -c "\"\$@\" $1" bash "${@:2}"
}
for files in "<'$file' 2>&-" "<'$file' 2>/dev/full" "<'$file' >&-" "<'$file' >/dev/full" '<&-' '0>/dev/null' '0>>"$work/nothing"' '<&- 2>&-' '<&- >&- 2>&-' '</dev/null >&-' "<'$work'"; do
  one=0 many=0
  work=$work with_standard "$files" "$GRIB" filter centre=7 >"$work/one.out" 2>"$work/one.note" || one=$?
  work=$work with_standard "$files" "$parallel" 2 filter centre=7 >"$work/many.out" 2>"$work/many.note" || many=$?
  # Where the note fails, one run does not write what it still holds of the output.
  ((one != 6)) || truncate -s "$(wc -c <"$work/one.out")" "$work/many.out"
  if ((one == many)) && cmp "$work/one.out" "$work/many.out" && cmp "$work/one.note" "$work/many.note" && clean "$files"; then
    echo "files ${files//"$work"/..}: the same, status $one"
  else
    echo "files $files: status $one and $many, notes '$(cat "$work/one.note")' and '$(cat "$work/many.note")'" >&2
    failed=1
  fi
done
first=$("$GRIB" check <"$file" | awk 'NR == 2 { print $4 }')
skip_first() { # COMMAND WORD..
  dd bs="$first" count=1 status=none of=/dev/null && "$@"
}
skip_first "$GRIB" set centre=98 <"$file" >"$work/one.out" 2>"$work/one.note"
skip_first "$parallel" 3 set centre=98 <"$file" >"$work/many.out" 2>"$work/many.note"
cmp "$work/one.out" "$work/many.out" && cmp "$work/one.note" "$work/many.note" || failed=1
{ "$parallel" 3 set centre=98 >/dev/null 2>&1 && wc -c; } <"$file" | grep -qx 0 || { echo "the input does not stand at its end" >&2; failed=1; }
no_room() { # BLOCKS COMMAND WORD..
  (ulimit -f "$1" && exec "${@:2}") 2> >(cat >&2) | cat >/dev/null
  return "${PIPESTATUS[0]}"
}
export -f no_room
for blocks in 0 1 64; do
  ends "no room beyond $blocks blocks" 70 "*grib-parallel: *" no_room "$blocks" "$parallel" 2 set centre=98 <"$file"
  ends "no room beyond $blocks blocks, from a pipe" 70 "*grib-parallel: *" no_room "$blocks" "$parallel" 2 set centre=98 < <(cat "$file")
done

# Names of the table, the program, the folder of the script and that of temporary files.
odd=$work/odd
mkdir "$odd"
{
  printf 'GRIB\0\0\x58\1\0\0\x1c\2\x62\1\xff\x80\x0b\x64\1\xf4\x18\1\x0f\x0c\0\1\6\0\0\0\0\0\x15\0\0\1'
  printf '\0\0\x20\0\xff\0\0\2\0\2\0\xc3\x50\0\x27\x10\x80\0\xbf\x68\0\x2a\xf8\3\xe8\3\xe8\0\0\0\0\0'
  printf '\0\0\x10\x08\x80\3\xc2\x76\xa0\0\x08\0\1\2\xff\0007777'
} >"$odd/first"
for _ in {1..40}; do cat "$odd/first"; done >"$odd/forty"
names=('a b' "it's" '"quoted"' '$(touch ran)' '`touch ran`' $'new\nline' $'last\n' '{}' '{= system("touch ran") =}' '{1}' '{#}' '{%}'
  '{.}' ':::' '*' '?' '-rf' '--' 'a;touch ran' 'a&touch ran' '|touch ran' '>ran' '~' 'a\b' 'a\nb' '#a' ' ' 'ö' $'j\xf6rg' 'a=b' 'a,b')
for name in "${names[@]}"; do
  folder=$odd/$name
  mkdir -p "$folder/$name"
  for n in 1 2 3 4 5 6 7 8; do echo "98,2,11,0,0,$n,2,0" >"$folder/$n.csv"; done
  echo '98,2,11,0,0,0,2,0' >"$folder/$name.csv"
  cp "$GRIB" "$folder/grib"
  cp "$parallel" "$folder/grib-parallel"
  for word in params="$name.csv" params="$folder/$name.csv" params=1.csv; do
    one=0 many=0
    (cd "$folder" && exec -a grib ./grib migrate "$word" local=keep) <"$odd/forty" >"$work/one.out" 2>"$work/one.note" || one=$?
    (cd "$folder" && unset GRIB && TMPDIR="$folder/$name" exec -- "$folder/grib-parallel" 2 migrate "$word" local=keep) <"$odd/forty" >"$work/many.out" 2>"$work/many.note" || many=$?
    if ((one != many)) || ! cmp "$work/one.out" "$work/many.out" || ! cmp "$work/one.note" "$work/many.note" || [[ -n $(ls -A "$folder/$name") ]]; then
      printf 'named %q, %q: status %s and %s, notes %q and %q\n' "$name" "$word" "$one" "$many" "$(cat "$work/one.note")" "$(cat "$work/many.note")" >&2
      failed=1
    fi
  done
done
[[ -z $(find "$odd" -name ran) && ! -e ran ]] || { echo "a name was run" >&2; failed=1; }
echo "${#names[@]} odd names: tried"

# Any signal, at any time: what was started ends, and the folder goes.
for signal in HUP INT QUIT TERM USR1 USR2 ALRM XCPU; do
  for seconds in 0.05 0.1 0.2 0.4 0.8; do
    (exec env --default-signal=INT --default-signal=QUIT "$parallel" 2 repack to=3 order=2) <"$ten" >/dev/null 2>&1 &
    script=$!
    sleep "$seconds"
    kill -"$signal" "$script" 2>/dev/null || echo "$signal after $seconds seconds: the run had ended" >&2
    status=0
    wait "$script" 2>/dev/null || status=$?
    ((status == 70 || status == 128 + $(kill -l "$signal"))) && clean "$signal after $seconds seconds" || { echo "$signal after $seconds seconds: status $status" >&2; failed=1; }
  done
done
# While it waits for an input, and for one who reads its output.
mkfifo "$work/never"
for files in "<'$work/never'" "<'$ten' >'$work/never'"; do
  exec 7<>"$work/never"
  bash -c "exec '$parallel' 2 set centre=98 $files 2>/dev/null 7<&-" >/dev/null &
  script=$!
  sleep 3
  kill "$script"
  SECONDS=0 status=0
  wait "$script" || status=$?
  ((status == 70 && SECONDS < 10)) && clean "a signal with $files" || { echo "a signal with $files: status $status after $SECONDS seconds" >&2; failed=1; }
  exec 7<&-
done
echo "signals: tried"
((failed == 0)) || exit 1

[[ $# == 1 ]] || exit 0
one() { "$GRIB" repack to=3 order=2 <"$ten"; }
four() { "$top/grib-parallel" 4 repack to=3 order=2 <"$ten"; }
elapsed() { # COMMAND
  local TIMEFORMAT=%3R
  { time "$1" >/dev/null 2>&1; } 2>&1
}
for _ in 1 2 3; do
  elapsed one >>"$work/one.times"
  elapsed four >>"$work/four.times"
done
if [[ -n $server ]]; then
  for _ in 1 2 3 4 5 6 7 8 9 10; do cat "$ten"; done >"$work/hundred"
  by_host() { GRIB_HOSTS=$by_ssh "$top/grib-parallel" "$at_once" set centre=98 <"$input"; }
  for input in "$ten" "$work/hundred"; do
    for at_once in 1 4; do
      for _ in 1 2 3; do elapsed by_host; done >"$work/host.times"
      awk -v octets="$(wc -c <"$input")" -v seconds="$(least "$work/host.times")" -v jobs="$at_once" -v processors="$(nproc)" \
        'BEGIN { printf "set of %.0f MB by ssh on this machine, %d processors, %d jobs at most: %.1f MB/s a host\n", octets / 1e6, processors, jobs, octets / seconds / 1e6 }'
    done
  done
fi
awk -v one="$(least "$work/one.times")" -v four="$(least "$work/four.times")" \
  'BEGIN { printf "repack of ten times gfs.grb, four jobs: %.2f times as fast as one run\n", one / four }'
