#!/usr/bin/env bash
# Puts the proved program, with what it was built from, grib-parallel, the man page, completion for bash, the parameter
# table, the module for Python, the pages and their examples under PREFIX, and takes them away again. The program is the
# shipped one, or else one that is built first.
#
#     ./install.sh [PREFIX]            PREFIX is ~/.local where none is given, and begins with '/'
#     ./install.sh remove [PREFIX]     also as PREFIX/share/grib/install.sh remove, where this folder is gone
#     ./install.sh --help
#
# A folder DESTDIR stands before PREFIX in what is written, as for packages. PREFIX/share/grib/installed lists what was
# put where: `remove` takes that away, as far as it is still what was put there, and the folders that are empty then. The
# status is 1 if something failed, 2 if the arguments are wrong.
#
# shellcheck disable=SC2015 # what stands behind || is meant for either
# shellcheck disable=SC2016 # a line for ~/.profile
# shellcheck disable=SC2154 # dist/common.sh sets `program` and `program_from`
set -uo pipefail
export LC_ALL=C # a name may have any octets

fail() {
  printf 'install.sh: %s\n' "$*" >&2
  exit 1
}

usage() {
  printf 'install.sh: %s\n' "$*" "'install.sh --help' lists the arguments" >&2
  exit 2
}

self=$(readlink -f -- "$0") || fail "cannot find the folder of $0"
top=${self%/*}
word=install
case ${1-} in
--help)
  sed -n '2,13s/^# \{0,1\}//p' <"$self"
  exit
  ;;
remove)
  word=remove
  shift
  ;;
esac
[[ $# -le 1 ]] || usage "there is an argument too many"
# What was installed knows where it is.
here=${HOME:+$HOME/.local}
[[ $top != */share/grib || -e $top/dist/common.sh ]] || here=${top%/share/grib}
prefix=${1:-$here}
[[ -n $prefix ]] || usage "HOME is not set, so PREFIX has to be given"
[[ $prefix == /* ]] || usage "PREFIX has to begin with '/', and '$prefix' does not"
[[ -z ${DESTDIR-} || $DESTDIR == /* ]] || usage "DESTDIR has to begin with '/', and '$DESTDIR' does not"
under=${DESTDIR-}$prefix
installed=share/grib/installed
new=
trap '[[ -z $new ]] || rm -f -- "$new"' EXIT
trap 'exit 1' HUP INT QUIT TERM

# What is installed, but for the program and what it was built from: MODE, file here, place under PREFIX. The pages lie to
# one another as they do here.
files() {
  cat <<FILES
755 grib-parallel bin/grib-parallel
644 docs/grib.1 share/man/man1/grib.1
644 share/bash-completion/completions/grib share/bash-completion/completions/grib
644 params/standard.csv share/grib/params/standard.csv
644 params/surfaces.csv share/grib/params/surfaces.csv
644 params/names2.csv share/grib/params/names2.csv
644 params/names2-ncep.csv share/grib/params/names2-ncep.csv
644 share/python/tachilwe.py share/grib/python/tachilwe.py
755 install.sh share/grib/install.sh
644 README.md share/doc/grib/README.md
644 docs/GUIDE.md share/doc/grib/docs/GUIDE.md
644 docs/GLOSSARY.md share/doc/grib/docs/GLOSSARY.md
644 docs/PROFILE.md share/doc/grib/docs/PROFILE.md
644 docs/WORKED.md share/doc/grib/docs/WORKED.md
644 docs/GUARANTEES.md share/doc/grib/docs/GUARANTEES.md
644 docs/MEASURING.md share/doc/grib/docs/MEASURING.md
644 docs/FROM-ECCODES.md share/doc/grib/docs/FROM-ECCODES.md
644 docs/LIBRARY.md share/doc/grib/docs/LIBRARY.md
644 docs/pictures/sizes.svg share/doc/grib/docs/pictures/sizes.svg
644 docs/pictures/field.png share/doc/grib/docs/pictures/field.png
644 docs/ARCHITECTURE.md share/doc/grib/docs/ARCHITECTURE.md
644 docs/DEFINITIONS.md share/doc/grib/docs/DEFINITIONS.md
644 docs/DECISIONS.md share/doc/grib/docs/DECISIONS.md
644 CONTRIBUTING.md share/doc/grib/CONTRIBUTING.md
644 CHANGELOG.md share/doc/grib/CHANGELOG.md
644 params/README.md share/doc/grib/params/README.md
644 params/names.txt share/doc/grib/params/names.txt
644 params/surfaces.txt share/doc/grib/params/surfaces.txt
644 examples/four-points.grib2 share/doc/grib/examples/four-points.grib2
644 examples/south-north.grib2 share/doc/grib/examples/south-north.grib2
644 examples/two-fields.grib2 share/doc/grib/examples/two-fields.grib2
755 examples/plot.py share/doc/grib/examples/plot.py
FILES
}
# Links beside them: what they lead to, and their place.
links() {
  cat <<LINKS
grib.1 share/man/man1/grib-parallel.1
grib share/bash-completion/completions/grib-parallel
../../../grib/params/standard.csv share/doc/grib/params/standard.csv
../../../grib/params/surfaces.csv share/doc/grib/params/surfaces.csv
../../../grib/params/names2.csv share/doc/grib/params/names2.csv
../../../grib/params/names2-ncep.csv share/doc/grib/params/names2-ncep.csv
LINKS
}
# The places of files that an earlier install.sh put, which left no list.
earlier() {
  [[ ! -e $under/$installed && -f $under/share/doc/grib/built-from ]] || return 0
  printf '%s\n' bin/grib bin/grib-parallel share/man/man1/grib.1 share/man/man1/grib-parallel.1 \
    share/bash-completion/completions/grib share/bash-completion/completions/grib-parallel share/grib/params/standard.csv \
    share/grib/params/names.txt share/grib/params/README.md share/grib/install.sh share/doc/grib/built-from \
    share/doc/grib/GUIDE.md share/doc/grib/PROFILE.md share/doc/grib/GUARANTEES.md
}

# What a file or link is, as it stands in the list: its checksum, or what the link leads to; nothing of a folder.
what_is() { # FILE
  if [[ -L $1 ]]; then
    printf 'link:%s' "$(readlink -- "$1")"
  elif [[ -f $1 ]]; then
    sha256sum <"$1" | cut -d ' ' -f 1
  fi
}
# The list that is there: WHAT PLACE.
listed() {
  [[ ! -f $under/$installed ]] || cat -- "$under/$installed"
}

# Whether a place has what the list says that was put there.
is_ours() { # PLACE
  local what
  what=$(what_is "$under/$1")
  [[ -n $what && " ${ours[$1]-} " == *" $what "* ]]
}
is_there() { # PLACE
  [[ -e $under/$1 || -L $under/$1 ]]
}
# Takes away the folders above a place that are empty.
remove_folders() { # PLACE
  local place=$1
  while [[ $place == */* ]]; do
    place=${place%/*}
    rmdir -- "$under/$place" 2>/dev/null || return 0
  done
}
# Takes away what was put at these places, and the folders that are empty then.
take_away() { # PLACE..
  local place failed=0
  for place in "$@"; do
    is_there "$place" || continue
    if ! is_ours "$place"; then
      echo "left $under/$place, which is not what was put there"
    elif rm -f -- "$under/$place"; then
      echo "removed $under/$place"
    else
      failed=1
    fi
    remove_folders "$place"
  done
  return "$failed"
}

# Takes away what Python made of the module where it was used.
remove_compiled() {
  local folder=$under/share/grib/python/__pycache__
  rm -f -- "$folder"/tachilwe.*.pyc
  rmdir -- "$folder" 2>/dev/null || :
}

# What was put at each place, by the list, or several things where an installation was broken off.
declare -A ours=()
made='' # whether PREFIX was made
read_list() {
  local what place
  while read -r what place; do
    if [[ $what == made ]]; then
      made=yes
    elif [[ -n $place && /$place/ != */../* ]]; then
      ours[$place]+=" $what"
    fi
  done < <(listed)
}

remove() {
  local places
  read_list
  [[ -z $(earlier) ]] || fail "an earlier install.sh put grib into $under and left no list: one more installation makes it, and then 'remove' can follow"
  if [[ ! -f $under/$installed ]]; then
    echo "nothing of grib is in $under"
    return
  fi
  mapfile -t places < <(printf '%s\n' "${!ours[@]}" | sort)
  remove_compiled
  take_away "${places[@]}" || fail "not all of grib could be taken away from $under"
  rm -f -- "$under/$installed" || fail "cannot take away $under/$installed"
  remove_folders "$installed"
  [[ -z $made ]] || rmdir -- "$under" 2>/dev/null || :
}

# A file takes its name as a whole.
put() { # MODE FILE PLACE
  local folder=$under/${3%/*}
  mkdir -p -- "$folder" && new=$(mktemp -- "$folder/.grib.XXXXXX") && install -m "$1" -- "$2" "$new" &&
    mv -fT -- "$new" "$under/$3" || fail "cannot write $under/$3"
  new=
  echo "installed $under/$3"
}

# The list of what is being installed: WHAT PLACE.
list() {
  local mode file place
  echo "$(what_is "$program") bin/grib"
  echo "$(what_is "$program_from") share/doc/grib/built-from"
  while read -r mode file place; do echo "$(what_is "$top/$file") $place"; done < <(files)
  while read -r file place; do echo "link:$file $place"; done < <(links)
  [[ -z $made ]] || echo "made ."
}
put_list() { # LINES
  local folder=$under/${installed%/*}
  mkdir -p -- "$folder" && new=$(mktemp -- "$folder/.grib.XXXXXX") && printf '%s\n' "$1" >"$new" &&
    chmod 644 -- "$new" && mv -fT -- "$new" "$under/$installed" || fail "cannot write $under/$installed"
  new=
}

install_all() {
  local mode what file place before now old
  # shellcheck source=dist/common.sh
  source "$top/dist/common.sh" || fail "cannot read $top/dist/common.sh"
  find_program
  (exec -a grib -- "$program" check) <"$top/examples/four-points.grib2" >/dev/null || fail "the program ended with status $?"
  [[ -d $under ]] || made=yes
  read_list
  before=$(listed) now=$(list) old=$(earlier)
  # What someone else put there stays.
  while read -r what place; do
    [[ $what == made ]] || ! is_there "$place" || is_ours "$place" || [[ $(what_is "$under/$place") == "$what" ]] ||
      grep -qxF -- "$place" <<<"$old" ||
      fail "$under/$place is there, and is not what this script put there: nothing was installed"
  done <<<"$now"
  # The list is there before the files, with those that stand there already.
  put_list "$before"$'\n'"$now"
  put 755 "$program" bin/grib
  put 644 "$program_from" share/doc/grib/built-from
  while read -r mode file place; do put "$mode" "$top/$file" "$place"; done < <(files)
  while read -r file place; do
    mkdir -p -- "$under/${place%/*}" && ln -sfT -- "$file" "$under/$place" || fail "cannot write $under/$place"
    echo "installed $under/$place"
  done < <(links)
  # What an installation before this one put elsewhere goes.
  for place in $old; do ours[$place]=$(what_is "$under/$place"); done
  while read -r what place; do unset "ours[$place]"; done <<<"$now"
  take_away "${!ours[@]}" || fail "not all of an earlier installation could be taken away from $under"
  put_list "$now"
  [[ -n ${DESTDIR-} || :$PATH: == *":$prefix/bin:"* ]] ||
    printf '%s is not in PATH: a line '\''export PATH=%q:"$PATH"'\'' in ~/.profile puts it there\n' "$prefix/bin" "$prefix/bin"
}

if [[ $word == remove ]]; then
  remove
else
  [[ -f $top/dist/common.sh ]] || fail "this is the installed script, which can only 'remove'"
  install_all
fi
