# What the measuring scripts share. Each defines the functions `ours` and `theirs`, which run the two
# programs on the same work.
#
# shellcheck shell=bash
# shellcheck disable=SC2015 # what stands behind || is meant for either
# shellcheck disable=SC2034 # the scripts use the names that are set here
export LC_ALL=C # `time` and awk then have a decimal point
top=$(cd "$(dirname "${BASH_SOURCE[0]}")/.." && pwd)
work=$(mktemp -d)
trap 'rm -rf "$work"' EXIT
trap 'exit 1' HUP INT QUIT TERM

fail() {
  echo "$0: $*" >&2
  exit 1
}

need() { # COMMAND [WHERE IT IS FROM]
  command -v "$1" >/dev/null || fail "$1 is not in PATH${2:+ ($2)}"
}

# The processor time of a run, in seconds: the user's and the system's. Where the line between the two is
# drawn is by chance when a run takes much memory, so that the user's alone would vary.
seconds() { # COMMAND
  local TIMEFORMAT='%3U %3S' spent
  spent=$({ time "$1" >/dev/null 2>&1; } 2>&1) && awk '{ print $1 + $2 }' <<<"$spent"
}

# Prints the least of some times.
least() { # FILE
  sort -g "$1" | sed -n 1p
}

# Prints the time of theirs over that of ours. The two take turns, and the least time of each is kept,
# since others may use the machine.
ratio() { # WHAT ROUNDS
  local round
  rm -f "$work/ours" "$work/theirs"
  for ((round = 0; round < $2; round++)); do
    seconds theirs >>"$work/theirs" && seconds ours >>"$work/ours" || fail "$1: a program failed"
  done
  sort -g "$work/ours" >"$work/ours.sorted"
  sort -g "$work/theirs" | paste - "$work/ours.sorted" |
    awk -v what="$1" 'NR == 1 { if ($2 == 0) exit 1; printf "%s: %.2f\n", what, $1 / $2 }' ||
    fail "$1: the runs are too short"
}

# Prints the path of the program of these sources.
our_program() (
  # shellcheck source=dist/common.sh
  source "$top/dist/common.sh"
  find_program
  echo "$program"
)

# Makes a message of SIDE times SIDE points of 14 bits by `grib_filter` of ecCodes, from one of its samples: waves
# in both directions and some noise.
field_of_14_bits() { # SIDE SAMPLE FILE
  {
    printf 'set Ni = %d; set Nj = %d; set bitsPerValue = 14;\nset values = {\n' "$1" "$1"
    awk -v side="$1" 'BEGIN {
      srand(1)
      for (j = 0; j < side; j++) for (i = 0; i < side; i++)
        printf "%s%.2f\n", (i + j ? "," : ""), 250 + 30 * sin(i / 97) * cos(j / 61) + rand()
    }'
    printf '};\nwrite;\n'
  } >"$work/filter"
  grib_filter -o "$3" "$work/filter" "$2"
}
