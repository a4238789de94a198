# What `grib`, install.sh and the scripts beside this page share. Each sets `top`, the folder of the
# repository, and has a function `fail` that ends it.
#
# shellcheck shell=bash
# shellcheck disable=SC2015 # what stands behind || is meant for either
# shellcheck disable=SC2034 # the scripts read `program` and `program_from`
# shellcheck disable=SC2154 # they set `top`
crate=$top/crates/grib_main
shipped=$top/dist/grib-x86_64-linux-gnu # the program as it is shipped, and what it was built from:
shipped_from=$top/dist/built-from       # the checksum of the sources, and the kit
built=$crate/out/grib                   # the same of a program that was built here
built_here_from=$crate/out/grib.built
processor=/proc/cpuinfo

# The checksum of the names and the contents of all that the program is built from.
sources() (
  cd "$top/" && mapfile -t names < <(crates_of_program) && ((${#names[@]} > 0)) && {
    cat HANDLES
    # the lines of crates.txt on these, in the order of the names
    awk -F '[ :]' '
      NR == FNR { wanted[$1]; next }
      $1 in wanted && $0 != $1 { print $1 "\t" $0 }' <(printf '%s\n' "${names[@]}") crates.txt |
      LC_ALL=C sort -s -t $'\t' -k 1,1 | cut -f 2-
    find "${names[@]/#/crates/}" -name out -prune -o -type f \( -path '*/src/*' -o -path '*/specs/*' -o -path '*/proofs/*' \) -print0 |
      LC_ALL=C sort -z | xargs -0 sha256sum
  } | sha256sum
)

# The identity of the kit, as `rt version` prints it, or nothing where `rt` is not in PATH.
kit() {
  local rt
  rt=$(command -v rt) || return 0
  cat "$(dirname "$(readlink -f "$rt")")/../KIT-ID" 2>/dev/null || rt version
}

# The program and the crates that it stands on, as crates.txt lists them, one a line.
crates_of_program() {
  awk -F: '
    !/^#/ && NF == 2 { below[$1] = $2 }
    function add(name,   names, count, i) {
      if (name in seen || !(name in below)) return
      seen[name] = 1
      count = split(below[name], names, " ")
      for (i = 1; i <= count; i++) add(names[i])
      print name
    }
    END { add("grib_main") }' "$top/crates.txt"
}

# Says which crate is being proved, by what the kit says on standard input.
say_progress() {
  awk -v count="$(crates_of_program | wc -l)" '
    /^rt: chose --jobs [0-9]* for / { printf "grib: proving %s (%d of %d)\n", $NF, ++done, count; fflush() }'
}

# Proves the program and builds it, with a run on the example. What the kit says goes to a log.
build_program() {
  local log=$crate/out/build.log begun=$SECONDS from
  from=$(sources) || fail "cannot read the sources"
  mkdir -p "$crate/out" || fail "cannot write to $crate/out"
  (cd "$crate" && rt run -- check <"$top/examples/four-points.grib2") 2>&1 | tee "$log" | say_progress >&2
  [[ ${PIPESTATUS[0]} == 0 ]] || {
    tail -n 5 "$log" >&2
    fail "the program was not built: all that the kit said is in $log"
  }
  [[ $(sources) == "$from" ]] || fail "the sources changed while the program was built"
  echo "grib: proved and built in $((SECONDS - begun)) seconds" >&2
}

# Whether the shipped program is one of the sources at hand, for a machine like this.
is_shipped() {
  [[ -z ${GRIB_BUILD-} && $(uname -sm) == "Linux x86_64" && -x $shipped && $(cat "$shipped_from" 2>/dev/null) == "$sources "* ]]
}

# Whether a program was built here from the sources at hand. Without a kit it may be of any.
is_built() {
  [[ -x $built && $(cat "$built_here_from" 2>/dev/null) == "$sources $kit"* ]]
}

build_here() {
  [[ -n $kit ]] || fail "no program of these sources is here, and the kit's command rt is not in PATH"
  rm -f "$built_here_from"
  build_program
  trap 'rm -f "$built.$$"' EXIT
  cp "$crate/out/grib_main" "$built.$$" && mv -fT "$built.$$" "$built" && echo "$sources $kit" >"$built_here_from" ||
    fail "cannot write to $crate/out"
}

# One builds at a time, and the others then find the program. Where the file system has no locks, all build.
take_turn() {
  flock -n 9 && return
  echo "grib: waiting for another build" >&2
  flock 9
}

# Ends where the processor is older than x86-64-v2, which the program is for. Where the system does not say what its
# processor has, the program itself looks.
need_processor() {
  local has name lacking=''
  [[ $(uname -m) == x86_64 ]] || return 0
  has=$(sed -n '/^flags[[:blank:]]*:/{s/.*://p;q;}' "$processor" 2>/dev/null)
  [[ -n $has ]] || return 0
  for name in cx16 lahf_lm pni ssse3 sse4_1 sse4_2 popcnt; do # as the system calls them; pni is SSE3
    [[ " $has " == *" $name "* ]] || lacking+=" $name"
  done
  [[ -z $lacking ]] || fail "the program is for processors of x86-64-v2 (Intel and AMD from about 2011 on), and this one lacks$lacking"
}

# Sets `program` to one of the sources at hand, the shipped one or else one that is built here, and `program_from` to
# the file that says what it was built from.
find_program() {
  need_processor
  sources=$(sources) || fail "cannot read the sources"
  program=$shipped program_from=$shipped_from
  is_shipped && return
  kit=$(kit) || fail "cannot read the kit"
  program=$built program_from=$built_here_from
  is_built || { take_turn; is_built || build_here; } 9<"$top/grib" || fail "cannot read $top/grib"
}
