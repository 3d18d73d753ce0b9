# What the program is built from, and which program was built from it. ./setl and the scripts of .ci read this in, with
# root set to the folder of the checkout.

# The program that comes with the repository, the one that was built here, and beside each the checksums of all that it
# was built from and its own, as sha256sum writes them and checks them at the top of the repository.
kept=program/setl-linux-x86_64
built=crates/setl/out/setl
declare -A sums_of=([$kept]=program/built-from [$built]=crates/setl/out/built-from)

# The folder for what isn't committed, and in it the answer of find_program.
out=$root/crates/setl/out
answer=$out/fits

# What each crate uses, by crates.txt, and the crates that the program stands on, each behind those that it uses. The
# program is the last.
declare -A uses=() listed=()
crates=()

say() { printf 'setl: %s\n' "$1" >&2; }

# list CRATE: lists a crate behind those that it uses. A library of the kit has no line in crates.txt.
list() {
  local used
  [ -n "${uses[$1]+there}" ] && [ -z "${listed[$1]+there}" ] || return 0
  listed[$1]=yes
  for used in ${uses[$1]}; do
    list "$used"
  done
  crates+=("$1")
}

# Reads crates.txt, and lists the crates.
read_crates() {
  local line name
  while IFS= read -r line || [ -n "$line" ]; do
    line=${line%%#*}
    [[ $line == *:* ]] || continue
    read -r name _ <<<"${line%%:*}"
    uses[$name]=${line#*:}
  done <"$root/crates.txt"
  list setl
}

# over_sources COMMAND..: runs the command on the paths of all that the program is built from: crates.txt and what is in
# src/, specs/ and proofs/ of its crates.
over_sources() {
  local crate folders=()
  ((${#crates[@]})) || read_crates
  for crate in "${crates[@]}"; do
    folders+=("crates/$crate"/{src,specs,proofs})
  done
  cd -- "$root" || return
  find crates.txt "${folders[@]}" -type f -print0 2>/dev/null | LC_ALL=C sort -z | xargs -0 "$@" --
}

# The checksums of the sources.
sums() (over_sources sha256sum)

# sums_with PROGRAM: those of the sources, and the program's own.
sums_with() (over_sources sha256sum && sha256sum -- "$1")

# fits PROGRAM: whether it is the one that its checksums speak of, and they are those of the sources as they are.
fits() {
  local list=$root/${sums_of[$1]}
  [ -x "$root/$1" ] && [ -r "$list" ] && [ "$(sums_with "$1")" = "$(<"$list")" ]
}

# Whether the kept program is for this machine.
is_for_here() { [[ $HOSTTYPE == x86_64 && $OSTYPE == linux* && $OSTYPE != *musl* ]]; }

# Sets program to the one that was found to fit last, if no file or folder has changed since.
remember_program() {
  local changed
  { read -r program <"$answer"; } 2>/dev/null || return 1
  [ "$program" = "$kept" ] || [ "$program" = "$built" ] || return 1
  changed=$(cd -- "$root" && find crates.txt program crates "$program" -regex 'crates/[^/]*/out' -prune \
    -o -cnewer "$answer" -print -quit 2>/dev/null) && [ -x "$root/$program" ] && [ -z "$changed" ]
}

# Sets program to the kept program or to the one that was built here, if one fits. The answer is written before the test,
# so that each later change is newer, and counts once the test passed. Where it can't be written, each start makes the test.
find_program() {
  local draft=$answer.$$
  remember_program && return
  mkdir -p -- "$out" 2>/dev/null
  for program in "$kept" "$built"; do
    [ "$program" = "$built" ] || is_for_here || continue
    { printf '%s\n' "$program" >"$draft"; } 2>/dev/null
    if fits "$program"; then
      mv -f -- "$draft" "$answer" 2>/dev/null
      return 0
    fi
  done
  rm -f -- "$draft" 2>/dev/null
  return 1
}
