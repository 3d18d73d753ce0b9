# Proves and builds the program here, and the crates that it stands on, by the kit's rt. ./setl reads this in, behind
# sources.bash, where no program fits.
#
# Crates that don't stand on each other are proved side by side, each in a lane: first of those that can begin the one
# with the longest chain of lines behind it, as many as there are processors and 4 GB of memory for each. rt keeps others
# out of the folders of a crate and of all that it stands on. So each lane has copies of the folders, with the sources as
# they were at the start, and the libraries by hard links.
#
# What rt made goes back into crates/NAME/out, also where the build is broken off, and the next start goes on there. What
# rt said goes to crates/NAME/out/build.log. The error output tells how far it is, on a terminal in one line that is
# rewritten, else in a line for each crate that takes more than two seconds.

# The folders of the lanes, and how many processors they share.
room=$out/lanes
processors=1

# By crate: the lines of its sources, those of the longest chain from it up to the program, and once it has begun how far
# it is: at work, ended or failed.
declare -A lines=() behind=() stage=()

# By lane: the crate at work, its process, the processors that it may use, when it began, and whether that was told.
crate_in=() process_in=() jobs_in=() begun_in=() told_in=()

# Whether a lane has ended its work since crates were last begun.
has_room=yes

# How many crates have ended, their lines and those of all; the lines and seconds of those that rt had to prove.
ended=0 ended_lines=0 all_lines=0 proved_lines=0 proved_seconds=0

# The text of the line that stands on the terminal.
shown=

# Sets how many processors to use: as many as RT_JOBS says, which rt ci goes by, too, or else as there are and as there is
# free memory for, at most 8.
count_processors() {
  local word size=0
  while read -r word size _; do
    [ "$word" != MemAvailable: ] || break
  done </proc/meminfo
  processors=$(nproc)
  ((processors <= size / 4000000)) || processors=$((size / 4000000))
  ((processors <= 8)) || processors=8
  [[ ! ${RT_JOBS:-} =~ ^[1-9][0-9]?$ ]] || processors=$RT_JOBS
  ((processors >= 1)) || processors=1
}

# Sets lines, behind and all_lines.
count_lines() {
  local number path crate used at
  for crate in "${crates[@]}"; do
    lines[$crate]=0
    behind[$crate]=0
  done
  while read -r number path; do
    [[ $path == crates/* ]] || continue
    crate=${path#crates/}
    crate=${crate%%/*}
    lines[$crate]=$((lines[$crate] + number))
    all_lines=$((all_lines + number))
  done < <(over_sources wc -l)
  for ((at = ${#crates[@]} - 1; at >= 0; at--)); do
    crate=${crates[at]}
    behind[$crate]=$((behind[$crate] + lines[$crate]))
    for used in ${uses[$crate]}; do
      ((${behind[$used]:-0} >= behind[$crate])) || behind[$used]=${behind[$crate]}
    done
  done
}

# span SECONDS: as in 0:07 or 1:02:07
span() {
  if (($1 < 3600)); then
    printf '%d:%02d' $(($1 / 60)) $(($1 % 60))
  else
    printf '%d:%02d:%02d' $(($1 / 3600)) $(($1 / 60 % 60)) $(($1 % 60))
  fi
}

# minutes_left: ', some 12 min left', once a minute of proofs tells how long a line takes: by the longest chain or by all
# lines that are left, whichever takes longer. What is at work counts as far as its time goes.
minutes_left() {
  local crate lane seconds all=0 chain=0
  local -A done_in=()
  ((proved_seconds >= 60)) || return 0
  for lane in "${!crate_in[@]}"; do
    done_in[${crate_in[lane]}]=$((SECONDS - begun_in[lane]))
  done
  for crate in "${crates[@]}"; do
    [ "${stage[$crate]:-}" != ended ] || continue
    seconds=$((lines[$crate] * proved_seconds / proved_lines))
    ((${done_in[$crate]:-0} <= seconds)) || done_in[$crate]=$seconds
    all=$((all + seconds - ${done_in[$crate]:-0}))
    seconds=$((behind[$crate] * proved_seconds / proved_lines - ${done_in[$crate]:-0}))
    ((seconds <= chain)) || chain=$seconds
  done
  all=$((all / processors))
  ((all >= chain)) || all=$chain
  printf ', some %d min left' $((all / 60 + 1))
}

# how_far: how many crates are built, their share of the lines, and the time.
how_far() {
  printf '%d of %d crates built, %d%%, after %s%s' "$ended" "${#crates[@]}" $((100 * ended_lines / (all_lines + 1))) \
    "$(span "$SECONDS")" "$(minutes_left)"
}

# show TEXT: writes it in place of the line on the terminal.
show() {
  [ "$1" = "$shown" ] || printf '\r%-79.79s\r%.79s' '' "$1" >&2
  shown=$1
}

# Tells how far the build is, once a second on a terminal.
tell() {
  local lane names=
  if [ -t 2 ]; then
    ((SECONDS > told_at)) || return 0
    told_at=$SECONDS
    for lane in "${!crate_in[@]}"; do
      names+=" ${crate_in[lane]}"
    done
    show "setl: $(how_far):$names"
    return
  fi
  for lane in "${!crate_in[@]}"; do
    if [ -z "${told_in[lane]:-}" ] && ((SECONDS - begun_in[lane] > 2)); then
      told_in[lane]=yes
      say "building ${crate_in[lane]}; $(how_far)"
    fi
  done
}

# move CRATE FROM TO: moves what rt keeps of a crate from one folder out to another.
move() {
  local part
  mkdir -p -- "$3"
  for part in rlib incremental "$1" "$1.o" "$1.stamp"; do
    [ -e "$2/$part" ] || continue
    rm -rf -- "${3:?}/$part"
    mv -- "$2/$part" "$3/"
  done
}

# open_lane LANE: makes the lane's copies of the sources. The first are those that the program is built from; each other
# crate of crates.txt has a folder, as rt wants it.
open_lane() {
  local crate folders=()
  [ ! -d "$room/$1" ] || return 0
  if [ "$1" != 0 ]; then
    mkdir -p -- "$room/$1/crates"
    (cd -- "$room/0" && cp -a --parents -- crates.txt crates/*/{src,specs,proofs,args,data} "$room/$1" 2>/dev/null)
    return
  fi
  for crate in "${!uses[@]}"; do
    mkdir -p -- "$room/0/crates/$crate/src"
  done
  for crate in "${crates[@]}"; do
    folders+=("crates/$crate"/{src,specs,proofs,args,data})
  done
  (cd -- "$root" && cp -a --parents -- crates.txt "${folders[@]}" "$room/0" 2>/dev/null)
  from=$(root=$room/0 && sums)
}

# lend LANE: links the libraries that are built into the lane.
lend() {
  local crate to
  for crate in "${crates[@]}"; do
    to=$room/$1/crates/$crate/out
    [ "${stage[$crate]:-}" = ended ] && [ ! -d "$to/rlib" ] && [ -d "$root/crates/$crate/out/rlib" ] || continue
    mkdir -p -- "$to"
    cp -al -- "$root/crates/$crate/out/rlib" "$to/" 2>/dev/null || cp -a -- "$root/crates/$crate/out/rlib" "$to/"
  done
}

# prove CRATE JOBS: proves and builds the library in this folder, or the program, which is then tried on the program of
# SETL in data/.
prove() {
  if [ "$1" = setl ]; then
    exec rt run --jobs "$2" -- run data/queens.setl
  fi
  exec rt lib --jobs "$2"
}

# begin CRATE LANE JOBS: starts a crate's proof.
begin() {
  local own=$root/crates/$1/out
  open_lane "$2"
  lend "$2"
  printf '%s\n' "$1" >"$room/$2/at_work"
  mkdir -p -- "$own"
  move "$1" "$own" "$room/$2/crates/$1/out"
  (cd -- "$room/$2/crates/$1" && prove "$1" "$3") </dev/null >"$own/build.log" 2>&1 &
  process_in[$2]=$!
  crate_in[$2]=$1
  jobs_in[$2]=$3
  begun_in[$2]=$SECONDS
  told_in[$2]=
  stage[$1]='at work'
}

# give_back LANE: moves what rt made of the lane's crate to the crate.
give_back() {
  local crate
  [ -e "$room/$1/at_work" ] || return 0
  crate=$(<"$room/$1/at_work")
  move "$crate" "$room/$1/crates/$crate/out" "$root/crates/$crate/out"
  rm -f -- "$room/$1/at_work"
}

# leave LANE STAGE: ends the lane's work on its crate, whose process has ended.
leave() {
  give_back "$1"
  has_room=yes
  stage[${crate_in[$1]}]=$2
  unset -v "crate_in[$1]" "process_in[$1]" "jobs_in[$1]" "begun_in[$1]"
}

# Sets next to the crate to begin with, if one can begin, and ready to how many can.
choose() {
  local crate used
  next='' ready=0
  for crate in "${crates[@]}"; do
    [ -z "${stage[$crate]:-}" ] || continue
    for used in ${uses[$crate]}; do
      [ -z "${uses[$used]+there}" ] || [ "${stage[$used]:-}" = ended ] || continue 2
    done
    ready=$((ready + 1))
    [ -n "$next" ] && ((behind[$next] >= behind[$crate])) || next=$crate
  done
}

# share FREE READY CRATE: how many of the free processors the crate gets where so many crates can begin: its share, and
# up to three, but at most half of all, if the chain behind it takes longer than all that is left, side by side.
share() {
  local jobs=$(($1 / $2)) more=$(((processors + 1) / 2))
  ((more <= 3)) || more=3
  ((more <= $1)) || more=$1
  ((jobs >= more || behind[$3] * processors <= all_lines - ended_lines)) || jobs=$more
  ((jobs <= 4)) || jobs=4
  ((jobs >= 1)) || jobs=1
  echo "$jobs"
}

# Begins with as many crates as can begin and have a processor.
fill_lanes() {
  local next ready lane jobs free=$processors
  for jobs in "${jobs_in[@]}"; do
    free=$((free - jobs))
  done
  has_room=
  while choose; [ -n "$next" ] && ((free > 0)); do
    jobs=$(share "$free" "$ready" "$next")
    lane=0
    while [ -n "${crate_in[lane]:-}" ]; do
      lane=$((lane + 1))
    done
    begin "$next" "$lane" "$jobs"
    free=$((free - jobs))
  done
}

# end_crate LANE: what the end of the lane's process means: the crate is built; it begins again with less beside it, if
# it was killed, most likely for memory; or it failed.
end_crate() {
  local lane=$1 crate=${crate_in[$1]} seconds=$((SECONDS - begun_in[$1])) status
  wait "${process_in[lane]}"
  status=$?
  if [ "$status" = 0 ]; then
    leave "$lane" ended
    ended=$((ended + 1))
    ended_lines=$((ended_lines + lines[$crate]))
    if ((seconds > 4)); then
      proved_lines=$((proved_lines + lines[$crate]))
      proved_seconds=$((proved_seconds + seconds))
    fi
  elif [[ $status =~ ^(137|247)$ ]] && ((processors > 1)); then
    leave "$lane" ''
    processors=$((processors - 1))
  else
    leave "$lane" failed
    failed=$crate
  fi
}

# Ends what has ended. It fails where a crate failed.
end_lanes() {
  local lane failed=
  for lane in "${!process_in[@]}"; do
    kill -0 "${process_in[lane]}" 2>/dev/null || end_crate "$lane"
  done
  [ -n "$failed" ] || return 0
  close_lanes
  say "the program couldn't be built: $failed failed, and $root/crates/$failed/out/build.log has what rt said"
  return 1
}

# Ends the processes of all lanes, takes what they made, and clears the lanes away, also those that a start that was killed
# has left, whose processes have ended.
close_lanes() {
  local lane
  for lane in "${!process_in[@]}"; do
    kill "${process_in[lane]}" 2>/dev/null
  done
  for lane in "${!process_in[@]}"; do
    wait "${process_in[lane]}" 2>/dev/null
  done
  for lane in "$room"/*/; do
    give_back "$(basename -- "$lane")"
  done
  rm -rf -- "$room" 2>/dev/null
  crate_in=() process_in=() jobs_in=() begun_in=()
  [ ! -t 2 ] || show ''
}

# break_off STATUS: what a signal does while crates are at work.
break_off() {
  trap '' INT TERM HUP
  close_lanes
  say "broken off with $ended of ${#crates[@]} crates built; the next start goes on there"
  exit "$1"
}

# Proves and builds all crates.
build_crates() {
  local never told_at=-1
  # nothing comes from here, so a read of it is a sleep
  exec {never}<> <(:)
  while ((ended < ${#crates[@]})); do
    [ -z "$has_room" ] || fill_lanes
    tell
    read -rt 0.2 -u "$never"
    end_lanes || return 1
  done
  exec {never}>&-
  close_lanes
}

# Waits until no other start builds here.
hold() {
  exec {held}>"$out/lock"
  type -P flock >/dev/null || return 0
  flock -n "$held" && return
  say 'another start builds the program; this one waits for it'
  flock "$held"
}

# Tells why the program can't be built, if it can't.
can_build() {
  if ! type -P rt >/dev/null; then
    say 'the program has to be built, since the one that comes with the repository is not of these sources'
    say 'the kit that builds it is not installed: there is no command rt'
    say "install a kit whose 'rt version' says logic dac8208d650f15bf, its folder bin on the PATH, and start this again"
    return 1
  fi
  if ! { mkdir -p -- "$out" && : >"$out/begun" && rm -f -- "$out/begun"; } 2>/dev/null; then
    say "the program can't be built, since $out can't be written"
    return 1
  fi
}

# Builds the program, sets program to it, and writes its checksums. Sources that change meanwhile count from the next start
# on.
build() {
  local held from
  can_build && hold || return 1
  if ! find_program; then
    ((${#crates[@]})) || read_crates
    count_processors
    count_lines
    close_lanes
    [ -x "$root/$built" ] || say 'the program is proved and built first, which from nothing may take half an hour or more'
    trap 'break_off 130' INT
    trap 'break_off 143' TERM
    trap 'break_off 129' HUP
    build_crates || return 1
    trap - INT TERM HUP
    program=$built
    (printf '%s\n' "$from" && cd -- "$root" && sha256sum -- "$built") >"$root/${sums_of[$built]}"
  fi
  exec {held}>&-
}
