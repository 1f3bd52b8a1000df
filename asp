#!/usr/bin/env bash
# Runs the program with the words given, in the folder where it is called, and ends with its status. The word `survey` runs
# another program, on the table of what old sites have and the words behind it.
#
# `asp build` proves and builds both programs, unless that was done and no source has changed since. Before that, and once
# a source has changed since, the words run by the toolchain's build that proves nothing, which one line on standard
# error says. `asp test` tries all cases and tests by that build. Behind the program's own help `asp --help` names the survey.
set -u
unset CDPATH
top=$(dirname "$(readlink -f "${BASH_SOURCE[0]}")")
programs=(classic_asp site_survey)

# Takes up the program with this name.
take() {
  name=$1
  crate=$top/crates/$name
  program=$crate/out/$name
  proved=$program.proved
}

# The crates that these programs are made of, each behind those that it stands on.
made_of() {
  local one listed=
  for one in "$@"; do listed+=$("$top/checks/crates" below "$one")$'\n' || return; done
  awk 'NF && !seen[$0]++' <<<"$listed"
}

# Whether the program was built by `asp build` and no source has changed since that build began.
is_built() {
  local one names sources=("$top/crates.txt" "$top/HANDLES")
  [ -x "$program" ] && [ -e "$proved" ] && names=$(made_of "$name") || return 1
  for one in $names; do
    sources+=("$top/crates/$one/src" "$top/crates/$one/specs" "$top/crates/$one/proofs")
  done
  [ -z "$(find "${sources[@]}" -newer "$proved" -print -quit 2>/dev/null)" ]
}

# Whether all programs are built.
are_built() {
  local one
  for one in "${programs[@]}"; do take "$one" && is_built || return; done
}

# Proves one crate and builds its library or, of the last, the program. Leaves the log, and the status where it ended.
build_crate() {
  local name=$1 words=(lib)
  [ "$name" = classic_asp ] && words=(run -- --version)
  [ "$name" = site_survey ] && words=(run -- "$top/crates/$name/data/table.txt" "$top/crates/$name/data/site")
  (cd "$top/crates/$name" && rt "${words[@]}") >"$logs/$name.log" 2>&1 </dev/null
  echo $? >"$logs/$name.status"
}

# Whether the crates of the program that this one stands on are built.
stands() {
  local other
  for other in ${below[$1]}; do
    [ -n "${below[$other]+listed}" ] && [ ! -e "$logs/$other.done" ] && return 1
  done
  return 0
}

# Tells each crate that has ended. Fails where one was not proved.
tell_ended() {
  local name
  for name in "${names[@]}"; do
    [ -s "$logs/$name.status" ] && [ ! -e "$logs/$name.done" ] || continue
    running=$((running - 1))
    if [ "$(cat "$logs/$name.status")" != 0 ]; then
      cat "$logs/$name.log" >&2
      echo "asp: $name was not proved, and the program not built" >&2
      return 1
    fi
    : >"$logs/$name.done"
    ended=$((ended + 1))
    echo "asp: $name is proved and built, $ended of ${#names[@]}" >&2
  done
}

# Ends the runs that are not done, each with all that it started.
stop_runs() {
  local run
  for run in $(jobs -p); do kill -- "-$run" 2>/dev/null; done
}

# Proves and builds the crates, as many at a time as there are processors for. Fails where one is not proved.
build_once() {
  local names running=0 ended=0 most=$((($(nproc) + 1) / 2)) name others
  local -A below=()
  mapfile -t names < <(made_of "${programs[@]}")
  [ "${#names[@]}" -gt 0 ] || return 1
  while read -r name others; do below[${name%:}]=$others; done < <("$top/checks/crates")
  rm -rf "${logs:?}"/*
  : >"$logs/begun"
  echo "asp: proving and building ${#names[@]} crates" >&2
  while [ "$ended" -lt "${#names[@]}" ]; do
    for name in "${names[@]}"; do
      [ "$running" -lt "$most" ] && [ ! -e "$logs/$name.log" ] && stands "$name" || continue
      : >"$logs/$name.log"
      build_crate "$name" &
      running=$((running + 1))
    done
    wait -n
    if ! tell_ended; then
      stop_runs
      return 1
    fi
  done
  for name in "${programs[@]}"; do cp -p "$logs/begun" "$top/crates/$name/out/$name.proved"; done
}

# Builds, and once more where a source has changed meanwhile.
build() {
  logs=$(mktemp -d)
  trap 'rm -rf "$logs"' EXIT
  set -m
  trap 'stop_runs; exit 130' INT TERM
  build_once || return 70
  are_built && return
  echo "asp: a source has changed during the build, which begins anew" >&2
  build_once && are_built && return
  echo "asp: the program is older than its sources" >&2
  return 70
}

# What the program wrote to standard error, of all that was written there: the toolchain adds lines of its own.
own_errors() {
  LC_ALL=C awk '
    /^rt: / { next }
    { line[NR] = $0 }
    /./ && !/^(checked|interpreter|races): / && !/^run=/ { last = NR }
    END { for (at = 1; at <= last; at++) print line[at] }' "$errors" >&2
}

# Says where the site is found that is served, and how to end that: the program itself says nothing while it serves.
tell_address() {
  local port=8080 before= word
  for word in "$@"; do
    [ "$before" != --port ] || port=$word
    before=$word
  done
  echo "asp: the site is at http://127.0.0.1:$port/ for a browser, once its application has begun; Ctrl-C ends it" >&2
}

# Runs the words by the build that proves nothing. It runs in a folder of its own, so it is given the whole path of the
# site, and reads its input to the end first, so it is given none where the command reads none. It ends after ten
# minutes, or after a day where it serves. The last of its lines says how the program ended.
run_unproved() {
  local words=("$@") code input=/dev/null seconds=600
  echo "asp: not proved yet, so this runs an unproved build, in a minute or two: ./asp build proves it" >&2
  case "${2-}" in '' | /*) ;; *) [ "$1" = gen ] || words[1]=$PWD/$2 ;; esac
  case "${1-}" in replay) input=/dev/stdin ;; serve) seconds=86400 ;; esac
  errors=$(mktemp)
  trap 'rm -f "$errors"' EXIT
  (cd "$crate" && rt try --seconds "$seconds" --steps 1000000000 -- "${words[@]}") 2>"$errors" <"$input"
  code=$?
  case $(tail -n 1 "$errors") in
    "run=ended status=$code "*) own_errors; return "$code" ;;
  esac
  cat "$errors" >&2
  echo "asp: the unproved build did not run" >&2
  return 70
}

# Runs the words by the proved program where it is built.
run() {
  if is_built; then exec "$program" "$@"; fi
  run_unproved "$@"
}

# The crates that try something: programs with a stored output, and those with tests. The one that takes longest is first.
trying() {
  local name names
  mapfile -t names < <("$top/checks/crates" | sed 's/:.*//')
  for name in run_cases "${names[@]}"; do
    [ -e "$top/crates/$name/stdout" ] || grep -qrs '^ *#\[test\]' "$top/crates/$name/src" && echo "$name"
  done | awk '!seen[$0]++'
}

# Runs a crate's program, or its tests, by the build that proves nothing, which needs a larger stack than the proved one.
# Leaves the output and what was said.
try_crate() {
  local name=$1 words=(--seconds 1800) arguments=() file input=/dev/null
  ulimit -s 1000000 2>/dev/null
  cd "$top/crates/$name" || return
  if [ -e stdout ]; then
    if [ -e data ]; then
      while IFS= read -r file; do words+=(--data "${file#data/}=$file"); done < <(find data -type f)
    fi
    [ ! -e args ] || mapfile -t arguments <args
    [ ! -e stdin ] || input=stdin
    rt try "${words[@]}" -- "${arguments[@]}" >"$logs/$name.out" 2>"$logs/$name.said" <"$input"
  else
    rt try --test "${words[@]}" >"$logs/$name.out" 2>"$logs/$name.said" </dev/null
  fi
}

# How many cases of a file of outputs passed, and how many there are, where its lines are those of programs of cases.
cases_in() { awk '/: [0-9]+ of [0-9]+$/ { passed += $(NF - 2); all += $NF } END { print passed + 0, all + 0 }' "$1"; }

# Tells how a crate ended that was tried, and adds what passed and failed.
tell_tried() {
  local name=$1 stored=$top/crates/$1/stdout ran=0 all=1 how=passed
  if [ -e "$stored" ]; then
    read -r _ all < <(cases_in "$stored")
    read -r ran _ < <(cases_in "$logs/$name.out")
  else
    all=$(grep -rh '^ *#\[test\]' "$top/crates/$name/src" | wc -l)
  fi
  [ "$all" -gt 0 ] || all=1
  if [ "$(cat "$logs/$name.status")" = 0 ] && { [ ! -e "$stored" ] || cmp -s "$stored" "$logs/$name.out"; }; then
    ran=$all
  else
    [ "$ran" -lt "$all" ] || ran=$((all - 1))
    how=failed
    tail -n 40 "$logs/$name.said" >&2
  fi
  passed=$((passed + ran))
  failed=$((failed + all - ran))
  echo "asp: $name $how, $ran of $all"
}

# Tries all cases and tests, as many crates at a time as there are processors for. Fails where one fails.
try_all() {
  local names name running=0 most passed=0 failed=0 told=0
  logs=$(mktemp -d)
  most=$(nproc)
  trap 'rm -rf "$logs"' EXIT
  set -m
  trap 'stop_runs; exit 130' INT TERM
  mapfile -t names < <(trying)
  [ "${#names[@]}" -gt 0 ] || return 1
  echo "asp: trying ${#names[@]} crates by an unproved build" >&2
  while [ "$told" -lt "${#names[@]}" ]; do
    for name in "${names[@]}"; do
      [ "$running" -lt "$most" ] && [ ! -e "$logs/$name.begun" ] || continue
      : >"$logs/$name.begun"
      { try_crate "$name"; echo $? >"$logs/$name.status"; } &
      running=$((running + 1))
    done
    wait -n
    for name in "${names[@]}"; do
      [ -s "$logs/$name.status" ] && [ ! -e "$logs/$name.told" ] || continue
      : >"$logs/$name.told"
      running=$((running - 1))
      told=$((told + 1))
      tell_tried "$name"
    done
  done
  echo "$passed passed, $failed failed"
  [ "$failed" = 0 ]
}

if [ $# = 1 ] && [ "$1" = build ]; then
  are_built || build
elif [ $# = 1 ] && [ "$1" = test ]; then
  try_all
else
  take classic_asp
  if [ "${1-}" = survey ]; then
    take site_survey
    set -- "$crate/data/table.txt" "${@:2}"
  fi
  case "$* " in serve\ *\ --requests\ *) tell_address "$@" ;; esac
  if [ $# = 1 ] && [ "$1" = --help ]; then
    (run --help) || exit
    printf '\n%s\n' "./asp survey SITE tells each place of an old site that this host can't run or runs differently, with the way out"
  else
    run "$@"
  fi
fi
