#!/usr/bin/env bash
# Runs the cases of folders, and compares each reply and its exit status with the expected ones.
#
# usage: tests/cases.sh [--try] FOLDER..
#
# A case is up to four files: NAME (the input; without it there is none), NAME.args (the words of the command, one a line), NAME.stdout (the reply) and
# NAME.status (the exit status; without it any will do). Other files of a folder are no cases.
# It prints each difference, and at the end how many cases are as expected. The status is 1 where one differs, or where there is none.
# The program is that of ./boomer, which builds it first; BOOMER names another one. With --try it is that of ./boomer --try, which isn't proved.
set -euo pipefail
top=$(cd "$(dirname "${BASH_SOURCE[0]}")/.." && pwd)

tries=
if [ "${1:-}" = --try ]; then
  tries=yes
  shift
fi
if [ $# -eq 0 ]; then
  echo "usage: tests/cases.sh [--try] FOLDER.." >&2
  exit 2
fi

# Has a program, which ./boomer builds where it isn't built. Where it can't be kept, the script itself is asked.
kept=$top/crates/boomer/out/boomer
if [ -n "$tries" ]; then kept=$top/crates/boomer/out/tried; fi
if [ -n "${BOOMER:-}" ]; then
  program=("$BOOMER")
else
  "$top/boomer" ${tries:+--try} demo 1 < /dev/null > /dev/null
  program=("$kept")
  if [ ! -x "$kept" ]; then program=("$top/boomer" --try); fi
fi

work=$(mktemp -d)
trap 'rm -rf "$work"' EXIT
all=0
same=0

# compare CASE STATUS: what the case replied is in $work/reply.
compare() {
  local case=$1 status=$2 wanted=$2 words
  [ ! -f "$case.status" ] || wanted=$(cat "$case.status")
  all=$((all + 1))
  if [ "$status" = "$wanted" ] && cmp -s "$case.stdout" "$work/reply"; then
    same=$((same + 1))
    return
  fi
  mapfile -t words < "$case.args"
  printf '== %s: %s (status %s, expected %s)\n' "$case" "${words[*]}" "$status" "$wanted"
  diff -u --label expected --label reply "$case.stdout" "$work/reply" || true
}

# run_cases FOLDER
run_cases() {
  local args case input words status
  for args in "$1"/*.args; do
    [ -f "$args" ] || continue
    case=${args%.args}
    input=$case
    [ -f "$input" ] || input=/dev/null
    mapfile -t words < "$args"
    status=0
    "${program[@]}" "${words[@]}" < "$input" > "$work/reply" || status=$?
    compare "$case" "$status"
  done
}

for folder in "$@"; do
  run_cases "$folder"
done
echo "$same of $all as expected"
[ "$all" -gt 0 ] && [ "$same" -eq "$all" ]
