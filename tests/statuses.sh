#!/usr/bin/env bash
# Brings about the statuses of the program that no case of examples/ does, since they take a stream or a machine that fails, or a long input.
#
# usage: tests/statuses.sh PROGRAM
#
# It prints each that isn't as docs/MANUAL.md says, and at the end how many are; the status is 1 where one isn't.
set -euo pipefail
program=$1
work=$(mktemp -d)
trap 'rm -rf "$work"' EXIT
all=0
same=0

# ends WHAT STATUS REPLY COMMAND..: the command ends with the status, and has written the reply.
ends() {
  local what=$1 wanted=$2 reply=$3 status=0
  shift 3
  "$@" > "$work/reply" || status=$?
  all=$((all + 1))
  if [ "$status" -eq "$wanted" ] && [ "$(cat "$work/reply")" = "$reply" ]; then
    same=$((same + 1))
  else
    printf '== %s: status %s, expected %s\n' "$what" "$status" "$wanted"
    cat "$work/reply"
  fi
}

# asks [COMMAND..]: asks about what stands on standard input, once the command is done.
asks() {
  ("$@" && exec "$program" points-to Main '<Main: void main(java.lang.String[])>' 0 x 100)
}

asks_a_folder() {
  asks true < /
}

# asks_blanks COUNT [COMMAND..]: asks about so many blanks. The program may end before it has read them all.
asks_blanks() {
  local count=$1
  shift
  asks "${@:-true}" < <(head -c "$count" /dev/zero | tr '\0' ' ')
}

# In 16,000 KB of addresses there is room for the program, and none for the longest input.
asks_in_little_memory() {
  asks_blanks "$1" ulimit -v 16000
}

writes_nowhere() {
  "$program" demo 1 > /dev/full
}

ends 'a read that fails' 2 '' asks_a_folder
ends 'the longest input, which is no program' 6 'refused NotLinked NoEntry' asks_blanks 16777216
ends 'one byte more' 3 'refused TooLong' asks_blanks 16777217
ends 'a write that fails' 12 '' writes_nowhere
ends 'a word that is not UTF-8' 17 '' "$program" demo $'\xff'
# A build with checks of addresses, as that of `rt try`, can't begin in so little memory.
if (ulimit -v 16000 && "$program" demo 1) > /dev/null 2>&1; then
  ends 'memory that is wanting' 13 '' asks_in_little_memory 16777216
fi
echo "$same of $all statuses as expected"
[ "$same" -eq "$all" ]
