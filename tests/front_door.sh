#!/usr/bin/env bash
# Tests that ./boomer answers by the program of the sources as they stand, or not at all; that it refuses wrong words at once, and no others; and that it says what helps.
#
# usage: tests/front_door.sh [--words]
#
# It runs the script over a tree of two small crates in a folder of its own, which the kit proves and builds for real: some minutes. With --words it builds nothing.
# What words the program takes is asked of the real one, where there is one: that of BOOMER, or one that ./boomer has built. It prints a line for each thing that was
# looked at; the status is 1 where one isn't as it should be.
# shellcheck disable=SC2317  # what is looked at is passed to `looked`
set -euo pipefail
top=$(cd "$(dirname "${BASH_SOURCE[0]}")/.." && pwd)
tree=$(mktemp -d)
trap 'rm -rf "$tree"' EXIT
real=$(command -v rt)
wrong=0

# The library has one function, whose contract says which number it gives; the program prints the number, and ends with 5, but with 0 for `demo 1`.
# A third crate is no part of it.
mkdir -p "$tree/crates/low/src" "$tree/crates/boomer/src" "$tree/crates/other/src" "$tree/kit" "$tree/docs"
cp -r "$top/boomer" "$top/README.md" "$top/tools" "$tree/"
cp "$top/docs/REFUSALS.md" "$tree/docs/"
printf '%s\n' demo 1 > "$tree/crates/boomer/args"
printf '# name: dependencies\nboomer: low\nlow:\nother: low\n' > "$tree/crates.txt"
printf '//! Nothing.\n#![tactic(auto)]\n\npub fn nothing() {}\n' > "$tree/crates/other/src/lib.rt"
cat > "$tree/crates/boomer/src/main.rt" <<'END'
//! Prints the number of the library.
#![tactic(auto)]

use std::io;
use std::process::ExitCode;
use std::rt::Env;
use std::env;

fn count_words(rt: &(impl Env + AllocGlobal)) -> io::Result<u8> {
    let mut count = 0u8;
    for _ in env::args(rt)?.skip(1) {
        count = count.saturating_add(1);
    }
    Ok(count)
}

fn print_number(rt: &HostRuntime) -> io::Result<()> {
    let number = low::number();
    println!(rt; "demo 1")?;
    println!(rt; "number {number}")?;
    Ok(())
}

fn main(rt: HostRuntime) -> ExitCode {
    let printed = print_number(&rt);
    match (printed, count_words(&rt)) {
        (Ok(()), Ok(2)) => ExitCode::from(0),
        _ => ExitCode::from(5),
    }
}
END

# number_is CLAIMED GIVEN: what the contract says, and what the body does.
number_is() {
  printf 'demo 1\nnumber %s\n' "$2" > "$tree/crates/boomer/stdout"
  cat > "$tree/crates/low/src/lib.rt" <<END
//! A number.
#![tactic(auto)]

ghost use Rattle.std.specs.Prelude.{◌≡◌};

pub fn number() -> u32
    ensures { result ≡ $1 }
{
    $2
}
END
}

# asked STATUS REPLY WORD..: the script ends with this status and writes this reply. What it says besides is left in $tree/said.
asked() {
  local status=0 wanted=$1 reply=$2
  shift 2
  "$tree/boomer" "$@" < /dev/null > "$tree/reply" 2> "$tree/said" || status=$?
  [ "$status" -eq "$wanted" ] && [ "$(cat "$tree/reply")" = "$reply" ]
}

said() {
  grep -q -- "$1" "$tree/said"
}

# The same, and what is said is one line.
said_alone() {
  said "$1" && [ "$(wc -l < "$tree/said")" -eq 1 ]
}

# What the processes that this script has waited for took of the processors, in ticks of its clock.
ticks() {
  awk '{ print $16 + $17 }' "/proc/$$/stat"
}

# within_a_second COMMAND..: of processor time, so that it makes no difference what else the machine does.
within_a_second() {
  local from
  from=$(ticks)
  "$@" && [ $(($(ticks) - from)) -lt "$(getconf CLK_TCK)" ]
}

# The script's program is a small script with the stamp of the sources as they stand, which replies a line and ends with a status.
stands_in() {
  local out=$tree/crates/boomer/out
  mkdir -p "$out"
  printf '#!/bin/sh\necho "%s"\nexit %s\n' "$1" "$2" > "$out/boomer"
  chmod +x "$out/boomer"
  { (cd "$tree" && sources); sha256sum < "$out/boomer"; } > "$out/boomer.sources"
}

# The sum of the kit and the sources, by the function of the script itself.
sources() {
  bash -c 'shopt -s nullglob; top=$1 version=$(rt version); eval "$(sed -n "/^sources() {/,/^}/p" "$1/boomer")"; sources' - "$tree"
}

looked() {
  local what=$1
  shift
  if "$@"; then
    printf 'ok    %s\n' "$what"
  else
    printf 'WRONG %s\n' "$what"
    sed 's/^/      | /' "$tree/said"
    wrong=1
  fi
}

refused() {
  asked 70 '' demo 1 && said 'nothing is answered' && said "$tree/crates/boomer/out/boomer.log" && [ ! -e "$tree/crates/boomer/out/boomer.sources" ]
}

# The same calls again, of a program that is there and mustn't be built anew.
at_once() {
  asked "$@" && ! said 'proved and built first'
}

anew() {
  asked "$@" && said 'proved and built first'
}

# ---- Words: nothing is built

number_is 7 7
points_to='boomer points-to ENTRY METHOD INDEX LOCAL BUDGET'
at_help() {
  within_a_second asked 0 "$help" "$@" && [ ! -s "$tree/said" ]
}
help=$("$tree/boomer" --help)
looked 'the help names the commands' grep -q "$points_to" <<< "$help"
for word in -h --help help; do
  looked "$word is answered at once" at_help "$word"
done
version=$("$tree/boomer" --version)
looked 'the version names the kit' grep -q 'rattle-kit-' <<< "$version"
looked 'it is told at once' within_a_second asked 0 "$version" --version

# wrong WHAT USAGE WORD..: the words are refused at once, as the program refuses them, and the usage is told.
wrong() {
  local what=$1 usage=$2
  shift 2
  looked "$what" within_a_second asked 1 'refused Usage' "$@"
  looked '  and the usage is told' said "usage: $usage"
}
wrong 'no words' "$points_to"
wrong 'a word that is no command' "$points_to" pointsto Main
wrong 'too few words' "$points_to" points-to Main
wrong 'too many words' 'boomer demo BOXES' demo 1 2
wrong 'a number with a leading zero' "$points_to" points-to Main m 01 x 100
wrong 'a number that is too great' 'boomer refined' refined Main m 1 x 9 100
wrong 'words behind --try' 'boomer demo BOXES' --try demo 0
looked 'where the reply cannot be written the status is that of a write that failed' bash -c '"$1/boomer" demo 0 > /dev/full 2> /dev/null; [ $? -eq 12 ]' - "$tree"
looked 'nothing was built' test ! -e "$tree/crates/boomer/out"

# ---- What helps

stands_in 'refused NotLinked Threads <Main: void run()> 3' 6
looked 'a rule of linking' asked 6 'refused NotLinked Threads <Main: void run()> 3' points-to Main m 1 x 100
looked '  has what is to be done in one line, as docs/REFUSALS.md has it' said_alone 'Threads: make the class one that'
stands_in 'refused NoSuchPlace method' 7
looked 'a method that is not there' asked 7 'refused NoSuchPlace method' points-to Main m 1 x 100
looked '  has the tool that lists methods' said_alone 'tools/number.py PROGRAM'
stands_in 'refused NoSuchPlace index' 7
looked 'a statement that is not there' asked 7 'refused NoSuchPlace index' points-to Main m 1 x 100
looked '  has the tool that lists statements' said_alone 'tools/number.py PROGRAM METHOD'
stands_in 'refused Usage' 1
looked 'words that the program refuses' asked 1 'refused Usage' run Main 1 --
looked '  have the usage of their command' said_alone 'usage: boomer run ENTRY STEPS CHOICES < PROGRAM'
stands_in 'sites 0' 0
looked 'an answer' asked 0 'sites 0' points-to Main m 1 x 100
looked '  has nothing behind it' test ! -s "$tree/said"
looked 'an answer that cannot be written has the status of a write that failed' bash -c '"$1/boomer" demo 1 > /dev/full 2> /dev/null; [ $? -eq 12 ]' - "$tree"

# ---- Word lists, as the script and the program take them

program=${BOOMER:-}
for built in "$top/crates/boomer/out/boomer" "$top/crates/boomer/out/tried"; do
  if [ -z "$program" ] && [ -x "$built" ]; then program=$built; fi
done

# The script refuses words here only where the program does, and where their number or a number among them is wrong.
stands_in 'taken' 0
takes_alike() {
  local is_counted=$1 taken=yes asked=yes
  shift
  [ "$("$tree/boomer" "$@" < /dev/null 2> "$tree/said")" = taken ] || asked=
  [ "$("$program" "$@" < /dev/null)" != 'refused Usage' ] || taken=
  if [ -n "$is_counted" ]; then [ "$asked" = "$taken" ]; else [ -n "$asked" ] || [ -z "$taken" ]; fi
}
if [ -z "$program" ]; then
  echo 'no program is built, so it was not asked which words it takes'
else
  # In front of the colon: whether the words are right or wrong for their count and numbers alone.
  while IFS= read -r line; do
    read -r -a list <<< "${line#*:}"
    if [ "${line%%:*}" = counted ]; then counted=yes; else counted=; fi
    looked "script and program on:${line#*:}" takes_alike "$counted" "${list[@]}"
  done <<'END'
counted:
counted: demo
counted: demo 1
counted: demo 400
counted: demo 401
counted: demo 0
counted: demo 01
counted: demo +1
counted: demo 1 1
counted: demos 1
counted: Demo 1
counted: points-to
counted: points-to Main m 0 x 0
counted: points-to Main m 4294967295 x 4294967295
counted: points-to Main m 4294967296 x 100
counted: points-to Main m 0 x 4294967296
counted: points-to Main m 18446744073709551616 x 100
counted: points-to Main m -1 x 100
counted: points-to Main m 00 x 100
counted: points-to Main m 0x1 x 100
counted: points-to Main m 1. x 100
counted: points-to Main m 1 x
counted: points-to Main m 1 x 100 100
counted: explain Main m 1 x 100
counted: explain Main m one x 100
counted: alias Main m 1 x y 100
counted: alias Main m 1 x 100
counted: refined Main m 1 x 0 100
counted: refined Main m 1 x 8 100
counted: refined Main m 1 x 9 100
counted: refined Main m 1 x 08 100
counted: batch Main 100
counted: batch Main 100 100
counted: batch Main -
counted: replay Main 100
counted: replay Main 1e2
counted: replay 100
counted: run Main 1000000 -
counted: run Main 1000001 -
counted: run Main 1 0123456789
counted: typestate Main p 100
counted: typestate Main p 010
counted: paths Main m 1 x [] 100
counted: paths Main m 1 x A:f,[] 100
counted: paths Main m 1 x [] ten
judged: run Main 1 --
judged: run Main 1 x
judged: paths Main m 1 x f 100
judged: paths Main m 1 x [],[],[],[],[] 100
judged: typestate nothing spells 100
END
  looked 'a word that is not UTF-8 is left to the program' takes_alike '' points-to $'\xff'
  looked 'a number behind a line feed' takes_alike yes demo $'\n1'
  looked 'a number before a line feed' takes_alike yes demo $'1\n'
  looked 'an empty word' takes_alike yes demo ''
fi
rm -rf "$tree/crates/boomer/out"
if [ "${1:-}" = --words ]; then exit "$wrong"; fi

# ---- Builds

looked 'from nothing the program is built and answers' anew 0 $'demo 1\nnumber 7' demo 1
looked 'for each crate that it is made of there is a line, with what is left' said 'low proved in .* minutes; 1 of 2 crates are left'
looked 'then it answers at once' at_once 0 $'demo 1\nnumber 7' demo 1
looked 'the status is that of the program' at_once 5 $'demo 1\nnumber 7' run Main 1 -

number_is 7 8
looked 'a proof that fails is refused, with the name of the log' refused
looked 'and with what is not proved' said 'src/lib.rt:6:1: it is not proved that what the function ensures holds'
looked 'so it is in the next call' refused
looked 'though the program of the old sources is still there' test -x "$tree/crates/boomer/out/boomer"
looked 'without proof the new sources answer' asked 5 $'demo 1\nnumber 8' --try run Main 1 -
looked 'and it is said that they are not proved' said 'not proved on this machine'
looked 'this program is kept' asked 5 $'demo 1\nnumber 8' --try run Main 1 -
looked 'and nothing is built again' said_alone 'not proved on this machine'
number_is 8 8
looked 'a mended proof answers' anew 0 $'demo 1\nnumber 8' demo 1

number_is 7 'seven'
looked 'sources that are no program are refused' refused
looked 'also without proof' asked 70 '' --try demo 1

number_is 7 7
looked 'mended' anew 0 $'demo 1\nnumber 7' demo 1
number_is 9 9
(cd "$tree/crates/boomer" && rt run -- demo 1) < /dev/null > "$tree/said" 2>&1
number_is 7 7
looked 'a program that was built by hand of other sources is not taken for one of these' anew 0 $'demo 1\nnumber 7' demo 1

cat > "$tree/kit/rt" <<END
#!/bin/sh
if [ "\$1" = version ]; then echo another-kit; else exec "$real" "\$@"; fi
END
chmod +x "$tree/kit/rt"
was=$PATH
PATH=$tree/kit:$PATH
looked 'another kit builds anew' anew 0 $'demo 1\nnumber 7' demo 1
looked 'once' at_once 0 $'demo 1\nnumber 7' demo 1
printf '#!/bin/sh\nexit 127\n' > "$tree/kit/rt"
looked 'without a kit nothing is answered' asked 70 '' demo 1
PATH=$was

# ---- Two calls at once, and one that is broken off

number_is 11 11
"$tree/boomer" demo 1 < /dev/null > "$tree/first" 2> "$tree/first.said" &
sleep 1
looked 'of two calls at once' asked 0 $'demo 1\nnumber 11' demo 1
wait
looked '  both answer' grep -qx 'number 11' "$tree/first"
looked '  and one builds' test "$(cat "$tree/said" "$tree/first.said" | grep -c 'proved and built first')" -eq 1

number_is 12 12
setsid "$tree/boomer" demo 1 < /dev/null > /dev/null 2>&1 &
broken=$!
sleep 4
kill -- "-$broken" 2> /dev/null || true
wait "$broken" 2> /dev/null || true
sleep 3
none_left() {
  ! readlink /proc/[0-9]*/cwd 2> /dev/null | grep boomer-build- > "$tree/said"
}
looked 'a build that is broken off leaves no process' none_left
looked 'and no stamp' test ! -e "$tree/crates/boomer/out/boomer.sources"
looked 'the next call goes on' anew 0 $'demo 1\nnumber 12' demo 1
exit "$wrong"
