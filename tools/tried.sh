#!/usr/bin/env bash
# Builds the program without proof, by `rt try`, and keeps it.
#
# usage: tools/tried.sh TO
#
# `rt try` keeps no program: it compiles and links one in a folder of its own, runs it, and removes it. So it is called in a kit of ours, a folder of links to
# the installed one, in which the linker also leaves what it made; the two files of `rt` itself are copied, since they take the folder in which they lie for that
# of the kit. Nothing else differs: the program is compiled with the checks of `rt try`, and stops at an index out of bounds, an overflow or a bad access.
# The installed kit isn't touched. The status is 0 where TO is such a program, and answers `demo 1`; 3 where `rt try` answers, but nothing was kept, as it may be with another
# kit; and another one where it doesn't answer.
set -euo pipefail
to=$1
top=$(cd "$(dirname "${BASH_SOURCE[0]}")/.." && pwd)
kit=$(dirname "$(rt doc)")
work=$(mktemp -d)
trap 'rm -rf "$work"' EXIT

# links FOLDER BUT..: a folder of our kit, of links to what the folder of the installed one has, but for these names.
links() {
  local folder=$1 it name
  shift
  mkdir -p "$work/kit/$folder"
  for it in "$kit/$folder"/*; do
    name=${it##*/}
    case " $* " in *" $name "*) ;; *) ln -s "$it" "$work/kit/$folder/$name" ;; esac
  done
}

links . bin toolchain
links bin rt rtlib.py
links toolchain bin
links toolchain/bin ld.lld
cp "$kit/bin/rt" "$kit/bin/rtlib.py" "$work/kit/bin/"
cat > "$work/kit/toolchain/bin/ld.lld" <<END
#!/bin/sh
"$kit/toolchain/bin/ld.lld" "\$@" || exit
while [ \$# -gt 1 ]; do
  if [ "\$1" = -o ]; then cp "\$2" "$work/made"; fi
  shift
done
END
chmod +x "$work/kit/toolchain/bin/ld.lld"

cd "$top/crates/boomer"
answers() {
  "$@" demo 1 < /dev/null | grep -qx 'demo 1'
}

answers "$work/kit/bin/rt" try -- || answers rt try --
if ! answers "$work/made"; then exit 3; fi
mv "$work/made" "$to"
