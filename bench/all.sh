#!/usr/bin/env bash
# Runs all benchmarks and prints one table: the benchmark, and what it says, line by line. It judges nothing by time; the status is 1 where one didn't run.
#
# usage: bench/all.sh [--quick | --small]
#
# --quick leaves out those that make a program of their own over some crates, which is proved first and takes long; --small, too, and takes small sizes
# of those that have them. It wants `rt` on the PATH and Python 3. The program of the others is that of ./boomer, which builds it first; BOOMER names
# another one.
set -uo pipefail
here=$(cd "$(dirname "${BASH_SOURCE[0]}")" && pwd)

small=()
benchmarks=(run calls fields demo typestate explain refined first_path hostile)
case "${1:-}" in
  '') benchmarks+=(solve threads demand link read lex class_tree saturate) ;;
  --quick) ;;
  --small) small=(--small) ;;
  *)
    echo "usage: bench/all.sh [--quick | --small]" >&2
    exit 2
    ;;
esac

trouble=$(mktemp)
trap 'rm -f "$trouble"' EXIT
status=0
for name in "${benchmarks[@]}"; do
  flags=()
  case $name in run | calls | fields | demo | typestate | explain | refined | hostile | solve | threads) flags=("${small[@]}") ;; esac
  if ! "$here/$name.sh" ${flags[@]+"${flags[@]}"} 2> "$trouble" | awk -v name="$name" 'NF { printf "%-11s %s\n", name, $0; fflush() }'; then
    printf '%-11s did not run: %s\n' "$name" "$(tail -n 1 "$trouble")"
    status=1
  fi
done
exit "$status"
