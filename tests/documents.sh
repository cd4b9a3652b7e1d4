#!/usr/bin/env bash
# Tests that the documents are short, that what they name is there, and that programs print what they say.
#
# usage: tests/documents.sh [--try | --unrun]
#
# README.md and docs/*.md: how many words each page has and all together, how wide lines are, that names in backquotes and links lead somewhere, that
# generated tables are as the sources are, and that each example's reply is what the program prints. The program is that of tests/cases.sh, with --try one
# that isn't proved; with --unrun no example is run. It prints what isn't so; the status is 1 where anything isn't.
set -euo pipefail
cd "$(dirname "${BASH_SOURCE[0]}")/.."
wrong=0
tools/tables.py --check || wrong=1
tools/trusted.py --check || wrong=1
tests/pages.py || wrong=1
case "${1:-}" in
  --unrun) ;;
  --try | '') tests/documents.py ${1:+"$1"} || wrong=1 ;;
  *) echo 'usage: tests/documents.sh [--try | --unrun]' >&2; exit 2 ;;
esac
[ "$wrong" -eq 0 ]
