#!/bin/sh
# How long the two systems of a query take to be solved, how many entries, facts and meets they hold, and how that grows, over chains and cliques of calls,
# wide dispatch, lists of cells, and boxes.
# It prints figures, and judges nothing. It wants `rt` on the PATH and Python 3.
exec python3 "$(dirname "$0")/solve.py" "$@"
