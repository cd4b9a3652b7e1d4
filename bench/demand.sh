#!/bin/sh
# How long the demand of a query takes, how much memory, and how both grow, over chains of copies, cliques of methods that call each other, wide
# dispatch, lists that are built and read through a field, and objects that wait long to be stored.
# It prints figures, and judges nothing. It wants `rt` on the PATH, Python 3 and Linux.
exec python3 "$(dirname "$0")/demand.py" "$@"
