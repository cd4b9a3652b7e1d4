#!/bin/sh
# How fast a program text of many classes is read, from bytes to the program, how much memory that takes, and how both grow.
# It prints figures, and judges nothing. It wants `rt` on the PATH and Python 3.
exec python3 "$(dirname "$0")/read.py" "$@"
