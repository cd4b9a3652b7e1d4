#!/bin/sh
# How long a program takes to be read and linked with the prelude, and how that grows, over wide and deep hierarchies, interfaces
# everywhere, and many statements.
# It prints figures, and judges nothing. It wants `rt` on the PATH and Python 3.
exec python3 "$(dirname "$0")/link.py" "$@"
