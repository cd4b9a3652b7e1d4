#!/bin/sh
# How long the class hierarchy takes to build and to answer. It prints figures, and judges nothing. It
# wants `rt` on the PATH and Python 3.
exec python3 "$(dirname "$0")/class_tree.py" "$@"
