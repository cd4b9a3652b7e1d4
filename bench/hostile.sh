#!/bin/sh
# How long the program takes on inputs that are made to be slow: texts of one hash, and classes, methods, bodies and tokens of extreme shapes, at 1, 4 and
# 16 MiB; how much memory that takes, and how both grow. It prints figures, and judges nothing; with --small it takes a sixteenth of each size.
# It wants Python 3. The program is that of ./boomer, which builds it first; BOOMER names another one.
exec python3 "$(dirname "$0")/hostile.py" "$@"
