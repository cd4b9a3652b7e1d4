#!/bin/sh
# What refined calls take beside the same query without, round by round, and what they find; with --small over small programs. It prints figures, and judges
# nothing. It wants Python 3. The program is that of ./boomer, which builds it first; BOOMER names another one.
exec python3 "$(dirname "$0")/refined.py" "$@"
