#!/bin/sh
# How long a query takes to be solved in one thread and in pieces side by side, over few and many sites with small and large tables, and how long many
# queries take as one batch and one by one; with --small over small sizes. It prints figures with the number of processors, and judges nothing.
# It wants `rt` on the PATH and Python 3. The program that answers queries is that of ./boomer, which builds it first; BOOMER names another one.
exec python3 "$(dirname "$0")/threads.py" "$@"
