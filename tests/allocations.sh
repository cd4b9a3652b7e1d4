#!/bin/sh
# Refuses each allocation of some commands in turn, and of the tests of crates/memory_rows: status 13 and nothing written, or what there is with ample memory.
#
# usage: tests/allocations.sh [EXAMPLE..]
#
# Each EXAMPLE is one of those in examples/, by the name of its program; without any, those that the script names, `demo 8`, and the tests. The program is that of ./boomer, which
# builds it first; BOOMER names another one. Wants Python 3, and cc for tests/refuse.c, which refuses the calls. It prints how many allocations each has, and each run that ended
# otherwise; the status is 1 where one did.
exec python3 "$(dirname "$0")/allocations.py" "$@"
