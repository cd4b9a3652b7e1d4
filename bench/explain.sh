#!/bin/sh
# How long queries take with a certificate for each site, beside the same without: over growing sizes, with --small over small ones, and by instructions over
# programs like those of libraries, where `valgrind` is there. It prints figures, and judges nothing. It wants Python 3. The program is that of ./boomer, which
# builds it first; BOOMER names another one.
here=$(dirname "$0")
python3 "$here/queries.py" "$@" explain || exit
if command -v valgrind > /dev/null; then
  echo
  exec python3 "$here/certificates.py"
fi
