#!/bin/sh
# How fast `lex` of jim_text is, on a program text and on inputs that a slow lexer would be slow on.
# It prints figures, and judges nothing. It wants `rt` on the PATH and Python 3.
exec python3 "$(dirname "$0")/lex.py" "$@"
