"""The tokens of a program in Jimple, as boomer tells them apart, for the tools beside this file. docs/MANUAL.md says how they are spelled.

A byte from 128 on counts as a letter here. Where every byte belongs to a token, a blank or a comment, as in each program that isn't refused as NotText,
that makes no difference.
"""
import os
import re
import sys

COMPONENT = rb"(?:[A-Za-z$_\x80-\xff][A-Za-z0-9$_#\x80-\xff-]*|'[^' \t\n\r\f<>(),:;\[\]]+')"
TOKEN = re.compile(rb'''
    (?P<blank> [ \t\n\r\f]+ ) | (?P<comment> //[^\n]* | /\*.*?\*/ )
  | <init> | <clinit> | %(component)s (?: \. %(component)s )*
  | \d{1,38}\.\d{1,38} (?: [eE][+-]?\d{1,38} )? [fF]? | 0x[0-9A-Fa-f]{1,32}L? | \d{1,38}L? | \#-?Infinity[fF]? | \#NaN[fF]?
  | " (?: [^"\\\r\n] | \\[^\r\n] )* "
  | @this | @caughtexception | @parameter\d{1,5}
  | >>> | := | == | != | <= | >= | << | >> | /(?![/*]) | [{}()\[\];,:.=<>+\-*%%&^|]
''' % {b'component': COMPONENT}, re.VERBOSE | re.DOTALL)


def pieces_of(data):
    """The tokens and the comments of bytes, each as whether it is a comment, where it begins and where it ends, up to the first byte at which nothing begins."""
    at = 0
    while found := TOKEN.match(data, at):
        if not found['blank']:
            yield bool(found['comment']), at, found.end()
        at = found.end()


def tokens_of(data):
    """The tokens of bytes, each as where it begins and where it ends, up to the first byte at which nothing begins."""
    return [(at, end) for is_comment, at, end in pieces_of(data) if not is_comment]


def read(file):
    """The bytes of a file. Where they can't be read the program ends, and says why."""
    try:
        with open(file, 'rb') as it:
            return it.read()
    except OSError as error:
        sys.exit(f'{file}: {error.strerror}')


def run(main, *words):
    """Ends the program with what a tool's main gives: a status, or a text for standard error and the status 1. Who reads may have enough of it, as head does."""
    try:
        status = main(*words)
        sys.stdout.flush()
    except BrokenPipeError:
        # Python would write what is left once more when it ends.
        os.dup2(os.open(os.devnull, os.O_WRONLY), 1)
        status = 0
    sys.exit(status)
