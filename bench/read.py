"""How fast a program text is read: lexing and parsing together, in MB/s, and the most memory that was taken, in times of the text's size.

usage: bench/read.sh

It builds a small program over the reader's crates in a temporary folder, which proves them there (some minutes, unless a
check on this machine did it before), and removes the folder at the end.
"""
import tempfile

from proved import LIMIT, build, library, run_measured

PROGRAM = r'''//! Reads a program from standard input, and says how long lexing and all of the reading took.
#![tactic(auto)]

use anyhow::Result;
use jim_parse::{ParseError, parse};
use jim_text::{LexError, lex};
use std::io::Read;
use std::time::Instant;

fn main(rt: HostRuntime) -> Result<()> {
    let mut bytes = Vec::new(rt.alloc());
    rt.stdin().read_to_end(&mut bytes)?;
    if bytes.len() > 16_777_216 {
        println!(rt; "0 0 too long")?;
        return Ok(());
    }
    let start = Instant::now(&rt)?;
    let tokens = match lex(rt.alloc(), &bytes) {
        Ok(tokens) => tokens,
        Err(LexError::BadText { at }) => {
            println!(rt; "0 0 no text at {}", at)?;
            return Ok(());
        }
        Err(LexError::NoMemory) => {
            println!(rt; "0 0 no memory")?;
            return Ok(());
        }
    };
    let lexed = start.elapsed(&rt)?.as_micros();
    let read = parse(rt.alloc(), &bytes, &tokens);
    let all = start.elapsed(&rt)?.as_micros();
    match read {
        Ok(program) => println!(rt; "{} {} {} tokens, {} classes", lexed, all, tokens.len(), program.classes.as_slice().len())?,
        Err(ParseError::NotJimple { at }) => println!(rt; "{} {} no program at {}", lexed, all, at)?,
        Err(ParseError::NoMemory) => println!(rt; "{} {} no memory", lexed, all)?,
    }
    Ok(())
}
'''


def main():
    with tempfile.TemporaryDirectory() as folder:
        path = build(folder, 'read_speed', 'jim_text jim_parse anyhow', PROGRAM)
        print(f'{"bytes":>10} {"lexing":>10} {"all":>10} {"memory":>10} {"growth":>8}   answer')
        before = None
        for part in [8, 4, 2, 1]:
            data = library(LIMIT // part)
            told, _, memory = run_measured(path, data)
            lexed, whole, answer = told.split(' ', 2)
            lexed, whole = max(int(lexed), 1), max(int(whole), 1)
            growth = f'{whole / before:.2f}' if before else '-'
            before = whole
            print(f'{len(data):10} {len(data) / lexed:5.0f} MB/s {len(data) / whole:5.0f} MB/s {memory / len(data):5.1f} times {growth:>8}   {answer}', flush=True)


main()
