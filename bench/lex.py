"""How fast `lex` of jim_text is: MB/s at 4 MiB and at 16 MiB of each input, so that linear time shows.

usage: bench/lex.sh [INPUT..]     the named inputs, or all

It builds a small program over the crate in a temporary folder, which proves the crate there (a minute or two, unless a
check on this machine did it before), and removes the folder at the end.
"""
import subprocess
import sys
import tempfile

from proved import LIMIT, build, library

PROGRAM = r'''//! Lexes standard input, and says how many tokens it has and how long that took.
#![tactic(auto)]

use anyhow::Result;
use jim_text::{LexError, lex};
use std::io::Read;
use std::time::Instant;

fn main(rt: HostRuntime) -> Result<()> {
    let mut bytes = Vec::new(rt.alloc());
    rt.stdin().read_to_end(&mut bytes)?;
    if bytes.len() > 16_777_216 {
        println!(rt; "0 too long")?;
        return Ok(());
    }
    let start = Instant::now(&rt)?;
    let lexed = lex(rt.alloc(), &bytes);
    let took = start.elapsed(&rt)?;
    let micros = took.as_micros();
    match lexed {
        Ok(tokens) => println!(rt; "{} {} tokens", micros, tokens.len())?,
        Err(LexError::BadText { at }) => println!(rt; "{} no text at {}", micros, at)?,
        Err(LexError::NoMemory) => println!(rt; "{} no memory", micros)?,
    }
    Ok(())
}
'''


def fill(piece, size, head=b'', tail=b''):
    """The piece over and over between a head and a tail, each time whole, in at most `size` bytes."""
    return head + piece * ((size - len(head) - len(tail)) // len(piece)) + tail


INPUTS = {
    'program': library,
    'one_name': lambda n: fill(b'a', n),
    'one_wide_name': lambda n: fill('\u0130'.encode(), n),
    'one_dotted_name': lambda n: fill(b"a.'b'.", n, tail=b'c'),
    'failing_components': lambda n: fill(b'a.b.c. ', n),
    'one_quoted_name': lambda n: fill(b'b', n, head=b"'", tail=b"'"),
    'open_quote': lambda n: fill(b'b', n, head=b"a.'"),
    'quotes': lambda n: fill(b"a.'", n),
    'digits': lambda n: fill(b'7', n),
    'hexadecimals': lambda n: fill(b'0xfg', n),
    'fractions': lambda n: fill(b'1.', n),
    'exponents': lambda n: fill(b'1.0E', n),
    'long_exponents': lambda n: fill(b'1' * 38 + b'.' + b'2' * 38 + b'e-', n),
    'number_signs': lambda n: fill(b'#', n),
    'specials': lambda n: fill(b'#-Infinityf', n),
    'parameters': lambda n: fill(b'@parameter123456', n),
    'minuses': lambda n: fill(b'-', n),
    'less_signs': lambda n: fill(b'<', n),
    'short_of_init': lambda n: fill(b'<clini', n),
    'slashes_apart': lambda n: fill(b'/ ', n),
    'one_line': lambda n: fill(b'x', n, head=b'//'),
    'one_line_malformed': lambda n: fill(b'x', n, head=b'//', tail=b'\xff'),
    'empty_lines': lambda n: fill(b'//\n', n),
    'one_block': lambda n: fill(b'*', n, head=b'/*', tail=b'/'),
    'one_block_malformed': lambda n: fill(b' ', n, head=b'/*', tail=b'\xff*/'),
    'open_block': lambda n: fill(b'/*', n),
    'open_blocks': lambda n: fill(b'/* ', n),
    'empty_blocks': lambda n: fill(b'/**/', n),
    'one_text': lambda n: fill(b'x', n, head=b'"', tail=b'"'),
    'one_wide_text': lambda n: fill('\u20ac'.encode(), n, head=b'"', tail=b'"'),
    'open_text': lambda n: fill(b'\\"', n, head=b'"'),
    'empty_texts': lambda n: fill(b'""', n),
}


def measured(path, data):
    """MB/s, and the program's answer."""
    done = subprocess.run([path], input=data, capture_output=True, check=True)
    micros, answer = done.stdout.decode().strip().split(' ', 1)
    return len(data) / max(int(micros), 1), answer


def main():
    unknown = [name for name in sys.argv[1:] if name not in INPUTS]
    if unknown:
        sys.exit('no such input: ' + ' '.join(unknown) + '\ninputs: ' + ' '.join(INPUTS))
    with tempfile.TemporaryDirectory() as folder:
        path = build(folder, 'lex_speed', 'jim_text anyhow', PROGRAM)
        print(f'{"input":20} {"4 MiB":>10} {"16 MiB":>10}   answer at 16 MiB')
        for name in sys.argv[1:] or INPUTS:
            make = INPUTS[name]
            small, _ = measured(path, make(LIMIT // 4))
            large, answer = measured(path, make(LIMIT))
            speed = lambda x: 'at once' if x > 100_000 else f'{x:.0f} MB/s'
            print(f'{name:20} {speed(small):>10} {speed(large):>10}   {answer}', flush=True)


main()
