"""What threads give: how long the two systems of a query take to be solved in the caller's thread and in pieces side by side, and how long many queries of
one program take one by one and as a batch.

usage: bench/threads.sh [--small] [sites] [batch]
       both where neither is named

For `sites` it builds a small program over the solver's crates in a temporary folder, which proves them there (long, unless a check on this machine did it
before), and removes the folder at the end. A time is that of the call of `solve_here`, or of `solve`, alone, what is demanded being known before: the least
of some calls of each, which take turns. The sites are those of one local, whose objects go through methods that all call each other: the more methods, the
larger the table of a site. Sites are cut into pieces of at most 16, so 16 of them are one piece.

For `batch` it runs the built program. A time is that of the whole call, reading and linking too: one call with all queries, and one call for each. Where
there are more than --singles queries so many are called one by one, spread over all, and their time is scaled.

How many processors there are is told first: ratios say nothing without it, and little where they do other work.
"""
import argparse
import os
import subprocess
import sys
import tempfile

from proved import ASKED, LINKED, asks, build
from queries import MAIN, OBJECT, body, main_class, measure, program_to_run

USES = ('linked_text jim_ast class_tree link_rules link_laws link_indexes link_program link_sites spds_rules spds_laws spds_nodes demand_set program_demand weight_laws auto_table '
        'post_star rule_cells rule_marks call_side spds_tables piece_join spds_solve indexmap anyhow')

PROGRAM = r'''//! Links a program from standard input with the prelude, and tells of a local at the end of `main` how long its query takes to be solved, in the caller's
//! thread and in pieces. The local is the one word of the command line.
#![tactic(auto)]

ghost use Rattle.demand_set.specs.Demands.{IsDemandOf};
ghost use Rattle.link_rules.specs.WellLinked.{IsWellLinked};
ghost use Rattle.spds_rules.specs.Demand.{Asked};
ghost use Rattle.spds_rules.specs.Nodes.{IsNode};

use anyhow::Result;
use linked_text::linked_of;
use demand_set::{Demand, Reach};
use program_demand::demand;
use link_program::Linked;
use link_sites::Place;
use spds_nodes::is_node;
use spds_rules::{Node, Var};
use spds_solve::{solve, solve_here};
use std::env;
use std::io::Read;
use std::marker::Sync;
use std::rt::Clock;
use std::thread::Threads;
use std::time::Instant;

// How often each is called.
const CALLS: u32 = 5;

''' + ASKED + r'''
// How long a demand takes to be solved in the caller's thread; `None` where memory is wanting.
fn here<R: AllocGlobal + Clock>(rt: &R, linked: &Linked, found: &Demand) -> Result<Option<u64>>
    requires well { IsWellLinked linked.now }
    requires demanded { (q : Asked) × IsDemandOf linked.now q found.now }
{
    let start = Instant::now(rt)?;
    match solve_here(rt.alloc(), linked, found) {
        Ok(_) => Ok(Some(micros_since(rt, start))),
        Err(_) => Ok(None),
    }
}

// The same in pieces.
fn in_pieces<R: AllocGlobal + Clock + Threads + Sync>(rt: &R, linked: &Linked, found: &Demand) -> Result<Option<u64>>
    requires well { IsWellLinked linked.now }
    requires demanded { (q : Asked) × IsDemandOf linked.now q found.now }
{
    let start = Instant::now(rt)?;
    match solve(rt, rt.alloc(), linked, found) {
        Ok(_) => Ok(Some(micros_since(rt, start))),
        Err(_) => Ok(None),
    }
}

// The least times of both, in microseconds, and how many sites there are.
fn compared<R: AllocGlobal + Clock + Threads + Sync>(rt: &R, linked: &Linked, found: &Demand) -> Result<String>
    requires well { IsWellLinked linked.now }
    requires demanded { (q : Asked) × IsDemandOf linked.now q found.now }
{
    let (mut least, mut least_in_pieces) = (u64::MAX, u64::MAX);
    for _ in 0..CALLS {
        least = least.min(here(rt, linked, found)?.unwrap_or(u64::MAX));
        least_in_pieces = least_in_pieces.min(in_pieces(rt, linked, found)?.unwrap_or(u64::MAX));
    }
    let sites = found.sites().len();
    Ok(format!(in rt.alloc(); "{least} {least_in_pieces} {sites}")?)
}

fn told<R: AllocGlobal + Clock + Threads + Sync>(rt: &R, linked: &Linked, node: Node) -> Result<String>
    requires well { IsWellLinked linked.now }
    requires node { IsNode linked.now node }
{
    match demand(rt.alloc(), linked, &[node], Reach::Plain, u32::MAX) {
        Ok(found) => compared(rt, linked, &found),
        Err(_) => Ok(String::from_str(rt.alloc(), "no demand")?),
    }
}

''' + LINKED

SITES = [1, 16, 17, 64, 256]

# How many methods all call each other, and what that makes of a table.
TABLES = [(2, 'small'), (8, 'larger'), (24, 'large')]

QUERIES = [1, 10, 100, 1000]


def through_methods(sites, methods):
    """Objects of many sites, of which `main` chooses one, go through methods that all call each other."""
    made = []
    for i in range(methods):
        calls = [f'p = staticinvoke <Main: {OBJECT} f{j}({OBJECT})>(p);' for j in range(methods)]
        made.append(f'static {OBJECT} f{i}({OBJECT}) ' + body([f'{OBJECT} p;'], [f'p := @parameter0: {OBJECT};', 'if 0 == 1 goto done;', *calls, 'done:', 'return p;']))
    chosen = [part for i in range(sites - 1) for part in (f'if 0 == 1 goto next{i};', 'x = new A;', 'goto made;', f'next{i}:')]
    statements = [*chosen, 'x = new A;', 'made:', f'y = staticinvoke <Main: {OBJECT} f0({OBJECT})>(x);', 'return;']
    return main_class(made, [f'{OBJECT} x, y;'], statements)


def solved(path, text):
    """Microseconds in the caller's thread, in pieces, and how many sites there are, or what the program says in their place."""
    told = subprocess.run([path, 'y'], input=text.encode(), capture_output=True).stdout.decode().split()
    if len(told) != 3 or not all(word.isdigit() for word in told):
        sys.exit('the program answers: ' + ' '.join(told)[:200])
    return [int(word) for word in told]


def show_sites(small):
    with tempfile.TemporaryDirectory() as folder:
        path = build(folder, 'threads_speed', USES, PROGRAM, [('told/Answers', asks('threads_speed'))])
        for methods, size in TABLES[:2] if small else TABLES:
            print(f'\nsites with {size} tables: {methods} methods that all call each other')
            print(f'{"sites":>8} {"one thread":>12} {"in pieces":>12} {"times as fast":>14}', flush=True)
            for count in SITES[:3] if small else SITES:
                here, pieces, sites = solved(path, through_methods(count, methods))
                print(f'{sites:>8} {here / 1000:>9.2f} ms {pieces / 1000:>9.2f} ms {here / max(pieces, 1):>14.2f}', flush=True)


def library(classes):
    """Classes whose methods hand an object on to the next class, and a `main` that asks each of them: a local for each."""
    more = '\n'.join(
        f'class C{i} {{ static {OBJECT} m({OBJECT}) {{ {OBJECT} p, q; p := @parameter0: {OBJECT}; '
        + (f'q = staticinvoke <C{i + 1}: {OBJECT} m({OBJECT})>(p); return q; }} }}' if i % 10 != 9 and i + 1 < classes else 'return p; } }')
        for i in range(classes))
    statements = []
    for i in range(classes):
        statements += [f'o{i} = new A;', f'x{i} = staticinvoke <C{i}: {OBJECT} m({OBJECT})>(o{i});']
    statements.append('return;')
    return main_class([], [f'{OBJECT} o{i}, x{i};' for i in range(classes)], statements, more)


def seconds_of(program, text, words):
    """The seconds of the whole call, and its reply."""
    seconds, _, _, reply = measure(program, text, words, 300)
    return seconds, reply


def show_batch(small, singles):
    program = program_to_run()
    classes = 20 if small else 400
    text = library(classes)
    print(f'\nqueries of a program of {classes} classes, {len(text) // 1024} KiB')
    print(f'{"queries":>8} {"one by one":>12} {"as a batch":>12} {"times as fast":>14}', flush=True)
    for count in QUERIES[:2] if small else QUERIES:
        places = [(2 * classes, f'x{i % classes}') for i in range(count)]
        lines = ''.join(f'{index} {local} {MAIN}\n' for index, local in places)
        together, reply = seconds_of(program, text + '%queries\n' + lines, ['batch', 'Main', '4294967295'])
        if not reply.startswith(f'batch {count}\n'):
            sys.exit('the program answers: ' + reply[:200])
        called = places[::-(-count // singles)]
        alone, said = 0.0, f'batch {count}\n'
        for index, local in called:
            seconds, one = seconds_of(program, text, ['points-to', 'Main', MAIN, str(index), local, '4294967295'])
            alone, said = alone + seconds, said + one
        if len(called) == count and said != reply:
            sys.exit('a batch answers otherwise than its queries one by one')
        alone = alone / len(called) * count
        print(f'{count:>8} {alone:>10.2f} s {together:>10.2f} s {alone / together:>14.2f}', flush=True)


def main():
    parser = argparse.ArgumentParser(usage=__doc__)
    parser.add_argument('--small', action='store_true')
    parser.add_argument('--singles', type=int, default=100)
    parser.add_argument('names', nargs='*')
    asked = parser.parse_args()
    if any(name not in ('sites', 'batch') for name in asked.names):
        sys.exit(__doc__)
    print(f'{len(os.sched_getaffinity(0))} processors')
    if not asked.names or 'sites' in asked.names:
        show_sites(asked.small)
    if not asked.names or 'batch' in asked.names:
        show_batch(asked.small, asked.singles)


main()
