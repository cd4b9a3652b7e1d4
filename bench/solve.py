"""How long the two systems of a query take to be solved, how much they hold, and how both grow with the size of a program: over the shapes of calls and of
fields of queries.py.

usage: bench/solve.sh [--small]

It builds a small program over the solver's crates in a temporary folder, which proves them there (long, unless a check on this machine did it before), and
removes the folder at the end. The time is that of the call of `solve` alone, what is demanded being known before. An entry is a base or a pushed symbol of a
table of a site, a fact a node with one of them; a meet is an object that may be stored into another by a store.
"""
import subprocess
import sys
import tempfile

from proved import ASKED, LINKED, asks, build
from queries import TABLES

USES = ('linked_text jim_ast class_tree link_rules link_laws link_indexes link_program link_sites spds_rules spds_laws spds_nodes demand_set program_demand weight_laws auto_table '
        'post_star rule_cells rule_marks call_side spds_tables piece_join spds_solve indexmap anyhow')

PROGRAM = r'''//! Links a program from standard input with the prelude, and tells of a local at the end of `main` how long its query takes to be solved, and how much
//! that holds. The local is the one word of the command line.
#![tactic(auto)]

ghost use Rattle.link_rules.specs.WellLinked.{IsWellLinked};
ghost use Rattle.spds_rules.specs.Nodes.{IsNode};

use anyhow::Result;
use linked_text::linked_of;
use demand_set::{Demand, Reach};
use program_demand::demand;
use link_program::Linked;
use link_sites::Place;
use spds_nodes::is_node;
use spds_rules::{Node, Var};
use spds_solve::{Solved, solve_here};
use std::env;
use std::io::Read;
use std::marker::Sync;
use std::rt::Clock;
use std::thread::Threads;
use std::time::Instant;

''' + ASKED + r'''
// How long solving took, in microseconds, and the sizes of what is demanded and found.
fn line<R: AllocGlobal + Clock>(rt: &R, took: u64, found: &Demand, solved: &Solved) -> Result<String> {
    let nodes = found.nodes().len();
    let size = solved.size();
    let (entries, facts, meets) = (size.entries, size.facts, solved.meets().len());
    Ok(format!(in rt.alloc(); "{took} {nodes} {entries} {facts} {meets}")?)
}

// Solves what the node demands, and tells of it. It has few ways out while it owns the tables, since the prover goes over their drops at each.
fn told<R: AllocGlobal + Clock>(rt: &R, linked: &Linked, node: Node) -> Result<String>
    requires well { IsWellLinked linked.now }
    requires node { IsNode linked.now node }
{
    let Ok(found) = demand(rt.alloc(), linked, &[node], Reach::Plain, u32::MAX) else {
        return Ok(String::from_str(rt.alloc(), "no demand")?);
    };
    let start = Instant::now(rt)?;
    match solve_here(rt.alloc(), linked, &found) {
        Ok(solved) => line(rt, micros_since(rt, start), &found, &solved),
        Err(_) => Ok(String::from_str(rt.alloc(), "no memory")?),
    }
}

''' + LINKED


def measured(path, text, local):
    """Microseconds, demanded nodes, entries, facts and meets, or what the program says in their place."""
    told = subprocess.run([path, local], input=text.encode(), capture_output=True).stdout.decode().split()
    if len(told) != 5 or not all(word.isdigit() for word in told):
        sys.exit('the program answers: ' + ' '.join(told)[:200])
    return [int(word) for word in told]


def growth(now, before):
    return f'{now / before:.2f}' if before else '-'


def main():
    small = sys.argv[1:] == ['--small']
    with tempfile.TemporaryDirectory() as folder:
        path = build(folder, 'solve_speed', USES, PROGRAM, [('told/Answers', asks('solve_speed'))])
        for title, shape, sizes, few in TABLES['calls'] + TABLES['fields']:
            print(f'\n{title}')
            print(f'{"size":>8} {"time":>11} {"growth":>7} {"demanded":>10} {"entries":>9} {"facts":>10} {"growth":>7} {"meets":>7}', flush=True)
            before = None
            for size in few if small else sizes:
                text, words = shape(size)
                took, nodes, entries, facts, meets = measured(path, text, words[4])
                longer, more = (growth(took, before[0]), growth(facts, before[1])) if before else ('-', '-')
                before = (max(took, 1), max(facts, 1))
                print(f'{size:>8} {took / 1000:>8.1f} ms {longer:>7} {nodes:>10} {entries:>9} {facts:>10} {more:>7} {meets:>7}', flush=True)


main()
