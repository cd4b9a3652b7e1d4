"""How long the demand of a query takes, how much memory, and how both grow with the size of a program: over a chain of copies, a clique of methods that
call each other, wide dispatch, a list that is built and read through a field, and objects that wait long to be stored. The first and the last of these
reach a million nodes.

usage: bench/demand.sh

It builds a small program over the crates below in a temporary folder, which proves them there (some minutes, unless a check on this machine did it
before), and removes the folder at the end. The time is that of the call of `demand` alone, the program being linked before. So is the memory: by how
much the most that is resident during the call is above what is resident before it, for each node. It is read from the files of Linux about the process.
What the reading of the program left free is used again, so that the figure is a little low where the text is long: over copies.
"""
import subprocess
import sys
import tempfile

from proved import ASKED, INIT, build

USES = 'linked_text jim_ast link_rules link_indexes link_program link_sites spds_rules spds_nodes demand_set program_demand indexmap anyhow'

PROGRAM = r'''//! Links a program from standard input with the prelude, and tells how long the demand of the local `x` at the end of `main` takes, and what Linux
//! says of the process before and after it.
#![tactic(auto)]

ghost use Rattle.spds_rules.specs.Nodes.{IsNode};

use anyhow::Result;
use linked_text::linked_of;
use demand_set::{Demand, Reach};
use program_demand::demand;
use link_program::Linked;
use link_sites::Place;
use spds_nodes::is_node;
use spds_rules::{Node, Var};
use std::alloc::{AllocError, Global};
use std::fs;
use std::io::Read;
use std::time::Instant;

''' + ASKED + r'''
fn sizes(alloc: Global, found: &Demand, took: u64) -> Result<String, AllocError> {
    let nodes = found.nodes().len();
    let edges = found.edges().len();
    let stores = found.stores().len();
    let sites = found.sites().len();
    format!(in alloc; "{took} {nodes} {edges} {stores} {sites}")
}

// How long the demand takes, in microseconds, its sizes, and what is said of the process before and after it. The most memory that was resident counts
// from just before it on.
fn told(rt: &HostRuntime, linked: &Linked, node: Node) -> Result<String>
    requires { IsNode linked.now node }
{
    fs::write(rt, "/proc/self/clear_refs", "5")?;
    let before = fs::read_to_string(rt, "/proc/self/status")?;
    let start = Instant::now(rt)?;
    let found = demand(rt.alloc(), linked, &[node], Reach::Plain, u32::MAX);
    let took = u64::try_from(start.elapsed(rt)?.as_micros()).unwrap_or(u64::MAX);
    let after = fs::read_to_string(rt, "/proc/self/status")?;
    match found {
        Ok(found) => {
            let sizes = sizes(rt.alloc(), &found, took)?;
            Ok(format!(in rt.alloc(); "{sizes}\n{before}{after}")?)
        }
        Err(_) => Ok(String::from_str(rt.alloc(), "no demand")?),
    }
}

fn measured(rt: &HostRuntime, linked: &Linked) -> Result<String> {
    match asked(linked, "x") {
        Some(node) if is_node(linked, node) => told(rt, linked, node),
        _ => Ok(String::from_str(rt.alloc(), "no such place")?),
    }
}

fn answer(rt: &HostRuntime, bytes: &[u8]) -> Result<String> {
    let linked = match str::from_utf8(bytes) {
        Ok(text) => linked_of(rt.alloc(), text),
        Err(_) => None,
    };
    match linked {
        Some(Ok(linked)) => measured(rt, &linked),
        _ => Ok(String::from_str(rt.alloc(), "no linked program")?),
    }
}

fn main(rt: HostRuntime) -> Result<()> {
    let mut bytes = Vec::new(rt.alloc());
    rt.stdin().read_to_end(&mut bytes)?;
    let line = answer(&rt, &bytes)?;
    println!(rt; "{line}")?;
    Ok(())
}
'''

ASKS = '''use Rattle.demand_set.proofs.Appended.{Has-one}
use Rattle.demand_speed.proofs.told.Goals as goal

pub demand-found-requires : goal.demand-found-requires
demand-found-requires c = record { nodes = λ n has. rw (Has-one _ n has) c.requires }
'''

OBJECT = 'java.lang.Object'


def main_class(locals, body, fields=''):
    return f'class Main extends java.lang.Object {{\n{fields}  public static void main(java.lang.String[]) {{\n    {OBJECT} {locals};\n{body}    return;\n  }}\n}}\n'


def copies(n):
    """n copies, one after the other."""
    return main_class('x, y, z', '    x = null;\n' + '    y = x;\n    z = y;\n    x = z;\n' * (n // 3))


def clique(n):
    """n methods, each of which calls each, itself too, with what it was passed, and gives back what came of it."""
    def method(i):
        calls = ''.join(f'    p = staticinvoke <Many: {OBJECT} f{k}({OBJECT})>(p);\n' for k in range(n))
        return f'  static {OBJECT} f{i}({OBJECT}) {{\n    {OBJECT} p;\n    p := @parameter0: {OBJECT};\n    if 1 > 0 goto end;\n{calls}    end:\n    return p;\n  }}\n'
    return main_class('x', f'    x = null;\n    x = staticinvoke <Many: {OBJECT} f0({OBJECT})>(x);\n') + 'class Many {\n' + ''.join(method(i) for i in range(n)) + '}\n'


def dispatch(n):
    """n classes below an interface, each of which gives back what it is passed, and n calls of it."""
    def one(i):
        return f'class C{i} implements I {{\n{INIT}  {OBJECT} m({OBJECT}) {{\n    {OBJECT} p;\n    p := @parameter0: {OBJECT};\n    return p;\n  }}\n}}\n'
    made = ''.join(f'    r = new C{i};\n    specialinvoke r.<C{i}: void <init>()>();\n' for i in range(n))
    calls = f'    x = interfaceinvoke r.<I: {OBJECT} m({OBJECT})>(x);\n' * n
    return main_class('r, x', '    x = null;\n' + made + calls) + f'interface I {{\n  abstract {OBJECT} m({OBJECT});\n}}\n' + ''.join(one(i) for i in range(n))


def cells(n):
    """A list of n cells that is built and then read to its end."""
    built = '    c = new Cell;\n    specialinvoke c.<Cell: void <init>()>();\n    c.<Cell: java.lang.Object next> = x;\n    x = c;\n' * n
    read = '    x = x.<Cell: java.lang.Object next>;\n' * n
    return main_class('c, x', '    x = null;\n' + built + read) + f'class Cell {{\n  {OBJECT} next;\n{INIT}}}\n'


def held(n):
    """n objects, each in a local of its own from where it is made to where it is stored, n statements later."""
    locals = ', '.join(['c', 'x'] + [f'o{i}' for i in range(n)])
    made = ''.join(f'    o{i} = new Cell;\n' for i in range(n))
    stored = ''.join(f'    c.<Cell: java.lang.Object next> = o{i};\n' for i in range(n))
    return main_class(locals, '    c = new Cell;\n' + made + stored + '    x = c.<Cell: java.lang.Object next>;\n') + f'class Cell {{\n  {OBJECT} next;\n}}\n'


def kilobytes(status, name):
    return int(next(line for line in status if line.startswith(name + ':')).split()[1])


def measured(path, text):
    """The program's answer: microseconds, nodes, edges, stores, sites, and bytes. The least time and the least memory of three runs."""
    runs = []
    for _ in range(3):
        lines = subprocess.run([path], input=text.encode(), capture_output=True).stdout.decode().splitlines()
        words = lines[0].split() if lines else []
        if len(words) != 5 or not words[0].isdigit():
            sys.exit(f'the program answers: {lines[:1]}')
        half = (len(lines) + 1) // 2
        taken = kilobytes(lines[half:], 'VmHWM') - kilobytes(lines[1:half], 'VmRSS')
        runs.append([int(word) for word in words] + [1024 * taken])
    return [min(column) for column in zip(*runs)]


SHAPES = [('copies', copies, 1_000_000), ('clique', clique, 160), ('dispatch', dispatch, 600), ('cells', cells, 400), ('held', held, 1_000)]


def main():
    with tempfile.TemporaryDirectory() as folder:
        path = build(folder, 'demand_speed', USES, PROGRAM, [('told/Answers', ASKS)])
        print(f'{"shape":>9} {"size":>8} {"nodes":>8} {"edges":>8} {"stores":>7} {"sites":>7} {"time":>10} {"nodes/s":>11} {"edges/s":>11} {"edges":>7} {"time":>7} '
              f'{"bytes/node":>11}')
        for name, shape, size in SHAPES:
            before = None
            for part in [8, 4, 2, 1]:
                took, nodes, edges, stores, sites, taken = measured(path, shape(size // part))
                more = f'{edges / before[1]:.2f}' if before else '-'
                longer = f'{took / before[0]:.2f}' if before else '-'
                before = (max(took, 1), max(edges, 1))
                seconds = max(took, 1) / 1e6
                print(f'{name:>9} {size // part:8} {nodes:8} {edges:8} {stores:7} {sites:7} {took / 1000:7.1f} ms {nodes / seconds:11.0f} {edges / seconds:11.0f} {more:>7} {longer:>7} '
                      f'{taken / max(nodes, 1):11.0f}', flush=True)


main()
