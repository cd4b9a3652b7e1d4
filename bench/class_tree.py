"""How long the hierarchy takes to build and to answer, in microseconds, for two shapes: a chain of 5,000 parents with 20,000 methods, and 100 layers of 20
interfaces, each of which implements all of the layer above, so that there are 20 to the 99 ways from the last to the first.

usage: bench/class_tree.sh

It builds a small program over `class_tree` in a temporary folder, which proves the crate and those below it there, unless a check on this machine did it
before, and removes the folder at the end.
"""
import subprocess
import tempfile

from proved import build

PROGRAM = r'''//! Takes the times of a hierarchy's building and of its answers.
#![tactic(auto)]

ghost use Rattle.std.specs.Prelude.{◌≡◌, ◌<◌, ◌≤◌, ◌^◌, length, All, IfOk, IfSome};

use anyhow::Result;
use class_rules::{BodyKind, ClassRow, MethodRow};
use class_tree::{Tree, build};
use std::alloc::{AllocError, Global};
use std::time::Instant;

const CLASSES: u32 = 5_000;
const METHODS: u32 = 20_000;
const INTERFACES: u32 = 2_000;
const WIDTH: u32 = 20;

// Each class is below the one before it.
fn chain(alloc: Global, count: u32) -> Result<Vec<ClassRow>, AllocError>
    ensures { IfOk result (λ rows. length rows.items ≡ count) }
{
    let mut rows = Vec::new(alloc);
    let interface = false;
    for class in 0..count {
        let parent = class.checked_sub(1);
        rows.push(ClassRow { parent, interface })?;
    }
    Ok(rows)
}

// No class has a parent.
fn tops(alloc: Global, count: u32) -> Result<Vec<ClassRow>, AllocError>
    ensures { IfOk result (λ rows. length rows.items ≡ count) }
{
    let mut rows = Vec::new(alloc);
    for _ in 0..count {
        rows.push(ClassRow {
            parent: None,
            interface: true,
        })?;
    }
    Ok(rows)
}

// The keys go round the classes.
fn methods(alloc: Global, classes: u32, count: u32) -> Result<Vec<MethodRow>, AllocError>
    requires { 0 < classes }
    ensures len { IfOk result (λ rows. length rows.items ≡ count) }
    ensures classes { IfOk result (λ rows. All (λ m. m.class < classes) rows.items) }
{
    let mut rows = Vec::new(alloc);
    for key in 0..count {
        rows.push(MethodRow {
            class: key % classes,
            key,
            body: BodyKind::Plain,
        })?;
    }
    Ok(rows)
}

// Each interface implements the whole layer above its own.
fn layers(alloc: Global, count: u32) -> Result<Vec<(u32, u32)>, AllocError>
    ensures { IfOk result (λ rows. All (λ p. p.0 < count) rows.items) }
{
    let mut rows = Vec::new(alloc);
    for class in WIDTH..count {
        let above = (class - class % WIDTH).saturating_sub(WIDTH);
        for other in 0..WIDTH {
            rows.push((class, above.saturating_add(other)))?;
        }
    }
    Ok(rows)
}

// How often a class is below another, all pairs of which the second is one in five.
fn count_sub(tree: &Tree, count: u32) -> u32
    requires { count ≤ length tree.now.classes }
{
    let mut found = 0u32;
    for a in 0..count {
        for b in 0..count {
            if b % 5 == 0 && tree.sub(a, b) {
                found = found.wrapping_add(1);
            }
        }
    }
    found
}

// How many keys are found from a class.
fn count_resolve(tree: &Tree, class: u32, keys: u32) -> u32
    requires { class < length tree.now.classes }
{
    let mut found = 0u32;
    for key in 0..keys {
        if tree.resolve(class, key).is_some() {
            found = found.wrapping_add(1);
        }
    }
    found
}

fn count_declared(tree: &Tree, class: u32, keys: u32) -> u32
    requires { class < length tree.now.classes }
{
    let mut found = 0u32;
    for key in 0..keys {
        if tree.declared(class, key) {
            found = found.wrapping_add(1);
        }
    }
    found
}

fn count_field(tree: &Tree, class: u32, keys: u32) -> u32
    requires { class < length tree.now.classes }
{
    let mut found = 0u32;
    for key in 0..keys {
        if tree.field(class, key).is_some() {
            found = found.wrapping_add(1);
        }
    }
    found
}

fn time_sub(rt: &HostRuntime, tree: &Tree, count: u32) -> Result<()>
    requires { count ≤ length tree.now.classes }
{
    let start = Instant::now(rt)?;
    let found = count_sub(tree, count);
    let took = start.elapsed(rt)?.as_micros();
    println!(rt; "  sub for a fifth of all pairs: {took} ({found} hold)")?;
    Ok(())
}

fn time_resolve(rt: &HostRuntime, tree: &Tree, class: u32, keys: u32) -> Result<()>
    requires { class < length tree.now.classes }
{
    let start = Instant::now(rt)?;
    let found = count_resolve(tree, class, keys);
    let took = start.elapsed(rt)?.as_micros();
    println!(rt; "  resolve {keys} keys from the last class: {took} ({found} found)")?;
    Ok(())
}

fn time_declared(rt: &HostRuntime, tree: &Tree, class: u32, keys: u32) -> Result<()>
    requires { class < length tree.now.classes }
{
    let start = Instant::now(rt)?;
    let found = count_declared(tree, class, keys);
    let took = start.elapsed(rt)?.as_micros();
    println!(rt; "  declared {keys} keys from the last class: {took} ({found} hold)")?;
    Ok(())
}

fn time_field(rt: &HostRuntime, tree: &Tree, class: u32, keys: u32) -> Result<()>
    requires { class < length tree.now.classes }
{
    let start = Instant::now(rt)?;
    let found = count_field(tree, class, keys);
    let took = start.elapsed(rt)?.as_micros();
    println!(rt; "  field {keys} keys from the last class: {took} ({found} found)")?;
    Ok(())
}

// The tree of the chain.
fn chain_tree(alloc: Global) -> Result<Option<Tree>, AllocError>
    ensures { IfOk result (λ built. IfSome built (λ tree. length tree.classes ≡ 5000)) }
{
    let classes = chain(alloc, CLASSES)?;
    let methods = methods(alloc, CLASSES, METHODS)?;
    Ok(build(alloc, &classes, &[], &methods, &[]).ok())
}

// The tree of the layers.
fn layer_tree(alloc: Global) -> Result<Option<Tree>, AllocError>
    ensures { IfOk result (λ built. IfSome built (λ tree. length tree.classes ≡ 2000)) }
{
    let classes = tops(alloc, INTERFACES)?;
    let implements = layers(alloc, INTERFACES)?;
    let methods = methods(alloc, INTERFACES, INTERFACES)?;
    Ok(build(alloc, &classes, &implements, &methods, &[]).ok())
}

// Writes how long it took since the start.
fn tell(rt: &HostRuntime, what: &str, start: &Instant) -> Result<()> {
    let took = start.elapsed(rt)?.as_micros();
    println!(rt; "{what}: rows and tree {took}")?;
    Ok(())
}

fn chain_answers(rt: &HostRuntime, tree: &Tree) -> Result<()>
    requires { length tree.now.classes ≡ 5000 }
{
    time_sub(rt, tree, CLASSES)?;
    time_resolve(rt, tree, CLASSES - 1, METHODS)?;
    time_declared(rt, tree, CLASSES - 1, METHODS)?;
    time_field(rt, tree, CLASSES - 1, 1_000)?;
    Ok(())
}

fn layer_answers(rt: &HostRuntime, tree: &Tree) -> Result<()>
    requires { length tree.now.classes ≡ 2000 }
{
    time_sub(rt, tree, INTERFACES)?;
    time_declared(rt, tree, INTERFACES - 1, INTERFACES)?;
    time_field(rt, tree, INTERFACES - 1, 1_000)?;
    Ok(())
}

fn time_chain(rt: &HostRuntime) -> Result<()> {
    let start = Instant::now(rt)?;
    if let Some(tree) = chain_tree(rt.alloc())? {
        tell(rt, "a chain of 5000 classes with 20000 methods", &start)?;
        chain_answers(rt, &tree)?;
    }
    Ok(())
}

fn time_layers(rt: &HostRuntime) -> Result<()> {
    let start = Instant::now(rt)?;
    if let Some(tree) = layer_tree(rt.alloc())? {
        tell(rt, "100 layers of 20 interfaces", &start)?;
        layer_answers(rt, &tree)?;
    }
    Ok(())
}

fn main(rt: HostRuntime) -> Result<()> {
    time_chain(&rt)?;
    time_layers(&rt)
}
'''

RISING = '''use Rattle.std.proofs.Common.{◌≡◌, length}
use Rattle.tree_speed.proofs.FUNCTION.Given as goal

abbrev pub invariant-LOOP : goal.invariant-LOOP
invariant-LOOP l = length l.rows.items ≡ l.COUNTER
'''

METHODS = '''use Rattle.std.proofs.Common.{◌≡◌, ◌<◌, length, All}
use Rattle.tree_speed.proofs.methods.Given as goal

abbrev pub invariant-loop-key : goal.invariant-loop-key
invariant-loop-key l = record {
  len : length l.rows.items ≡ l.key;
  classes : All (λ m. m.class < l.classes) l.rows.items;
}
'''

LAYERS = '''use Rattle.std.proofs.Common.{◌<◌, All}
use Rattle.tree_speed.proofs.layers.Given as goal

abbrev pub invariant-loop-class : goal.invariant-loop-class
invariant-loop-class l = All (λ p. p.0 < l.count) l.rows.items

abbrev pub invariant-loop-other : goal.invariant-loop-other
invariant-loop-other l = All (λ p. p.0 < l.count) l.rows.items
'''


def rising(function, loop, counter):
    """That after each turn of the loop there are as many rows as the counter says."""
    return RISING.replace('FUNCTION', function).replace('LOOP', loop).replace('COUNTER', counter)


def main():
    proofs = [('chain/Invariants', rising('chain', 'loop-class', 'class')), ('tops/Invariants', rising('tops', 'loop', 'counter')),
              ('methods/Invariants', METHODS), ('layers/Invariants', LAYERS)]
    with tempfile.TemporaryDirectory() as folder:
        program = build(folder, 'tree_speed', 'class_rules class_tree anyhow', PROGRAM, proofs)
        subprocess.run([program], check=True)


main()
