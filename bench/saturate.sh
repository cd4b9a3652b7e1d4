#!/bin/sh
# Prints how fast saturation is and how its time grows with the size: over a chain, a grid, calls in a row, a hub that all
# call, and cliques of methods that call each other; over truth, over relations and over costs. A rule counts as fired once
# for each place of the table at which it applies: an entry, and at a pop a link of it.
# usage: bench/saturate.sh
# The program is made and proved in a folder of its own, which is removed at the end: the lines come after some minutes. It
# checks nothing by time.
set -e
top=$(cd "$(dirname "$0")/.." && pwd)
work=$(mktemp -d)
trap 'rm -rf "$work"' EXIT
trap 'exit 1' HUP INT TERM
cp "$top/HANDLES" "$work/"
for crate in lists weight_laws auto_table post_star; do
    mkdir -p "$work/crates/$crate"
    for part in src specs proofs; do
        cp -r "$top/crates/$crate/$part" "$work/crates/$crate/"
    done
    grep "^$crate:" "$top/crates.txt" >> "$work/crates.txt"
done
echo 'saturate_speed: lists weight_laws auto_table post_star indexmap anyhow' >> "$work/crates.txt"
cd "$work/crates"
mkdir -p saturate_speed/src saturate_speed/proofs/settled
cat > saturate_speed/src/main.rt <<'END'
//! Takes the times of saturations.
#![tactic(auto)]

use anyhow::Result;
use auto_table::{Entry, Rule, Table};
use indexmap::IndexMap;
use post_star::key::Key;
use post_star::{Bases, Start, saturate};
use std::alloc::{AllocError, Global};
use std::time::Instant;
use weight_laws::{Least, Reach, Rel, Weight};

// What rules look like.
#[derive(Clone, Copy)]
enum Shape {
    // Each node flows to the next.
    Chain,
    // Each node of a square flows to the right and down.
    Grid,
    // Each method calls the next one, and the last one the first.
    Calls,
    // One method is called from each node of a chain.
    Hub,
    // Each method calls each, itself too.
    Clique,
}

impl Shape {
    fn name(self) -> &'static str {
        match self {
            Shape::Chain => "chain",
            Shape::Grid => "grid",
            Shape::Calls => "calls",
            Shape::Hub => "hub",
            Shape::Clique => "clique",
        }
    }

    // Four sizes, of which each has about twice the firings of the one before it.
    fn sizes(self) -> [u32; 4] {
        match self {
            Shape::Chain => [12_500, 25_000, 50_000, 100_000],
            Shape::Grid => [79, 112, 158, 224],
            Shape::Calls => [4_166, 8_333, 16_666, 33_333],
            Shape::Hub => [4_166, 8_333, 16_666, 33_333],
            Shape::Clique => [40, 50, 63, 80],
        }
    }
}

// How long a saturation took, in microseconds, and how many rules it fired.
#[derive(Clone, Copy)]
struct Measure {
    took: u64,
    fired: u64,
}

fn flow<W: Weight>(
    rules: &mut Vec<Rule<W>>,
    from: u32,
    to: u32,
    weight: W,
) -> Result<(), AllocError> {
    rules.push(Rule::Flow { from, to, weight })?;
    Ok(())
}

// A call from a node, which comes back to the node after it.
fn call<W: Weight>(
    rules: &mut Vec<Rule<W>>,
    from: u32,
    begin: u32,
    mark: u32,
    weight: W,
) -> Result<(), AllocError> {
    rules.push(Rule::Push {
        from,
        to: begin,
        mark,
        weight,
    })?;
    rules.push(Rule::Pop {
        from: begin.wrapping_add(1),
        mark,
        to: from.wrapping_add(1),
        weight,
    })?;
    Ok(())
}

fn chain<W: Weight>(rules: &mut Vec<Rule<W>>, size: u32, weight: W) -> Result<(), AllocError> {
    for node in 0..size {
        flow(rules, node, node.wrapping_add(1), weight)?;
    }
    Ok(())
}

fn grid<W: Weight>(rules: &mut Vec<Rule<W>>, side: u32, weight: W) -> Result<(), AllocError> {
    for row in 0..side {
        for column in 0..side {
            let node = row.wrapping_mul(side).wrapping_add(column);
            if column.wrapping_add(1) < side {
                flow(rules, node, node.wrapping_add(1), weight)?;
            }
            if row.wrapping_add(1) < side {
                flow(rules, node, node.wrapping_add(side), weight)?;
            }
        }
    }
    Ok(())
}

fn calls<W: Weight>(rules: &mut Vec<Rule<W>>, methods: u32, weight: W) -> Result<(), AllocError> {
    for method in 0..methods {
        let begin = method.wrapping_mul(2);
        let next = if method.wrapping_add(1) < methods {
            begin.wrapping_add(2)
        } else {
            0
        };
        flow(rules, begin, begin.wrapping_add(1), weight)?;
        call(rules, begin, next, method, weight)?;
    }
    Ok(())
}

fn hub<W: Weight>(rules: &mut Vec<Rule<W>>, callers: u32, weight: W) -> Result<(), AllocError> {
    let begin = 1_000_000;
    flow(rules, begin, begin.wrapping_add(1), weight)?;
    for caller in 0..callers {
        flow(rules, caller, caller.wrapping_add(1), weight)?;
        call(rules, caller, begin, caller, weight)?;
    }
    Ok(())
}

fn clique<W: Weight>(rules: &mut Vec<Rule<W>>, methods: u32, weight: W) -> Result<(), AllocError> {
    for caller in 0..methods {
        let begin = caller.wrapping_mul(2);
        flow(rules, begin, begin.wrapping_add(1), weight)?;
        for callee in 0..methods {
            let mark = caller.wrapping_mul(methods).wrapping_add(callee);
            call(rules, begin, callee.wrapping_mul(2), mark, weight)?;
        }
    }
    Ok(())
}

fn rules_of<W: Weight>(
    rules: &mut Vec<Rule<W>>,
    shape: Shape,
    size: u32,
    weight: W,
) -> Result<(), AllocError> {
    match shape {
        Shape::Chain => chain(rules, size, weight),
        Shape::Grid => grid(rules, size, weight),
        Shape::Calls => calls(rules, size, weight),
        Shape::Hub => hub(rules, size, weight),
        Shape::Clique => clique(rules, size, weight),
    }
}

fn settled<W: Weight>(alloc: Global, rules: &[Rule<W>]) -> Result<Table<W>, AllocError> {
    let mut starts = Vec::new(alloc);
    starts.push(Start {
        base: 0,
        node: 0,
        weight: W::one(),
    })?;
    let bases = Bases {
        steps: &[],
        last: 0,
    };
    saturate(alloc, rules, &starts, &bases)
}

fn counted(counts: &IndexMap<Key, u64>, key: Key) -> u64 {
    counts.get(&key).copied().unwrap_or(0)
}

// How many flows and pushes lead from each node, and how many pops from each node and mark.
fn count_rules<W: Weight>(
    counts: &mut IndexMap<Key, u64>,
    rules: &[Rule<W>],
) -> Result<(), AllocError> {
    for rule in rules {
        let key = match *rule {
            Rule::Flow { from, .. } => Key::Node(from),
            Rule::Push { from, .. } => Key::Node(from),
            Rule::Pop { from, mark, .. } => Key::Marked { node: from, mark },
        };
        let count = counted(counts, key).wrapping_add(1);
        counts.insert(key, count)?;
    }
    Ok(())
}

// How many rules apply at the entry.
fn fired_at<W: Weight>(counts: &IndexMap<Key, u64>, table: &Table<W>, entry: Entry) -> u64 {
    let links = table.parents(entry).len() as u64;
    let mut sum: u64 = 0;
    for reached in table.row(entry) {
        let node = reached.node;
        sum = sum.wrapping_add(counted(counts, Key::Node(node)));
        if let Entry::Pushed { node: _, mark } = entry {
            let pops = counted(counts, Key::Marked { node, mark });
            sum = sum.wrapping_add(links.wrapping_mul(pops));
        }
    }
    sum
}

// How many rules apply, at how many places of the table.
fn fired<W: Weight>(alloc: Global, rules: &[Rule<W>], table: &Table<W>) -> Result<u64, AllocError> {
    let mut counts = IndexMap::new(alloc);
    count_rules(&mut counts, rules)?;
    let mut sum: u64 = 0;
    for entry in table.entries() {
        sum = sum.wrapping_add(fired_at(&counts, table, *entry));
    }
    Ok(sum)
}

fn hundredths(a: u64, b: u64) -> u64 {
    a.wrapping_mul(100).checked_div(b).unwrap_or(0)
}

fn measured<W: Weight>(rt: &HostRuntime, rules: &[Rule<W>]) -> Result<Measure> {
    let start = Instant::now(rt)?;
    let table = settled(rt.alloc(), rules)?;
    let took = u64::try_from(start.elapsed(rt)?.as_micros()).unwrap_or(u64::MAX);
    let fired = fired(rt.alloc(), rules, &table)?;
    Ok(Measure { took, fired })
}

// Measures one size, and writes a line of it beside the size before.
fn line<W: Weight>(
    rt: &HostRuntime,
    domain: &str,
    shape: Shape,
    rules: &[Rule<W>],
    before: Measure,
) -> Result<Measure> {
    let now = measured(rt, rules)?;
    let name = shape.name();
    let count = rules.len();
    let a_second = hundredths(now.fired.wrapping_mul(10_000), now.took);
    let more = hundredths(now.fired, before.fired);
    let longer = hundredths(now.took, before.took);
    println!(rt; "{domain:<6} {name:<7} {count:>7} rules {:>8} fired {:>8} us {a_second:>9} a second; {more:>4} % of the firings in {longer:>4} % of the time", now.fired, now.took)?;
    Ok(now)
}

fn sized<W: Weight>(
    rt: &HostRuntime,
    domain: &str,
    shape: Shape,
    size: u32,
    weight: W,
    before: Measure,
) -> Result<Measure> {
    let mut rules = Vec::new(rt.alloc());
    rules_of(&mut rules, shape, size, weight)?;
    line(rt, domain, shape, &rules, before)
}

fn shaped<W: Weight>(rt: &HostRuntime, domain: &str, shape: Shape, weight: W) -> Result<()> {
    let mut before = Measure { took: 0, fired: 0 };
    for size in shape.sizes() {
        before = sized(rt, domain, shape, size, weight, before)?;
    }
    Ok(())
}

fn compared<W: Weight>(rt: &HostRuntime, domain: &str, weight: W) -> Result<()> {
    for shape in [
        Shape::Chain,
        Shape::Grid,
        Shape::Calls,
        Shape::Hub,
        Shape::Clique,
    ] {
        shaped(rt, domain, shape, weight)?;
    }
    Ok(())
}

fn main(rt: HostRuntime) -> Result<()> {
    // Each state leads to itself and to the next one.
    let words = [
        0x3, 0x6, 0xc, 0x18, 0x30, 0x60, 0xc0, 0x180, 0x300, 0x600, 0xc00, 0x1800, 0x3000, 0x6000,
        0xc000, 0x8000,
    ];
    compared(&rt, "Reach", Reach(true))?;
    compared(&rt, "Rel", Rel(words))?;
    compared(&rt, "Least", Least(1))
}
END
cat > saturate_speed/proofs/settled/Answers.antt <<'END'
use Rattle.std.proofs.Common.{◌≡◌, ◌∙◌, ℕ, zero, suc, List, [], ◌∷◌, slice_get, Some, refl, sym, ap}
use Rattle.post_star.specs.declared.bases.Start.{Start}
use Rattle.post_star.specs.Derivations.{IsNamed, by_start, by_base, by_below}
use Rattle.saturate_speed.proofs.settled.Goals as goal

one_at : {X : Type 0} (x y : X) (i : ℕ) → slice_get (x ∷ []) i ≡ Some y → x ≡ y
one_at x y zero h = cc
one_at x y (suc i) h = cc

only_start : {W : Type 0} (s : Start W) (b : ℕ) → IsNamed (s ∷ []) [] b → b ≡ s.base
only_start s b (by_start q h e) = sym e ∙ sym (ap (λ (z : Start _). z.base) (one_at s q h.0 h.1))
only_start s b (by_base q h e) = let p = h.1 in cc
only_start s b (by_below q h e) = let p = h.1 in cc

pub saturate-requires : goal.saturate-requires
saturate-requires g c = rw (c.deref.ensures.value, c.in_ok-push.ensures.items, c.new-starts.ensures.items) (record { led = λ b n. ([], only_start _ b n) })
END
cd saturate_speed
rt run > "$work/reply" 2> "$work/trouble" || { cat "$work/reply" "$work/trouble" >&2; exit 1; }
cat "$work/reply"
