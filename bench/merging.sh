#!/usr/bin/env bash
# How long merge_equal takes: a table of the contexts of one size, of their different stores, of what is left and of the seconds.
# The program is made from crates/ in a temporary repository, built and run there.
#   bench/merging.sh
set -eu
. "$(dirname "${BASH_SOURCE[0]}")/program.sh"

program merging_time anyhow lois_answers lois_base lois_context lois_deciders <<'END'
//! Times the merging of many contexts.
#![tactic(auto)]

use lois_answers::Lines;
use lois_base::{Comp, Comps, Constraint, Cube, Decider, Lit, Name, NoMemory, Numbers, Op, Term, is_name};
use lois_context::{Context, Shared, Store, enter_loop, merge_equal, side};
use lois_deciders::{Chosen, GraphDecider};
use std::alloc::Global;
use std::process::Abort;
use std::time::Instant;

// levels: four, and nine to compare them with
const SIZE: usize = 13;

fn set_of(alloc: Global, item: Term) -> Result<Term, NoMemory> {
    let mut comps = Comps::new(alloc);
    comps.push(Comp {
        binders: 0,
        guard: Constraint::always(alloc)?,
        item,
    })?;
    Ok(Term::Coll(comps))
}

fn opening(rt: &impl Abort, alloc: Global, size: usize) -> Result<Context, NoMemory> {
    let when = Constraint::always(alloc)?;
    let mut sample = Numbers::new(alloc);
    for number in 0..size {
        sample.push(number as u64)?;
    }
    assert!(rt; when.fits(size) && sample.len() == size);
    assert!(rt; when.at(sample.as_slice()));
    let store = Store::new(alloc);
    let lines = Shared::new(alloc, Lines::new(alloc))?;
    Ok(Context {
        size,
        when,
        sample,
        store,
        lines,
    })
}

// `s` holds a set of sets, nested so deep
fn holding(rt: &impl Abort, alloc: Global, chosen: &mut Chosen, depth: usize) -> Result<Context, NoMemory> {
    let mut held = Term::Coll(Comps::new(alloc));
    for _ in 0..depth {
        held = set_of(alloc, held)?;
    }
    let elements = set_of(alloc, held)?;
    let before = opening(rt, alloc, SIZE)?;
    assert!(rt; is_name(b"s"));
    let name = Name::from_bytes(alloc, b"s")?;
    assert!(rt; elements.fits(before.size) && matches!(elements, Term::Coll(_)));
    assert!(rt; !before.store.has_name(&name));
    let mut inside = enter_loop(alloc, &before, &elements, &name, chosen)?;
    Ok(inside.pop().expect(rt, "the set has a member"))
}

// the first four levels each equal one of the nine; that two parts may share choices makes no difference to the time
fn cell(alloc: Global, number: usize) -> Result<Constraint, NoMemory> {
    let mut cube = Cube::new(alloc);
    let mut rest = number;
    for left in 0..4 {
        cube.push(Lit {
            op: Op::Eq,
            left,
            right: 4 + rest % 9,
        })?;
        rest /= 9;
    }
    let mut constraint = Constraint::new(alloc);
    constraint.push(cube)?;
    Ok(constraint)
}

// in each round a context of each store
fn many(rt: &impl Abort, alloc: Global, rounds: usize, stores: usize) -> Result<Vec<Context>, NoMemory> {
    let graph: Box<dyn Decider> = Box::new(alloc, GraphDecider::new())?;
    let mut deciders = Vec::new(alloc);
    deciders.push(graph)?;
    let mut chosen = Chosen::choose(deciders, None).expect(rt, "a decider was handed in");
    let mut held = Vec::new(alloc);
    for depth in 0..stores {
        held.push(holding(rt, alloc, &mut chosen, depth)?)?;
    }
    let mut contexts = Vec::new(alloc);
    let mut number: usize = 0;
    for _ in 0..rounds {
        for before in &held {
            let condition = cell(alloc, number)?;
            number = number.wrapping_add(1);
            assert!(rt; condition.fits(before.size));
            let part = side(alloc, before, &condition, &mut chosen)?;
            contexts.push(part.expect(rt, "the cell can be met"))?;
        }
    }
    Ok(contexts)
}

fn main(rt: HostRuntime) -> anyhow::Result<()> {
    let alloc = rt.alloc();
    println!(rt; "contexts  stores  left  seconds")?;
    for (rounds, stores) in [(100, 10), (500, 10), (1000, 10)] {
        let contexts = many(&rt, alloc, rounds, stores)?;
        let count = contexts.len();
        let begun = Instant::now(&rt)?;
        let merged = merge_equal(alloc, contexts)?;
        let taken = begun.elapsed(&rt)?;
        println!(rt;
            "{count:8}  {stores:6}  {:4}  {:3}.{:03}",
            merged.len(),
            taken.as_secs(),
            taken.subsec_millis()
        )?;
    }
    Ok(())
}
END
answers merging_time opening <<'END'
use Rattle.lois_context.proofs.Carried.{no_names}
use Rattle.merging_time.proofs.opening.Goals as goal

pub invariant_of-result-clause-names : goal.invariant_of-result-clause-names
invariant_of-result-clause-names g c = no_names c.new-store.result c.new-store.ensures.empty
END
built_and_run merging_time
