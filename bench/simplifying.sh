#!/usr/bin/env bash
# How long simplify takes on a set of comprehensions that are all different: a table of what they differ in, how many there are,
# how many are left, the questions that were asked and the seconds. The program is made from crates/ in a temporary repository,
# built and run there.
#   bench/simplifying.sh
set -eu
. "$(dirname "${BASH_SOURCE[0]}")/program.sh"

program simplifying_time anyhow lois_base lois_deciders lois_order lois_simplify <<'END'
//! Times the simplification of sets of many comprehensions.
#![tactic(auto)]

use lois_base::{
    Comp, Comps, Constraint, Cube, Decider, Lit, Name, NoMemory, Op, Term, Terms, is_name,
};
use lois_deciders::{Chosen, GraphDecider};
use lois_order::OrderAtoms;
use lois_simplify::simplify;
use std::alloc::Global;
use std::process::Abort;
use std::time::Instant;

// levels outside: one for each comprehension's lower bound
const SIZE: usize = 40;

// an atom above one of the levels outside
fn above(alloc: Global, level: usize) -> Result<Constraint, NoMemory> {
    let mut cube = Cube::new(alloc);
    cube.push(Lit {
        op: Op::Lt,
        left: level,
        right: SIZE,
    })?;
    let mut guard = Constraint::new(alloc);
    guard.push(cube)?;
    Ok(guard)
}

// ('t7', x) for x > $0, with another tag in each comprehension
fn tagged(rt: &impl Abort, alloc: Global, number: usize) -> Result<Comp, NoMemory> {
    let digits = [
        b't',
        97 + (number / 676 % 26) as u8,
        97 + (number / 26 % 26) as u8,
        97 + (number % 26) as u8,
    ];
    assert!(rt; is_name(&digits));
    let mut parts = Terms::new(alloc);
    parts.push(Term::Tag(Name::from_bytes(alloc, &digits)?))?;
    parts.push(Term::Var(SIZE))?;
    Ok(Comp {
        binders: 1,
        guard: above(alloc, 0)?,
        item: Term::Tup(parts),
    })
}

// ($i, x) for x > $k, with another pair of levels in each comprehension
fn paired(alloc: Global, number: usize) -> Result<Comp, NoMemory> {
    let mut parts = Terms::new(alloc);
    parts.push(Term::Var(number % SIZE))?;
    parts.push(Term::Var(SIZE))?;
    Ok(Comp {
        binders: 1,
        guard: above(alloc, number / SIZE % SIZE)?,
        item: Term::Tup(parts),
    })
}

fn many(rt: &impl Abort, alloc: Global, count: usize, tags: bool) -> Result<Term, NoMemory> {
    let mut comps = Comps::new(alloc);
    for number in 0..count {
        comps.push(if tags { tagged(rt, alloc, number)? } else { paired(alloc, number)? })?;
    }
    Ok(Term::Coll(comps))
}

// How many comprehensions the simplified set has, and how many questions were asked.
#[tactic(auto, using(lois_base::proofs::Validity::term_admitted))]
fn simplified(rt: &impl Abort, alloc: Global, set: &Term) -> Result<(usize, u64), NoMemory> {
    let graph: Box<dyn Decider> = Box::new(alloc, GraphDecider::new())?;
    let mut deciders = Vec::new(alloc);
    deciders.push(graph)?;
    let mut chosen = Chosen::choose(deciders, None).expect(rt, "a decider was handed in");
    let under = Constraint::always(alloc)?;
    assert!(rt; set.fits(SIZE) && under.fits(SIZE));
    let count = match simplify::<OrderAtoms>(alloc, set, &under, SIZE, &mut chosen)? {
        Term::Coll(comps) => comps.len(),
        _ => 0,
    };
    Ok((count, chosen.asked()))
}

fn main(rt: HostRuntime) -> anyhow::Result<()> {
    let alloc = rt.alloc();
    println!(rt; "differ in  comprehensions  left  questions  seconds")?;
    for (count, tags) in [(250, true), (500, true), (1000, true), (60, false), (125, false), (250, false)] {
        let set = many(&rt, alloc, count, tags)?;
        let begun = Instant::now(&rt)?;
        let (left, asked) = simplified(&rt, alloc, &set)?;
        let taken = begun.elapsed(&rt)?;
        let what = if tags { "tags     " } else { "levels   " };
        println!(rt;
            "{what}  {count:14}  {left:4}  {asked:9}  {:3}.{:03}",
            taken.as_secs(),
            taken.subsec_millis()
        )?;
    }
    Ok(())
}
END
built_and_run simplifying_time
