#!/usr/bin/env bash
# How long constraints take, in milliseconds: made constraints of 4 to 8 levels met and negated, a chain of 400 steps upward
# tightened and asked, and three quantifiers eliminated over six levels. A program over the crates of this tree is built and run in
# a folder of its own, which is proved first, and another over those of a commit, if one is given.
#   bench/constraints.sh [COMMIT]
set -eu
top=$(cd "$(dirname "${BASH_SOURCE[0]}")/.." && pwd)
work=$(mktemp -d)
trap 'rm -rf "$work"' EXIT
crates='lois_base lois_constraint lois_elim lois_order lois_equality'

# FOLDER: the program, beside the crates that stand in the folder
program() {
  cd "$1"
  grep -E "^(${crates// /|}):" crates.txt >lines
  mv lines crates.txt
  echo 'constraints_bench: lois_base lois_constraint lois_elim lois_order' >>crates.txt
  mkdir -p crates/constraints_bench/src crates/constraints_bench/proofs/one_less
  cat >crates/constraints_bench/src/main.rt <<'END'
#![tactic(auto)]

ghost use Rattle.std.specs.Prelude.{◌<◌};

use lois_base::{Constraint, Cube, Lit, NoMemory, Op};
use lois_constraint::{implies, meet, negate, tighten};
use lois_elim::for_some;
use lois_order::OrderAtoms;
use std::alloc::Global;
use std::io;
use std::time::Instant;

#[derive(Drop)]
struct Dice {
    state: u64,
}

impl Dice {
    fn roll(&mut self, sides: usize) -> usize
        requires { 0 < sides }
        ensures { result < sides }
    {
        self.state = self
            .state
            .wrapping_mul(6364136223846793005)
            .wrapping_add(1442695040888963407);
        (self.state >> 33) as usize % sides
    }
}

fn made_lit(dice: &mut Dice, levels: usize) -> Lit
    requires { 0 < levels }
{
    let op = match dice.roll(4) {
        0 => Op::Eq,
        1 => Op::Ne,
        _ => Op::Lt,
    };
    Lit {
        op,
        left: dice.roll(levels),
        right: dice.roll(levels),
    }
}

fn made_cube(alloc: Global, dice: &mut Dice, levels: usize) -> Result<Cube, NoMemory>
    requires { 0 < levels }
{
    let mut cube = Cube::new(alloc);
    for _ in 0..2 + dice.roll(4) {
        cube.push(made_lit(dice, levels))?;
    }
    Ok(cube)
}

fn made(alloc: Global, dice: &mut Dice, levels: usize, cubes: usize) -> Result<Constraint, NoMemory>
    requires { 0 < levels }
{
    let mut c = Constraint::new(alloc);
    for _ in 0..cubes {
        c.push(made_cube(alloc, dice, levels)?)?;
    }
    Ok(c)
}

fn dense(alloc: Global, levels: usize) -> Result<usize, NoMemory>
    requires { 0 < levels }
{
    let mut dice = Dice { state: 7 };
    let mut cubes = 0usize;
    for _ in 0..60 {
        let a = made(alloc, &mut dice, levels, 6)?;
        let b = made(alloc, &mut dice, levels, 6)?;
        let refused = negate(alloc, &b)?;
        cubes = cubes.wrapping_add(meet(alloc, &a, &refused)?.len());
    }
    Ok(cubes)
}

fn chain(alloc: Global) -> Result<usize, NoMemory> {
    let mut cube = Cube::new(alloc);
    for level in 0..400 {
        cube.push(Lit {
            op: Op::Lt,
            left: level,
            right: level + 1,
        })?;
    }
    let Some(tight) = tighten(alloc, &cube)? else {
        return Ok(0);
    };
    let ends = Lit {
        op: Op::Lt,
        left: 0,
        right: 400,
    };
    Ok(tight.len() + usize::from(implies(alloc, &cube, ends)?))
}

fn one_less(alloc: Global, c: Constraint, size: usize) -> Result<Constraint, NoMemory> {
    if size < 9 && c.fits(size + 1) {
        return for_some::<OrderAtoms>(alloc, &c, size);
    }
    Ok(c)
}

fn eliminated(alloc: Global) -> Result<usize, NoMemory> {
    let mut dice = Dice { state: 11 };
    let mut cubes = 0usize;
    for _ in 0..60 {
        let mut left = made(alloc, &mut dice, 6, 12)?;
        for level in [5, 4, 3] {
            left = negate(alloc, &one_less(alloc, left, level)?)?;
        }
        cubes = cubes.wrapping_add(left.len());
    }
    Ok(cubes)
}

fn milliseconds(rt: &HostRuntime, start: Instant) -> io::Result<u128> {
    Ok(start.elapsed(rt)?.as_millis())
}

fn main(rt: HostRuntime) -> io::Result<()> {
    let alloc = rt.alloc();
    for levels in [4usize, 5, 6, 7, 8] {
        let start = Instant::now(&rt)?;
        let cubes = dense(alloc, levels).unwrap_or(0);
        println!(rt; "met and negated, {levels} levels ({cubes} cubes): {} ms", milliseconds(&rt, start)?)?;
    }
    let start = Instant::now(&rt)?;
    let kept = chain(alloc).unwrap_or(0);
    println!(rt; "chain of 400 steps ({kept} kept): {} ms", milliseconds(&rt, start)?)?;
    let start = Instant::now(&rt)?;
    let left = eliminated(alloc).unwrap_or(0);
    println!(rt; "three of six levels eliminated ({left} cubes): {} ms", milliseconds(&rt, start)?)?;
    Ok(())
}
END
  cat >crates/constraints_bench/proofs/one_less/Answers.antt <<'END'
use Rattle.lois_base.proofs.Validity.{constraint_admitted}
use Rattle.constraints_bench.proofs.one_less.Goals as goal

pub for_some-requires-clause-operators : goal.for_some-requires-clause-operators
for_some-requires-clause-operators c = constraint_admitted c.args.c
END
  cd crates/constraints_bench
  rt run
}

mkdir -p "$work/now/crates"
cp "$top/crates.txt" "$work/now"
for crate in $crates; do
  mkdir "$work/now/crates/$crate"
  (cd "$top/crates/$crate" && cp -r src specs proofs "$work/now/crates/$crate" 2>/dev/null || cp -r src "$work/now/crates/$crate")
done
if [ $# -gt 0 ]; then
  mkdir "$work/then"
  git -C "$top" archive "$1" crates.txt $(printf 'crates/%s ' $crates) | tar -x -C "$work/then"
  echo "== $1"
  (program "$work/then")
fi
echo "== this tree"
(program "$work/now")
