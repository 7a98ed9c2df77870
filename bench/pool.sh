#!/usr/bin/env bash
# Times calls of the pool with a number of blocks alive, by a program that it makes and proves itself over the crates
# as they stand. It measures and judges nothing; figures seen are in docs/memory.md.
set -euo pipefail

top=$(cd "$(dirname "${BASH_SOURCE[0]}")/.." && pwd)
work=$(mktemp -d)
trap 'rm -rf "$work"' EXIT

cp "$top/HANDLES" "$work"
printf 'page_alloc:\npool_alloc: page_alloc\npool_times: pool_alloc page_alloc\n' >"$work/crates.txt"
for crate in page_alloc pool_alloc; do
    mkdir -p "$work/crates/$crate"
    cp -r "$top/crates/$crate/"{src,specs,proofs} "$work/crates/$crate"
done

program=$work/crates/pool_times
mkdir -p "$program/src"
: >"$program/stdin"
: >"$program/stdout"
cat >"$program/src/main.rt" <<'PROGRAM'
//! Times calls of the pool with a number of blocks alive.
#![tactic(auto)]

ghost use Rattle.pool_alloc.specs.Pool.{Together};

use page_alloc::{Layout, PageMap};
use pool_alloc::Pool;
use std::collections::VecDeque;
use std::io;
use std::time::Instant;

/// Sizes up to 511 bytes, in no order.
fn size_of(step: u32) -> u64 {
    (u64::from(step) * 40503 + 12345) / 64 % 512
}

/// Allocates so many blocks.
fn fill(pool: &mut Pool, map: &mut PageMap, blocks: &mut VecDeque<u64>, alive: u32) -> io::Result<()>
    requires { Together pool.old map.old }
    ensures { Together pool.new map.new }
{
    for step in 0..alive {
        if let Ok(at) = pool.allocate(map, 4, size_of(step)) {
            blocks.push_back(at)?;
        }
    }
    Ok(())
}

/// Frees a block and allocates another.
fn turn(pool: &mut Pool, map: &mut PageMap, at: u64, size: u64) -> u64
    requires { Together pool.old map.old }
    ensures { Together pool.new map.new }
{
    let _ = pool.free(map, at);
    match pool.allocate(map, 4, size) {
        Ok(new) => new,
        Err(_) => 0,
    }
}

/// Frees the oldest block and allocates another, so many times.
fn turns(pool: &mut Pool, map: &mut PageMap, blocks: &mut VecDeque<u64>, count: u32) -> io::Result<()>
    requires { Together pool.old map.old }
    ensures { Together pool.new map.new }
{
    for step in 0..count {
        if let Some(at) = blocks.pop_front() {
            let new = turn(pool, map, at, size_of(step));
            blocks.push_back(new)?;
        }
    }
    Ok(())
}

/// The times for a number of blocks alive.
fn measure(rt: &HostRuntime, alive: u32) -> io::Result<()> {
    let mut map = PageMap::new(rt.alloc(), &Layout::at(0x4000_0000, 1048576))?;
    let mut pool = Pool::new(rt.alloc());
    let mut blocks = VecDeque::new(rt.alloc());
    let start = Instant::now(rt)?;
    fill(&mut pool, &mut map, &mut blocks, alive)?;
    let filled = start.elapsed(rt)?;
    let start = Instant::now(rt)?;
    turns(&mut pool, &mut map, &mut blocks, 10000)?;
    let turned = start.elapsed(rt)?;
    println!(rt; "{alive} blocks: filled in {} us, 10000 freed and allocated in {} us", filled.as_micros(), turned.as_micros())?;
    Ok(())
}

fn main(rt: HostRuntime) -> io::Result<()> {
    measure(&rt, 64)?;
    measure(&rt, 1000)?;
    measure(&rt, 8000)?;
    measure(&rt, 64000)
}
PROGRAM
for loop in fill turns; do
    mkdir -p "$program/proofs/$loop"
    cat >"$program/proofs/$loop/Invariants.antt" <<PROOF
use Rattle.pool_alloc.specs.Pool.{Together}
use Rattle.pool_times.proofs.$loop.Given as goal

abbrev pub invariant-loop-step : goal.invariant-loop-step
invariant-loop-step l = Together l.pool l.map
PROOF
done

# `rt run` ends with a failure where the output is not the one that a crate's stdout names
cd "$program"
{ rt run 2>&1 || true; } | grep ' blocks: '
