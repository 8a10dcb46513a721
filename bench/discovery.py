#!/usr/bin/env python3
"""Times the discovery of keys in given rows, on one processor and on two.

The rows have random values: the columns have 4, 8, 16 values and so on, and one value in thirty is null, so that some sets of
columns are keys and many nearly are. Prints, for each number of rows and columns, how many keys of both sorts there are, the
milliseconds on one processor and on two (the least of some runs each), and what share of the first the second is. The
program is proved and built by `rt run`, from the crates as they stand, in a folder that is thrown away. It judges nothing.
"""

import os
import tempfile

from proved import TOP, built_in, figures

CRATES = {
    "pk_values": "",
    "pk_similar": "pk_values",
    "pk_transversal": "pk_values",
    "pk_sweep": "pk_similar pk_values",
    "pk_discover": "pk_sweep pk_transversal pk_similar pk_values",
    "finds": "pk_discover pk_sweep pk_transversal pk_similar pk_values",
}

MAIN = """
#![tactic(auto)]

ghost use Rattle.std.specs.Prelude.{◌≡◌, ◌≤◌, length};
ghost use Rattle.std.specs.List.{list_all};
ghost use Rattle.pk_values.specs.ColumnSet.{columns as numbers};
ghost use Rattle.pk_similar.specs.Similarity.{are_below};

use pk_discover::discover;
use pk_similar::lies_below;
use pk_sweep::NoMeet;
use pk_values::{ColSet, MOST_COLUMNS, Memory, Row, Value};
use std::alloc::Global;
use std::test::Fail;
use std::thread::Threads;
use std::time::Instant;

fn main(rt: HostRuntime) -> Result<(), Fail> {
    let alloc = rt.alloc();
    let few = random_rows(alloc, 1_000, 10)?;
    let start = Instant::now(&rt)?;
    let keys = count_keys(&rt, alloc, few.as_slice(), ColSet::below(10))?;
    let took = start.elapsed(&rt)?.as_micros();
    let _ = println!(rt; "1000 10 {keys} {took}");
    let many = random_rows(alloc, 8_192, 15)?;
    let start = Instant::now(&rt)?;
    let keys = count_keys(&rt, alloc, many.as_slice(), ColSet::below(15))?;
    let took = start.elapsed(&rt)?.as_micros();
    let _ = println!(rt; "8192 15 {keys} {took}");
    Ok(())
}

#[tactic(auto, using(crate::proofs::WideLemmas::wide_rows))]
fn count_keys<R: Threads>(rt: &R, alloc: Global, rows: &[Row], all: ColSet) -> Result<usize, Fail> {
    if !are_wide(rows, all) {
        return Err("no columns of all rows".into());
    }
    match discover(rt, alloc, rows, all, &NoMeet) {
        Ok(keys) => Ok(keys.certain.as_slice().len().saturating_add(keys.possible.as_slice().len())),
        Err(_) => Err("no keys are told".into()),
    }
}

fn are_wide(rows: &[Row], columns: ColSet) -> bool
    ensures { result ≡ list_all (λ row. are_below (length row) (numbers columns)) rows.now }
{
    rows.iter().all(|row| lies_below(columns, row.width()))
}

fn random_rows(alloc: Global, count: u32, columns: u32) -> Result<Vec<Row>, Memory> {
    let mut rows = Vec::new(alloc);
    for n in 0..count {
        rows.push(random_row(alloc, next(u64::from(n)), columns)?)?;
    }
    Ok(rows)
}

fn random_row(alloc: Global, seed: u64, columns: u32) -> Result<Row, Memory> {
    let mut values = Vec::new(alloc);
    let mut state = seed;
    for c in 0..columns {
        state = next(state);
        values.push(value(state >> 33, c))?;
    }
    if values.len() > MOST_COLUMNS {
        return Err(Memory);
    }
    Ok(Row::make(values))
}

fn next(state: u64) -> u64 {
    state.wrapping_mul(6_364_136_223_846_793_005).wrapping_add(1_442_695_040_888_963_407)
}

// A number below 4, 8, 16 or so on, or null.
fn value(random: u64, c: u32) -> Value {
    if random % 30 == 0 {
        Value::Null
    } else {
        Value::Integer((random / 30 % (4 << c % 16)) as i64)
    }
}
"""

FILES = {
    "src/main.rt": MAIN,
    "proofs/Lib.antt": "pub mod WideLemmas\n",
    "proofs/WideLemmas.antt": (TOP / "crates" / "pk_discover_tests" / "proofs" / "WideLemmas.antt").read_text(),
}


PROCESSORS = sorted(os.sched_getaffinity(0))


def least(program, count):
    """For each number of rows and columns its line of the quickest run, on so many processors."""
    os.sched_setaffinity(0, PROCESSORS[:count])
    runs = [[tuple(run[place : place + 4]) for place in range(0, len(run), 4)] for run in figures(program)]
    return [min(turns, key=lambda turn: turn[3]) for turns in zip(*runs)]


def main():
    with tempfile.TemporaryDirectory() as folder:
        program = built_in(folder, CRATES, FILES)
        on_one, on_two = least(program, 1), least(program, 2)
    print("  rows  columns  keys  one ms  two ms  share")
    for one, two in zip(on_one, on_two):
        rows, columns, keys, micros = one
        if two[:3] != one[:3]:
            raise SystemExit("two processors find other keys than one")
        print(f"{rows:6}  {columns:7}  {keys:4}  {micros / 1000:6.1f}  {two[3] / 1000:6.1f}  {two[3] / micros:5.2f}")


if __name__ == "__main__":
    main()
