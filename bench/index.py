#!/usr/bin/env python3
"""Times the indexes of keys: puts 50,000 rows of two columns into one, looks each up, and drops each.

The columns may be null, and a quarter of the rows have a null. An index of a certain key is asked for each row and each of the
four null patterns, one of a possible key once for each row. Prints for each kind of key and of values the nanoseconds
of processor time of one put, one look-up and one drop (the least of some runs), and the bytes that the index takes for each
row at its height, beyond those that the same rows take without it. The program is proved and built by `rt run`, from the
crates as they stand, in a folder that is thrown away. It judges nothing.
"""

import os
import subprocess
import tempfile

from proved import RUNS, built_in

ROWS = 50_000
CRATES = {
    "pk_values": "",
    "pk_similar": "pk_values",
    "pk_index": "pk_similar pk_values smallvec",
    "finds": "pk_index pk_similar pk_values",
}

MAIN = """
#![tactic(auto)]

ghost use Rattle.std.specs.Prelude.{◌≡◌, ◌<◌};
ghost use Rattle.pk_index.specs.Shown.{key_of, nullable_of, strong_key_of};

use pk_index::{PatternIndex, Steps, StrongIndex};
use pk_similar::lies_below;
use pk_values::{ColSet, MOST_COLUMNS, Memory, Row, Value, Words};
use std::alloc::Global;
use std::env;
use std::io::Write;
use std::marker::Brand;
use std::sync::ledger::{Blank, Ledger};
use std::test::Fail;
use std::time::CpuClock;

const ROWS: u32 = 50_000;

// How many words the program is given says what it times.
fn main(rt: HostRuntime) -> Result<(), Fail> {
    let alloc = rt.alloc();
    let words = env::args(&rt)?.count();
    let rows = rows(alloc, words > 3)?;
    match words {
        2 | 5 => time_certain(&rt, alloc, rows.as_slice()),
        3 | 6 => time_possible(&rt, alloc, rows.as_slice()),
        _ => Ok(()),
    }
}

fn time_certain(rt: &HostRuntime, alloc: Global, rows: &[Row]) -> Result<(), Fail> {
    let key = ColSet::below(2);
    if key.len() > 5 || !key.is_inside(key) {
        return Err("no key".into());
    }
    let mut index = PatternIndex::new(alloc, key, key);
    let start = rt.thread_cpu_time()?.as_micros();
    put_all(&mut index, key, rows)?;
    let put = rt.thread_cpu_time()?.as_micros();
    let found = find_all::<Brand>(Blank::new(1), &index, key, rows)?;
    let looked = rt.thread_cpu_time()?.as_micros();
    drop_all(&mut index, key, rows)?;
    let dropped = rt.thread_cpu_time()?.as_micros();
    let _ = println!(rt; "{found} {} {} {}", put.saturating_sub(start), looked.saturating_sub(put), dropped.saturating_sub(looked));
    Ok(())
}

fn put_all(index: &mut PatternIndex, key: ColSet, rows: &[Row]) -> Result<(), Fail>
    requires key { key_of index.old ≡ key }
    requires nullable { nullable_of index.old ≡ key }
    ensures key { key_of index.new ≡ key }
    ensures nullable { nullable_of index.new ≡ key }
{
    for (n, row) in rows.iter().enumerate() {
        if !lies_below(key, row.width()) {
            return Err("a narrow row".into());
        }
        index.put(n as u64, row)?;
    }
    Ok(())
}

// How many look-ups find a row, for each row and each null pattern.
fn find_all<L: Ledger>(blank: Blank, index: &PatternIndex, key: ColSet, rows: &[Row]) -> Result<u64, Fail>
    requires name { blank.name ≡ L.name }
    requires parts { blank.parts ≡ L.parts }
    requires some { 0 < L.parts }
    requires key { key_of index.now ≡ key }
    requires nullable { nullable_of index.now ≡ key }
{
    let mut steps = Steps::<L>::new(blank);
    let mut found = 0u64;
    for row in rows {
        found = found.wrapping_add(find(index, key, row, ColSet::empty(), &mut steps)?);
        found = found.wrapping_add(find(index, key, row, ColSet::below(1), &mut steps)?);
        found = found.wrapping_add(find(index, key, row, key.without(0), &mut steps)?);
        found = found.wrapping_add(find(index, key, row, key, &mut steps)?);
    }
    Ok(found)
}

fn find<L: Ledger>(
    index: &PatternIndex,
    key: ColSet,
    row: &Row,
    pattern: ColSet,
    steps: &mut Steps<L>,
) -> Result<u64, Fail>
    requires key { key_of index.now ≡ key }
    requires nullable { nullable_of index.now ≡ key }
{
    if !lies_below(key, row.width()) || !pattern.is_inside(key) {
        return Err("no probe of the key".into());
    }
    match index.least(row, pattern, &[], steps) {
        Some(_) => Ok(1),
        None => Ok(0),
    }
}

fn drop_all(index: &mut PatternIndex, key: ColSet, rows: &[Row]) -> Result<(), Fail>
    requires { key_of index.old ≡ key }
{
    for (n, row) in rows.iter().enumerate() {
        if !lies_below(key, row.width()) {
            return Err("a narrow row".into());
        }
        index.drop_row(n as u64, row);
    }
    Ok(())
}

fn time_possible(rt: &HostRuntime, alloc: Global, rows: &[Row]) -> Result<(), Fail> {
    let key = ColSet::below(2);
    let mut index = StrongIndex::new(alloc, key);
    let start = rt.thread_cpu_time()?.as_micros();
    put_strong(&mut index, key, rows)?;
    let put = rt.thread_cpu_time()?.as_micros();
    let found = find_strong::<Brand>(Blank::new(1), &index, key, rows)?;
    let looked = rt.thread_cpu_time()?.as_micros();
    drop_strong(&mut index, key, rows)?;
    let dropped = rt.thread_cpu_time()?.as_micros();
    let _ = println!(rt; "{found} {} {} {}", put.saturating_sub(start), looked.saturating_sub(put), dropped.saturating_sub(looked));
    Ok(())
}

fn put_strong(index: &mut StrongIndex, key: ColSet, rows: &[Row]) -> Result<(), Fail>
    requires { strong_key_of index.old ≡ key }
    ensures { strong_key_of index.new ≡ key }
{
    for (n, row) in rows.iter().enumerate() {
        if !lies_below(key, row.width()) {
            return Err("a narrow row".into());
        }
        index.put(n as u64, row)?;
    }
    Ok(())
}

fn find_strong<L: Ledger>(blank: Blank, index: &StrongIndex, key: ColSet, rows: &[Row]) -> Result<u64, Fail>
    requires name { blank.name ≡ L.name }
    requires parts { blank.parts ≡ L.parts }
    requires some { 0 < L.parts }
    requires key { strong_key_of index.now ≡ key }
{
    let mut steps = Steps::<L>::new(blank);
    let mut found = 0u64;
    for row in rows {
        if !lies_below(key, row.width()) {
            return Err("a narrow row".into());
        }
        if index.least(row, &[], &mut steps).is_some() {
            found = found.wrapping_add(1);
        }
    }
    Ok(found)
}

fn drop_strong(index: &mut StrongIndex, key: ColSet, rows: &[Row]) -> Result<(), Fail>
    requires { strong_key_of index.old ≡ key }
{
    for (n, row) in rows.iter().enumerate() {
        if !lies_below(key, row.width()) {
            return Err("a narrow row".into());
        }
        index.drop_row(n as u64, row);
    }
    Ok(())
}

fn rows(alloc: Global, texts: bool) -> Result<Vec<Row>, Fail> {
    let mut rows = Vec::new(alloc);
    for n in 0..ROWS {
        rows.push(row(alloc, n, texts)?)?;
    }
    Ok(rows)
}

// The first column ascends, the second doesn't; every eighth row has a null in the one, and as many in the other.
fn row(alloc: Global, n: u32, texts: bool) -> Result<Row, Memory> {
    let mut values = Vec::new(alloc);
    values.push(value(alloc, n, texts, n % 8 == 3)?)?;
    values.push(value(alloc, n.wrapping_mul(2_654_435_761), texts, n % 8 == 6)?)?;
    if values.len() > MOST_COLUMNS {
        return Err(Memory);
    }
    Ok(Row::make(values))
}

fn value(alloc: Global, n: u32, texts: bool, null: bool) -> Result<Value, Memory> {
    if null {
        return Ok(Value::Null);
    }
    if !texts {
        return Ok(Value::Integer(i64::from(n)));
    }
    let mut bytes = Vec::new(alloc);
    write!(bytes, "name {n}").map_err(|_| Memory)?;
    match Words::read(alloc, bytes.as_slice()) {
        Ok(words) => Ok(Value::Text(words)),
        Err(_) => Err(Memory),
    }
}
"""

GHOSTS = """
use Rattle.finds.proofs.TIMES.Given as goal

abbrev pub ghosts-FINDS : goal.ghosts-FINDS
ghosts-FINDS a = record { name = a.blank.name; parts = a.blank.parts }
"""

PUT_ALL = """
use Rattle.std.proofs.Common.{◌≡◌}
use Rattle.pk_index.specs.Shown.{key_of, nullable_of}
use Rattle.finds.proofs.put_all.Given as goal

abbrev pub invariant-loop-n : goal.invariant-loop-n
invariant-loop-n l = (key_of l.index ≡ l.key) × (nullable_of l.index ≡ l.key)
"""

ONE_KEY = """
use Rattle.std.proofs.Common.{◌≡◌}
use Rattle.pk_index.specs.Shown.{WORD}
use Rattle.finds.proofs.FUNCTION.Given as goal

abbrev pub invariant-loop-n : goal.invariant-loop-n
invariant-loop-n l = WORD l.index ≡ l.key
"""

ASKING = """
-- What is asked of a look-up where each column of the key may be null, and no id is outside.
use Rattle.std.proofs.Common.{◌≡◌, ◌∙◌, ap, ℕ, true, not, ◌||◌, List, []}
use Rattle.std.specs.List.{list_all}
use Rattle.std.specs.List.Sorted.{IsStrictlySortedBy}
use Rattle.std.specs.Ordering.{nat_cmp}
use Rattle.pk_values.specs.declared.value.Value.{Value}
use Rattle.pk_values.specs.ColumnSet.{columns, has_column}
use Rattle.pk_values.specs.Values.{is_null, value_at}
use Rattle.pk_values.proofs.ColumnLemmas.{all_members}

pub none_ascend : IsStrictlySortedBy nat_cmp []
unfolding IsStrictlySortedBy
none_ascend = tt

pub all_known : (nullable key : ℕ) (row : List Value) → nullable ≡ key → list_all (λ c. has_column nullable c || not (is_null (value_at row c))) (columns key) ≡ true
all_known nullable key row same =
    all_members (λ c. has_column nullable c || not (is_null (value_at row c))) key
    (λ k holds. ap (λ t. t || not (is_null (value_at row k))) (ap (λ n. has_column n k) same ∙ holds))
"""

FIND = """
use Rattle.std.proofs.Common.{◌∙◌, sym}
use Rattle.pk_index.specs.Shown.{key_of, nullable_of}
use Rattle.finds.proofs.Asking.{all_known, none_ascend}
use Rattle.finds.proofs.find.Goals as goal

pub least-requires-clause-known : goal.least-requires-clause-known
least-requires-clause-known g c = all_known (nullable_of c.args.index.now) (key_of c.args.index.now) c.args.row.now (c.requires.nullable ∙ sym c.requires.key)

pub least-requires-clause-ascending : goal.least-requires-clause-ascending
least-requires-clause-ascending g c = none_ascend
"""

FIND_STRONG = """
use Rattle.finds.proofs.Asking.{none_ascend}
use Rattle.finds.proofs.find_strong.Goals as goal

pub least-requires-clause-ascending : goal.least-requires-clause-ascending
least-requires-clause-ascending g c = none_ascend
"""

FILES = {
    "src/main.rt": MAIN,
    "proofs/Lib.antt": "pub mod Asking\n",
    "proofs/Asking.antt": ASKING,
    "proofs/find/Answers.antt": FIND,
    "proofs/find_strong/Answers.antt": FIND_STRONG,
    "proofs/time_certain/Invariants.antt": GHOSTS.replace("TIMES", "time_certain").replace("FINDS", "find_all"),
    "proofs/time_possible/Invariants.antt": GHOSTS.replace("TIMES", "time_possible").replace("FINDS", "find_strong"),
    "proofs/put_all/Invariants.antt": PUT_ALL,
    "proofs/drop_all/Invariants.antt": ONE_KEY.replace("WORD", "key_of").replace("FUNCTION", "drop_all"),
    "proofs/put_strong/Invariants.antt": ONE_KEY.replace("WORD", "strong_key_of").replace("FUNCTION", "put_strong"),
    "proofs/drop_strong/Invariants.antt": ONE_KEY.replace("WORD", "strong_key_of").replace("FUNCTION", "drop_strong"),
}

KINDS = (
    ("certain, numbers", 1, 0, 4),
    ("possible, numbers", 2, 0, 1),
    ("certain, texts", 4, 3, 4),
    ("possible, texts", 5, 3, 1),
)


def one_run(program, words):
    """What the program prints, given so many words, and how many bytes it takes at its height."""
    ran = subprocess.Popen([program] + ["again"] * words, stdout=subprocess.PIPE, text=True)
    printed = [int(word) for word in ran.stdout.read().split()]
    _, status, usage = os.wait4(ran.pid, 0)
    ran.returncode = os.waitstatus_to_exitcode(status)
    if ran.returncode != 0:
        raise SystemExit(f"the program ended with {ran.returncode}")
    return printed, usage.ru_maxrss * 1024


def main():
    print(f"{'key, values':<18}  found  put ns  look-up ns  drop ns  bytes a row")
    with tempfile.TemporaryDirectory() as folder:
        program = built_in(folder, CRATES, FILES)
        for name, words, alone, asked in KINDS:
            runs = [one_run(program, words) for _ in range(RUNS)]
            put, looked, dropped = (min(printed[place] for printed, _ in runs) * 1000 / ROWS for place in (1, 2, 3))
            height = min(bytes for _, bytes in runs) - min(one_run(program, alone)[1] for _ in range(RUNS))
            found = {printed[0] for printed, _ in runs}
            if len(found) != 1:
                raise SystemExit("runs find different numbers of rows")
            print(f"{name:<18}  {found.pop():5}  {put:6.0f}  {looked / asked:10.0f}  {dropped:7.0f}  {height / ROWS:11.0f}")


if __name__ == "__main__":
    main()
