#!/usr/bin/env python3
"""Times rows in memory: fills a map by commits of one row each, and walks it by `next_after` and `get`.

Prints, for each number of rows, the seconds of processor time that the commits and one whole walk take (the least of some
runs), the nanoseconds of one row of the walk, and how many times longer the walk took than that of half as many. Each row has
27 bytes. The program is proved and built by `rt run`, from the crates as they stand, in a folder that is thrown away: that
each commit may be made is proved too. It judges nothing.
"""

import tempfile

from proved import built_in, figures

SIZES = (50_000, 100_000, 200_000)
CRATES = {
    "pk_values": "",
    "pk_world": "pk_values",
    "pk_rows": "pk_world pk_values",
    "walks": "pk_rows pk_world pk_values",
}

MAIN = """
#![tactic(auto)]

ghost use Rattle.std.specs.Prelude.{◌≡◌, ◌+◌, ◌<◌, ◌≤◌, length, IfOk, OnOk};
ghost use Rattle.std.specs.FinMap.{empty};
ghost use Rattle.pk_rows.specs.Maps.{place_count};
ghost use Rattle.pk_rows.specs.MemoryRows.{map_of};
ghost use Rattle.walks.specs.OneRow.{one_row};

use pk_rows::{Batch, MemoryRows, Place, Rows, Stored};
use pk_values::{Bytes, Items, Memory};
use pk_world::{MemoryStation, StoreErr};
use std::alloc::Global;
use std::test::Fail;
use std::time::CpuClock;

const ROW: &[u8] = b"twenty-seven bytes of a row";

fn main(rt: HostRuntime) -> Result<(), Fail> {
    let alloc = rt.alloc();
TIMED    Ok(())
}

fn time_rows(rt: &HostRuntime, alloc: Global, count: u64) -> Result<(), Fail>
    requires { count ≤ 200000 }
{
    let mut station = MemoryStation::new(alloc, b"", b"", &[])?;
    let mut rows = MemoryRows::new(alloc);
    let start = rt.thread_cpu_time()?.as_micros();
    fill(alloc, &mut rows, &mut station, count)?;
    let filled = rt.thread_cpu_time()?.as_micros();
    let bytes = walk(&mut rows, &mut station, count)?;
    let walked = rt.thread_cpu_time()?.as_micros();
    let _ = println!(rt; "{count} {bytes} {} {}", filled.saturating_sub(start), walked.saturating_sub(filled));
    Ok(())
}

fn fill(alloc: Global, rows: &mut MemoryRows, station: &mut MemoryStation, count: u64) -> Result<(), StoreErr>
    requires nothing { map_of rows.old ≡ empty }
    requires few { count ≤ 200000 }
{
    for id in 0..count {
        put_one(alloc, rows, station, id)?;
    }
    Ok(())
}

// Puts a row at an id that is as great as any number of rows so far.
fn put_one(alloc: Global, rows: &mut MemoryRows, station: &mut MemoryStation, id: u64) -> Result<(), StoreErr>
    requires rows { place_count (map_of rows.old) ≤ id }
    requires few { id < 200000 }
    ensures { OnOk result (place_count (map_of rows.new) ≤ id + 1) }
{
    let batch = one_row(alloc, id)?;
    rows.commit(station, &batch)?;
    Ok(())
}

fn one_row(alloc: Global, id: u64) -> Result<Batch, Memory>
    ensures { IfOk result (λ batch. batch ≡ one_row id) }
{
    let mut put = Vec::with_capacity(alloc, 1)?;
    put.push(Stored { place: Place { table: 1, id }, bytes: Bytes::copy(alloc, ROW)? })?;
    Ok(Batch { gone: Items::from_vec(Vec::new(alloc)), put: Items::from_vec(put) })
}

// How many bytes the rows have.
fn walk(rows: &mut MemoryRows, station: &mut MemoryStation, count: u64) -> Result<u64, StoreErr> {
    let mut at = Place { table: 0, id: 0 };
    let mut bytes = 0u64;
    for _ in 0..count {
        let Some(next) = next_of(rows, at) else {
            return Ok(bytes);
        };
        at = next;
        bytes = bytes.wrapping_add(size_at(rows, station, at)?);
    }
    Ok(bytes)
}

fn next_of(rows: &MemoryRows, at: Place) -> Option<Place> {
    <MemoryRows as Rows<MemoryStation>>::next_after(rows, at)
}

fn size_at(rows: &mut MemoryRows, station: &mut MemoryStation, at: Place) -> Result<u64, StoreErr> {
    match rows.get(station, at)? {
        Some(row) => Ok(row.as_slice().len() as u64),
        None => Ok(0),
    }
}
"""

ONE_ROW = """
use Rattle.std.specs.Prelude.{ℕ, [], ◌∷◌, codes}
use Rattle.pk_rows.specs.declared.batch.Batch.{Batch}

-- a commit of one row
abbrev pub one_row : ℕ → Batch
one_row id = record { gone = []; put = record { place = record { table = 1; id = id }; bytes = codes "twenty-seven bytes of a row" } ∷ [] }
"""

COMMITTING = """
-- A commit of one row may be made, and makes at most one row more.
use Rattle.std.proofs.Common.{ℕ, ◌+◌, ◌<◌, ◌≤◌, Bool, true, false, cond, [], length, IsTrue, sym, subst, arith}
use Rattle.std.specs.List.Sorted.{IsStrictlySortedBy}
use Rattle.std.specs.Cmp.{IsTotalOrder}
use Rattle.std.specs.FinMap.{insert, len-insert, contains_key}
use Rattle.std.proofs.lemmas.Cmp.{nat_cmp_total, on_total, then_total}
use Rattle.std.proofs.lemmas.List.Elements.{All-nil, All-cons}
use Rattle.pk_rows.specs.declared.place.Place.{Place}
use Rattle.pk_rows.specs.declared.stored.Stored.{Stored}
use Rattle.pk_rows.specs.Maps.{Map, place_cmp, has_place, place_count, committed}
use Rattle.pk_rows.specs.Batches.{CanCommit}
use Rattle.walks.specs.OneRow.{one_row}

place_total : IsTotalOrder place_cmp
place_total = then_total (on_total (λ p. p.table) nat_cmp_total) (on_total (λ p. p.id) nat_cmp_total)

one_more : (b : Bool) (n : ℕ) → cond b n (n + 1) ≤ n + 1
one_more true n = omega arith
one_more false n = omega arith

pub count_put : (m : Map) (n id : ℕ) → place_count m ≤ n → place_count (committed (one_row id) m) ≤ n + 1
count_put m n id few =
    let place : Place = record { table = 1; id = id } in
    let more : place_count (committed (one_row id) m) ≤ place_count m + 1 = subst (λ k. k ≤ place_count m + 1) (sym (len-insert place_total m place _)) (one_more (contains_key m place) (place_count m)) in
    omega (arith, more, few)

pub can_put : (m : Map) (id : ℕ) → place_count m ≤ id → id < 200000 → CanCommit (one_row id) m
unfolding IsStrictlySortedBy
can_put m id few low = record {
  gone_ascend = tt;
  put_ascend = (tt, tt);
  sized = All-cons (λ (s : Stored). length s.bytes ≤ 4080) _ [] (omega arith) (All-nil (λ (s : Stored). length s.bytes ≤ 4080));
  present = All-nil (λ place. IsTrue (has_place m place));
  few = omega arith;
  fits = let most = count_put m id id few in omega (arith, most, low);
}
"""

PUT_ONE = """
use Rattle.std.proofs.Common.{◌+◌, ◌≤◌, sym, refl, subst}
use Rattle.pk_rows.specs.declared.batch.Batch.{Batch}
use Rattle.pk_rows.specs.Maps.{Map, place_count, committed}
use Rattle.pk_rows.specs.Batches.{CanCommit}
use Rattle.pk_rows.specs.MemoryRows.{map_of}
use Rattle.walks.proofs.Committing.{can_put, count_put}
use Rattle.walks.proofs.put_one.Goals as goal

pub commit-requires : goal.commit-requires
commit-requires c = (map_of c.args.rows.now, refl, subst (λ (b : Batch). CanCommit b (map_of c.args.rows.now)) (sym c.in_ok-batch.ensures) (can_put (map_of c.args.rows.now) c.args.id c.requires.rows c.requires.few))

pub returns : goal.returns
returns c =
    let made = c.in_ok-commit.ensures.stands (map_of c.args.rows.now) refl in
    subst (λ (m : Map). place_count m ≤ c.args.id + 1) made
    (subst (λ (b : Batch). place_count (committed b (map_of c.args.rows.now)) ≤ c.args.id + 1) (sym c.in_ok-batch.ensures) (count_put (map_of c.args.rows.now) c.args.id c.args.id c.requires.rows))
"""

SIZE_AT = """
use Rattle.std.proofs.Common.{refl}
use Rattle.pk_rows.specs.MemoryRows.{map_of}
use Rattle.walks.proofs.size_at.Goals as goal

pub get-requires : goal.get-requires
get-requires c = (map_of c.args.rows.now, refl)
"""

FILL_FIRST = """
use Rattle.std.proofs.Common.{ℕ, List, ◌≤◌, sym, subst, arith}
use Rattle.std.specs.FinMap.{len-empty}
use Rattle.pk_rows.specs.Maps.{Map, place_cmp, place_count}
use Rattle.walks.proofs.fill.Goals as goal

pub loop-id-init : goal.loop-id-init
loop-id-init c = subst (λ (m : Map). place_count m ≤ 0) (sym c.requires.nothing) (omega (arith, len-empty place_cmp (List ℕ)))
"""

FILL = """
use Rattle.std.proofs.Common.{◌≤◌}
use Rattle.pk_rows.specs.Maps.{place_count}
use Rattle.pk_rows.specs.MemoryRows.{map_of}
use Rattle.walks.proofs.fill.Given as goal

abbrev pub invariant-loop-id : goal.invariant-loop-id
invariant-loop-id l = place_count (map_of l.rows) ≤ l.id
"""

FILES = {
    "src/main.rt": MAIN.replace("TIMED", "".join(f"    time_rows(&rt, alloc, {count})?;\n" for count in SIZES)),
    "specs/Lib.antt": "pub mod OneRow\n",
    "specs/OneRow.antt": ONE_ROW,
    "proofs/Lib.antt": "pub mod Committing\n",
    "proofs/Committing.antt": COMMITTING,
    "proofs/put_one/Answers.antt": PUT_ONE,
    "proofs/size_at/Answers.antt": SIZE_AT,
    "proofs/fill/Answers.antt": FILL_FIRST,
    "proofs/fill/Invariants.antt": FILL,
}


def main():
    last = None
    print("   rows  commits s  walk s  ns a row")
    with tempfile.TemporaryDirectory() as folder:
        runs = list(figures(built_in(folder, CRATES, FILES)))
    for place, count in enumerate(SIZES):
        sized = [run[4 * place : 4 * place + 4] for run in runs]
        if any((seen, size) != (count, 27 * count) for seen, size, _, _ in sized):
            raise SystemExit("the walk hasn't seen each row")
        filled, walked = (min(run[column] for run in sized) for column in (2, 3))
        ratio = "" if last is None else f"  times {walked / last:.1f}"
        print(f"{count:7}  {filled / 1e6:9.3f}  {walked / 1e6:6.4f}  {walked * 1000 / count:8.0f}{ratio}")
        last = walked


if __name__ == "__main__":
    main()
