#!/usr/bin/env python3
"""Times a walk of 200,000 rows by a `ListView` and by a `Snapshot`, with no image, and with 20,000 of three sorts.

The images are of rows spread over the table that were changed since, of rows among them that were removed since, and of rows
behind all others that were inserted since. Prints, for each, the nanoseconds of processor time that one row of a walk by
`next_after` and `row` takes by each view (the least of some runs), and how many times longer the snapshot's walk took for a
row that it has. Each row has three values. The program is proved and built by `rt run`, from the crates as they stand, in a
folder that is thrown away. It judges nothing.
"""

import tempfile

from proved import built_in, figures

ROWS = 200_000
SORTS = ("no image", "changed", "removed", "inserted")
SEEN = (ROWS, ROWS, ROWS, ROWS - 20_000)
CRATES = {
    "pk_values": "",
    "pk_world": "pk_values",
    "pk_syntax": "pk_values sqlite_items",
    "pk_logic": "pk_values sqlite_items",
    "pk_txn": "pk_values",
    "pk_schema": "pk_syntax pk_values",
    "pk_bind": "pk_schema pk_syntax pk_logic pk_values sqlite_items",
    "pk_exec": "pk_bind pk_schema pk_syntax pk_logic pk_world pk_values",
    "pk_snapshot": "pk_txn pk_exec pk_schema pk_world pk_values",
    "walks": "pk_snapshot pk_txn pk_exec pk_world pk_values",
}

MAIN = """
#![tactic(auto)]

ghost use Rattle.std.specs.Prelude.{◌≡◌, IsTrue};
ghost use Rattle.pk_exec.specs.Rows.{AscendFrom};

use pk_exec::{ListView, View};
use pk_snapshot::Snapshot;
use pk_txn::{Before, Book, Seen};
use pk_values::{Items, Memory, Name, Placed, Row, Value, Words};
use pk_world::StoreErr;
use std::alloc::Global;
use std::test::Fail;
use std::time::CpuClock;

const ROWS: u64 = 200_000;

fn main(rt: HostRuntime) -> Result<(), Fail> {
    let alloc = rt.alloc();
    for sort in 0..4u32 {
        time_walks(&rt, alloc, sort)?;
    }
    Ok(())
}

fn time_walks(rt: &HostRuntime, alloc: Global, sort: u32) -> Result<(), Fail> {
    let session = Name::read(alloc, b"x")?.ok_or("no name")?;
    let mut book = Book::new(alloc);
    book.begin(&session, 1)?;
    note(&mut book, &before(alloc, sort)?)?;
    let rows = rows(alloc, sort)?;
    if !ascends(rows.as_slice()) {
        return Err("out of order".into());
    }
    let start = rt.thread_cpu_time()?.as_micros();
    let listed = walk(&mut ListView::new(rows.as_slice())).map_err(|_| "failed")?;
    let middle = rt.thread_cpu_time()?.as_micros();
    let seen = walk_snapshot(rows.as_slice(), &book, &session)?;
    let end = rt.thread_cpu_time()?.as_micros();
    let _ = println!(rt; "{listed} {} {seen} {}", middle.saturating_sub(start), end.saturating_sub(middle));
    Ok(())
}

#[tactic(auto, using(pk_snapshot::proofs::WalkLemmas::none_back))]
fn walk_snapshot(rows: &[Placed], book: &Book, session: &Name) -> Result<u64, Fail>
    requires { AscendFrom 1 rows.now }
{
    if !book.has(session) {
        return Err("not open".into());
    }
    match book.view_row(session, 1, 0) {
        Seen::Was(_) => Err("a row 0".into()),
        Seen::Absent => Err("a row 0".into()),
        Seen::Current => {
            let mut view = Snapshot::new(rows, book, session, 1);
            Ok(walk(&mut view).map_err(|_| "failed")?)
        }
    }
}

// How many rows the view has.
fn walk<V: View>(view: &mut V) -> Result<u64, StoreErr> {
    let mut count = 0u64;
    let mut at = 0;
    for _ in 0..=ROWS {
        let Some(id) = next_of(view, at)? else {
            return Ok(count);
        };
        at = id;
        count = count.saturating_add(1);
    }
    Ok(count)
}

// Reads the row behind the id.
fn next_of<V: View>(view: &mut V, at: u64) -> Result<Option<u64>, StoreErr> {
    let Some(id) = view.next_after(at)? else {
        return Ok(None);
    };
    let row = view.row(id)?;
    Ok((row.width() > 0).then_some(id))
}

fn is_of(sort: u32, id: u64) -> bool {
    match sort {
        0 => false,
        3 => id > ROWS - 20_000,
        _ => id % 10 == 0,
    }
}

fn rows(alloc: Global, sort: u32) -> Result<Vec<Placed>, Memory> {
    let mut rows = Vec::new(alloc);
    for id in 1..=ROWS {
        if sort != 2 || !is_of(sort, id) {
            rows.push(Placed { id, row: row_of(alloc)? })?;
        }
    }
    Ok(rows)
}

fn before(alloc: Global, sort: u32) -> Result<Items<Before>, Memory> {
    let mut before = Vec::new(alloc);
    for id in 1..=ROWS {
        if is_of(sort, id) {
            before.push(Before { table: 1, id, row: old_row(alloc, sort)? })?;
        }
    }
    Ok(Items::from_vec(before))
}

fn old_row(alloc: Global, sort: u32) -> Result<Option<Row>, Memory> {
    if sort == 3 {
        return Ok(None);
    }
    Ok(Some(row_of(alloc)?))
}

fn row_of(alloc: Global) -> Result<Row, Memory> {
    let mut values = Vec::with_capacity(alloc, 3)?;
    values.push(Value::Integer(7))?;
    values.push(Value::Null)?;
    values.push(Value::Integer(9))?;
    Ok(Row::make(values))
}

fn note(book: &mut Book, before: &Items<Before>) -> Result<(), Fail> {
    if book.last().is_none() {
        book.note(2, before)?;
    }
    Ok(())
}

// Whether the ids ascend from 1.
fn ascends(rows: &[Placed]) -> bool
    ensures { IsTrue result → AscendFrom 1 rows.now }
{
    let mut last = 0;
    for placed in rows {
        if placed.id <= last {
            return false;
        }
        last = placed.id;
    }
    true
}
"""

ASCENDS_FIRST = """
use Rattle.std.proofs.Common.{◌+◌, drop}
use Rattle.pk_snapshot.proofs.RisingLemmas.{Rising}
use Rattle.walks.proofs.ascends.Given as goal

abbrev pub invariant-loop-placed : goal.invariant-loop-placed
invariant-loop-placed l = Rising (l.last + 1) (drop l.placed-index l.rows) → Rising 1 l.rows
"""

ASCENDS = """
use Rattle.std.proofs.Common.{◌≤◌, ◌+◌, length, arith}
use Rattle.pk_snapshot.proofs.TestLemmas.{one_more, none_left}
use Rattle.walks.proofs.ascends.Goals as goal

pub loop-placed-preserved : goal.loop-placed-preserved
loop-placed-preserved c =
    one_more c.args.rows.now c.loop-placed.placed-index c.loop-placed.last c.placed-item.result c.loop-placed-test.true c.placed-item.is (omega arith) c.loop-placed.invariant

pub returns : goal.returns
returns c told =
    let past : length c.args.rows.now ≤ c.loop-placed.placed-index = omega arith in
    none_left c.args.rows.now c.loop-placed.placed-index c.loop-placed.last past c.loop-placed.invariant
"""

NEXT_OF = """
use Rattle.std.proofs.Common.{ap, sym, ◌∙◌}
use Rattle.pk_exec.specs.Rows.{next_id}
use Rattle.pk_snapshot.proofs.RisingLemmas.{next_there}
use Rattle.walks.proofs.next_of.Goals as goal

pub row-requires : goal.row-requires
row-requires g c =
    next_there c.args.at c.in-Some.id (g.V.View.rows c.next_after.new.self)
    (ap (next_id c.args.at) c.next_after.ensures.rows ∙ (sym c.in_ok-id.ensures.next ∙ c.in-Some.is))
"""

FILES = {
    "src/main.rt": MAIN,
    "proofs/ascends/Invariants.antt": ASCENDS_FIRST,
    "proofs/ascends/Answers.antt": ASCENDS,
    "proofs/next_of/Answers.antt": NEXT_OF,
}


def main():
    with tempfile.TemporaryDirectory() as folder:
        runs = list(figures(built_in(folder, CRATES, FILES)))
    print("images    ListView ns  Snapshot ns  times")
    for place, sort in enumerate(SORTS):
        sized = [run[4 * place : 4 * place + 4] for run in runs]
        listed, seen = sized[0][0], sized[0][2]
        if seen != SEEN[place]:
            raise SystemExit("the walk hasn't seen each row")
        by_list = min(run[1] for run in sized) * 1000 / listed
        by_snapshot = min(run[3] for run in sized) * 1000 / seen
        print(f"{sort:8}  {by_list:11.0f}  {by_snapshot:11.0f}  {by_snapshot / by_list:5.2f}")


if __name__ == "__main__":
    main()
