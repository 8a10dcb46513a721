#!/usr/bin/env python3
"""Times the records of rows: a row of two numbers that is got from its bytes, and put into bytes.

Prints the nanoseconds of processor time that one call of `get_row` and one of `put_row` take (the least of some runs). The
program is proved and built by `rt run`, from the crates as they stand, in a folder that is thrown away. It judges nothing.
"""

import tempfile

from proved import built_in, figures

TURNS = 1_000_000
CRATES = {
    "pk_values": "",
    "pk_syntax": "pk_values sqlite_items",
    "pk_schema": "pk_syntax pk_values",
    "pk_catalog": "pk_schema pk_syntax pk_values",
    "gets": "pk_catalog pk_schema pk_syntax pk_values",
}

MAIN = """
#![tactic(auto)]

use pk_catalog::{CatErr, get_row, get_table, put_row};
use pk_schema::Schema;
use pk_values::{Memory, Row};
use std::alloc::Global;
use std::test::Fail;
use std::time::CpuClock;

// The table t of two columns a and b of numbers, and the row (1, 2).
const TABLE: &[u8] = b"\\x01\\x00\\x00\\x00\\x00\\x00\\x00\\x00\\x01\\x01t\\x02\\x01a\\x01\\x00\\x00\\x01b\\x01\\x00\\x00\\x00";
const ROW: &[u8] = b"\\x01\\x00\\x00\\x00\\x00\\x00\\x00\\x00\\x01\\x01\\x00\\x00\\x00\\x00\\x00\\x00\\x00\\x02";

fn main(rt: HostRuntime) -> Result<(), Fail> {
    let alloc = rt.alloc();
    let table = get_table(alloc, TABLE)?;
    let row = get_row(alloc, &table.schema, ROW)?;
    let start = rt.thread_cpu_time()?.as_nanos();
    let values = get_all(alloc, &table.schema, ROW)?;
    let got = rt.thread_cpu_time()?.as_nanos();
    let bytes = put_all(alloc, &row)?;
    let put = rt.thread_cpu_time()?.as_nanos();
    let _ = println!(rt; "{values} {bytes} {} {}", got.saturating_sub(start), put.saturating_sub(got));
    Ok(())
}

fn get_all(alloc: Global, schema: &Schema, bytes: &[u8]) -> Result<u64, CatErr> {
    let mut values = 0u64;
    for _ in 0..TURNS {
        let row = get_row(alloc, schema, bytes)?;
        values = values.wrapping_add(u64::from(row.width()));
    }
    Ok(values)
}

fn put_all(alloc: Global, row: &Row) -> Result<u64, Memory> {
    let mut bytes = 0u64;
    for _ in 0..TURNS {
        bytes = bytes.wrapping_add(put_row(alloc, row)?.as_slice().len() as u64);
    }
    Ok(bytes)
}
"""


def main():
    with tempfile.TemporaryDirectory() as folder:
        program = built_in(folder, CRATES, {"src/main.rt": MAIN.replace("TURNS", str(TURNS))})
        runs = list(figures(program))
    if any((values, size) != (2 * TURNS, 18 * TURNS) for values, size, _, _ in runs):
        raise SystemExit("the rows or their bytes aren't of the size that they have")
    got, put = (min(run[place] for run in runs) / TURNS for place in (2, 3))
    print(f"get_row {got:5.1f} ns  put_row {put:5.1f} ns")


if __name__ == "__main__":
    main()
