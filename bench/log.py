#!/usr/bin/env python3
"""Times the gated log over a station in memory: appends payloads of 4,096 bytes, and opens the log that holds them.

Prints, for each number of payloads, the seconds that all appends and one opening take, how many calls of the station each
took, and how many times longer it took than the size before. Where time grows as the log does, that ratio is the ratio of
the sizes. The program is tried unproved and unoptimised, by `rt try`, in a folder that is thrown away. It judges nothing.
"""

import pathlib
import shutil
import subprocess
import tempfile

TOP = pathlib.Path(__file__).resolve().parent.parent
SIZES = (2_500, 5_000, 10_000)
CRATES = {
    "pk_values": "",
    "pk_world": "pk_values",
    "pk_gate": "pk_world pk_values byteorder",
    "appends": "pk_gate pk_world pk_values",
}

PROGRAM = """
#![tactic(auto)]

use pk_gate::Log;
use pk_values::Bytes;
use pk_world::MemoryStation;
use std::fmt;
use std::io::Write;
use std::time::Instant;

fn main(rt: HostRuntime) -> Result<(), std::test::Fail> {
    let alloc = rt.alloc();
    let payload = Bytes::copy(alloc, &[7u8; 4096])?;
    let mut station = MemoryStation::new(alloc, b"", b"", &[])?;
    let mut log = Log::create(alloc, &mut station)?;
    let start = Instant::now(&rt)?;
    for _ in 0..COUNT {
        log.append(&mut station, &payload)?;
    }
    let appended = start.elapsed(&rt)?.as_millis();
    let calls = station.calls();
    let start = Instant::now(&rt)?;
    let opened = Log::open(alloc, &mut station)?;
    let open = start.elapsed(&rt)?.as_micros();
    let _ = println!(rt; "{} {appended} {} {open} {}", opened.count(), calls, station.calls() - calls);
    Ok(())
}
"""


def made_in(folder, count):
    """A repository with the crates below the log, and a program that appends so many payloads."""
    top = pathlib.Path(folder)
    for crate in CRATES:
        source = TOP / "crates" / crate
        if source.exists():
            for part in ("src", "specs", "proofs"):
                shutil.copytree(source / part, top / "crates" / crate / part, dirs_exist_ok=True)
    program = top / "crates" / "appends"
    for part in ("src", "specs", "proofs"):
        (program / part).mkdir(parents=True, exist_ok=True)
    for part in ("specs", "proofs"):
        (program / part / "Lib.antt").write_text("")
    (program / "src" / "main.rt").write_text(PROGRAM.lstrip().replace("COUNT", str(count)))
    lines = (f"{crate}: {below}".rstrip() for crate, below in CRATES.items())
    (top / "crates.txt").write_text("\n".join(lines) + "\n")
    return program


def main():
    last = None
    print("payloads  appends s  calls  opening s  calls")
    with tempfile.TemporaryDirectory() as folder:
        for count in SIZES:
            program = made_in(folder, count)
            ended = subprocess.run(["rt", "try", "--seconds", "600"], cwd=program, capture_output=True, text=True)
            lines = [line.split() for line in ended.stdout.splitlines() if line[:1].isdigit()]
            if not lines:
                raise SystemExit(ended.stdout + ended.stderr)
            kept, appended, calls, opened, looks = map(int, lines[-1])
            times = (appended / 1_000, opened / 1_000_000)
            ratios = "" if last is None else f"  times {times[0] / last[0]:.1f} and {times[1] / last[1]:.1f}"
            print(f"{kept:8}  {times[0]:9.3f}  {calls:5}  {times[1]:9.4f}  {looks:5}{ratios}")
            last = times


if __name__ == "__main__":
    main()
