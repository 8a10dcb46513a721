#!/usr/bin/env python3
"""Times `keytab memory` on scripts of INSERTs into one table.

Prints, for each number of INSERTs, the seconds that a run takes (the least of some runs), the statements a
second, and how many times longer it takes than the size before. Where time grows as the script does, that
ratio is the ratio of the sizes. It judges nothing.
"""

import pathlib
import subprocess
import sys
import time

TOP = pathlib.Path(__file__).resolve().parent.parent
# What `keytab` at the top builds; timed without that script.
PROGRAM = TOP / "crates" / "keytab" / "out" / "keytab"
SIZES = (1_000, 4_000, 16_000)
# What a script of at most 4,194,304 bytes still holds.
LONGEST = 64_000
RUNS = 5


def script(inserts):
    lines = ["CREATE TABLE t (a INTEGER, b INTEGER, c INTEGER);"]
    lines += [f"INSERT INTO t VALUES ({n}, {n * 7}, {n % 10});" for n in range(inserts)]
    return ("\n".join(lines) + "\n").encode()


def seconds(text, inserts):
    least = None
    for _ in range(RUNS):
        start = time.perf_counter()
        run = subprocess.run([PROGRAM, "memory"], input=text, stdout=subprocess.PIPE, check=True)
        taken = time.perf_counter() - start
        if run.stdout.count(b"inserted 1\n") != inserts:
            sys.exit("the replies aren't those of the script")
        least = taken if least is None else min(least, taken)
    return least


def main():
    subprocess.run([TOP / "keytab", "memory"], input=b"", check=True)
    before = None
    print(f"{'INSERTs':>8} {'bytes':>9} {'seconds':>9} {'a second':>10} {'ratio':>6}")
    for inserts in (*SIZES, LONGEST):
        text = script(inserts)
        taken = seconds(text, inserts)
        ratio = "" if before is None else f"{taken / before:.2f}"
        print(f"{inserts:>8} {len(text):>9} {taken:>9.4f} {inserts / taken:>10.0f} {ratio:>6}")
        before = taken


if __name__ == "__main__":
    main()
