#!/usr/bin/env python3
"""Times `keytab memory` on single INSERTs into a table whose key they are judged by.

The table has two columns that may be null, under a certain key of both; no row breaks it, and half of them have a
null. Prints, for each number of rows, the processor seconds that the INSERTs take (the least of some runs), the
microseconds of one INSERT, and how many times longer they all take than half as many. Where an INSERT looks at every
row of the table that ratio is 4, and where it looks at a few it is 2. The same without a key stands beside it.
It judges nothing.

With a path as its argument it times that program in place of the one that `keytab` at the top builds.
"""

from shapes import chosen_program, run

SIZES = (1_000, 2_000, 4_000)
RUNS = 3

KEYED = b"CREATE TABLE t (a INT, b INT, CERTAIN KEY (a, b));\n"
PLAIN = b"CREATE TABLE t (a INT, b INT);\n"


def row(n):
    """The n-th row, which none of the others can equal, since its first number is its own."""
    return b"(%d, %d)" % (n, n) if n % 2 == 0 else b"(%d, NULL)" % n


def script(head, rows):
    return head + b"".join(b"INSERT INTO t VALUES %s;\n" % row(n) for n in range(rows))


def least(program, text):
    return min(run(program, text)[0] for _ in range(RUNS))


def main():
    program = chosen_program()
    print(f"{'table':<12} {'rows':>6} {'seconds':>9} {'each':>9} {'ratio':>6}")
    for name, head in (("certain key", KEYED), ("no key", PLAIN)):
        before = None
        for rows in SIZES:
            taken = least(program, script(head, rows))
            ratio = "" if before is None else f"{taken / max(before, 1e-6):.2f}"
            print(f"{name:<12} {rows:>6} {taken:>8.4f}s {taken / rows * 1e6:>7.2f}us {ratio:>6}")
            before = taken


if __name__ == "__main__":
    main()
