#!/usr/bin/env python3
"""Times `keytab memory` on statements over a table of two columns of numbers, of 20,000 and of 200,000 rows.

Prints, for each statement, the processor seconds that it takes by itself at both sizes (the least of some runs, less
those of making and filling the table), how many times longer it takes over the larger one, and the memory at its
height. Where time grows as the table does, the growth is 10; of what doesn't look at the table it is 1. A statement
that changes rows takes the same 10,000 rows of both tables, since no statement may change more than 20,000. Rounds of
single INSERTs show what one row costs in a table of that size. It judges nothing.

With a path as its argument it times that program in place of the one that `keytab` at the top builds.
"""

from shapes import chosen_program, run

SIZES = (20_000, 200_000)
RUNS = 3
ROWS_EACH = 500

STATEMENTS = {
    "fill by INSERTs of 500": b"",
    "1,000 INSERTs of one row": None,
    "UPDATE of 10,000 rows": b"UPDATE t SET b = 7 WHERE a <= 10000;\n",
    "UPDATE of no row": b"UPDATE t SET b = 7 WHERE a < 0;\n",
    "DELETE of 10,000 rows": b"DELETE FROM t WHERE a > 5000 AND a <= 15000;\n",
    "DELETE of no row": b"DELETE FROM t WHERE a < 0;\n",
    "SELECT of all": b"SELECT * FROM t;\n",
    "SELECT WHERE, half": b"SELECT a FROM t WHERE b < 50 AND a > 0;\n",
    "SELECT ORDER BY two": b"SELECT * FROM t ORDER BY b DESC, a;\n",
    "SELECT COUNT WHERE": b"SELECT COUNT(*) FROM t WHERE a > 10 AND b <> 3;\n",
}


def filled(rows):
    parts = [b"CREATE TABLE t (a INT, b INT);\n"]
    for low in range(1, rows + 1, ROWS_EACH):
        tuples = (b"(%d, %d)" % (a, a * 37 % 100) for a in range(low, low + ROWS_EACH))
        parts.append(b"INSERT INTO t VALUES " + b", ".join(tuples) + b";\n")
    return b"".join(parts)


def script(statement, rows):
    if statement is None:
        return filled(rows - 1000) + b"".join(b"INSERT INTO t VALUES (%d, 1);\n" % a for a in range(1000))
    return filled(rows) + statement


def best(program, text):
    runs = [run(program, text) for _ in range(RUNS)]
    return min(seconds for seconds, _ in runs), max(height for _, height in runs)


def main():
    program = chosen_program()
    fills = {rows: best(program, filled(rows))[0] for rows in SIZES}
    print(f"{'statement':<26} {'20,000':>9} {'200,000':>9} {'growth':>7} {'memory':>9}")
    for name, statement in STATEMENTS.items():
        taken = []
        for rows in SIZES:
            seconds, height = best(program, script(statement, rows))
            taken.append(seconds if statement == b"" else max(seconds - fills[rows], 0.0))
        growth = taken[1] / max(taken[0], 1e-6)
        print(f"{name:<26} {taken[0]:>8.4f}s {taken[1]:>8.4f}s {growth:>7.1f} {height / 1e6:>7.1f}MB")


if __name__ == "__main__":
    main()
