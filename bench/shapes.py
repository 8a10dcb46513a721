#!/usr/bin/env python3
"""Times `keytab memory` on scripts of many shapes, of 1 MiB and of 4 MiB each.

Prints, for each shape, the processor seconds that a run takes at both sizes (the least of some runs), how many
times longer the longer one takes, the script's bytes a second, and the memory at its height for each byte of the
script. Where time grows as the script does, the growth is 4. It judges nothing.

With a path as its argument it times that program in place of the one that `keytab` at the top builds.
"""

import os
import pathlib
import subprocess
import sys
import tempfile

TOP = pathlib.Path(__file__).resolve().parent.parent
PROGRAM = TOP / "crates" / "keytab" / "out" / "keytab"
SIZES = (1 << 20, 1 << 22)
RUNS = 3

NUMBERS = b"CREATE TABLE t (a INT, b INT, c INT);\n"
TEXTS = b"CREATE TABLE t (a TEXT, b TEXT);\n"
DEEP = b"SELECT * FROM t WHERE " + b"(" * 60 + b"a = 1" + b")" * 60 + b";\n"
NOTS = b"SELECT * FROM t WHERE " + b"NOT " * 60 + b"a = 1;\n"

# What stands before the repeated bytes, these, and what stands behind them.
SHAPES = {
    "one-row INSERTs": (NUMBERS, b"INSERT INTO t VALUES (123, 4567, 8);\n", b""),
    "column list": (NUMBERS, b"INSERT INTO t (a, b, c) VALUES (123, 4567, 8);\n", b""),
    "one INSERT": (NUMBERS + b"INSERT INTO t VALUES ", b"(123, 4567, 8), ", b"(1, 2, 3);\n"),
    "texts": (TEXTS, b"INSERT INTO t VALUES ('some text', 'it''s another');\n", b""),
    "marks": (b"CREATE TABLE t (a INT", b" NOT NULL UNIQUE", b");\n"),
    "comments": (NUMBERS, b"-- a comment of one line, with ; and ' in it\n", b""),
    "parentheses": (NUMBERS, DEEP, b""),
    "NOTs": (NUMBERS, NOTS, b""),
    "refused: words": (b"", b"a;", b""),
    "refused: bad characters": (b"", b"$;", b""),
    "refused: not UTF-8": (b"", b"'\xff';\n", b""),
    "all (": (b"", b"(", b""),
    "all '": (b"", b"'", b""),
    "all NOT": (b"", b"NOT ", b""),
    "all digits": (b"", b"7", b""),
    "all a,": (b"", b"a,", b""),
    "one text": (b"'", b"x", b"'"),
    "unclosed text": (b"'", b"''", b""),
}


def script(shape, size):
    front, unit, back = SHAPES[shape]
    count = (size - len(front) - len(back)) // len(unit)
    return front + unit * count + back


def run(program, text):
    """The processor seconds and the most bytes of memory of one run."""
    with tempfile.TemporaryFile() as source:
        source.write(text)
        source.seek(0)
        process = subprocess.Popen([program, "memory"], stdin=source, stdout=subprocess.DEVNULL)
        _, status, used = os.wait4(process.pid, 0)
        process.returncode = os.waitstatus_to_exitcode(status)
    if process.returncode not in (0, 1):
        sys.exit(f"status {process.returncode}")
    return used.ru_utime + used.ru_stime, used.ru_maxrss * 1024


def chosen_program():
    """The program that the argument names, or the one of `keytab` at the top, built where it isn't yet."""
    if len(sys.argv) > 1:
        return pathlib.Path(sys.argv[1]).resolve()
    subprocess.run([TOP / "keytab", "memory"], input=b"", check=True)
    return PROGRAM


def main():
    program = chosen_program()
    print(f"{'shape':<24} {'1 MiB':>8} {'4 MiB':>8} {'growth':>7} {'MB a second':>12} {'bytes a byte':>13}")
    for shape in SHAPES:
        taken = []
        for size in SIZES:
            text = script(shape, size)
            runs = [run(program, text) for _ in range(RUNS)]
            taken.append(min(seconds for seconds, _ in runs))
            height = max(memory for _, memory in runs) / len(text)
        growth = taken[1] / max(taken[0], 1e-6)
        speed = len(text) / 1e6 / max(taken[1], 1e-6)
        print(f"{shape:<24} {taken[0]:>8.4f} {taken[1]:>8.4f} {growth:>7.2f} {speed:>12.1f} {height:>13.1f}")


if __name__ == "__main__":
    main()
