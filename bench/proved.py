"""Proves and builds a program over the crates as they stand, in a folder that its caller throws away."""

import pathlib
import shutil
import subprocess

TOP = pathlib.Path(__file__).resolve().parent.parent
RUNS = 5


def built_in(folder, crates, files):
    """The program that `rt run` builds: the last of the crates, whose files these are by their paths in it."""
    top = pathlib.Path(folder)
    for crate in list(crates)[:-1]:
        for part in ("src", "specs", "proofs"):
            shutil.copytree(TOP / "crates" / crate / part, top / "crates" / crate / part)
    name = list(crates)[-1]
    program = top / "crates" / name
    for path, text in {"specs/Lib.antt": "", "proofs/Lib.antt": "", **files}.items():
        (program / path).parent.mkdir(parents=True, exist_ok=True)
        (program / path).write_text(text.lstrip())
    (top / "crates.txt").write_text("".join(f"{crate}: {below}".rstrip() + "\n" for crate, below in crates.items()))
    ended = subprocess.run(["rt", "run"], cwd=program, capture_output=True, text=True)
    if ended.returncode != 0:
        raise SystemExit(ended.stdout + ended.stderr)
    return program / "out" / name


def figures(program):
    """The numbers that the program prints, at each of some runs."""
    for _ in range(RUNS):
        ended = subprocess.run([program], capture_output=True, text=True, check=True)
        yield [int(word) for word in ended.stdout.split()]
