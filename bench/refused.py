#!/usr/bin/env python3
"""Refuses memory in turn to `keytab memory` on one script that uses every statement it answers.

Each time that the program asks for memory, or for more of it, is a growth. The script is run once with none refused,
which counts the growths, and then once for each of them, with that one alone refused. What a run must do is proved of
the program: it ends with status 7, and what it told is a front of the replies; or it did without that memory, and then
its status and its replies are those of the whole run. Prints how many runs ended with which status, how many of them
told all replies, a front or something else, how many different fronts there are, and how many runs gave another line on
standard error than their status has. A run that broke the contract is listed by its growth, and the exit status is then 1.

Wants `cc` and the GNU C library: the refusals are made by a few lines of C that are loaded before that library.

With a path as its argument it runs that program in place of the one that `keytab` at the top builds.
"""

import collections
import os
import pathlib
import subprocess
import sys
import tempfile

from shapes import chosen_program

OUT_OF_MEMORY = 7
LINES = {0: b"", 1: b"", OUT_OF_MEMORY: b"keytab: out of memory\n"}

# Refuses the growth of the number in REFUSED, and leaves the number of all in the file that GROWTHS names.
REFUSING = r"""
#include <stdio.h>
#include <stdlib.h>

extern void *__libc_malloc(size_t size);
extern void *__libc_realloc(void *old, size_t size);

static unsigned long growths, refused;
static int counting;

__attribute__((constructor)) static void begin(void) {
    refused = strtoul(getenv("REFUSED"), NULL, 10);
    counting = 1;
}

__attribute__((destructor)) static void end(void) {
    counting = 0;
    FILE *file = fopen(getenv("GROWTHS"), "w");
    if (file != NULL) {
        fprintf(file, "%lu", growths);
        fclose(file);
    }
}

static int is_refused(void) {
    return counting && ++growths == refused;
}

void *malloc(size_t size) {
    return is_refused() ? NULL : __libc_malloc(size);
}

void *realloc(void *old, size_t size) {
    return is_refused() ? NULL : __libc_realloc(old, size);
}
"""

SCRIPT = b"""-- Tables with every kind, NOT NULL and each sort of key, beside their columns and behind them.
CREATE TABLE people (id INTEGER PRIMARY KEY, name VARCHAR(20) NOT NULL, born INT, mail TEXT UNIQUE,
    CERTAIN KEY (name, born));
CREATE TABLE places (at BIGINT, name TEXT, UNIQUE (name), POSSIBLE KEY (at, name), PRIMARY KEY (at));
CREATE TABLE loose (a INT, b TEXT);
CREATE TABLE one (a INT, CERTAIN KEY ());
CREATE TABLE people (id INT);
CREATE TABLE bad (a INT, UNIQUE (b));
CREATE TABLE bad (a INT, a TEXT);
CREATE TABLE abcdefghijklmnopqrstuvwxyz_abcd (a INT);
SHOW CREATE TABLE people;
SHOW CREATE TABLE nobody;

INSERT INTO people VALUES (1, 'Ann Lee', 1980, 'ann@a.org'), (2, 'Bo Rey', NULL, NULL), (3, 'Cy O''Hara', -5, NULL);
INSERT INTO people (name, id) VALUES ('Di Fox', 4);
INSERT INTO people (mail, id, name, born) VALUES (NULL, 5, 'Ed Orr', 1970), ('flo@f.org', 6, 'Flo Ek', NULL);
INSERT INTO places VALUES (9223372036854775807, 'Bern'), (-9223372036854775808, NULL);
INSERT INTO loose VALUES (NULL, NULL), (1, ''), (1, 'x'), (NULL, NULL);
INSERT INTO one VALUES (1);
INSERT INTO one VALUES (2);
INSERT INTO people VALUES (7, 'Bo Rey', 1968, NULL);
INSERT INTO people VALUES (8, 'Gil Moe', 1, 'ann@a.org');
INSERT INTO nobody VALUES (1);
INSERT INTO people (id, nick) VALUES (1, 'x');
INSERT INTO people (id, id) VALUES (1, 1);
INSERT INTO people VALUES (1);
INSERT INTO people (id, name) VALUES ('x', 'y');
INSERT INTO loose VALUES (9223372036854775808, '');
INSERT INTO people (id, name) VALUES (9, 'a name of more than twenty bytes');
INSERT INTO people (id) VALUES (9);

UPDATE people SET born = 1968, mail = 'bo@b.org' WHERE name = 'Bo Rey' AND born IS NULL;
UPDATE loose SET a = 2;
UPDATE people SET name = 'Ann Lee', born = NULL WHERE id = 4;
UPDATE people SET id = NULL;
UPDATE people SET nick = 'x';
UPDATE people SET born = 1, born = 2;
UPDATE people SET born = 'x' WHERE id = 1;
DELETE FROM loose WHERE NOT (a <> 2 OR b >= 'x') OR (b IS NULL);
DELETE FROM loose WHERE c = 1;
DELETE FROM loose;

SELECT * FROM people;
SELECT name, id FROM people WHERE (born < 1975 OR born IS NULL) AND NOT (name = 'x') AND id <= born
    ORDER BY born DESC, name;
SELECT * FROM places ORDER BY at;
SELECT COUNT(*) FROM people WHERE mail IS NOT NULL AND id > 0 AND name != 'Bo Rey';
SELECT COUNT(*) FROM loose;
SELECT nick FROM people;
SELECT * FROM people WHERE id = 'x';
SELECT * FROM people ORDER BY nick;
SELECT COUNT(*) FROM nobody;

IMPLIES people CERTAIN KEY (id, mail);
IMPLIES people POSSIBLE KEY (id);
IMPLIES people CERTAIN KEY (mail);
IMPLIES people POSSIBLE KEY (born);
IMPLIES people CERTAIN KEY (nick);
IMPLIES people CERTAIN KEY (id, id);
IMPLIES nobody CERTAIN KEY (id);
COVER OF people;
COVER OF places;
COVER OF nobody;

DROP TABLE loose;
DROP TABLE loose;
BEGIN;
what is this;
SELECT $;
INSERT INTO one VALUES ('not closed
"""

# How a run ended: its status, the replies, the line on standard error and the number of growths.
Ended = collections.namedtuple("Ended", "status told line growths")


def made_in(folder):
    """The library that refuses, compiled into the folder."""
    library = folder / "refusing.so"
    words = ["cc", "-O1", "-shared", "-fPIC", "-x", "c", "-o", library, "-"]
    subprocess.run(words, input=REFUSING.encode(), check=True)
    return library


def run(program, library, refused):
    """The run in which the growth of this number is refused, counted from 1; with 0, none is."""
    growths = library.with_name("growths")
    names = {**os.environ, "LD_PRELOAD": str(library), "REFUSED": str(refused), "GROWTHS": str(growths)}
    done = subprocess.run([program, "memory"], input=SCRIPT, capture_output=True, env=names)
    return Ended(done.returncode, done.stdout, done.stderr, int(growths.read_text()))


def amount(ended, whole):
    """How much of the replies of the whole run this one told."""
    if ended.told == whole.told:
        return "all"
    return "a front" if whole.told.startswith(ended.told) else "something else"


def is_kept(ended, whole):
    """Whether the run ended as the contract of the program says."""
    if ended.status == OUT_OF_MEMORY:
        return whole.told.startswith(ended.told)
    return (ended.status, ended.told) == (whole.status, whole.told)


def main():
    program = chosen_program()
    with tempfile.TemporaryDirectory() as folder:
        library = made_in(pathlib.Path(folder))
        whole = run(program, library, 0)
        runs = [run(program, library, growth) for growth in range(1, whole.growths + 1)]
    lines = whole.told.count(b"\n")
    print(f"{whole.growths} growths; with none refused: status {whole.status}, {lines} lines told")
    counts = collections.Counter((ended.status, amount(ended, whole)) for ended in runs)
    print(f"{'status':>6} {'told':<14} {'runs':>6}")
    for (status, told), count in sorted(counts.items()):
        print(f"{status:>6} {told:<14} {count:>6}")
    fronts = {ended.told for ended in runs if ended.status == OUT_OF_MEMORY}
    print(f"different fronts at status {OUT_OF_MEMORY}: {len(fronts)}")
    print(f"another line on standard error: {sum(ended.line != LINES.get(ended.status) for ended in runs)}")
    broken = [growth for growth, ended in enumerate(runs, 1) if not is_kept(ended, whole)]
    print(f"runs that broke the contract: {len(broken)}")
    if broken:
        sys.exit("growths: " + " ".join(str(growth) for growth in broken))


if __name__ == "__main__":
    main()
