#!/usr/bin/env python3
"""Asks random statements of the program and of SQLite, over random tables, and compares the rows.

usage: bench/sqlite.py N SEED [PROGRAM]      (N statements; PROGRAM is ./vx where none is named; first build it: cd crates/vx && rt run)

A table is kept as a block file by `vx write`, and as a table of SQLite that is typed by CHECKs; then some fifty statements are asked over it, of the file or
of the standard input, in some part of a range of blocks alone. The statements are those of docs/SQL.md, written by random_statements.py, which says how
SQLite is asked in its own words. What docs/SQL.md says is an error here and none of SQLite is told by SQLite's own numbers: where no sum and no cast of the
statement leaves its type at any row, the program has to end with 0 and write SQLite's rows; where one does it may also end with 5, and what it wrote are then
first rows of SQLite's, or none by ORDER BY. Where a sum leaves SQLite's numbers the statement is left out, and counted. It prints each statement that
differs with its table, and ends with 1 where one does.
"""
import json
import os
import random
import sqlite3
import subprocess
import sys
import tempfile

from random_statements import Writer
from random_tables import Table

HERE = os.path.dirname(os.path.dirname(os.path.abspath(__file__)))
STATEMENTS = 50
SOUND, MAY_LEAVE, PAST_SQLITE = range(3)


def opened(table):
    """A database that holds the table."""
    base = sqlite3.connect(":memory:")
    base.execute("PRAGMA case_sensitive_like = ON")
    table.keep_in(base)
    return base


def leaving(base, statement):
    """Whether a sum or a cast leaves its type at some row, or SQLite's numbers."""
    if not statement.parts:
        return SOUND
    form = "max(CASE WHEN typeof(%s) = 'real' THEN 2 WHEN (%s) NOT BETWEEN %d AND %d THEN 1 ELSE 0 END)"
    asked = ", ".join(form % (part, part, least, min(greatest, 2**63 - 1)) for part, least, greatest in statement.parts)
    found = base.execute("SELECT %s FROM %s" % (asked, statement.source)).fetchone()
    return max(way or SOUND for way in found)


def lines_of(base, statement):
    """The rows that SQLite gives, as the program writes them."""
    rows = [statement.row(cells) for cells in base.execute(statement.theirs)]
    return [json.dumps(row, ensure_ascii=False, separators=(",", ":")) for row in rows]


def run(program, folder, words, given):
    """The exit status, the lines of the output, and what is told on standard error."""
    ran = subprocess.run([program] + words, cwd=folder, input=given, stdout=subprocess.PIPE, stderr=subprocess.PIPE)
    return ran.returncode, ran.stdout.decode().split("\n")[:-1], ran.stderr.decode()


def agrees(status, lines, wanted, way, is_ordered):
    if status == 0:
        return lines == wanted
    return status == 5 and way == MAY_LEAVE and (not lines if is_ordered else lines == wanted[: len(lines)])


class Tally:
    """What came of the statements so far."""

    def __init__(self):
        self.asked = self.rows = self.broken = self.left_out = self.differing = 0

    def told(self):
        return "%d statements, %d rows, %d broken, %d left out, %d differ" % (
            self.asked, self.rows, self.broken, self.left_out, self.differing)


def try_statement(program, folder, base, table, statement, tally):
    """Asks a statement of both."""
    tally.asked += 1
    way = leaving(base, statement)
    if way == PAST_SQLITE:
        tally.left_out += 1
        return
    wanted = lines_of(base, statement)
    given = table.json().encode() if statement.of_input else b""
    status, lines, told = run(program, folder, ["sql", statement.ours] + statement.words, given)
    tally.rows += len(lines)
    tally.broken += status == 5
    if not agrees(status, lines, wanted, way, "ORDER BY \"t\"" in statement.theirs):
        tally.differing += 1
        print("differs: %s %s\n  table: %s\n  SQLite: %s\n  its rows: %s\n  the program's: %s\n  exit status %d %s" % (
            statement.ours, statement.words, table.json(), statement.theirs, wanted, lines, status, told))


def try_table(program, folder, seed, count, tally):
    """Keeps a table, and asks statements over it."""
    chosen = random.Random(seed)
    table = Table(chosen)
    words = ["write", "items.vxb", "--force"]
    given = table.json().encode()
    length = chosen.randint(1, 20)
    if chosen.random() < 0.3:
        words += ["--rows", str(length)]
        table.cut(length)
    status, _, told = run(program, folder, words, given)
    if status != 0:
        tally.differing += 1
        print("not kept: %s\n  exit status %d %s" % (table.json(), status, told))
        return
    base = opened(table)
    writer = Writer(chosen, table)
    for _ in range(count):
        try_statement(program, folder, base, table, writer.statement(), tally)
    base.close()


def main():
    count, seed = int(sys.argv[1]), sys.argv[2]
    program = os.path.abspath(sys.argv[3]) if len(sys.argv) > 3 else os.path.join(HERE, "vx")
    tally = Tally()
    with tempfile.TemporaryDirectory() as folder:
        for start in range(0, count, STATEMENTS):
            try_table(program, folder, "%s %d" % (seed, start), min(STATEMENTS, count - start), tally)
    print("SQLite %s: %s" % (sqlite3.sqlite_version, tally.told()))
    sys.exit(tally.differing > 0)


if __name__ == "__main__":
    main()
