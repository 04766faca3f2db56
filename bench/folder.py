#!/usr/bin/env python3
"""Asks a folder of block files of 10,000,000 rows, beside sqlite3 over the same table with an index on its key and without.

usage: bench/folder.py [FOLDER]      (first build the program: cd crates/vx && rt run; sqlite3 has to be there; all takes 1.5 GB in the folder)

The rows are those of folders.py, in ten files of 1,000,000; the key is the id. It prints for each statement the rows, the seconds and the peak memory of the
program, and the seconds of sqlite3 with the index and without (the least of three runs each, all written to a file in JSON, the files in the system's
cache). It ends where an answer isn't sqlite3's, row by row in the order that the statement gives or that of the ids, or where the program takes more than
64 MB.
"""
import json
import os
import sqlite3
import subprocess
import sys
import tempfile
import time

import folders

HERE = os.path.dirname(os.path.dirname(os.path.abspath(__file__)))
PROGRAM = os.path.join(HERE, "crates", "vx", "out", "vx")
FILES, ROWS = 10, 1_000_000
MOST_MEMORY = 64_000_000
STATEMENTS = [
    ("one row by its key", "SELECT * FROM {} WHERE id = 7654321"),
    ("a hundred rows by their keys", "SELECT id, price, city FROM {} WHERE id >= 5000000 AND id < 5000100"),
    ("one row in 100,000 of all", "SELECT id, amount FROM {} WHERE price = 5003 AND city = 'Oslo' AND small < 25"),
    ("no row of all", "SELECT id FROM {} WHERE price > 10006"),
    ("the first ten by another column", "SELECT id, amount FROM {} WHERE small = 77 ORDER BY amount DESC LIMIT 10"),
    ("the last ten by the key", "SELECT id, price FROM {} ORDER BY id DESC LIMIT 10"),
    ("the first ten", "SELECT id, city FROM {} LIMIT 10"),
    ("a million rows", "SELECT id, price FROM {} WHERE id < 1000000"),
]


def apart(work, *given):
    """Does work in a process of its own: a program begins with the memory of the process that starts it."""
    child = os.fork()
    if child == 0:
        status = 1
        try:
            work(*given)
            status = 0
        finally:
            os._exit(status)
    if os.waitpid(child, 0)[1] != 0:
        sys.exit("bench/folder.py: the tables aren't made")


def fill(path, with_index):
    """Makes sqlite3's table of the same rows."""
    base = sqlite3.connect(path)
    base.execute("PRAGMA journal_mode=OFF")
    base.execute("PRAGMA synchronous=OFF")
    base.execute("CREATE TABLE items (id INTEGER NOT NULL, price INTEGER NOT NULL, amount INTEGER NOT NULL, small INTEGER NOT NULL, sold INTEGER NOT NULL, city TEXT NOT NULL)")
    for file in range(FILES):
        for at in range(0, ROWS, folders.BLOCK):
            length, first = min(folders.BLOCK, ROWS - at), file * ROWS + at
            cells = folders.cells_of(first // folders.BLOCK % 16, length)
            base.executemany("INSERT INTO items VALUES (?, ?, ?, ?, ?, ?)", zip(range(first, first + length), *cells))
    if with_index:
        base.execute("CREATE INDEX key ON items (id)")
    base.commit()
    base.close()


def timed(words, answer):
    """The least seconds of three runs whose output goes to a file, and the most memory in bytes."""
    best, peak = 1e9, 0
    for _ in range(3):
        with open(answer, "wb") as out:
            begun = time.monotonic()
            child = subprocess.Popen(words, stdin=subprocess.DEVNULL, stdout=out)
            _, status, used = os.wait4(child.pid, 0)
            best, peak = min(best, time.monotonic() - begun), max(peak, used.ru_maxrss * 1024)
            child.returncode = os.waitstatus_to_exitcode(status)
        if child.returncode != 0:
            sys.exit("bench/folder.py: %s ended with %d" % (words[0], child.returncode))
    return best, peak


def plain(row):
    """A row with truths as sqlite3 writes them."""
    return {name: int(cell) if cell is True or cell is False else cell for name, cell in row.items()}


def compare(ours, theirs):
    """Ends where the rows of two files differ; sqlite3's are elements of a list, a line each."""
    with open(ours) as one, open(theirs) as other:
        mine = [plain(json.loads(line)) for line in one]
        told = other.read()
    if mine != (json.loads(told) if told else []):
        sys.exit("bench/folder.py: the rows of %s aren't those of %s" % (ours, theirs))
    print("%9d rows" % len(mine), end="", flush=True)


def main():
    folder = sys.argv[1] if len(sys.argv) > 1 else tempfile.gettempdir()
    with tempfile.TemporaryDirectory(dir=folder) as top:
        parts, plain_table, with_index = os.path.join(top, "parts", ""), os.path.join(top, "plain.db"), os.path.join(top, "index.db")
        apart(folders.make, parts, FILES, ROWS)
        apart(fill, plain_table, False)
        apart(fill, with_index, True)
        ours, theirs = os.path.join(top, "ours"), os.path.join(top, "theirs")
        most = 0
        print("%-34s %14s %8s %8s %8s %8s" % ("", "", "vx s", "MB", "index s", "plain s"))
        for name, statement in STATEMENTS:
            seconds, memory = timed([PROGRAM, "sql", statement.format("'%s'" % parts)], ours)
            beside = [timed(["sqlite3", "-json", table, statement.format("items")], theirs)[0] for table in (with_index, plain_table)]
            print("%-34s " % name, end="", flush=True)
            apart(compare, ours, theirs)
            print(" %8.3f %8.1f %8.3f %8.3f" % (seconds, memory / 1e6, *beside), flush=True)
            most = max(most, memory)
        if most > MOST_MEMORY:
            sys.exit("bench/folder.py: more than 64 MB")


if __name__ == "__main__":
    main()
