#!/usr/bin/env python3
"""Writes the table of runs in crates/vx_shell_cases/data, and the block file that lies there. The answers are written out by hand, by docs/SHELL.md; only
the bytes of block files are made, by crates/vx_cases/tables/block_files.py.

usage: crates/vx_shell_cases/tables/runs.py
"""
import json
import os
import sys

HERE = os.path.dirname(os.path.dirname(os.path.abspath(__file__)))
sys.path.insert(0, os.path.join(os.path.dirname(HERE), "vx_cases", "tables"))

from block_files import block_file  # noqa: E402
from wire import ROOT, TRUE, request  # noqa: E402

DATA = os.path.join(HERE, "data")

# ---- tables

ITEMS = block_file(
    request(
        [("name", "utf8"), ("price", "i32"), ("note", "utf8?")],
        [
            [["ink", "pen"], [3, 12], [None, "blue"]],
            [["mug", "cap"], [9, 8], ["tall", None]],
            [["bag", "hat"], [40, 25], [None, None]],
        ],
        TRUE,
        ROOT,
        [(["price"], "min", [3, 8, 25]), (["price"], "max", [12, 9, 40])],
    )
)
# the last value of the last column of the last block is neither null nor a text
SPOILT = ITEMS[:-1] + b"\2"

# the files of a folder, of one form
PRICED = [("name", "utf8"), ("price", "i32")]
FIRST = block_file(
    request(PRICED, [[["ink", "pen"], [3, 12]], [["mug"], [9]]], TRUE, ROOT, [(["price"], "min", [3, 9]), (["price"], "max", [12, 9])])
)
SECOND = block_file(request(PRICED, [[["bag", "hat"], [40, 25]]], TRUE, ROOT, [(["price"], "min", [25]), (["price"], "max", [40])]))
# its statistics are of other kinds
WITHOUT_MIN = block_file(request(PRICED, [[["bag", "hat"], [40, 25]]], TRUE, ROOT, [(["price"], "max", [40])]))


def table(columns, blocks, **more):
    columns = [{"name": name, "type": dtype} for name, dtype in columns]
    blocks = [{"rows": len(block[0]), "values": block} for block in blocks]
    return json.dumps({"columns": columns, "blocks": blocks, **more})


GAPS = table([("x", "i64?")], [[[1, None]], [[None]], [[3]]])
SMALL = table([("n", "i8")], [[[1, 2]], [[127]], [[3]]])
SIGNED = table([("n", "i8")], [[[5]], [[-1, 6]]])
# its statistics are honest
HONEST = table([("n", "i8")], [[[1]], [[9]]], stats=[{"path": ["n"], "stat": "max", "values": [1, 9]}])
# its statistics lie of the second block
LYING = table([("n", "i8")], [[[1]], [[9]]], stats=[{"path": ["n"], "stat": "max", "values": [1, 2]}])

# ---- lines on standard error

USAGE = "error: usage: sql STATEMENT [--stats] [--blocks A..B]\n"


def counts(skipped, blocks, read, columns, rows, seconds="0.000"):
    """The line of what was counted. The clock of a run goes on by its ticks with each reading, so that it stands still where it has none."""
    return "blocks skipped %d of %d, columns read %d of %d, rows %d, seconds %s\n" % (skipped, blocks, read, columns, rows, seconds)


# ---- rows

ROWS = []


def run(name, statement, *options, status=0, output="", errors="", **more):
    ROWS.append({"name": name, "words": ["sql", statement, *options], **more, "status": status, "output": output, "errors": errors})


def words(name, *given, status, errors):
    ROWS.append({"name": name, "words": list(given), "status": status, "output": "", "errors": errors})


def held(given, path="items.vxb"):
    return [{"path": path, "bytes": given.hex()}]


def folder(**files):
    """The files of the folder `f`, whose names end in `.vxb`, the last one first, with things beside them that are no files of it."""
    return [
        {"path": "f/notes.txt", "bytes": b"no block file".hex()},
        *({"path": "f/" + name + ".vxb", "bytes": given.hex()} for name, given in reversed(files.items())),
        {"path": "f/g/a.vxb", "bytes": b"no block file".hex()},
        {"path": "f.vxb", "bytes": b"no block file".hex()},
    ]


TWO = folder(a=FIRST, b=SECOND)


def lines(*rows):
    return "".join(row + "\n" for row in rows)


run("the first by a key", "SELECT name, price FROM 'items.vxb' WHERE price > 10 ORDER BY price DESC LIMIT 10", "--stats", files=held(ITEMS),
    output=lines('{"name":"bag","price":40}', '{"name":"hat","price":25}', '{"name":"pen","price":12}'), errors=counts(1, 3, 2, 3, 3))
run("a table of the standard input", "SELECT * FROM stdin WHERE x IS NOT NULL", input=GAPS, output=lines('{"x":1}', '{"x":3}'))
run("a limit skips what is behind it", "SELECT name FROM items WHERE price > 0 LIMIT 3", "--stats", files=held(ITEMS),
    output=lines('{"name":"ink"}', '{"name":"pen"}', '{"name":"mug"}'), errors=counts(1, 3, 2, 3, 3))
run("a block alone", "SELECT name FROM items", "--blocks", "1..2", "--stats", files=held(ITEMS),
    output=lines('{"name":"mug"}', '{"name":"cap"}'), errors=counts(0, 1, 1, 3, 2))
run("the first by a key of some blocks", "SELECT name FROM items ORDER BY price LIMIT 2", "--stats", "--blocks", "1..3", files=held(ITEMS),
    output=lines('{"name":"cap"}', '{"name":"mug"}'), errors=counts(1, 2, 2, 3, 2))
run("the rows before an overflow stand", "SELECT n + 1 AS m FROM stdin", "--stats", input=SMALL, status=5, output=lines('{"m":2}', '{"m":3}'),
    errors="error: a sum or a difference has no value of its type\n")
run("a limit stops before an overflow", "SELECT n + 1 AS m FROM stdin LIMIT 2", input=SMALL, output=lines('{"m":2}', '{"m":3}'))
run("a cast without a value", "SELECT CAST(n AS u8) AS u FROM stdin", input=SIGNED, status=5, output=lines('{"u":5}'),
    errors="error: a cast has no value of its type\n")
run("nothing is written of an order that breaks", "SELECT CAST(n AS u8) AS u FROM stdin ORDER BY n LIMIT 3", input=SIGNED, status=5,
    errors="error: a cast has no value of its type\n")
run("the rows before a damaged column stand", "SELECT note FROM items", files=held(SPOILT), status=3,
    output=lines('{"note":null}', '{"note":"blue"}', '{"note":"tall"}', '{"note":null}'), errors="error: a column of a block file is damaged\n")
run("a damaged column that isn't read", "SELECT price FROM items WHERE price > 30", "--stats", files=held(SPOILT), output=lines('{"price":40}'),
    errors=counts(2, 3, 1, 3, 1))
run("statistics that lie lose rows", "SELECT n FROM stdin WHERE n > 5", "--stats", input=LYING, errors=counts(2, 2, 0, 1, 0))
run("no row is asked", "SELECT name FROM items LIMIT 0", "--stats", files=held(ITEMS), errors=counts(3, 3, 0, 3, 0))
run("no block is asked", "SELECT name FROM items", "--blocks", "2..2", "--stats", files=held(ITEMS), errors=counts(0, 0, 0, 3, 0))
run("blocks past the end", "SELECT name FROM items", "--blocks", "2..4", files=held(ITEMS), status=2,
    errors="error: --blocks 2..4: the table has 3 blocks\n")
run("an order without a limit", "SELECT name FROM items ORDER BY price", files=held(ITEMS), status=4, errors="error: ORDER BY needs a LIMIT\n")
run("too many by a key", "SELECT name FROM items ORDER BY price LIMIT 1048577", files=held(ITEMS), status=4,
    errors="error: LIMIT 1048577: behind ORDER BY it is 1048576 at most\n")
run("no such path", "SELECT * FROM gone", files=held(ITEMS), status=6, errors="error: gone.vxb can't be opened\n")
run("a path before the columns", "SELECT gone FROM './gone'", files=held(ITEMS), status=6, errors="error: ./gone can't be opened\n")
run("a statement before the path", "SELECT DISTINCT * FROM gone", files=held(ITEMS), status=4, errors="error: DISTINCT is not taken\n")
run("no such column", "SELECT cost FROM items", files=held(ITEMS), status=4, errors="error: SELECT: no column cost; the columns are name, price, note\n")
run("a statement that can't be read", "SELECT name FROM items WHEER price > 10", files=held(ITEMS), status=4,
    errors="error: at byte 29: \"price\" can't be read here\n")
run("two kinds", "SELECT name FROM items WHERE price = 'abc'", files=held(ITEMS), status=4, errors="error: WHERE: price is i32, 'abc' is a text\n")
run("no block file", "SELECT * FROM items", files=held(b"no block file"), status=3, errors="error: no block file: BadMagic\n")
run("a file that is cut", "SELECT * FROM items", files=held(ITEMS[:-1]), status=3, errors="error: no block file: BadEnd\n")
run("no JSON", "SELECT * FROM stdin", input="{", status=3, errors="error: stdin is no table: BadJson\n")
run("a member too many", "SELECT * FROM stdin", input=table([], [], filter=""), status=3, errors="error: stdin is no table: BadRequest(Top)\n")
run("a cell of another type", "SELECT * FROM stdin", input=table([("n", "i8")], [[[128]]]), status=3,
    errors="error: stdin is no table: BadTable(WrongValue)\n")
run("the output can't be written", "SELECT * FROM stdin WHERE x IS NOT NULL", "--stats", input=GAPS, fails=2, status=7, output=lines('{"x":1}'))
run("a file on disk", "SELECT name FROM items WHERE price < 10", "--stats", disk=True,
    output=lines('{"name":"ink"}', '{"name":"mug"}', '{"name":"cap"}'), errors=counts(1, 3, 2, 3, 3))
run("statistics that are honest skip blocks", "SELECT n FROM stdin WHERE n > 5", "--stats", input=HONEST, output=lines('{"n":9}'), errors=counts(1, 2, 1, 1, 1))
run("null stands last by a key", "SELECT x FROM stdin ORDER BY x LIMIT 4", input=GAPS, output=lines('{"x":1}', '{"x":3}', '{"x":null}', '{"x":null}'))
run("also from the greatest on", "SELECT x FROM stdin ORDER BY x DESC LIMIT 3", input=GAPS, output=lines('{"x":3}', '{"x":1}', '{"x":null}'))
run("a part of a table", "SELECT * FROM stdin", "--blocks", "0..1", "--stats", input=GAPS, output=lines('{"x":1}', '{"x":null}'), errors=counts(0, 1, 1, 1, 2))
run("the part behind it", "SELECT * FROM stdin", "--blocks", "1..3", "--stats", input=GAPS, output=lines('{"x":null}', '{"x":3}'), errors=counts(0, 2, 1, 1, 2))
run("a table without blocks", "SELECT * FROM stdin", "--stats", input=table([("n", "i8")], []), errors=counts(0, 0, 0, 1, 0))
run("a name in quotes", "SELECT x FROM 'stdin' LIMIT 1", input=GAPS, output=lines('{"x":1}'))
run("a file of that name", "SELECT name FROM './stdin' LIMIT 1", files=held(ITEMS, "./stdin"), output=lines('{"name":"ink"}'))
run("a name with a dot", "SELECT name FROM 'items.old' LIMIT 1", files=held(ITEMS, "items.old"), output=lines('{"name":"ink"}'))
run("the standard input can't be read", "SELECT * FROM stdin", input=GAPS, unread=2, status=6, errors="error: a read failed\n")
run("a folder in place of a file", "SELECT * FROM './.'", disk=True, status=6, errors="error: a read failed\n")
run("no such file on disk", "SELECT name FROM 'none/items.vxb'", disk=True, status=6, errors="error: none/items.vxb can't be opened\n")
run("two files of a folder as one table", "SELECT * FROM 'f/'", "--stats", files=TWO,
    output=lines('{"name":"ink","price":3}', '{"name":"pen","price":12}', '{"name":"mug","price":9}', '{"name":"bag","price":40}', '{"name":"hat","price":25}'),
    errors=counts(0, 3, 2, 2, 5))
run("blocks of both are skipped", "SELECT name FROM 'f/' WHERE price > 10 AND price < 20", "--stats", files=TWO, output=lines('{"name":"pen"}'),
    errors=counts(2, 3, 2, 2, 1))
run("the first by a key of both", "SELECT name FROM 'f/' ORDER BY price DESC LIMIT 3", files=TWO,
    output=lines('{"name":"bag"}', '{"name":"hat"}', '{"name":"pen"}'))
run("a limit within the second", "SELECT name FROM 'f/' LIMIT 4", "--stats", files=TWO,
    output=lines('{"name":"ink"}', '{"name":"pen"}', '{"name":"mug"}', '{"name":"bag"}'), errors=counts(0, 3, 1, 2, 4))
run("a limit within the first", "SELECT name FROM 'f/' LIMIT 2", "--stats", files=TWO, output=lines('{"name":"ink"}', '{"name":"pen"}'),
    errors=counts(2, 3, 1, 2, 2))
run("blocks from the first on into the second", "SELECT name FROM 'f/'", "--blocks", "1..3", "--stats", files=TWO,
    output=lines('{"name":"mug"}', '{"name":"bag"}', '{"name":"hat"}'), errors=counts(0, 2, 1, 2, 3))
run("blocks past the end of the second", "SELECT name FROM 'f/'", "--blocks", "2..4", files=TWO, status=2,
    errors="error: --blocks 2..4: the table has 3 blocks\n")
run("capitals stand first among the names", "SELECT name FROM 'f/'", files=folder(B=SECOND, a=FIRST),
    output=lines('{"name":"bag"}', '{"name":"hat"}', '{"name":"ink"}', '{"name":"pen"}', '{"name":"mug"}'))
run("a folder within another one", "SELECT name FROM './f/g/' LIMIT 1", files=held(FIRST, "./f/g/a.vxb"), output=lines('{"name":"ink"}'))
run("no such column in a folder", "SELECT cost FROM 'f/'", files=TWO, status=4, errors="error: SELECT: no column cost; the columns are name, price\n")
run("no such folder", "SELECT * FROM 'none/'", files=TWO, status=6, errors="error: none/ can't be opened\n")
run("a folder without a block file", "SELECT * FROM 'f/'", files=folder(), status=3, errors="error: the folder has no block file\n")
run("a file of other columns", "SELECT name FROM 'f/'", files=folder(a=FIRST, b=ITEMS), status=3,
    errors="error: b.vxb hasn't the columns and statistics of the files before it\n")
run("a file of other statistics", "SELECT name FROM 'f/'", files=folder(a=FIRST, b=WITHOUT_MIN), status=3,
    errors="error: b.vxb hasn't the columns and statistics of the files before it\n")
run("a file of a folder that is no block file", "SELECT name FROM 'f/'", files=folder(a=FIRST, b=SECOND, c=b"no block file"), status=3,
    errors="error: c.vxb: no block file: it doesn't begin with the mark\n")
run("the first of two that are no files", "SELECT name FROM 'f/'", files=folder(a=FIRST, b=ITEMS, c=b"no block file"), status=3,
    errors="error: b.vxb hasn't the columns and statistics of the files before it\n")
run("the rows before damage in the second file stand", "SELECT note FROM 'f/'", files=folder(a=ITEMS, b=SPOILT), status=3,
    output=lines('{"note":null}', '{"note":"blue"}', '{"note":"tall"}', '{"note":null}', '{"note":null}', '{"note":null}', '{"note":null}',
        '{"note":"blue"}', '{"note":"tall"}', '{"note":null}'), errors="error: a column of a block file is damaged\n")
run("damage in the second file that isn't read", "SELECT price FROM 'f/' WHERE price > 30", "--stats", files=folder(a=ITEMS, b=SPOILT),
    output=lines('{"price":40}', '{"price":40}'), errors=counts(4, 6, 1, 3, 2))
run("the rows before an overflow in the second file stand", "SELECT price + 2147483610 AS p FROM 'f/'", files=TWO, status=5,
    output=lines('{"p":2147483613}', '{"p":2147483622}', '{"p":2147483619}'), errors="error: a sum or a difference has no value of its type\n")
run("a folder on disk", "SELECT name FROM './' WHERE price < 10", "--stats", disk=True,
    output=lines('{"name":"ink"}', '{"name":"mug"}', '{"name":"cap"}'), errors=counts(1, 3, 2, 3, 3))
run("no such folder on disk", "SELECT name FROM 'none/'", disk=True, status=6, errors="error: none/ can't be opened\n")
run("milliseconds of a clock", "SELECT x FROM stdin LIMIT 1", "--stats", input=GAPS, ticks=4, output=lines('{"x":1}'),
    errors=counts(2, 3, 1, 1, 1, "0.004"))
run("seconds of a clock", "SELECT x FROM stdin LIMIT 1", "--stats", input=GAPS, ticks=12345, output=lines('{"x":1}'),
    errors=counts(2, 3, 1, 1, 1, "12.345"))
words("no statement", "sql", status=2, errors=USAGE)
words("another word", "select", "SELECT * FROM stdin", status=2, errors=USAGE)
words("an option twice", "sql", "SELECT * FROM stdin", "--stats", "--stats", status=2, errors=USAGE)
words("a range that ends before it begins", "sql", "SELECT * FROM stdin", "--blocks", "3..2", status=2, errors=USAGE)
words("a number with a 0 before it", "sql", "SELECT * FROM stdin", "--blocks", "00..2", status=2, errors=USAGE)
words("a number of 2^64", "sql", "SELECT * FROM stdin", "--blocks", "0..18446744073709551616", status=2, errors=USAGE)
words("an option that isn't one", "sql", "SELECT * FROM stdin", "--force", status=2, errors=USAGE)
words("a range with a dot too many", "sql", "SELECT * FROM stdin", "--blocks", "0...2", status=2, errors=USAGE)


def main():
    with open(os.path.join(DATA, "items.vxb"), "wb") as out:
        out.write(ITEMS)
    with open(os.path.join(DATA, "runs.json"), "w") as out:
        out.write("[\n" + ",\n".join(json.dumps(row) for row in ROWS) + "\n]\n")


main()
