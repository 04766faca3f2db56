#!/usr/bin/env python3
"""Writes the table of runs in crates/vx_explaining_cases/data. The explanations are written out by hand, by docs/SHELL.md and docs/FORMATS.md; only the bytes
of block files are made, by crates/vx_cases/tables/block_files.py, over statistics that are written out too.

usage: crates/vx_explaining_cases/tables/runs.py
"""
import json
import os
import sys

HERE = os.path.dirname(os.path.dirname(os.path.abspath(__file__)))
sys.path.insert(0, os.path.join(os.path.dirname(HERE), "vx_cases", "tables"))

from block_files import block_file  # noqa: E402
from wire import ROOT, TRUE, request  # noqa: E402

# ---- tables

COLUMNS = [("name", "utf8"), ("price", "i32"), ("note", "utf8?")]
ITEM_BLOCKS = [
    [["ink", "pen"], [3, 12], [None, "blue"]],
    [["mug", "cap"], [9, 8], ["tall", None]],
    [["bag", "hat"], [40, 25], [None, None]],
]
LEAST, MOST = [3, 8, 25], [12, 9, 40]


def items(first, last):
    """The block file of some of the blocks."""
    stats = [(["price"], "min", LEAST[first:last]), (["price"], "max", MOST[first:last])]
    return block_file(request(COLUMNS, ITEM_BLOCKS[first:last], TRUE, ROOT, stats))


ITEMS = items(0, 3)


def spoilt(held):
    """The same, but for the last value of the last column of the last block, which is neither null nor a text: no block is read."""
    return held[:-1] + b"\2"


SPOILT = spoilt(ITEMS)
# the same blocks in two files, and a file of none
FIRST, SECOND, WITHOUT_BLOCKS = items(0, 2), items(2, 3), items(0, 0)
# it has no least price
WITHOUT_MIN = block_file(request(COLUMNS, ITEM_BLOCKS[2:], TRUE, ROOT, [(["price"], "max", MOST[2:])]))
# a name stands twice
TWICE = block_file(request([("x", "i32"), ("x", "i32")], [[[1], [1]]], TRUE, ROOT, []))
BARE = block_file(request([("x", "i32")], [[[1]]], TRUE, ROOT, []))
# a name with what ends a text in a document of marks, and a bound that does so too
MARKED = block_file(request([("a<&>\"b", "utf8")], [[["<x>"]]], TRUE, ROOT, [(["a<&>\"b"], "max", ["<x>"])]))


def table(columns, blocks, **more):
    columns = [{"name": name, "type": dtype} for name, dtype in columns]
    blocks = [{"rows": len(block[0]), "values": block} for block in blocks]
    return json.dumps({"columns": columns, "blocks": blocks, **more})


GAPS = table([("n", "i8?")], [[[7]], [[None]]], stats=[{"path": ["n"], "stat": "max", "values": [7, None]}])
# both statistics are called a_b_max, so none decides
DOUBLED = table(
    [("a", {"struct": [{"name": "b", "type": "i8"}], "nullable": False}), ("a_b", "i8")],
    [[[{"b": 1}], [1]]],
    stats=[{"path": ["a", "b"], "stat": "max", "values": [1]}, {"path": ["a_b"], "stat": "max", "values": [1]}],
)

# ---- explanations

DEAR = (
    "filter ($.price > 10i32)\nquery ($.price > 10i32)\npruning ($.price_max <= 10i32)\nstatistics \"price_max\"\n"
    "projection pack(name: $.name)\nquery pack(name: $.name)\ncolumns read 2 of 3\nblocks skipped 1 of 3\n"
    "block 0 read rows 2 \"price_max\" 12\nblock 1 skipped rows 2 \"price_max\" 9\nblock 2 read rows 2 \"price_max\" 40\n"
)
DEAR_JSON = (
    '{"filter":{"expression":"($.price > 10i32)","query":"($.price > 10i32)"},'
    '"projection":{"expression":"pack(name: $.name)","query":"pack(name: $.name)"},"pruning":"($.price_max <= 10i32)","statistics":["price_max"],'
    '"columns":{"read":["name","price"],"all":3},"blocks":{"all":3,"skipped":1},"each":['
    '{"block":0,"rows":2,"skipped":false,"bounds":{"price_max":12}},{"block":1,"rows":2,"skipped":true,"bounds":{"price_max":9}},'
    '{"block":2,"rows":2,"skipped":false,"bounds":{"price_max":40}}]}\n'
)
LEGEND = (
    '<rect x="8" y="8" width="22" height="16" fill="#b0b0b0"/><text x="38" y="21">block skipped</text>\n'
    '<rect x="8" y="28" width="22" height="16" fill="#1f6fb4"/><text x="38" y="41">read for the filter or the order</text>\n'
    '<rect x="8" y="48" width="22" height="16" fill="#e6931e"/><text x="38" y="61">read for the rows alone</text>\n'
    '<rect x="8" y="68" width="22" height="16" fill="#eeeeee"/><text x="38" y="81">not asked</text>\n'
)
DEAR_PICTURE = (
    '<svg xmlns="http://www.w3.org/2000/svg" width="712" height="244" font-family="monospace" font-size="12">\n'
    + LEGEND
    + '<text transform="translate(72,168) rotate(-45)">name</text>\n<text transform="translate(96,168) rotate(-45)">price</text>\n'
    + '<text transform="translate(120,168) rotate(-45)">note</text>\n'
    + '<g><title>block 0: read, rows 2</title><text x="8" y="189">0</text><rect x="72" y="176" width="22" height="16" fill="#e6931e"/>'
    + '<rect x="96" y="176" width="22" height="16" fill="#1f6fb4"/><rect x="120" y="176" width="22" height="16" fill="#eeeeee"/>'
    + '<text x="144" y="189"> &quot;price_max&quot; 12</text></g>\n'
    + '<g><title>block 1: skipped, rows 2</title><text x="8" y="209">1</text><rect x="72" y="196" width="22" height="16" fill="#b0b0b0"/>'
    + '<rect x="96" y="196" width="22" height="16" fill="#b0b0b0"/><rect x="120" y="196" width="22" height="16" fill="#eeeeee"/>'
    + '<text x="144" y="209"> &quot;price_max&quot; 9</text></g>\n'
    + '<g><title>block 2: read, rows 2</title><text x="8" y="229">2</text><rect x="72" y="216" width="22" height="16" fill="#e6931e"/>'
    + '<rect x="96" y="216" width="22" height="16" fill="#1f6fb4"/><rect x="120" y="216" width="22" height="16" fill="#eeeeee"/>'
    + '<text x="144" y="229"> &quot;price_max&quot; 40</text></g>\n</svg>\n'
)
MARKED_PICTURE = (
    '<svg xmlns="http://www.w3.org/2000/svg" width="664" height="204" font-family="monospace" font-size="12">\n'
    + LEGEND
    + '<text transform="translate(72,168) rotate(-45)">a&lt;&amp;&gt;&quot;b</text>\n'
    + '<g><title>block 0: read, rows 1</title><text x="8" y="189">0</text><rect x="72" y="176" width="22" height="16" fill="#1f6fb4"/>'
    + '<text x="96" y="189"> &quot;a&lt;&amp;&gt;\\&quot;b_max&quot; &quot;&lt;x&gt;&quot;</text></g>\n</svg>\n'
)
ALL = (
    "filter true\nquery true\npruning -\nstatistics -\nprojection $\nquery $\ncolumns read 3 of 3\nblocks skipped 0 of 3\n"
    "block 0 read rows 2\nblock 1 read rows 2\nblock 2 read rows 2\n"
)
ORDERED = (
    "filter ($.price > 10i32)\nquery ($.price > 10i32)\npruning ($.price_max <= 10i32)\nstatistics \"price_max\"\n"
    "projection pack(name: $.name)\nquery pack(name: $.name)\ncolumns read 3 of 3\nblocks skipped 1 of 3\n"
    "block 0 read rows 2 \"price_max\" 12\nblock 1 skipped rows 2 \"price_max\" 9\nblock 2 read rows 2 \"price_max\" 40\n"
)
GAPS_TEXT = (
    "filter ($.n > 9i8)\nquery ($.n > 9i8)\npruning ($.n_max <= 9i8)\nstatistics \"n_max\"\nprojection pack(n: $.n)\nquery pack(n: $.n)\n"
    "columns read 1 of 1\nblocks skipped 1 of 2\nblock 0 skipped rows 1 \"n_max\" 7\nblock 1 read rows 1 \"n_max\" unknown\n"
)
GAPS_JSON = (
    '{"filter":{"expression":"($.n > 9i8)","query":"($.n > 9i8)"},"projection":{"expression":"pack(n: $.n)","query":"pack(n: $.n)"},'
    '"pruning":"($.n_max <= 9i8)","statistics":["n_max"],"columns":{"read":["n"],"all":1},"blocks":{"all":2,"skipped":1},"each":['
    '{"block":0,"rows":1,"skipped":true,"bounds":{"n_max":7}},{"block":1,"rows":1,"skipped":false,"bounds":{"n_max":null}}]}\n'
)
DOUBLED_TEXT = (
    "filter ($.a_b > 5i8)\nquery ($.a_b > 5i8)\npruning -\nstatistics -\nprojection pack(a_b: $.a_b)\nquery pack(a_b: $.a_b)\n"
    "columns read 1 of 2\nblocks skipped 0 of 1\nblock 0 read rows 1\n"
)
BARE_JSON = (
    '{"filter":{"expression":"true","query":"true"},"projection":{"expression":"$","query":"$"},"pruning":null,"statistics":[],'
    '"columns":{"read":["x"],"all":1},"blocks":{"all":1,"skipped":0},"each":[{"block":0,"rows":1,"skipped":false,"bounds":{}}]}\n'
)

USAGE = "error: usage: explain sql STATEMENT [--json | --svg]\n"
UNREAD = "error: a read failed\n"
NO_MARK = "error: no block file: it doesn't begin with the mark\n"
NO_HEADER = "error: no block file: it has no header\n"
NO_END = "error: no block file: it doesn't end where its last column does\n"
NO_NAMES = "error: no block file: a name or a statistic stands twice in its header\n"

# ---- rows

ROWS = []
DEAR_WORDS = "SELECT name FROM items WHERE price > 10"


def row(name, words, status, output="", errors="", files=(("items.vxb", ITEMS),), **more):
    files = [{"path": path, "bytes": held.hex()} for path, held in files]
    ROWS.append({"name": name, "words": words, "files": files, "status": status, "output": output, "errors": errors, **more})


def asks(name, statement, *more_words, **more):
    row(name, ["explain", "sql", statement, *more_words], **more)


asks("a block that is skipped", DEAR_WORDS, status=0, output=DEAR)
asks("the same as JSON", DEAR_WORDS, "--json", status=0, output=DEAR_JSON)
asks("the same as a picture", DEAR_WORDS, "--svg", status=0, output=DEAR_PICTURE)
asks("no block is read", DEAR_WORDS, status=0, output=DEAR, files=[("items.vxb", SPOILT)])
asks("no condition and each column", "SELECT * FROM items", status=0, output=ALL)
asks("without statistics as JSON", "SELECT * FROM bare", "--json", status=0, output=BARE_JSON, files=[("bare.vxb", BARE)])
asks("the column of the order is read", DEAR_WORDS + " ORDER BY note LIMIT 2", status=0, output=ORDERED)
asks("a limit skips no block", "SELECT * FROM items LIMIT 0", status=0, output=ALL)
asks("names with marks", "SELECT * FROM marked WHERE \"a<&>\"\"b\" > '!'", "--svg", status=0, output=MARKED_PICTURE, files=[("marked.vxb", MARKED)])
asks("a bound that isn't known", "SELECT n FROM stdin WHERE n > 9", status=0, output=GAPS_TEXT, input=GAPS)
asks("a bound that isn't known as JSON", "SELECT n FROM stdin WHERE n > 9", "--json", status=0, output=GAPS_JSON, input=GAPS)
asks("two statistics of one joined name", "SELECT a_b FROM stdin WHERE a_b > 5", status=0, output=DOUBLED_TEXT, input=DOUBLED)
asks("a path", DEAR_WORDS.replace("items", "'d/items.old'"), status=0, output=DEAR, files=[("d/items.old", ITEMS)])

asks("no file of the path", DEAR_WORDS.replace("items", "nowhere"), status=6, errors="error: nowhere.vxb can't be opened\n")
asks("another mark", DEAR_WORDS, status=3, errors=NO_MARK, files=[("items.vxb", b"VXBLK002" + ITEMS[8:])])
asks("the mark alone", DEAR_WORDS, status=3, errors=NO_HEADER, files=[("items.vxb", b"VXBLK001")])
asks("a name that stands twice", DEAR_WORDS, status=3, errors=NO_NAMES, files=[("items.vxb", TWICE)])
asks("a byte too few", DEAR_WORDS, status=3, errors=NO_END, files=[("items.vxb", ITEMS[:-1])])
asks("the header isn't read", DEAR_WORDS, status=6, errors=UNREAD, torn="items.vxb")
asks("no table on the standard input", "SELECT * FROM stdin", status=3, errors="error: stdin is no table: BadJson\n", input="{")
asks("no blocks on the standard input", "SELECT * FROM stdin", status=3, errors="error: stdin is no table: BadRequest(Top)\n", input="{}")
asks(
    "a value of another type",
    "SELECT * FROM stdin",
    status=3,
    errors="error: stdin is no table: BadTable(WrongValue)\n",
    input=table([("n", "i8")], [[[200]]]),
)
asks("the standard input isn't read", "SELECT * FROM stdin", status=6, errors=UNREAD, input=GAPS, unread=2)
asks("no table is named", "SELECT 1 AS a", status=4, errors="error: FROM: no table\n")
asks("rows by a key need a limit", DEAR_WORDS + " ORDER BY note", status=4, errors="error: ORDER BY needs a LIMIT\n")
asks(
    "too many rows by a key",
    DEAR_WORDS + " ORDER BY note LIMIT 1048577",
    status=4,
    errors="error: LIMIT 1048577: behind ORDER BY it is 1048576 at most\n",
)
asks("the first write fails", DEAR_WORDS, status=7, write=1)
asks("what is told fails", DEAR_WORDS.replace("items", "nowhere"), status=6, errors="error: nowher", telling=2)

# ---- folders


def folder(**held):
    """The files of the folder `f`, whose names end in `.vxb`, the last one first, with things beside them that are no files of it."""
    files = [("f/" + name + ".vxb", given) for name, given in reversed(held.items())]
    return [("f/notes.txt", b"no block file"), *files, ("f/g/a.vxb", b"no block file"), ("f.vxb", b"no block file")]


TWO = folder(a=FIRST, b=SECOND)
FOLDER_WORDS = DEAR_WORDS.replace("items", "'f/'")


def unlike(name):
    return "error: %s hasn't the columns and statistics of the files before it\n" % name


asks("two files of a folder as one table", FOLDER_WORDS, status=0, output=DEAR, files=TWO)
asks("two files as JSON", FOLDER_WORDS, "--json", status=0, output=DEAR_JSON, files=TWO)
asks("two files as a picture", FOLDER_WORDS, "--svg", status=0, output=DEAR_PICTURE, files=TWO)
asks("no block of a folder is read", FOLDER_WORDS, status=0, output=DEAR, files=folder(a=spoilt(FIRST), b=spoilt(SECOND)))
asks("a folder without condition", "SELECT * FROM 'f/'", status=0, output=ALL, files=TWO)
asks("an order over a folder", FOLDER_WORDS + " ORDER BY note LIMIT 2", status=0, output=ORDERED, files=TWO)
asks("a file of a folder without blocks", FOLDER_WORDS, status=0, output=DEAR, files=folder(a=FIRST, b=WITHOUT_BLOCKS, c=SECOND))
asks("one file of a folder", FOLDER_WORDS, status=0, output=DEAR, files=folder(a=ITEMS))
asks("capitals stand first among the names", FOLDER_WORDS, status=0, output=DEAR, files=folder(B=FIRST, a=SECOND))
asks("a folder within another one", DEAR_WORDS.replace("items", "'./f/g/'"), status=0, output=DEAR, files=[("./f/g/a.vxb", ITEMS)])

asks("no such folder", DEAR_WORDS.replace("items", "'none/'"), status=6, errors="error: the folder can't be listed\n", files=TWO)
asks("a folder without a block file", FOLDER_WORDS, status=3, errors="error: the folder has no block file\n", files=folder())
asks("a file of other columns", FOLDER_WORDS, status=3, errors=unlike("b.vxb"), files=folder(a=FIRST, b=BARE, c=SECOND))
asks("a file of other statistics", FOLDER_WORDS, status=3, errors=unlike("c.vxb"), files=folder(a=FIRST, b=SECOND, c=WITHOUT_MIN))
for name, text, held in [
    ("another mark in a folder", "it doesn't begin with the mark", b"VXBLK002" + SECOND[8:]),
    ("the mark alone in a folder", "it has no header", b"VXBLK001"),
    ("a name that stands twice in a folder", "a name or a statistic stands twice in its header", TWICE),
    ("a byte too few in a folder", "it doesn't end where its last column does", SECOND[:-1]),
]:
    asks(name, FOLDER_WORDS, status=3, errors="error: b.vxb: no block file: %s\n" % text, files=folder(a=FIRST, b=held))
asks("a file of a folder that can't be opened", FOLDER_WORDS, status=6, errors="error: b.vxb can't be opened\n", files=TWO, closed="f/b.vxb")
asks("the first of two faults", FOLDER_WORDS, status=3, errors=unlike("b.vxb"), files=folder(a=FIRST, b=BARE, c=SECOND), closed="f/c.vxb")
asks("the header of a folder's file isn't read", FOLDER_WORDS, status=6, errors=UNREAD, files=TWO, torn="f/b.vxb")
asks(
    "no such column in a folder",
    "SELECT cost FROM 'f/'",
    status=4,
    errors="error: SELECT: no column cost; the columns are name, price, note\n",
    files=TWO,
)
asks("the first write over a folder fails", FOLDER_WORDS, status=7, write=1, files=TWO)

for name, words in [
    ("no statement", ["explain", "sql"]),
    ("another word", ["explain", "SQL", DEAR_WORDS]),
    ("another option", ["explain", "sql", DEAR_WORDS, "--xml"]),
    ("both options", ["explain", "sql", DEAR_WORDS, "--json", "--svg"]),
    ("an option before the statement", ["explain", "sql", "--json", DEAR_WORDS]),
    ("the form of requests", ["explain"]),
    ("no words", []),
]:
    row(name, words, 2, errors=USAGE)

with open(os.path.join(HERE, "data", "explanations.json"), "w", encoding="utf-8") as out:
    out.write("[\n" + ",\n".join(json.dumps(each) for each in ROWS) + "\n]\n")
with open(os.path.join(HERE, "stdout"), "w", encoding="utf-8") as out:
    out.write("%d runs agree\n" % len(ROWS))
