#!/usr/bin/env python3
"""Writes the table of runs in crates/vx_listing_cases/data. The lines are written out by hand, by docs/SHELL.md; only the bytes of block files are made,
by crates/vx_cases/tables/block_files.py, over statistics that are written out too.

usage: crates/vx_listing_cases/tables/runs.py
"""
import json
import os
import sys

HERE = os.path.dirname(os.path.dirname(os.path.abspath(__file__)))
sys.path.insert(0, os.path.join(os.path.dirname(HERE), "vx_cases", "tables"))

from block_files import block_file  # noqa: E402
from wire import ROOT, TRUE, number, request  # noqa: E402

# ---- files


def file(columns, blocks, stats):
    """A block file with these statistics: a path, a kind, and the value in each block."""
    asked = request(columns, [values for _, values in blocks], TRUE, ROOT, stats)
    for block, (rows, _) in zip(asked["blocks"], blocks):
        block["rows"] = rows
    return block_file(asked)


def front(bytes_of):
    """Where the columns of a file begin."""
    length, place = 0, 8
    for shift in range(0, 35, 7):
        length |= (bytes_of[place] & 127) << shift
        place += 1
        if bytes_of[place - 1] < 128:
            break
    return place + length


X = [("x", "i32")]
TWO = file(X, [(2, [[1, 12]]), (1, [[20]])], [(["x"], "min", [1, 20]), (["x"], "max", [12, 20]), (["x"], "null_count", [0, 0])])
BARE = file(X, [(2, [[1, 12]]), (1, [[20]])], [])
EMPTY = file(X, [], [(["x"], "min", [])])
COLUMNLESS = file([], [(2, []), (3, [])], [])
# in the second block no bound is known, in the third no number of nulls
GAPS = file(
    [("n", "i64?"), ("name", "utf8?")],
    [(1, [[-5], ["a\"b"]]), (1, [[None], [None]]), (0, [[], []])],
    [(["n"], "min", [-5, None, None]), (["name"], "max", ["a\"b", None, None]), (["n"], "null_count", [0, 1, None])],
)
NESTED = file(
    [("at", {"struct": [{"name": "y", "type": "u8"}, {"name": "on", "type": "bool?"}], "nullable": True}), ("tags", {"list": "i8", "nullable": False})],
    [(2, [[{"y": 3, "on": True}, None], [[1, 2], []]])],
    [(["at", "y"], "max", [3]), (["at", "on"], "min", [True]), (["at", "on"], "null_count", [1])],
)
TYPES = file(
    [("a", "bool"), ("b", "u8?"), ("c", "u16"), ("d", "u32"), ("e", "u64"), ("f", "i8"), ("g", "i16"), ("h", "i64"), ("i", "utf8")],
    [],
    [],
)
# the greatest and the least numbers of two types
BOUNDS = file([("u", "u64"), ("i", "i64")], [(1, [[2**64 - 1], [-(2**63)]])], [(["u"], "max", [2**64 - 1]), (["i"], "min", [-(2**63)])])
# a bound of a file may lie: it is told as it stands
LYING = file(X, [(1, [[5]])], [(["x"], "max", [0])])
# names that need escapes
ESCAPED = file([("a\"\\\n\u0001é", "i32")], [(1, [[1]])], [(["a\"\\\n\u0001é"], "min", [1])])
DOUBLED = file([("x", "i32"), ("x", "i32")], [], [])
TWICE = file(X, [(1, [[5]])], [(["x"], "max", [5]), (["x"], "max", [5])])
# the range of the only column holds another byte than a value's first
SPOILT = file(X, [(1, [[5]])], [])[:-5] + b"\x07\x05\0\0\0"
# a file like TWO: it has the same columns, and statistics of the same paths and kinds
THREE = file(X, [(3, [[30, 31, 32]])], [(["x"], "min", [30]), (["x"], "max", [32]), (["x"], "null_count", [0])])
NONE = file(X, [], [(["x"], "min", []), (["x"], "max", []), (["x"], "null_count", [])])
# one that has another type, one that has the statistics in another order, and one that has fewer
WIDE = file([("x", "i64")], [(1, [[5]])], [(["x"], "min", [5]), (["x"], "max", [5]), (["x"], "null_count", [0])])
TURNED = file(X, [(1, [[5]])], [(["x"], "max", [5]), (["x"], "min", [5]), (["x"], "null_count", [0])])
FEWER = file(X, [(1, [[5]])], [(["x"], "min", [5]), (["x"], "max", [5])])
MANY = file(X, [(1, [[n]]) for n in range(11)], [(["x"], "min", list(range(11)))])

# ---- lines

X_LINE = '{"columns":[{"name":"x","type":"i32"}]}\n'
TWO_LINES = (
    X_LINE
    + '{"block":0,"file":"t.vxb","rows":2,"stats":[{"path":["x"],"stat":"min","values":[1]},'
    + '{"path":["x"],"stat":"max","values":[12]},{"path":["x"],"stat":"null_count","values":[0]}]}\n'
    + '{"block":1,"file":"t.vxb","rows":1,"stats":[{"path":["x"],"stat":"min","values":[20]},'
    + '{"path":["x"],"stat":"max","values":[20]},{"path":["x"],"stat":"null_count","values":[0]}]}\n'
)
BARE_LINES = X_LINE + '{"block":0,"file":"t.vxb","rows":2,"stats":[]}\n{"block":1,"file":"t.vxb","rows":1,"stats":[]}\n'
COLUMNLESS_LINES = '{"columns":[]}\n{"block":0,"file":"t.vxb","rows":2,"stats":[]}\n{"block":1,"file":"t.vxb","rows":3,"stats":[]}\n'
GAPS_LINES = (
    '{"columns":[{"name":"n","type":"i64?"},{"name":"name","type":"utf8?"}]}\n'
    + '{"block":0,"file":"t.vxb","rows":1,"stats":[{"path":["n"],"stat":"min","values":[-5]},'
    + '{"path":["name"],"stat":"max","values":["a\\"b"]},{"path":["n"],"stat":"null_count","values":[0]}]}\n'
    + '{"block":1,"file":"t.vxb","rows":1,"stats":[{"path":["n"],"stat":"null_count","values":[1]}]}\n'
    + '{"block":2,"file":"t.vxb","rows":0,"stats":[]}\n'
)
NESTED_LINES = (
    '{"columns":[{"name":"at","type":{"nullable":true,"struct":[{"name":"y","type":"u8"},{"name":"on","type":"bool?"}]}},'
    + '{"name":"tags","type":{"list":"i8","nullable":false}}]}\n'
    + '{"block":0,"file":"t.vxb","rows":2,"stats":[{"path":["at","y"],"stat":"max","values":[3]},'
    + '{"path":["at","on"],"stat":"min","values":[true]},{"path":["at","on"],"stat":"null_count","values":[1]}]}\n'
)
TYPES_LINES = (
    '{"columns":[{"name":"a","type":"bool"},{"name":"b","type":"u8?"},{"name":"c","type":"u16"},{"name":"d","type":"u32"},{"name":"e","type":"u64"},'
    + '{"name":"f","type":"i8"},{"name":"g","type":"i16"},{"name":"h","type":"i64"},{"name":"i","type":"utf8"}]}\n'
)
BOUNDS_LINES = (
    '{"columns":[{"name":"u","type":"u64"},{"name":"i","type":"i64"}]}\n'
    + '{"block":0,"file":"t.vxb","rows":1,"stats":[{"path":["u"],"stat":"max","values":[18446744073709551615]},'
    + '{"path":["i"],"stat":"min","values":[-9223372036854775808]}]}\n'
)
LYING_LINES = X_LINE + '{"block":0,"file":"t.vxb","rows":1,"stats":[{"path":["x"],"stat":"max","values":[0]}]}\n'
ESCAPED_LINES = (
    '{"columns":[{"name":"a\\"\\\\\\n\\u0001é","type":"i32"}]}\n'
    + '{"block":0,"file":"t.vxb","rows":1,"stats":[{"path":["a\\"\\\\\\n\\u0001é"],"stat":"min","values":[1]}]}\n'
)
ONE_LINES = X_LINE + '{"block":0,"file":"t.vxb","rows":1,"stats":[]}\n'
MANY_LINES = X_LINE + "".join(
    '{"block":%d,"file":"t.vxb","rows":1,"stats":[{"path":["x"],"stat":"min","values":[%d]}]}\n' % (n, n) for n in range(11)
)

USAGE = "error: usage: blocks PATH, the path of a block file or of a folder, which ends in /\n"
# the lines of TWO and of THREE as files of a folder, where their blocks have these numbers
def two_in(path, first):
    return TWO_LINES[len(X_LINE) :].replace("t.vxb", path).replace('"block":1', '"block":%d' % (first + 1)).replace('"block":0', '"block":%d' % first)


def three_in(path, block):
    return (
        '{"block":%d,"file":"%s","rows":3,"stats":[{"path":["x"],"stat":"min","values":[30]},' % (block, path)
        + '{"path":["x"],"stat":"max","values":[32]},{"path":["x"],"stat":"null_count","values":[0]}]}\n'
    )


NOT_OPENED = "error: the path can't be opened\n"
UNREAD = "error: a read failed\n"
NOT_LISTED = "error: the folder can't be listed\n"
NO_FILE = "error: the folder has no block file\n"
NO_MARK = "error: no block file: it doesn't begin with the mark\n"
NO_HEADER = "error: no block file: it has no header\n"
NO_ZONES = "error: no block file: a name or a statistic stands twice in its header\n"
NO_END = "error: no block file: it doesn't end where its last column does\n"

# ---- rows

ROWS = []
HERE_IS = ["blocks", "t.vxb"]


def row(name, words, bytes_of, status, output="", errors="", path="t.vxb", **more):
    """A run over a file. Where nothing else is said its reads may ask for no byte of a column, but one alone."""
    files = [] if bytes_of is None else [{"path": path, "bytes": bytes_of.hex()}]
    ROWS.append({"name": name, "words": words, "files": files, "status": status, "output": output, "errors": errors, **more})


def listed(name, bytes_of, lines, words=HERE_IS, **more):
    row(name, words, bytes_of, 0, lines, front=front(bytes_of), **more)


listed("columns, blocks and statistics", TWO, TWO_LINES)
listed("without statistics", BARE, BARE_LINES)
listed("without blocks", EMPTY, X_LINE)
listed("without columns", COLUMNLESS, COLUMNLESS_LINES)
listed("statistics that aren't known, and an empty block", GAPS, GAPS_LINES)
listed("structs and lists", NESTED, NESTED_LINES)
listed("each plain type", TYPES, TYPES_LINES)
listed("the greatest numbers", BOUNDS, BOUNDS_LINES)
listed("a bound that lies", LYING, LYING_LINES)
listed("names with escapes", ESCAPED, ESCAPED_LINES)
listed("a damaged column isn't read", SPOILT, ONE_LINES)
listed("numbers of two digits", MANY, MANY_LINES)
listed("a name without an ending", BARE, BARE_LINES, words=["blocks", "t"])
listed("a path in a folder", BARE, BARE_LINES.replace("t.vxb", "d/t"), words=["blocks", "d/t"], path="d/t")
listed("another ending", BARE, BARE_LINES.replace("t.vxb", "t.old"), words=["blocks", "t.old"], path="t.old")
listed("a path with quotes", BARE, BARE_LINES.replace("t.vxb", 'a\\"b.vxb'), words=["blocks", 'a"b'], path='a"b.vxb')
listed("a table named as the standard input", BARE, BARE_LINES.replace("t.vxb", "stdin.vxb"), words=["blocks", "stdin"], path="stdin.vxb")

row("no file of the path", HERE_IS, None, 6, errors=NOT_OPENED)
row("the name as it stands is none of a file", ["blocks", "t"], BARE, 6, errors=NOT_OPENED, path="t")
row("the first read fails", HERE_IS, TWO, 6, errors=UNREAD, read=1)
row("a read of the header fails", HERE_IS, TWO, 6, errors=UNREAD, read=5)
row("a read fails before no mark is seen", HERE_IS, b"VXBLK002" + TWO[8:], 6, errors=UNREAD, read=2)
row("another mark", HERE_IS, b"VXBLK002" + TWO[8:], 3, errors=NO_MARK)
row("an empty file", HERE_IS, b"", 3, errors=NO_MARK)
row("the mark alone", HERE_IS, b"VXBLK001", 3, errors=NO_HEADER)
row("a header that is cut", HERE_IS, TWO[:40], 3, errors=NO_HEADER)
row("a header of another type", HERE_IS, b"VXBLK001" + number(4) + bytes([1, 0, 6, 0]), 3, errors=NO_HEADER)
row("two columns of one name", HERE_IS, DOUBLED, 3, errors=NO_ZONES)
row("a statistic twice", HERE_IS, TWICE, 3, errors=NO_ZONES)
row("a byte too few", HERE_IS, TWO[:-1], 3, errors=NO_END)
row("a byte too many", HERE_IS, TWO + b"\0", 3, errors=NO_END)
row("the first write fails", HERE_IS, TWO, 7, write=1)
row("a write fails in a block's line", HERE_IS, TWO, 7, TWO_LINES[: 13 * 3 + 1 + 13 * 2], write=7)
row("what is told fails", HERE_IS, None, 6, errors=NOT_OPENED[:13], telling=2)

# ---- folders


def folder(name, files, status, output="", errors="", words=("blocks", "d/"), **more):
    """A run over the block files of a folder. Where the lines are written the files' columns begin at one place, behind which nothing is read."""
    fronts = {front(bytes_of) for path, bytes_of in files if status in (0, 7) and path.endswith(".vxb")}
    watched = {"front": fronts.pop()} if len(fronts) == 1 else {}
    told = [{"path": path, "bytes": bytes_of.hex()} for path, bytes_of in files]
    ROWS.append({"name": name, "words": list(words), "files": told, "status": status, "output": output, "errors": errors, **watched, **more})


def pieces(lines):
    """What each call writes of lines: 13 bytes of a line, or what is left of it."""
    return [line[place : place + 13] for line in lines.splitlines(True) for place in range(0, len(line), 13)]


A, B, C = "d/a.vxb", "d/b.vxb", "d/c.vxb"
BOTH_LINES = X_LINE + two_in(A, 0) + three_in(B, 2)
BEFORE = len(pieces(X_LINE + two_in(A, 0))) + 2

folder("two files of a folder", [(A, TWO), (B, THREE)], 0, BOTH_LINES)
folder("the order of their names, and not in which they stand", [(B, THREE), (A, TWO)], 0, BOTH_LINES)
folder("the order of bytes: a great letter stands first", [(A, TWO), ("d/B.vxb", THREE)], 0, X_LINE + three_in("d/B.vxb", 0) + two_in(A, 1))
folder("three files, two of the same bytes", [(A, THREE), (B, TWO), (C, THREE)], 0, X_LINE + three_in(A, 0) + two_in(B, 1) + three_in(C, 3))
folder("one file of a folder", [(A, TWO)], 0, X_LINE + two_in(A, 0))
folder("a file without blocks before others", [(A, NONE), (B, TWO), (C, THREE)], 0, X_LINE + two_in(B, 0) + three_in(C, 2))
folder("a file without blocks behind others", [(A, TWO), (B, NONE)], 0, X_LINE + two_in(A, 0))
folder("no blocks at all", [(A, NONE), (B, NONE)], 0, X_LINE)
folder("files without statistics", [(A, BARE), (B, BARE)], 0, BARE_LINES.replace("t.vxb", A) + "".join(
    '{"block":%d,"file":"d/b.vxb","rows":%d,"stats":[]}\n' % (block, rows) for block, rows in [(2, 2), (3, 1)]
))
folder("a folder in a folder", [("d/e/a.vxb", TWO), ("d/e/b.vxb", THREE)], 0, X_LINE + two_in("d/e/a.vxb", 0) + three_in("d/e/b.vxb", 2), words=["blocks", "d/e/"])
folder("a name with quotes", [('d/a"b.vxb', TWO)], 0, X_LINE + two_in('d/a\\"b.vxb', 0))
folder("what isn't named as a block file doesn't count", [(A, TWO), ("d/b.vxb.part", b""), ("d/notes.txt", b"x"), ("d/vxb", b"")], 0, X_LINE + two_in(A, 0))
folder("nor does what stands in a folder of it", [(A, TWO), ("d/e/b.vxb", THREE)], 0, X_LINE + two_in(A, 0))
folder("nor what stands in another folder", [(A, TWO), ("e/b.vxb", WIDE), ("a.vxb", WIDE)], 0, X_LINE + two_in(A, 0))
folder("damaged columns aren't read", [(A, SPOILT), (B, SPOILT)], 0, ONE_LINES.replace("t.vxb", A) + '{"block":1,"file":"d/b.vxb","rows":1,"stats":[]}\n')

folder("nothing stands in the folder", [("a.vxb", TWO)], 6, errors=NOT_LISTED)
folder("the path of a file as a folder", [("d", TWO)], 6, errors=NOT_LISTED)
folder("no block file in the folder", [("d/notes.txt", b"x")], 3, errors=NO_FILE)
folder("a file that can't be opened", [(A, TWO), (B, THREE)], 6, errors="error: b.vxb can't be opened\n", closed=B)
folder("the first file can't be opened", [(A, TWO), (B, b"")], 6, errors="error: a.vxb can't be opened\n", closed=A)
folder("a read of a header fails there", [(A, TWO), (B, THREE)], 6, errors=UNREAD, read=1)
folder("an empty file in the folder", [(A, TWO), (B, b"")], 3, errors="error: b.vxb: no block file: it doesn't begin with the mark\n")
folder("a file without a header in the folder", [(A, b"VXBLK001"), (B, TWO)], 3, errors="error: a.vxb: no block file: it has no header\n")
folder("a file with a column twice in the folder", [(A, TWO), (B, DOUBLED)], 3, errors="error: b.vxb: no block file: a name or a statistic stands twice in its header\n")
folder("a file that is cut in the folder", [(A, TWO), (B, THREE[:-1])], 3, errors="error: b.vxb: no block file: it doesn't end where its last column does\n")
UNLIKE = " hasn't the columns and statistics of the files before it\n"
folder("a column of another type", [(A, TWO), (B, WIDE)], 3, errors="error: b.vxb" + UNLIKE)
folder("statistics in another order", [(A, TWO), (B, TURNED)], 3, errors="error: b.vxb" + UNLIKE)
folder("a statistic too few", [(A, TWO), (B, THREE), (C, FEWER)], 3, errors="error: c.vxb" + UNLIKE)
folder("the first fault is told", [(A, TWO), (B, WIDE), (C, b"")], 3, errors="error: b.vxb" + UNLIKE)
folder("a file's bytes are looked at before it is held to the others", [(A, TWO), (B, WIDE[:-1])], 3, errors="error: b.vxb: no block file: it doesn't end where its last column does\n")
folder("the first write fails for a folder", [(A, TWO), (B, THREE)], 7, write=1)
folder("a write fails in the second file's line", [(A, TWO), (B, THREE)], 7, "".join(pieces(BOTH_LINES)[:BEFORE]), write=BEFORE + 1)
folder("what is told of a folder fails", [(A, TWO), (B, WIDE)], 3, errors=("error: b.vxb" + UNLIKE)[:13], telling=2)
folder("a folder and more words", [(A, TWO)], 2, errors=USAGE, words=["blocks", "d/", "d/"])
folder("a folder without its mark is a file", [(A, TWO)], 6, errors=NOT_OPENED, words=["blocks", "d"])

for name, words in [
    ("no path", ["blocks"]),
    ("another word", ["block", "t.vxb"]),
    ("an option", ["blocks", "--json", "t.vxb"]),
    ("two paths", ["blocks", "t.vxb", "t.vxb"]),
    ("no words", []),
]:
    row(name, words, TWO, 2, errors=USAGE, read=1)

with open(os.path.join(HERE, "data", "listings.json"), "w", encoding="utf-8") as out:
    out.write("[\n" + ",\n".join(json.dumps(each) for each in ROWS) + "\n]\n")
with open(os.path.join(HERE, "stdout"), "w", encoding="utf-8") as out:
    out.write("%d runs agree\n" % len(ROWS))
