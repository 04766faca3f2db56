#!/usr/bin/env python3
"""Writes the table of runs in crates/vx_write_cases/data. The answers are written out by hand, by docs/SHELL.md, docs/CSV.md and docs/FORMATS.md; only the bytes of block files are made,
by crates/vx_cases/tables/block_files.py, over statistics that are written out too.

usage: crates/vx_write_cases/tables/runs.py
"""
import json
import os
import sys

HERE = os.path.dirname(os.path.dirname(os.path.abspath(__file__)))
sys.path.insert(0, os.path.join(os.path.dirname(HERE), "vx_cases", "tables"))

from block_files import block_file  # noqa: E402
from wire import ROOT, TRUE, request  # noqa: E402

# ---- tables


def told(columns, blocks, **more):
    """A table as JSON."""
    columns = [{"name": name, "type": dtype} for name, dtype in columns]
    blocks = [{"rows": rows, "values": values} for rows, values in blocks]
    return json.dumps({"columns": columns, "blocks": blocks, **more})


def file(columns, blocks, stats):
    """The digits of a block file, with these statistics: a path, and the least, the greatest and the number of nulls in each block."""
    kinds = [(path, kind, values) for path, *three in stats for kind, values in zip(["min", "max", "null_count"], three)]
    asked = request(columns, [values for _, values in blocks], TRUE, ROOT, kinds)
    for block, (rows, _) in zip(asked["blocks"], blocks):
        block["rows"] = rows
    return block_file(asked).hex()


X = [("x", "i32")]
PAIR = [("x", "i64?"), ("name", "utf8")]
NESTED = [("at", {"struct": [{"name": "y", "type": "u8"}, {"name": "on", "type": "bool?"}], "nullable": True}), ("tags", {"list": "i8", "nullable": False})]

TWO = told(X, [(2, [[1, 12]]), (1, [[20]])])
GAPS = told(PAIR, [(2, [[1, None], ["b", "a"]]), (0, [[], []]), (1, [[None], ["c"]])])
DEEP = told(NESTED, [(2, [[{"y": 3, "on": None}, None], [[1, 2], []]]), (1, [[{"y": 200, "on": True}], [[-5]]])])
# its statistics lie, and aren't kept
LYING = told(X, [(2, [[1, 12]]), (1, [[20]])], stats=[{"path": ["x"], "stat": "max", "values": [0, 0]}])
NONE = told(X, [])
BARE = told([], [(2, []), (3, [])])

TWO_FILE = file(X, [(2, [[1, 12]]), (1, [[20]])], [(["x"], [1, 20], [12, 20], [0, 0])])
ONE_FILE = file(X, [(3, [[1, 12, 20]])], [(["x"], [1], [20], [0])])
EACH_FILE = file(X, [(1, [[1]]), (1, [[12]]), (1, [[20]])], [(["x"], [1, 12, 20], [1, 12, 20], [0, 0, 0])])
GAPS_FILE = file(
    PAIR,
    [(2, [[1, None], ["b", "a"]]), (0, [[], []]), (1, [[None], ["c"]])],
    [(["x"], [1, None, None], [1, None, None], [1, 0, 1]), (["name"], ["a", None, "c"], ["b", None, "c"], [0, 0, 0])],
)
GAPS_FRONT = file(PAIR, [(2, [[1, None], ["b", "a"]]), (0, [[], []])], [(["x"], [1, None], [1, None], [1, 0]), (["name"], ["a", None], ["b", None], [0, 0])])
GAPS_BACK = file(PAIR, [(1, [[None], ["c"]])], [(["x"], [None], [None], [1]), (["name"], ["c"], ["c"], [0])])
TWO_FRONT = file(X, [(2, [[1, 12]])], [(["x"], [1], [12], [0])])
TWO_BACK = file(X, [(1, [[20]])], [(["x"], [20], [20], [0])])
GAPS_CUT = file(
    PAIR,
    [(2, [[1, None], ["b", "a"]]), (1, [[None], ["c"]])],
    [(["x"], [1, None], [1, None], [1, 1]), (["name"], ["a", "c"], ["b", "c"], [0, 0])],
)
DEEP_CUT = file(
    NESTED,
    [(3, [[{"y": 3, "on": None}, None, {"y": 200, "on": True}], [[1, 2], [], [-5]]])],
    [(["at", "y"], [3], [200], [1]), (["at", "on"], [True], [True], [2])],
)
NONE_FILE = file(X, [], [(["x"], [], [], [])])
BARE_FILE = file([], [(2, []), (3, [])], [])
BARE_CUT = file([], [(4, []), (1, [])], [])

# ---- lines on standard error

USAGE = "error: usage: write PATH [csv [--null TEXT] [--types TEXT]] [--rows N] [--force]\n"
EXISTS = "error: the path leads to something: --force replaces it\n"
UNKEPT = "error: the path can't be written\n"


def untold(why):
    return "error: stdin is no table: %s\n" % why


# ---- rows

ROWS = []


def row(name, words, status, kept="-", errors="", paths=("t.vxb",), **more):
    ROWS.append({"name": name, "words": words, "paths": paths, "status": status, "kept": kept, "errors": errors, **more})


def kept(name, words, table, kept, **more):
    row(name, words, 0, kept, input=table, **more)


OLD = [{"path": "t.vxb", "bytes": "0a0b"}]
WRITE = ["write", "t.vxb"]

kept("as it is", WRITE, TWO, TWO_FILE)
kept("statistics that lie are built anew", WRITE, LYING, TWO_FILE)
kept("nulls, texts and an empty block", WRITE, GAPS, GAPS_FILE)
kept("without blocks", WRITE, NONE, NONE_FILE)
kept("without columns", WRITE, BARE, BARE_FILE)
kept("in one block", [*WRITE, "--rows", "3"], TWO, ONE_FILE)
kept("in one block, of more rows", [*WRITE, "--rows", "1048576"], TWO, ONE_FILE)
kept("in blocks of a row", [*WRITE, "--rows", "1"], TWO, EACH_FILE)
kept("in blocks as they are", [*WRITE, "--rows", "2"], TWO, TWO_FILE)
kept("cut without empty blocks", [*WRITE, "--rows", "2"], GAPS, GAPS_CUT)
kept("structs and lists cut", [*WRITE, "--rows", "5"], DEEP, DEEP_CUT)
kept("without columns, cut", [*WRITE, "--rows", "4"], BARE, BARE_CUT)
kept("without blocks, cut", [*WRITE, "--rows", "4"], NONE, NONE_FILE)
kept("over what stands", [*WRITE, "--force"], TWO, TWO_FILE, files=OLD)
kept("over nothing", [*WRITE, "--force"], TWO, TWO_FILE)
kept("cut over what stands", [*WRITE, "--rows", "3", "--force"], TWO, ONE_FILE, files=OLD)
kept("over what stands, cut", [*WRITE, "--force", "--rows", "3"], TWO, ONE_FILE, files=OLD)
kept("beside another path", WRITE, TWO, TWO_FILE, files=[{"path": "t.vx", "bytes": "00"}])

row("what stands is left", WRITE, 6, "0a0b", EXISTS, input=TWO, files=OLD)
row("a table before a path", WRITE, 3, "0a0b", untold("BadJson"), input="{", files=OLD)
row("no table", WRITE, 3, errors=untold("BadRequest(Top)"), input="[]")
row("no input", WRITE, 3, errors=untold("BadJson"), input="")
row("another member", WRITE, 3, errors=untold("BadRequest(Top)"), input=TWO[:-1] + ', "filter": ""}')
row("a cell of another type", WRITE, 3, errors=untold("BadTable(WrongValue)"), input=told(X, [(1, [["a"]])]))
row("a read fails", WRITE, 6, errors="error: a read failed\n", input=TWO, fails=2)
row("a read fails before the table is known", WRITE, 6, errors="error: a read failed\n", input="[]", fails=1)
row("a file that can't be kept", WRITE, 7, errors=UNKEPT, input=TWO, unkept=True)
row("a table before a file that can't be kept", WRITE, 3, errors=untold("BadRequest(Top)"), input="[]", unkept=True)
row("more rows than a table has", WRITE, 3, errors=untold("BadRequest(Blocks)"), input=told([], [(1048576, []), (1, [])]))
row("the same cut", [*WRITE, "--rows", "1000"], 3, errors=untold("BadRequest(Blocks)"), input=told([], [(1048576, []), (1, [])]))

for name, words in [
    ("no path", ["write"]),
    ("another word", ["wrote", "t.vxb"]),
    ("an option alone", [*WRITE, "--rows"]),
    ("another option", [*WRITE, "--quiet"]),
    ("no rows", [*WRITE, "--rows", "0"]),
    ("a zero before", [*WRITE, "--rows", "02"]),
    ("no number", [*WRITE, "--rows", "two"]),
    ("a sign", [*WRITE, "--rows", "+2"]),
    ("an empty number", [*WRITE, "--rows", ""]),
    ("more rows than a block has", [*WRITE, "--rows", "1048577"]),
    ("a number past 2^64", [*WRITE, "--rows", "18446744073709551617"]),
    ("an option twice", [*WRITE, "--force", "--force"]),
    ("rows twice", [*WRITE, "--rows", "2", "--rows", "2"]),
    ("a word too much", [*WRITE, "--rows", "2", "--force", "more"]),
    ("an option before the path", ["write", "--force", "t.vxb"]),
    ("no words", []),
]:
    row(name, words, 2, errors=USAGE, input=TWO, fails=1)

# ---- texts of CSV

CSV = [*WRITE, "csv"]

# types that are found, and a null in a column of numbers
PRICES = "id,price,name\n1,12,a\n2,,b\n3,7,a\n"
PRICES_FILE = file(
    [("id", "i64"), ("price", "i64?"), ("name", "utf8")],
    [(3, [[1, 2, 3], [12, None, 7], ["a", "b", "a"]])],
    [(["id"], [1], [3], [0]), (["price"], [7], [12], [1]), (["name"], ["a"], ["b"], [0])],
)
PRICES_CUT = file(
    [("id", "i64"), ("price", "i64?"), ("name", "utf8")],
    [(2, [[1, 2], [12, None], ["a", "b"]]), (1, [[3], [7], ["a"]])],
    [(["id"], [1, 3], [2, 3], [0, 0]), (["price"], [12, 7], [12, 7], [1, 0]), (["name"], ["a", "a"], ["b", "a"], [0, 0])],
)
# the same at given columns: numbers of other widths, and texts that may be null
PRICES_GIVEN = file(
    [("id", "u8"), ("price", "i16?"), ("name", "utf8?")],
    [(3, [[1, 2, 3], [12, None, 7], ["a", "b", "a"]])],
    [(["id"], [1], [3], [0]), (["price"], [7], [12], [1]), (["name"], ["a"], ["b"], [0])],
)
GIVEN = "id u8, price i16?, name utf8?"
# truths, and a null text that isn't empty: an empty cell is a text then
MARKED_FILE = file(
    [("on", "bool?"), ("note", "utf8")],
    [(3, [[True, None, False], ["", "x", ""]])],
    [(["on"], [False], [True], [1]), (["note"], [""], ["x"], [0])],
)
# a mark of the byte order, lines ended by CR LF, a blank line, quotes, and a number with a 0 before it, which is a text
QUOTED = "\ufeffname,\"a,b\"\r\n\"say \"\"hi\"\"\",007\r\n\r\n\"two\r\nlines\",8"
QUOTED_FILE = file(
    [("name", "utf8"), ("a,b", "utf8")],
    [(2, [["say \"hi\"", "two\r\nlines"], ["007", "8"]])],
    [(["name"], ["say \"hi\""], ["two\r\nlines"], [0]), (["a,b"], ["007"], ["8"], [0])],
)
# both ends of i64
ENDS = "x\n-9223372036854775808\n9223372036854775807\n"
ENDS_FILE = file([("x", "i64")], [(2, [[-(2**63), 2**63 - 1]])], [(["x"], [-(2**63)], [2**63 - 1], [0])])
# a number past its range makes a column of texts
PAST = "x\n9223372036854775808\n1\n"
PAST_FILE = file([("x", "utf8")], [(2, [["9223372036854775808", "1"]])], [(["x"], ["1"], ["9223372036854775808"], [0])])
# nulls alone are texts, and so is no row
NULLS = "x,y\n,1\n,2\n"
NULLS_FILE = file([("x", "utf8?"), ("y", "i64")], [(2, [[None, None], [1, 2]])], [(["x"], [None], [None], [2]), (["y"], [1], [2], [0])])
HEAD_FILE = file([("x", "utf8"), ("y", "utf8")], [], [(["x"], [], [], []), (["y"], [], [], [])])
# names that aren't words
NAMED_FILE = file([("and", "bool"), ("a b", "i8")], [(1, [[True], [-3]])], [(["and"], [True], [True], [0]), (["a b"], [-3], [-3], [0])])

kept("types that are found", CSV, PRICES, PRICES_FILE)
kept("in blocks of two rows", [*CSV, "--rows", "2"], PRICES, PRICES_CUT)
kept("given columns", [*CSV, "--types", GIVEN], PRICES, PRICES_GIVEN)
kept("given columns, over what stands", [*CSV, "--force", "--types", GIVEN], PRICES, PRICES_GIVEN, files=OLD)
kept("every option", [*CSV, "--types", GIVEN, "--rows", "3", "--null", "", "--force"], PRICES, PRICES_GIVEN)
kept("a null text", [*CSV, "--null", "NA"], "on,note\ntrue,\nNA,x\nfalse,\n", MARKED_FILE)
kept("a null text as an option", [*CSV, "--null", "--force"], "on,note\ntrue,\n--force,x\nfalse,\n", MARKED_FILE)
kept("quotes, a mark and blank lines", CSV, QUOTED, QUOTED_FILE)
kept("both ends of i64", CSV, ENDS, ENDS_FILE)
kept("a number past i64", CSV, PAST, PAST_FILE)
kept("nulls alone", CSV, NULLS, NULLS_FILE)
kept("a line of names alone", CSV, "x,y\n", HEAD_FILE)
kept("the same, in blocks of a row", [*CSV, "--rows", "1"], "x,y", HEAD_FILE)
kept("names between quotes", [*CSV, "--types", '"and" bool,"a b" i8'], "and,a b\rtrue,-3\r", NAMED_FILE)
kept("a path of this name", ["write", "csv", "csv"], PRICES, PRICES_FILE, paths=["csv"])
kept("a table as JSON under this name", ["write", "csv"], TWO, TWO_FILE, paths=["csv"])

row("a quote left open", CSV, 3, errors=untold("a quote is left open"), input='x\n"1\n')
row("an empty text", CSV, 3, errors=untold("there is no line of names"), input="")
row("blank lines alone", CSV, 3, errors=untold("there is no line of names"), input="\n\r\n")
row("a name twice", CSV, 3, errors=untold("a name stands twice"), input="x,y,x\n1,2,3\n")
row("a row of another length", CSV, 3, errors=untold("row 2 has 1 cells, and there are 2 names"), input="x,y\n1,2\n3\n")
row("a name that isn't UTF-8", CSV, 3, errors=untold("row 0, column 2 isn't UTF-8"), digits="782cff0a310a")
row("a cell that isn't UTF-8", CSV, 3, errors=untold("row 1, column 1 isn't UTF-8"), digits="780ac3280a")
row("a length before a cell", CSV, 3, errors=untold("row 1 has 2 cells, and there are 1 names"), digits="780aff2cff0a")
row("no number", [*CSV, "--types", "id i64, price i32"], 3, errors=untold('row 2, column 2: "12x" is no i32'), input="id,price\n1,5\n2,12x\n")
row("a 0 before a number", [*CSV, "--types", "x u64"], 3, errors=untold('row 1, column 1: "007" is no u64'), input="x\n007\n")
row("a number past its type", [*CSV, "--types", "x u8?"], 3, errors=untold('row 2, column 1: "256" is no u8'), input="x\n255\n256\n")
row("no truth", [*CSV, "--types", "x bool"], 3, errors=untold('row 1, column 1: "True" is no bool'), input="x\nTrue\n")
row("null where there is none", [*CSV, "--types", "x utf8"], 3, errors=untold('row 1, column 1: "" is no utf8'), input='x\n""\n')
row("other names", [*CSV, "--types", "y i64"], 3, errors=untold("the names aren't those of --types"), input="x\n1\n")
row("names in another order", [*CSV, "--types", "y i64, x i64"], 3, errors=untold("the names aren't those of --types"), input="x,y\n1,2\n")
row("given names twice", [*CSV, "--types", "x i64, x i64"], 3, errors=untold("a name stands twice"), input="x,x\n1,2\n")
row("a table as JSON in place of a text", CSV, 3, "0a0b", untold("row 1 has 1 cells, and there are 2 names"), input="[1,2]\n[3]\n", files=OLD)
row("a text in place of a table as JSON", WRITE, 3, errors=untold("BadJson"), input=PRICES)
row("what stands is left, a text too", CSV, 6, "0a0b", EXISTS, input=PRICES, files=OLD)
row("a read of a text fails", CSV, 6, errors="error: a read failed\n", input=PRICES, fails=2)
row("a text whose file can't be kept", CSV, 7, errors=UNKEPT, input=PRICES, unkept=True)

for name, words in [
    ("a null text without csv", [*WRITE, "--null", ""]),
    ("types without csv", [*WRITE, "--types", "x i32"]),
    ("csv behind an option", [*WRITE, "--force", "csv"]),
    ("csv twice", [*CSV, "csv"]),
    ("a null text twice", [*CSV, "--null", "", "--null", ""]),
    ("types twice", [*CSV, "--types", "x i32", "--types", "x i32"]),
    ("no types behind their word", [*CSV, "--types"]),
    ("no null text behind its word", [*CSV, "--force", "--null"]),
    ("no columns", [*CSV, "--types", ""]),
    ("a name without a type", [*CSV, "--types", "x"]),
    ("no such type", [*CSV, "--types", "x int"]),
    ("a type that isn't plain", [*CSV, "--types", "x list(i64)"]),
    ("a comma too much", [*CSV, "--types", "x i32,"]),
    ("no comma", [*CSV, "--types", "x i32 y i32"]),
    ("a mark twice", [*CSV, "--types", "x i32??"]),
    ("a name that is a word of queries", [*CSV, "--types", "and bool"]),
    ("a character of no token", [*CSV, "--types", "x i32;"]),
    ("no rows, of a text", [*CSV, "--rows", "0"]),
]:
    row(name, words, 2, errors=USAGE, input=PRICES, fails=1)

# ---- folders


def parts(*files):
    """What stands in a folder of block files: their names by their numbers, each with its digits."""
    return ", ".join("%06d.vxb %s" % numbered for numbered in enumerate(files))


def folder(name, words, table, *files, **more):
    kept(name, words, table, parts(*files), **{"paths": ["t/"], **more})


FOLDER = ["write", "t/"]
FULL = [{"path": "t/000000.vxb", "bytes": "0a"}, {"path": "t/000001.vxb", "bytes": "0b"}]
OTHER = [{"path": "t/notes.txt", "bytes": "0c"}]
WITHIN = [{"path": "t/old/000000.vxb", "bytes": "0d"}]

folder("a folder of one file", FOLDER, TWO, TWO_FILE)
folder("nulls, texts and an empty block in a folder", FOLDER, GAPS, GAPS_FILE)
folder("statistics that lie are built anew in a folder", FOLDER, LYING, TWO_FILE)
folder("a folder of an empty table", FOLDER, NONE, NONE_FILE)
folder("a folder of an empty table, cut", [*FOLDER, "--rows", "4"], NONE, NONE_FILE)
folder("a folder without columns", FOLDER, BARE, BARE_FILE)
folder("a folder without columns, cut", [*FOLDER, "--rows", "4"], BARE, BARE_CUT)
folder("a folder in one block", [*FOLDER, "--rows", "3"], TWO, ONE_FILE)
folder("a folder in blocks of a row", [*FOLDER, "--rows", "1"], TWO, EACH_FILE)
folder("a folder of structs and lists, cut", [*FOLDER, "--rows", "5"], DEEP, DEEP_CUT)
folder("a folder over nothing", [*FOLDER, "--force"], TWO, TWO_FILE)
folder("a folder over files", [*FOLDER, "--force"], TWO, TWO_FILE, files=FULL)
folder("a folder over another file, cut", [*FOLDER, "--force", "--rows", "3"], TWO, ONE_FILE, files=OTHER)
folder("a folder in a folder", ["write", "a/b/"], TWO, TWO_FILE, paths=["a/b/"])
folder("the folder of all", ["write", "/"], TWO, TWO_FILE, paths=["/"])
folder("the folder that the program runs in", ["write", "./"], TWO, TWO_FILE, paths=["./"])
folder("a folder of this name", ["write", "csv/"], TWO, TWO_FILE, paths=["csv/"])
kept("a folder over one in it", [*FOLDER, "--force"], TWO, "%s; -" % parts(TWO_FILE), paths=["t/", "t/old/"], files=WITHIN)
kept(
    "a folder beside other paths",
    [*FOLDER, "--force"],
    TWO,
    "%s; 0a; 000000.vxb 0b; 000000.vxb 0c" % parts(TWO_FILE),
    paths=["t/", "t.vxb", "t2/", "a/t/"],
    files=[{"path": "t.vxb", "bytes": "0a"}, {"path": "t2/000000.vxb", "bytes": "0b"}, {"path": "a/t/000000.vxb", "bytes": "0c"}],
)

IN_FOLDER = {"paths": ["t/"]}
row("a folder that stands is left", FOLDER, 6, parts("0a", "0b"), EXISTS, input=TWO, files=FULL, **IN_FOLDER)
row("a folder of another file is left", FOLDER, 6, "notes.txt 0c", EXISTS, input=TWO, files=OTHER, **IN_FOLDER)
row("a folder of a folder is left", FOLDER, 6, "-; 000000.vxb 0d", EXISTS, input=TWO, files=WITHIN, paths=["t/", "t/old/"])
row("a file in the way of a folder", FOLDER, 6, errors=EXISTS, input=TWO, unkept=True, stands=True)
row("a file in the way of a folder isn't replaced", [*FOLDER, "--force"], 7, errors=UNKEPT, input=TWO, unkept=True, stands=True)
row("a folder that can't be kept", FOLDER, 7, errors=UNKEPT, input=TWO, unkept=True)
row("a table before a folder that stands", FOLDER, 3, "notes.txt 0c", untold("BadRequest(Top)"), input="[]", files=OTHER, **IN_FOLDER)
row("a table before a folder that can't be kept", FOLDER, 3, errors=untold("BadRequest(Top)"), input="[]", unkept=True)
row("more rows than a table has, in a folder", FOLDER, 3, errors=untold("BadRequest(Blocks)"), input=told([], [(1048576, []), (1, [])]), **IN_FOLDER)
row("a read fails before a folder", FOLDER, 6, errors="error: a read failed\n", input=TWO, fails=2, **IN_FOLDER)

# texts of CSV
CSV_FOLDER = [*FOLDER, "csv"]

folder("a text in a folder", CSV_FOLDER, PRICES, PRICES_FILE)
folder("a text in a folder, in blocks of two rows", [*CSV_FOLDER, "--rows", "2"], PRICES, PRICES_CUT)
folder("a text at given columns in a folder", [*CSV_FOLDER, "--types", GIVEN, "--force"], PRICES, PRICES_GIVEN, files=FULL)
folder("a line of names alone in a folder", CSV_FOLDER, "x,y\n", HEAD_FILE)
folder("a text in a folder of this name", ["write", "csv/", "csv"], PRICES, PRICES_FILE, paths=["csv/"])
row("a text with a bad cell, in a folder", [*CSV_FOLDER, "--types", "x i8"], 3, "notes.txt 0c", untold('row 2, column 1: "128" is no i8'), input="x\n1\n128\n", files=OTHER, **IN_FOLDER)
row("a folder that stands is left, of a text too", CSV_FOLDER, 6, "notes.txt 0c", EXISTS, input=PRICES, files=OTHER, **IN_FOLDER)
row("a text whose folder can't be kept", CSV_FOLDER, 7, errors=UNKEPT, input=PRICES, unkept=True)

# one row more than a file has: it stands in a second one, and a file alone is refused. Files that long are told by their number of bytes
LONG = {"input": "x\n", "line": "1\n", "times": 1048577}
FIRST_OF_TWO = file([("x", "u8")], [(65536, [[1] * 65536])] * 16, [(["x"], [1] * 16, [1] * 16, [0] * 16)])
SECOND_OF_TWO = file([("x", "u8")], [(1, [[1]])], [(["x"], [1], [1], [0])])
row("a text of more rows than a file has", [*CSV_FOLDER, "--types", "x u8"], 0, parts("%d bytes" % (len(FIRST_OF_TWO) // 2), SECOND_OF_TWO), **LONG, **IN_FOLDER)
row("the same in a file", [*CSV, "--types", "x u8"], 3, errors=untold("there are 1048577 rows, more than 1048576"), **LONG)

# words
for name, words in [
    ("a folder and no rows", [*FOLDER, "--rows", "0"]),
    ("a folder in blocks of more rows than a file has", [*FOLDER, "--rows", "1048577"]),
    ("a folder twice", [*FOLDER, "t/"]),
    ("a folder behind an option", ["write", "--force", "t/"]),
    ("a null text without csv, in a folder", [*FOLDER, "--null", ""]),
    ("a folder in place of csv", [*FOLDER, "csv/"]),
]:
    row(name, words, 2, errors=USAGE, input=TWO, fails=1, **IN_FOLDER)

# ---- parts: a table's files, each of at most so many rows


def parted(name, most, table, *files, **more):
    ROWS.append({"name": name, "most": most, "input": table, "status": 0, "kept": "; ".join(files), "errors": "", **more})


def numbers(*blocks):
    """The table of these blocks of i8, and its file."""
    column = [("n", "i8")]
    return told(column, [(len(ns), [ns]) for ns in blocks]), number_file(*blocks)


def number_file(*blocks):
    """The file of blocks of i8: of each the least, the greatest, and no null; those of a block without rows aren't known."""
    least, greatest = [min(ns, default=None) for ns in blocks], [max(ns, default=None) for ns in blocks]
    return file([("n", "i8")], [(len(ns), [ns]) for ns in blocks], [(["n"], least, greatest, [0] * len(blocks))])


NINE, NINE_FILE = numbers([1, 2], [3, 4], [5, 6], [7, 8], [9])

parted("all in one part", 9, NINE, NINE_FILE)
parted("all in one part, of more rows", 1048576, NINE, NINE_FILE)
parted("in two parts", 8, NINE, number_file([1, 2], [3, 4], [5, 6], [7, 8]), number_file([9]))
parted("in three parts", 4, NINE, number_file([1, 2], [3, 4]), number_file([5, 6], [7, 8]), number_file([9]))
parted("in two parts, of which the first isn't full", 5, NINE, number_file([1, 2], [3, 4]), number_file([5, 6], [7, 8], [9]))
parted("a part for each block", 2, NINE, *[number_file(ns) for ns in [[1, 2], [3, 4], [5, 6], [7, 8], [9]]])
parted("cut into two rows, in three parts", 4, numbers(list(range(1, 10)))[0], number_file([1, 2], [3, 4]), number_file([5, 6], [7, 8]), number_file([9]), rows=2)
parted("cut into three rows, in three parts", 5, NINE, number_file([1, 2, 3]), number_file([4, 5, 6]), number_file([7, 8, 9]), rows=3)
parted("a block of more rows alone", 3, numbers([1], [2, 3, 4, 5], [6], [7])[0], number_file([1]), number_file([2, 3, 4, 5]), number_file([6], [7]))
parted("a first block of more rows", 1, numbers([1, 2], [3])[0], number_file(), number_file([1, 2]), number_file([3]))
parted("empty blocks", 1, numbers([], [1], [], [2], [])[0], number_file([], [1], []), number_file([2], []))
parted("empty blocks alone", 1, *numbers([], []))
parted("a part without blocks", 4, *numbers())
parted("nulls and texts in two parts", 2, GAPS, GAPS_FRONT, GAPS_BACK)
parted("statistics that lie are built anew in parts", 2, LYING, TWO_FRONT, TWO_BACK)

with open(os.path.join(HERE, "data", "writes.json"), "w", encoding="utf-8") as out:
    out.write("[\n" + ",\n".join(json.dumps(each) for each in ROWS) + "\n]\n")
with open(os.path.join(HERE, "stdout"), "w", encoding="utf-8") as out:
    out.write("%d runs agree\n" % len(ROWS))
