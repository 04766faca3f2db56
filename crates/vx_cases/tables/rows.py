#!/usr/bin/env python3
"""Runs requests that were worked out by hand through the built program, and compares what it prints and its exit status.

usage: crates/vx_cases/tables/rows.py [PROGRAM]     (first build the program: cd crates/vx && rt run)

Prints a line for each row that differs, and how many agreed; the exit status is 1 where one differs. The bytes of expressions
are made by wire.py, by the wire form in docs/FORMATS.md, and the answers are written out.
"""
import json
import os
import subprocess
import sys

import block_files
import generated
import tops
from wire import INTEGERS, ROOT, TRUE, binary, cast, contains, item, like, lit, merge, negated, node, pack, request, select, struct

CRATES = os.path.dirname(os.path.dirname(os.path.dirname(os.path.abspath(__file__))))
PROGRAM = os.path.join(CRATES, "vx", "out", "vx")

X = item("x")
ABOVE_TEN = binary(X, ">", lit("i32", 10))
QUOTED = like(item("a b"), lit("utf8", "it's%"), ignores_case=True)
HELD = contains(lit({"list": "i8?", "nullable": False}, [1, None]), binary(X, "+", lit("i8", -1)))
PACKED = merge(select(pack(("or", X)), "or"), select(item("q"), "b", exclude=True), nullable=True)
X32 = [("x", "i32")]
X8 = [("x", "i8")]
TWO = [[[1, 12]], [[20]]]
NEXT = binary(X, "+", lit("i8", 1))
NEXT_POSITIVE = binary(NEXT, ">", lit("i8", 0))
EMPTY_LIST = {"list": "i32", "nullable": False}
PQ = [("p", struct(True, a="i32")), ("q", struct(b="i32"))]
PQ_ROW = [[[None], [{"b": 2}]]]
NULL_OR_LESS = binary(binary(lit("i32?", None), "<=", X), "and", binary(X, "<=", lit("i32", 2)))


def nots(n, of):
    for _ in range(n):
        of = negated(of)
    return of


def realistic():
    columns = [("id", "u64"), ("name", "utf8?"), ("price", "i64"), ("tags", {"list": "utf8", "nullable": False})]
    columns += [("address", struct(city="utf8?", zip="u32")), ("active", "bool")]
    rows = [
        [(1, "anna", 50, "Oslo"), (2, "bob", 90, "Rome")],
        [(3, "alex", 100, "Oslo"), (4, "amy", 250, "Bonn")],
        [(5, None, 300, "Oslo"), (6, "ann", 120, "Oslo")],
        [(7, "carl", 400, "Oslo"), (8, "ada", 99, "Oslo")],
        [(9, "abe", 10, "Oslo"), (10, "al", 20, "Oslo")],
        [(11, "eve", 500, "Rome"), (12, "axel", 150, None)],
        [(13, "arne", 700, "Oslo"), (14, "Anna", 800, "Oslo")],
        [(15, "zoe", 100, "Oslo"), (16, "aki", 1000, "Oslo")],
    ]
    blocks = []
    for block in rows:
        ids, names, prices, cities = zip(*block)
        addresses = [{"city": c, "zip": i} for c, i in zip(cities, ids)]
        blocks.append([list(ids), list(names), list(prices), [[] for _ in ids], addresses, [True for _ in ids]])
    begins_with_a = like(item("name"), lit("utf8", "a%"))
    dear = binary(binary(item("price"), ">=", lit("i64", 100)), "and", begins_with_a)
    where = binary(dear, "and", binary(item("city", item("address")), "=", lit("utf8", "Oslo")))
    brief = select(merge(ROOT, item("address")), "id", "name", "city")
    stats = [(["price"], "max", [90, 250, 300, 400, 20, 500, 800, 1000])]
    return request(columns, blocks, where, brief, stats)


REALISTIC = """rows 4
{"id":3,"name":"alex","city":"Oslo"}
{"id":6,"name":"ann","city":"Oslo"}
{"id":13,"name":"arne","city":"Oslo"}
{"id":16,"name":"aki","city":"Oslo"}
skipped 0 4
columns "id" "name" "price" "address"
reads 22"""


def bytes_of(filter_bytes, projection=X):
    return request(X32, TWO, filter_bytes, projection)


def pq(filter_bytes, projection):
    return request(PQ, PQ_ROW, filter_bytes, projection)


def nested(n):
    """Selects of all six columns, so many in one another."""
    of = ROOT
    for _ in range(n):
        of = select(of, "id", "name", "price", "tags", "address", "active")
    return {**realistic(), "projection": of.hex()}


def conjunction(n):
    return ABOVE_TEN if n == 1 else binary(conjunction(n // 2), "and", conjunction(n - n // 2))


def ors(n):
    """A left chain of so many columns x."""
    of = X
    for _ in range(n - 1):
        of = binary(of, "or", X)
    return of


def lists(n, of):
    for _ in range(n):
        of = {"list": of, "nullable": False}
    return of


def wide(n):
    """A table of so many columns with a row, all of which the projection asks."""
    columns = [("c%d" % i, "i64") for i in range(n)]
    return request(columns, [[[i] for i in range(n)]], TRUE, pack(*((c, item(c)) for c, _ in columns)))


WHOLE = """rows 4
{"id":3,"name":"alex","price":100,"tags":[],"address":{"city":"Oslo","zip":3},"active":true}
{"id":6,"name":"ann","price":120,"tags":[],"address":{"city":"Oslo","zip":6},"active":true}
{"id":13,"name":"arne","price":700,"tags":[],"address":{"city":"Oslo","zip":13},"active":true}
{"id":16,"name":"aki","price":1000,"tags":[],"address":{"city":"Oslo","zip":16},"active":true}
skipped 0 4
columns "id" "name" "price" "tags" "address" "active"
reads 30"""
WIDE = "rows 1 / {%s} / skipped - / columns %s / reads 1024" % (
    ",".join('"c%d":%d' % (i, i) for i in range(1024)), " ".join('"c%d"' % i for i in range(1024)))
TWICE = {**bytes_of(X), "columns": [{"name": "x", "type": "i32"}, {"name": "x", "type": "i32"}]}
NONE = "rows 0 / skipped - / columns - / reads 0"
READ = "rows 0 / skipped - / columns \"x\" / reads 1"
FIVE = 'rows 1 / 5 / skipped - / columns "x" / reads 1'
NO_FIVE = "rows 0 / skipped 0 / columns - / reads 0"


def bounds(least, greatest):
    return [(["x"], "min", [least]), (["x"], "max", [greatest])]


LYING = request(X32, [[[5]]], binary(X, "=", lit("i32", 5)), X, bounds(9, 1))
LATE = binary(binary(X, "<", lit("i8", 5)), "and", NEXT_POSITIVE)

# bounds of a block whose one value is 5, and what a scan for 5 tells by them
BOUNDS = [
    ("null bounds", bounds(None, None), FIVE),
    ("a least value above it", bounds(9, None), NO_FIVE),
    ("a greatest value below it", bounds(None, 1), NO_FIVE),
    ("its own bounds", bounds(5, 5), FIVE),
    ("its least value alone", [(["x"], "min", [5])], FIVE),
]
ROWS = [
    ("two blocks", request(X32, TWO, ABOVE_TEN, X), 'rows 2 / 12 / 20 / skipped - / columns "x" / reads 2', 0),
    ("a block below", request(X32, [[[1, 10]], [[11]]], ABOVE_TEN, X, [(["x"], "min", [0, 0]), (["x"], "max", [10, 11])]),
     'rows 1 / 11 / skipped 0 / columns "x" / reads 1', 0),
    ("no blocks", request(X32, [], TRUE, X), NONE, 0),
    ("an empty list", request(X32, TWO, node("list_contains", b"", lit(EMPTY_LIST, []), X), X),
     "rows 0 / skipped 0 1 / columns - / reads 0", 0),
    ("no range", request(X32, [[[1, 3, 6]]], binary(binary(X, "<=", lit("i32", 2)), "and", binary(X, ">=", lit("i32", 5))), X), READ, 0),
    ("false beside null", request(X32, [[[3, 1]]], NULL_OR_LESS, X), READ, 0),
    ("its negation", request(X32, [[[3, 1]]], negated(NULL_OR_LESS), X), 'rows 1 / 3 / skipped - / columns "x" / reads 1', 0),
    ("a sum out of range", request(X8, [[[127]]], NEXT_POSITIVE, X), "error: Overflow", 5),
    ("a sum in a skipped block", request([("x", "i8"), ("y", "i8")], [[[127], [5]]],
     binary(binary(item("y"), ">", lit("i8", 9)), "and", NEXT_POSITIVE), X, [(["y"], "max", [5])]),
     "rows 0 / skipped 0 / columns - / reads 0", 0),
    ("a sum at an unselected row", request(X8, [[[127, 1]]], binary(X, "<", lit("i8", 5)), NEXT),
     'rows 1 / 2 / skipped - / columns "x" / reads 1', 0),
    ("a cast", request(X8, [[[-1]]], binary(X, "<", lit("i8", 5)), cast(X, "u8")), "error: BadCast", 5),
    ("a sum that isn't asked", request(X8, [[[127]]], TRUE, item("b", pack(("a", NEXT), ("b", X)))),
     'rows 1 / 127 / skipped - / columns "x" / reads 1', 0),
    ("a sum in a null test", request(X8, [[[127]]], node("is_null", b"", pack(("a", NEXT))), X), "error: Overflow", 5),
    ("a merge", pq(TRUE, merge(item("p"), item("q"))), 'rows 1 / {"a":null,"b":2} / skipped - / columns "p" "q" / reads 2', 0),
    ("a select over a merge", pq(TRUE, select(merge(item("p"), item("q")), "b")), 'rows 1 / {"b":2} / skipped - / columns "q" / reads 1', 0),
    ("a select of a nullable struct", pq(TRUE, select(item("p"), "a")), "error: NullableSelect projection", 4),
    ("an unknown field", pq(TRUE, select(item("q"), "zz", exclude=True)), "error: UnknownField projection", 4),
    ("a name twice", pq(TRUE, pack(("a", item("p")), ("a", item("q")))), "error: DuplicateField projection", 4),
    ("a field of a number", pq(TRUE, item("c", item("b", item("q")))), "error: NotStruct projection", 4),
    ("a negation of a number", pq(TRUE, negated(item("b", item("q")))), "error: TypeMismatch projection", 4),
    ("a filter of numbers", pq(item("b", item("q")), item("p")), "error: FilterNotBool", 4),
    ("a name that two statistics have", request([("a_b", "i32"), ("a", struct(b="i32"))], [[[1], [{"b": 1}]]],
     binary(binary(item("a_b"), ">", lit("i32", 5)), "and", binary(item("b", item("a")), ">", lit("i32", 5))), item("a_b"),
     [(["a_b"], "max", [1]), (["a", "b"], "max", [1])]), 'rows 0 / skipped - / columns "a_b" "a" / reads 2', 0),
    ("256 negations", bytes_of(nots(256, ROOT)), "error: TooDeep filter", 4),
    ("255 negations", bytes_of(nots(255, ROOT)), "error: TypeMismatch filter", 4),
    ("4,097 nodes", bytes_of(pack(*((str(i), ROOT) for i in range(4096)))), "error: TooManyNodes filter", 4),
    ("a byte more", bytes_of(ABOVE_TEN + b"\0"), "error: BadWire filter", 4),
    ("a padded number", bytes_of(b"\x86\0" + ABOVE_TEN[1:]), "error: BadWire filter", 4),
    ("a shorter text", bytes_of(ABOVE_TEN[:-1]), "error: BadWire filter", 4),
    ("an operator of no number", bytes_of(node("binary", b"\x0a", X, lit("i32", 10))), "error: BadMetadata filter", 4),
    ("a kind that isn't registered", bytes_of(node("dynamic")), "error: UnknownExpr filter", 4),
    ("three operands", bytes_of(node("binary", b"\3", ROOT, ROOT, ROOT)), "error: WrongChildren filter", 4),
    ("the filter before the projection", request(X32, TWO, X, b"\0"), "error: BadWire projection", 4),
    ("lying statistics", LYING, NO_FIVE, 0),
    *(("one value with " + name, request(X32, [[[5]]], binary(X, "=", lit("i32", 5)), X, stats), told, 0) for name, stats, told in BOUNDS),
    ("a catalog", realistic(), REALISTIC.replace("\n", " / "), 0),
    ("254 nested selects", nested(254), WHOLE.replace("\n", " / "), 0),
    ("4,094 nodes", bytes_of(conjunction(819)), 'rows 2 / 12 / 20 / skipped - / columns "x" / reads 2', 0),
    ("1,024 columns", wide(1024), WIDE, 0),
    ("columns that are no list", {**bytes_of(X), "columns": 7, "blocks": 7, "stats": 7, "filter": 7, "projection": 7}, "error: BadRequest columns", 3),
    ("blocks that are no list", {**bytes_of(X), "blocks": 7, "stats": 7, "filter": 7, "projection": 7}, "error: BadRequest blocks", 3),
    ("statistics that are no list", {**bytes_of(X), "stats": 7, "filter": 7, "projection": 7}, "error: BadRequest stats", 3),
    ("a filter that is no text", {**bytes_of(X), "filter": 7, "projection": 7}, "error: BadRequest filter", 3),
    ("a projection that is no text", {**TWICE, "filter": "a", "projection": 7}, "error: BadRequest projection", 3),
    ("a filter of one digit", {**TWICE, "filter": "a", "projection": "b"}, "error: BadHex filter", 3),
    ("a projection of one digit", {**TWICE, "filter": "", "projection": "b"}, "error: BadHex projection", 3),
    ("a column twice", {**TWICE, "filter": "", "projection": ""}, "error: BadTable DuplicateName", 3),
    ("a path to no column", request(X32, TWO, X, X, [(["z"], "min", [0, 0])]), "error: BadTable BadStatPath", 3),
    ("a statistic twice", request(X32, TWO, X, X, [(["x"], "max", [0, 0]), (["x"], "max", [0, 0])]), "error: BadTable DuplicateStat", 3),
    ("a statistic of one block", request(X32, TWO, X, X, [(["x"], "max", [0])]), "error: BadTable WrongStatCount", 3),
    ("a statistic of a text", request(X32, TWO, X, X, [(["x"], "max", ["10", 0])]), "error: BadTable WrongStatType", 3),
    ("a row too many", {**bytes_of(X), "blocks": [{"rows": 3, "values": [[1, 12]]}]}, "error: BadTable WrongLength", 3),
    ("a truth among numbers", {**bytes_of(X), "blocks": [{"rows": 1, "values": [[True]]}]}, "error: BadTable WrongValue", 3),
    ("a cell that is no whole number", {**bytes_of(X), "blocks": [{"rows": 1, "values": [[1.5]]}]}, "error: BadRequest blocks", 3),
]

# a byte more than an input may have
LONG = 16_777_217

# rows of other arguments: the arguments, what they take, and the answer
BELOW = request(X32, [[[1, 10]], [[11]]], ABOVE_TEN, X, [(["x"], "min", [0, 0]), (["x"], "max", [10, 11])])
TREE = "Binary(>) / ├── lhs: GetItem(x) / │   └── Root / └── rhs: Literal(value: 10i32, dtype: i32)"
WORDS = [
    ("no arguments", [], b"", "error: Usage", 2),
    ("a longer word", ["scans"], b"", "error: Usage", 2),
    ("two words", ["scan", "scan"], b"", "error: Usage", 2),
    ("a cut request", ["scan"], b"{", "error: BadJson", 3),
    ("a list", ["scan"], b"[]", "error: BadRequest top", 3),
    ("16,777,217 spaces", ["scan"], b" " * LONG, "error: InputTooLong", 3),
    ("lying statistics that are replaced", ["scan", "built"], LYING, FIVE, 0),
    ("a catalog by the statistics that it has", ["scan", "built"], realistic(),
     REALISTIC.replace("skipped 0 4", "skipped 0 4 5").replace("reads 22", "reads 19").replace("\n", " / "), 0),
    ("blocks without statistics", ["scan", "built"], request(X32, [[[1, 10]], [[11]]], ABOVE_TEN, X), 'rows 1 / 11 / skipped 0 / columns "x" / reads 1', 0),
    ("blocks without nulls", ["scan", "built"], request([("x", "i32?")], [[[1, 2]], [[None, 3]]], node("is_null", b"", X), X),
     'rows 1 / null / skipped 0 / columns "x" / reads 1', 0),
    ("a sum in a block that nothing rules out", ["scan"], request(X8, [[[127]]], LATE, X), "error: Overflow", 5),
    ("a sum in a block that its own bounds rule out", ["scan", "built"], request(X8, [[[127]]], LATE, X), NO_FIVE, 0),
    ("a sum in a block that they don't", ["scan", "built"], request(X8, [[[127]]], NEXT_POSITIVE, X), "error: Overflow", 5),
    ("statistics that are replaced, of a path to no column", ["scan", "built"], request(X32, TWO, X, X, [(["z"], "min", [0, 0])]),
     "error: BadTable BadStatPath", 3),
    ("statistics that are replaced, of a text", ["scan", "built"], request(X32, TWO, X, X, [(["x"], "max", ["10", 0])]), "error: BadTable WrongStatType", 3),
    ("a filter of numbers by built statistics", ["scan", "built"], bytes_of(X), "error: FilterNotBool", 4),
    ("a cut request by built statistics", ["scan", "built"], b"{", "error: BadJson", 3),
    ("the word built alone", ["built"], b"", "error: Usage", 2),
    ("the word built twice", ["scan", "built", "built"], b"", "error: Usage", 2),
    ("the word built first", ["built", "scan"], b"", "error: Usage", 2),
    ("an explanation by built statistics", ["explain", "built"], b"", "error: Usage", 2),
    ("an explanation", ["explain"], BELOW,
     'filter ($.x > 10i32) / pruning ($.x_max <= 10i32) / required "x_max" / parts root: $.x.x_0 {x: pack(x_0: ($.x > 10i32))}'
     " / projection $.x / parts root: $.x.x_0 {x: pack(x_0: $.x)}", 0),
    ("an explanation without statistics", ["explain"], bytes_of(ABOVE_TEN),
     "filter ($.x > 10i32) / pruning - / required - / parts root: $.x.x_0 {x: pack(x_0: ($.x > 10i32))}"
     " / projection $.x / parts root: $.x.x_0 {x: pack(x_0: $.x)}", 0),
    ("an explanation over counts of nulls", ["explain"],
     request([("x", "i32?")], [[[1, None]], [[2]]], node("is_null", b"", X), X, [(["x"], "null_count", [1, 0])]),
     'filter is_null($.x) / pruning ($.x_null_count = 0u64) / required "x_null_count" / parts root: $.x.x_0 {x: pack(x_0: is_null($.x))}'
     " / projection $.x / parts root: $.x.x_0 {x: pack(x_0: $.x)}", 0),
    ("an explanation of a sum out of range", ["explain"], request(X8, [[[127]]], NEXT_POSITIVE, X),
     "filter (($.x + 1i8) > 0i8) / pruning - / required - / parts root: $.x.x_0 {x: pack(x_0: (($.x + 1i8) > 0i8))}"
     " / projection $.x / parts root: $.x.x_0 {x: pack(x_0: $.x)}", 0),
    ("an explanation of a filter of numbers", ["explain"], bytes_of(X), "error: FilterNotBool", 4),
    ("a shown expression", ["show", ABOVE_TEN.hex()], b"", "($.x > 10i32)", 0),
    ("a shown tree", ["show", "tree", ABOVE_TEN.hex()], b"", TREE, 0),
    ("a shown query", ["show", "query", ABOVE_TEN.hex()], b"", "($.x > 10i32)", 0),
    ("a shown query of marks", ["show", "query", QUOTED.hex()], b"", """ilike($."a b", 'it''s%')""", 0),
    ("a shown query of a list", ["show", "query", HELD.hex()], b"", "contains(lit(list(i8?), [1, null]), ($.x + -1i8))", 0),
    ("a shown query of structs", ["show", "query", PACKED.hex()], b"", 'merge_null(pack("or": $.x){"or"}, $.q~{b})', 0),
    ("the word tree", ["show", "tree"], b"", "error: BadHex text", 3),
    ("the word query", ["show", "query"], b"", "error: BadHex text", 3),
    ("a shown query of no bytes", ["show", "query", ""], b"", "error: BadWire text", 4),
    ("a shown query of a kind that isn't registered", ["show", "query", node("dynamic").hex()], b"", "error: UnknownExpr text", 4),
    ("three digits", ["show", "046"], b"", "error: BadHex text", 3),
    ("no digits", ["show", ""], b"", "error: BadWire text", 4),
    ("a word of a kind that isn't registered", ["show", node("dynamic").hex()], b"", "error: UnknownExpr text", 4),
    ("a row with metadata", ["show", node("root", b"\0").hex()], b"", "error: BadMetadata text", 4),
    ("a negation of nothing", ["show", node("not").hex()], b"", "error: WrongChildren text", 4),
    ("a shown merge of nothing", ["show", merge().hex()], b"", "error: WrongChildren text", 4),
    ("a shown expression of 256 levels", ["show", nots(255, ROOT).hex()], b"", "(!" * 255 + "$" + ")" * 255, 0),
    ("a shown expression of 257 levels", ["show", nots(256, ROOT).hex()], b"", "error: TooDeep text", 4),
    ("a shown expression of 4,097 nodes", ["show", merge(*[ROOT] * 4096).hex()], b"", "error: TooManyNodes text", 4),
    ("another word behind show", ["show", "trees", ABOVE_TEN.hex()], b"", "error: Usage", 2),
    ("a query", ["text", "x > 10i32"], b"", ABOVE_TEN.hex(), 0),
    ("a cut sum", ["text", "1 +"], b"", "error: BadQuery", 4),
    ("an open text", ["text", "'a"], b"", "error: BadToken", 4),
    ("a number out of range", ["text", "300u8"], b"", "error: BadValue", 4),
    ("4,095 tokens", ["text", "x" + " or x" * 2047 + " "], b"", ors(2048).hex(), 0),
    ("4,097 tokens", ["text", "x" + " or x" * 2048], b"", "error: TooManyTokens", 4),
    ("a merge of nothing", ["text", "merge()"], b"", merge().hex(), 0),
    ("256 levels", ["text", "not " * 255 + "$"], b"", nots(255, ROOT).hex(), 0),
    ("257 levels", ["text", "not " * 256 + "$"], b"", nots(256, ROOT).hex(), 0),
    ("a type of depth 64", ["text", "cast(x, %sbool%s)" % ("list(" * 63, ")" * 63)], b"", cast(X, lists(63, "bool")).hex(), 0),
    ("a type of depth 65", ["text", "cast(x, %sbool%s)" % ("list(" * 64, ")" * 64)], b"", "error: NotSerializable", 4),
    ("a query without its word", ["text"], b"", "error: Usage", 2),
    ("a query that isn't UTF-8", ["text", b"\xff"], b"", "error: Usage", 2),
    ("no generated row", ["gen", "0"], b"", "blocks 0 skipped 0 rows 0 sum 0", 0),
    ("four generated rows", ["gen", "4"], b"", "blocks 1 skipped 0 rows 1 sum 3", 0),
    ("200 generated rows", ["gen", "200"], b"", "blocks 4 skipped 1 rows 45 sum 6730", 0),
    *(("%d generated rows" % n, ["gen", str(n)], b"", generated.line(n), 0) for n in [1, 10, 63, 64, 65, 128, 129, 1_000]),
    *(("200,000 generated rows", ["gen", "200000"], b"", generated.line(200_000), 0) for _ in range(2)),
    *(("generated rows %s" % word, ["gen", word], b"", "error: Usage", 2)
      for word in ["007", "00", "", "+1", "-1", "200001", "1000000", "99999999999999999999999", "1 ", "1_0", "x", "٣"]),
    ("generated rows without their number", ["gen"], b"", "error: Usage", 2),
    ("generated rows of two numbers", ["gen", "1", "1"], b"", "error: Usage", 2),
    ("generated rows of no input", ["gen", "4"], b"{", "blocks 1 skipped 0 rows 1 sum 3", 0),
    ("the version", ["--version"], b"", "vx 0.1.0", 0),
]

# the first rows by a key: the columns, their blocks, the statistics
X64 = [("x", "i64")]
FIVE_ONE = request(X64, [[[5, 1]], [[7, 9]], [[3]]], TRUE, X, [(["x"], "min", [1, 7, 3]), (["x"], "max", [5, 9, 3])])
NULL_TWO = request([("x", "i32?")], [[[None, 2]]], TRUE, X)
XV = [("x", "i32?"), ("v", "u8")]
V = item("v")
TIED = request(XV, [[[2, 1], [10, 11]], [[2, 2], [12, 13]], [[2, 1], [14, 15]], [[2], [16]]], TRUE, V,
               [(["x"], "min", [1, 2, 1, 2]), (["x"], "max", [2, 2, 2, 2])])
NULLS = request(XV, [[[None, None], [10, 11]], [[3], [12]], [[None, 1], [13, 14]]], TRUE, V, [(["x"], "min", [None, 3, 1]), (["x"], "max", [None, 3, 1])])
TEXTS = request([("s", "utf8"), ("v", "u8")], [[["b", "a"], [1, 2]], [["c", "Z"], [3, 4]], [["ab", ""], [5, 6]]], TRUE, V)
TRUTHS = request([("b", "bool?"), ("v", "u8")], [[[True, None, False, False], [1, 2, 3, 4]]], TRUE, V)
KEYS = [("x", "i32"), ("l", {"list": "i32", "nullable": True}), ("s", struct(a="i32")), ("", "u8"), ("a b", "i8")]
KEYED = request(KEYS, [[[1, 2], [None, []], [{"a": 1}, {"a": 2}], [9, 8], [3, 4]]], TRUE, X)
SUMS = request(X8, [[[1]], [[127]]], TRUE, NEXT, [(["x"], "min", [1, 127]), (["x"], "max", [1, 127])])
NAMED = request([("x", "i32"), ("v", "u8")], [[[1, 2], [10, 11]], [[5, 0], [12, 13]]], binary(X, ">", lit("i32", 0)), V)
LOST = request(X32, [[[5]], [[1]]], TRUE, X, [(["x"], "min", [5, 9])])
GENERATED, GENERATED_STATS = tops.generated(200)
GENERATED_TABLE = request([("id", "i64"), ("v", "i32?")], [[[i for _, i in b], [v for v, _ in b]] for b in GENERATED], TRUE, item("id"), GENERATED_STATS)
DIRECTIONS = [("asc", False), ("desc", True)]


def top(direction, key, count):
    return ["top", direction, key, str(count)]


TOPS = [
    ("the two least", top("asc", "x", 2), FIVE_ONE, 'rows 2 / 1 / 3 / skipped 1 / columns "x" / reads 2', 0),
    ("the greatest", top("desc", "x", 1), FIVE_ONE, 'rows 1 / 9 / skipped 2 / columns "x" / reads 2', 0),
    ("no row", top("asc", "x", 0), FIVE_ONE, "rows 0 / skipped 0 1 2 / columns - / reads 0", 0),
    ("more rows than there are", top("desc", "x", 9), FIVE_ONE, 'rows 5 / 9 / 7 / 5 / 3 / 1 / skipped - / columns "x" / reads 3', 0),
    ("the most rows that may be asked", top("asc", "x", 1048576), FIVE_ONE, 'rows 5 / 1 / 3 / 5 / 7 / 9 / skipped - / columns "x" / reads 3', 0),
    ("null behind a number", top("asc", "x", 2), NULL_TWO, 'rows 2 / 2 / null / skipped - / columns "x" / reads 1', 0),
    ("null behind a number, the greatest first", top("desc", "x", 2), NULL_TWO, 'rows 2 / 2 / null / skipped - / columns "x" / reads 1', 0),
    # no bound behind the first block, 2 behind the second and the third
    ("ties at the bound", top("asc", "x", 3), TIED, 'rows 3 / 11 / 15 / 10 / skipped 3 / columns "x" "v" / reads 6', 0),
    ("ties of the greatest", top("desc", "x", 2), TIED, 'rows 2 / 10 / 12 / skipped 2 3 / columns "x" "v" / reads 4', 0),
    ("nulls that give no bound", top("asc", "x", 2), NULLS, 'rows 2 / 14 / 12 / skipped - / columns "x" "v" / reads 6', 0),
    ("nulls in their own order", top("desc", "x", 4), NULLS, 'rows 4 / 12 / 14 / 10 / 11 / skipped - / columns "x" "v" / reads 6', 0),
    ("a bound before nulls", top("desc", "x", 1), NULLS, 'rows 1 / 12 / skipped 2 / columns "x" "v" / reads 4', 0),
    ("texts by their bytes", top("asc", "s", 3), TEXTS, 'rows 3 / 6 / 4 / 2 / skipped - / columns "s" "v" / reads 6', 0),
    ("the greatest texts", top("desc", "s", 2), TEXTS, 'rows 2 / 3 / 1 / skipped - / columns "s" "v" / reads 5', 0),
    ("truths", top("asc", "b", 3), TRUTHS, 'rows 3 / 3 / 4 / 1 / skipped - / columns "b" "v" / reads 2', 0),
    ("the greatest truths", top("desc", "b", 4), TRUTHS, 'rows 4 / 1 / 3 / 4 / 2 / skipped - / columns "b" "v" / reads 2', 0),
    ("rows behind the bound", top("asc", "x", 1), NAMED, 'rows 1 / 10 / skipped - / columns "x" "v" / reads 3', 0),
    ("statistics that lie of a key", top("asc", "x", 1), LOST, 'rows 1 / 5 / skipped 1 / columns "x" / reads 1', 0),
    ("a catalog's dearest", top("desc", "price", 2), realistic(),
     'rows 2 / {"id":16,"name":"aki","city":"Oslo"} / {"id":13,"name":"arne","city":"Oslo"}'
     ' / skipped 0 4 / columns "id" "name" "price" "address" / reads 22', 0),
    ("a key without a name", top("asc", "", 1), KEYED, 'rows 1 / 2 / skipped - / columns "x" "" / reads 2', 0),
    ("a key of two words", top("desc", "a b", 1), KEYED, 'rows 1 / 2 / skipped - / columns "x" "a b" / reads 2', 0),
    ("a key that no column has", top("asc", "y", 1), FIVE_ONE, "error: UnknownKey", 4),
    ("a key that a field has", top("asc", "a", 1), KEYED, "error: UnknownKey", 4),
    ("a key that is a list", top("asc", "l", 1), KEYED, "error: BadKey", 4),
    ("a key that is a struct", top("desc", "s", 0), KEYED, "error: BadKey", 4),
    ("no row by a key that no column has", top("asc", "y", 0), FIVE_ONE, "error: UnknownKey", 4),
    ("a key before a filter of numbers", top("asc", "y", 1), bytes_of(X), "error: UnknownKey", 4),
    ("a filter of numbers", top("asc", "x", 1), bytes_of(X), "error: FilterNotBool", 4),
    ("no row by a filter of numbers", top("asc", "x", 0), bytes_of(X), "error: FilterNotBool", 4),
    ("a projection before a key", top("asc", "y", 1), request(X32, TWO, TRUE, b"\0"), "error: BadWire projection", 4),
    ("a kind that isn't registered before a key", top("asc", "y", 1), bytes_of(node("dynamic")), "error: UnknownExpr filter", 4),
    ("a projection of an unknown field", top("asc", "x", 1), request(X32, TWO, TRUE, item("y")), "error: UnknownField projection", 4),
    ("a cut request", top("asc", "x", 1), b"{", "error: BadJson", 3),
    ("a request without columns", top("asc", "x", 1), {**bytes_of(X), "columns": 7}, "error: BadRequest columns", 3),
    ("a sum in a block behind the bound", top("asc", "x", 1), SUMS, 'rows 1 / 2 / skipped 1 / columns "x" / reads 1', 0),
    ("a sum in a block before it", top("desc", "x", 1), SUMS, "error: Overflow", 5),
    ("a sum where no row is asked", top("desc", "x", 0), SUMS, "rows 0 / skipped 0 1 / columns - / reads 0", 0),
    ("a cast of a first row", top("asc", "x", 1), request(X8, [[[-1]]], TRUE, cast(X, "u8")), "error: BadCast", 5),
    *(("generated rows, %d %s" % (count, word), top(word, "v", count), GENERATED_TABLE,
       tops.answer(["id", "v"], "v", "id", [[(v, str(i)) for v, i in b] for b in GENERATED], descending, count), 0)
      for word, descending in DIRECTIONS for count in range(51)),
    *(("first rows by %s" % " ".join(words), ["top", *words], FIVE_ONE, "error: Usage", 2)
      for words in [[], ["asc"], ["asc", "x"], ["up", "x", "1"], ["x", "asc", "1"], ["asc", "x", "01"], ["asc", "x", "1048577"], ["asc", "x", "-1"],
                    ["asc", "x", "+1"], ["asc", "x", ""], ["asc", "x", "x"], ["asc", "x", "1", "1"], ["ascending", "x", "1"], ["built", "x", "1"]]),
]

# block files: of tables whose bytes are written out, and of others by block_files.py
FIRST = bytes_of(ABOVE_TEN)
FIRST_FILE = "5658424c4b303031" "0e" "0400" "01" "0178" "010006" "02" "02" "01" "00" "0a" "05" "0101000000" "010c000000" "0114000000"
BARE = {**request([], [], TRUE, X), "blocks": [{"rows": 3, "values": []}]}
BARE_FILE = "5658424c4b303031" "06" "0400" "00" "01" "03" "00"
UNBLOCKED_FILE = "5658424c4b303031" "0a" "0400" "01" "0178" "010006" "00" "00"
EMPTY_FILE = "5658424c4b303031" "0c" "0400" "01" "0178" "010006" "01" "00" "00" "00"
# the least x is 1 and then not known, and of nulls there are none and then two
COUNTED = request([("x", "i8?")], [[[1]], [[None, None]]], TRUE, X, [(["x"], "min", [1, None]), (["x"], "null_count", [0, 2])])
COUNTED_FILE = ("5658424c4b303031" "2b" "0400" "01" "0178" "010104" "02" "01" "02" "02" "01" "0178" "00" "0101" "00"
                "01" "0178" "02" "010000000000000000" "010200000000000000" "02" "02" "0101" "0000")
KINDS = [("b", "bool?"), *((t, t + "?") for t in INTEGERS), ("s", "utf8?"), ("l", {"list": "i16?", "nullable": True}),
         ("r", struct(True, a="utf8", b={"list": struct(c="bool?"), "nullable": False}))]
KINDS_CELLS = [
    [[True, None], *([[low, None] for low in (0, 0, 0, 0, -128, -32768, -2**31, -2**63)]), ["", None], [[], None], [{"a": "", "b": []}, None]],
    [[False], *([[high] for high in (255, 65535, 2**32 - 1, 2**64 - 1, 127, 32767, 2**31 - 1, 2**63 - 1)]), ["é" * 100], [[1, None, -1]],
     [{"a": "\n", "b": [{"c": None}, {"c": True}]}]],
    [[] for _ in range(12)],
]
MANY = request(KINDS, KINDS_CELLS, TRUE, ROOT, [(["b"], "min", [True, False, None]), (["s"], "max", ["", None, None]), (["r", "a"], "null_count", [1, 0, 0]),
                                               (["r", "a"], "min", [None, "\n", None]), (["u64"], "max", [0, 2**64 - 1, None])])
LATER = request(X32, [[list(range(200))], [[7] * 3_300]], TRUE, X)
DEEP = {**FIRST, "columns": [{"name": "x", "type": lists(64, "i64")}]}
FILES = [
    ("a small table as a file", ["file"], FIRST, FIRST_FILE, 0),
    ("a file of a filter of numbers", ["file"], bytes_of(X), FIRST_FILE, 0),
    ("a file of texts that spell no expressions", ["file"], request(X32, TWO, b"\0", b""), FIRST_FILE, 0),
    ("a file without columns", ["file"], BARE, BARE_FILE, 0),
    ("a file without blocks", ["file"], request(X32, [], TRUE, X), UNBLOCKED_FILE, 0),
    ("a file of a block without rows", ["file"], request(X32, [[[]]], TRUE, X), EMPTY_FILE, 0),
    ("a file of statistics that aren't known", ["file"], COUNTED, COUNTED_FILE, 0),
    *(("the file of %s" % name, ["file"], asked, block_files.answer(asked), 0)
      for name, asked in [("a catalog", realistic()), ("all types", MANY), ("ranges of many bytes", LATER), ("lying statistics", LYING),
                          ("ties", TIED), ("nulls", NULLS), ("texts", TEXTS), ("keys", KEYED), ("a wide table", wide(300)),
                          ("generated rows", GENERATED_TABLE)]),
    *(("no file of %s" % name, ["file"], asked, "error: " + told, 3)
      for name, asked, told in [
          ("a cut request", b"{", "BadJson"), ("a list", b"[]", "BadRequest top"), ("16,777,217 spaces", b" " * LONG, "InputTooLong"),
          ("no columns' list", {**FIRST, "columns": 7}, "BadRequest columns"), ("no blocks' list", {**FIRST, "blocks": 7}, "BadRequest blocks"),
          ("no statistics' list", {**FIRST, "stats": 7}, "BadRequest stats"), ("no filter", {**FIRST, "filter": 7}, "BadRequest filter"),
          ("no projection", {**FIRST, "projection": 7}, "BadRequest projection"), ("half a byte of filter", {**FIRST, "filter": "0"}, "BadHex filter"),
          ("half a byte of projection", {**TWICE, "projection": "0"}, "BadHex projection"), ("one name twice", TWICE, "BadTable DuplicateName"),
          ("a type of depth 65", DEEP, "BadTable DeepType"),
          ("a statistic of no column", request(X32, TWO, X, X, [(["z"], "min", [0, 0])]), "BadTable BadStatPath"),
          ("one statistic twice", request(X32, TWO, X, X, [(["x"], "min", [0, 0])] * 2), "BadTable DuplicateStat"),
          ("a statistic of one block", request(X32, TWO, X, X, [(["x"], "min", [0])]), "BadTable WrongStatCount"),
          ("a statistic of texts", request(X32, TWO, X, X, [(["x"], "min", [0, ""])]), "BadTable WrongStatType"),
          ("a block without its column", {**FIRST, "blocks": [{"rows": 1, "values": []}]}, "BadTable WrongLength"),
          ("a text among numbers", request(X32, [[[1, "2"]]], X, X), "BadTable WrongValue")]),
    *(("a file by %s" % " ".join(words), words, FIRST, "error: Usage", 2) for words in [["files"], ["file", "file"], ["file", "x", "1"], ["built", "file"]]),
]

# the scan of block files: of files whose bytes are written out or are those of requests, with damaged ranges
HELD = ["scan", "file"]
HELD_TWO = 'rows 2 / 12 / 20 / skipped - / columns "x" / reads 2'
XY = [("x", "i8"), ("y", "i8")]
Y = item("y")
Y_POSITIVE = binary(Y, ">", lit("i8", 0))


def held(file, filter_bytes=ABOVE_TEN, projection=X):
    """A request of the block file of these digits."""
    return {"file": file, "filter": filter_bytes.hex(), "projection": projection.hex()}


def held_of(asked):
    """That of the file of a request's table, by its expressions."""
    return {"file": block_files.answer(asked), "filter": asked["filter"], "projection": asked["projection"]}


def damaged(columns, blocks, sound, broken, stats=()):
    """The file of a table, of which the bytes at its end are replaced by as many."""
    file = block_files.answer(request(columns, blocks, TRUE, X, stats))
    assert file.endswith(sound) and len(sound) == len(broken)
    return file[:len(file) - len(sound)] + broken


# the columns x and y of a row, and of two blocks of a row each; 02 begins no value
ONE_ROW = damaged(XY, [[[127], [5]]], "017f" "0105", "017f" "0205")
NO_X = damaged(XY, [[[127], [5]]], "017f" "0105", "027f" "0105")
TWO_ROWS = damaged(XY, [[[127], [5]], [[1], [5]]], "017f" "0105" "0101" "0105", "017f" "0105" "0201" "0105")
LATE_DAMAGE = damaged(XY, [[[1], [5]], [[127], [5]]], "0101" "0105" "017f" "0105", "0101" "0205" "017f" "0105")
SKIPPED = damaged(X32, TWO, FIRST_FILE[-30:], "0201000000" "010c000000" "0114000000", [(["x"], "max", [10, 20])])
FRONT = "5658424c4b303031"
TWICE_HELD = FRONT + "0f" "0400" "02" "0178" "010006" "0178" "010006" "00" "00"
NO_COLUMN = FRONT + "0e" "0400" "01" "0178" "010006" "00" "01" "01" "0179" "00"
SCANNED = [
    ("a small file that is scanned", HELD, held(FIRST_FILE), HELD_TWO, 0),
    ("a file whose last byte is cut", HELD, held(FIRST_FILE[:-2]), "error: BadFile end", 3),
    ("a file with a byte behind it", HELD, held(FIRST_FILE + "00"), "error: BadFile end", 3),
    ("a file of another mark", HELD, held("57" + FIRST_FILE[2:]), "error: BadFile magic", 3),
    ("no bytes as a file", HELD, held(""), "error: BadFile magic", 3),
    ("a mark alone", HELD, held(FRONT), "error: BadFile header", 3),
    ("a cut header", HELD, held(FIRST_FILE[:30]), "error: BadFile header", 3),
    ("a header of a column twice", HELD, held(TWICE_HELD), "error: BadFile zones", 3),
    ("a header with a statistic of no column", HELD, held(NO_COLUMN), "error: BadFile header", 3),
    ("a file whose last range is damaged", HELD, held(FIRST_FILE[:-10] + "0214000000"), "error: BadFile column", 3),
    ("a damaged file by a filter of another type", HELD, held(FIRST_FILE[:-10] + "0214000000", binary(X, ">", lit("i64", 10))),
     "error: TypeMismatch filter", 4),
    ("damage in a column that isn't asked", HELD, held(ONE_ROW, TRUE, X), 'rows 1 / 127 / skipped - / columns "x" / reads 1', 0),
    ("damage in a column that is", HELD, held(ONE_ROW, TRUE, Y), "error: BadFile column", 3),
    ("a break before damage", HELD, held(ONE_ROW, NEXT_POSITIVE, Y), "error: Overflow", 5),
    ("damage beside a break", HELD, held(ONE_ROW, binary(NEXT_POSITIVE, "and", Y_POSITIVE), X), "error: BadFile column", 3),
    ("damage of what would break", HELD, held(NO_X, NEXT_POSITIVE, X), "error: BadFile column", 3),
    ("damage that no row asks", HELD, held(ONE_ROW, binary(X, "<", lit("i8", 0)), Y), 'rows 0 / skipped - / columns "x" / reads 1', 0),
    ("a break in a block before a damaged one", HELD, held(TWO_ROWS, NEXT_POSITIVE, X), "error: Overflow", 5),
    ("damage in a block behind another", HELD, held(TWO_ROWS, TRUE, X), "error: BadFile column", 3),
    ("damage before a break in a later block", HELD, held(LATE_DAMAGE, NEXT_POSITIVE, Y), "error: BadFile column", 3),
    ("damage in a block that is skipped", HELD, held(SKIPPED), 'rows 1 / 20 / skipped 0 / columns "x" / reads 1', 0),
    ("a cast that has no value in a file", HELD, held(block_files.answer(request(X8, [[[-1]]], TRUE, X)), TRUE, cast(X, "u8")), "error: BadCast", 5),
    ("a file without blocks that is scanned", HELD, held(UNBLOCKED_FILE), "rows 0 / skipped - / columns - / reads 0", 0),
    ("a catalog as a file", HELD, held_of(realistic()), REALISTIC, 0),
    ("a file of lying statistics", HELD, held_of(LYING), NO_FIVE, 0),
    *(("no scan of a file of %s" % name, HELD, asked, "error: " + told, status)
      for name, asked, told, status in [
          ("a cut request", b"{", "BadJson", 3), ("a list", b"[]", "BadRequest top", 3), ("16,777,217 spaces", b" " * LONG, "InputTooLong", 3),
          ("a request", FIRST, "BadRequest top", 3), ("a member more", {**held(FIRST_FILE), "stats": []}, "BadRequest top", 3),
          ("a member less", {"file": FIRST_FILE, "filter": X.hex()}, "BadRequest top", 3),
          ("a number", {**held(FIRST_FILE), "file": 7, "filter": 7}, "BadRequest file", 3),
          ("no filter", {**held("0"), "filter": 7, "projection": 7}, "BadRequest filter", 3),
          ("no projection", {**held("0"), "projection": None}, "BadRequest projection", 3),
          ("half a byte", {**held("0"), "filter": "0"}, "BadHex file", 3),
          ("half a byte of filter", {**held("00"), "filter": "0", "projection": "0"}, "BadHex filter", 3),
          ("half a byte of projection", {**held("00"), "projection": "zz"}, "BadHex projection", 3),
          ("other bytes and no expression", held("00", b"\0"), "BadFile magic", 3), ("no expression", held(FIRST_FILE, b"\0"), "BadWire filter", 4),
          ("no second expression", held(FIRST_FILE, X, b"\0"), "BadWire projection", 4), ("a filter of numbers", held(FIRST_FILE, X), "FilterNotBool", 4),
          ("another column", held(FIRST_FILE, TRUE, Y), "UnknownField projection", 4)]),
    *(("the scan of a file by %s" % " ".join(words), words, held(FIRST_FILE), "error: Usage", 2)
      for words in [["scan", "files"], ["scan", "file", "x"], ["file", "scan"], ["explain", "file"], ["scan", "built", "file"]]),
]


def rows():
    """All rows: a name, arguments, what is taken, the answer and the exit status."""
    for name, asked, told, status in ROWS:
        yield name, ["scan"], asked, told, status
    yield from WORDS
    yield from TOPS
    yield from FILES
    yield from SCANNED


def main():
    program = sys.argv[1] if len(sys.argv) > 1 else PROGRAM
    wrong = number = 0
    for name, words, taken, told, status in rows():
        number += 1
        given = taken if isinstance(taken, bytes) else json.dumps(taken).encode()
        ran = subprocess.run([program, *words], input=given, stdout=subprocess.PIPE, check=False)
        want = told.replace(" / ", "\n") + "\n"
        if ran.stdout.decode() != want or ran.returncode != status:
            wrong += 1
            print("%s: %d %r instead of %d %r" % (name, ran.returncode, ran.stdout.decode(), status, want))
    print("%d of %d rows agree" % (number - wrong, number))
    return 1 if wrong else 0


if __name__ == "__main__":
    sys.exit(main())
