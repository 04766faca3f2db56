"""Refusals of schemas, of predicates and of filters, by docs/OTHER_LANGUAGES.md, docs/FORMATS.md ("Requests", "Wire form") and docs/SQL.md ("What is
refused")."""
import wire
from layout import laid_out
from predicates import DEAR_ITEMS
from schemas import MAYBE_PLACE, SALES, X, example, table
from wire import ROOT, binary, item, lit, negated, node, null_test

X_LARGE = binary(item("x"), ">", lit("i64", 1))
CALLS = ["filter_bytes", "filter_columns", "filter_statistics", "rules_out", "rows"]


def asked(call, schema, spelled, predicate="x > 1"):
    given = {"predicate": predicate} if call == "filter_bytes" else {"filter": spelled.hex()}
    return {"call": call, "schema": schema, **given}


def of_schema(schema, line, calls=("filter_bytes",), **more):
    name = "a schema, %s: %s" % (line, schema.strip()[:60])
    return [{"name": name, **asked(call, schema, X_LARGE), **more, "status": 3, "text": line} for call in calls]


def lists(levels):
    kind = "bool"
    for _ in range(levels):
        kind = {"list": kind, "nullable": False}
    return kind


def with_stats(*stats, blocks=()):
    return table([("x", "i64")], blocks, stats=[{"path": path, "stat": stat, "values": values} for path, stat, values in stats])


ONE_BLOCK = [{"rows": 1, "values": [[1]]}]
SCHEMAS = [
    *of_schema("", "BadJson", CALLS),
    *of_schema("{", "BadJson"),
    *of_schema(X + "}", "BadJson"),
    *of_schema("[" * 128 + "]" * 128, "BadJson"),
    *of_schema(" " * 24_929, "InputTooLong", times=673),
    *of_schema(" " * 4096, "BadJson", times=4096),
    *of_schema("[]", "BadRequest top"),
    *of_schema('{"columns":[]}', "BadRequest top", CALLS),
    *of_schema(example("first"), "BadRequest top"),
    *of_schema('{"columns":[{"name":"x"}],"blocks":[]}', "BadRequest columns"),
    *of_schema(table([("x", "i63")]), "BadRequest columns"),
    *of_schema(table([("x", "i64 ?")]), "BadRequest columns"),
    *of_schema('{"columns":[],"blocks":[1]}', "BadRequest blocks"),
    *of_schema('{"columns":[],"blocks":[],"stats":1}', "BadRequest stats"),
    *of_schema('{"columns":1,"blocks":1,"stats":1}', "BadRequest columns"),
    *of_schema(table([("x", "i64"), ("x", "i64")]), "BadTable DuplicateName", CALLS),
    *of_schema(table([("x", lists(64))]), "BadTable DeepType"),
    *of_schema(with_stats((["y"], "min", [])), "BadTable BadStatPath"),
    *of_schema(with_stats((["x"], "min", []), (["x"], "min", [])), "BadTable DuplicateStat"),
    *of_schema(with_stats((["x"], "min", [1])), "BadTable WrongStatCount"),
    *of_schema(with_stats((["x"], "min", ["1"]), blocks=ONE_BLOCK), "BadTable WrongStatType"),
    *of_schema(table([("x", "i64")], [{"rows": 2, "values": [[1]]}]), "BadTable WrongLength"),
    *of_schema(table([("x", "i64")], [{"rows": 1, "values": [[None]]}]), "BadTable WrongValue"),
    # a type of 64 levels is taken
    {"name": "a type of 64 levels", **asked("filter_bytes", table([("x", lists(63))]), b"", "x IS NULL"), "digits": null_test(item("x")).hex()},
    # the schema before the predicate
    {"name": "a schema and a predicate", "call": "filter_bytes", "schema": "{", "predicate_digits": "ff", "status": 3, "text": "BadJson"},
]

MIXED = table([("x", "i64"), ("t", "utf8?"), ("m", MAYBE_PLACE), ("u", "u64")])
# `SELECT * FROM t WHERE ` stands before a predicate
BEFORE = 22


def predicate(text, line, schema=X):
    return {"name": "the predicate " + text[:60], **asked("filter_bytes", schema, b"", text), "status": 4, "text": line}


def unread(marked, what):
    """A predicate in which nothing can be read where the mark stands."""
    before, behind = marked.split("¦")
    return predicate(before + behind, "at byte %d: %s" % (BEFORE + len(before.encode()), what))


EARLY = "the statement ends too early"
PREDICATES = [
    {"name": "a predicate that isn't UTF-8", "call": "filter_bytes", "schema": X, "predicate_digits": b"x > '\xff'".hex(), "status": 4, "text": "NotUtf8"},
    {"name": "half a character", "call": "filter_bytes", "schema": X, "predicate_digits": "c3", "status": 4, "text": "NotUtf8"},
    # docs/OTHER_LANGUAGES.md's own, and one of each kind of docs/SQL.md
    predicate("cost > 10", "WHERE: no column cost; the columns are price, city", table(SALES)),
    unread("¦", EARLY),
    unread("x >¦", EARLY),
    unread("(x > 1¦", EARLY),
    unread("x > 1¦)", "\")\" can't be read here"),
    unread("x ¦x", "\"x\" can't be read here"),
    unread("x > 1¦\0", "a byte 0 can't be read"),
    unread("x > 1; ¦SELECT 1", "a second statement"),
    unread("x > 1; ¦DROP TABLE t", "a second statement"),
    predicate("(" * 400 + "x > 1" + ")" * 400, "the statement is too deep"),
    predicate("x > 1 UNION SELECT * FROM t", "UNION, EXCEPT and INTERSECT are not taken"),
    predicate("x > 1 GROUP BY x", "GROUP BY is not taken"),
    predicate("x > ?", "parameters are not taken"),
    predicate("x", "WHERE: x is i64, no boolean"),
    predicate("x > 'a'", "WHERE: x is i64, 'a' is a text"),
    predicate("x = 9223372036854775808", "WHERE: 9223372036854775808 is no i64"),
    predicate("x = 10000000000000000000000000000000000000000", "WHERE: the number 10000000000000000000000000000000000000000 is of no integer type"),
    predicate("u > x", "WHERE: no integer type holds both u64 and i64; cast one of the two", MIXED),
    predicate("m.town = 'a'", "WHERE: no field town of the column m", MIXED),
    predicate("CAST(t AS i64) = 1", "WHERE: t is utf8?, which isn't cast to i64", MIXED),
    predicate("x IN (u, 1)", "WHERE: u is no constant", MIXED),
    # what is taken, but orders or limits, the order first
    predicate("x > 1 ORDER BY x", "Ordered"),
    predicate("x > 1 ORDER BY x DESC LIMIT 3", "Ordered"),
    predicate("x > 1 LIMIT 3", "Limited"),
    predicate("x > 1 LIMIT 0", "Limited"),
    predicate("x > 1 ORDER BY y", "ORDER BY: no column y; the columns are x"),
    predicate("x > 1 LIMIT 3 OFFSET 1", "OFFSET is not taken"),
]


def of_filter(name, line, spelled, schema=X, call="filter_columns"):
    """A filter that is refused, before the arrays, of which there are none."""
    row = asked(call, schema, spelled)
    more = {"lengths": [1], **laid_out([])} if call == "rules_out" else {"rows": 1, **laid_out([])} if call == "rows" else {}
    return {"name": "a filter: " + name, **row, **more, "status": 4, "text": line}


def by_each(name, line, spelled, schema=X):
    return [of_filter(name, line, spelled, schema, call) for call in CALLS[1:]]


OPEN_NOT = bytes([3]) + b"not" + bytes([0, 1])
NULLABLE = table([("m", MAYBE_PLACE)])
FILTERS = [
    *by_each("no bytes", "BadWire", b""),
    of_filter("a byte too few", "BadWire", X_LARGE[:-1]),
    of_filter("a byte too many", "BadWire", X_LARGE + b"\0"),
    of_filter("a length in two bytes", "BadWire", b"\x84\0root\0\0"),
    *by_each("256 open nodes", "TooDeep", OPEN_NOT * 256 + ROOT),
    of_filter("255 open nodes", "TypeMismatch", OPEN_NOT * 255 + ROOT),
    of_filter("4,097 nodes", "TooManyNodes", node("", b"", *[ROOT] * 4096), call="rows"),
    of_filter("4,096 nodes of no kind", "UnknownExpr", node("", b"", *[ROOT] * 4095), call="rules_out"),
    *by_each("no such kind", "UnknownExpr", X_LARGE.replace(b"binary", b"bynary")),
    of_filter("a comparison with a slot", "UnknownExpr", node("dynamic", b"", item("x"))),
    *by_each("no such operator", "BadMetadata", node("binary", bytes([10]), item("x"), item("x"))),
    *by_each("a negation of nothing", "WrongChildren", node("not")),
    of_filter("a child before its parent", "WrongChildren", node("bynary", b"", node("not"))),
    *by_each("a field of a number", "NotStruct", null_test(item("y", item("x")))),
    *by_each("a select of a nullable struct", "NullableSelect", null_test(wire.select(item("m"), "city")), NULLABLE),
    *by_each("no such column", "UnknownField", binary(item("y"), ">", lit("i64", 1))),
    *by_each("a pack with a name twice", "DuplicateField", null_test(wire.pack(("a", item("x")), ("a", item("x"))))),
    *by_each("a number of another type", "TypeMismatch", binary(item("x"), ">", lit("i32", 1))),
    of_filter("a filter over another schema", "TypeMismatch", DEAR_ITEMS, table([("price", "i64"), ("city", "utf8")])),
    of_filter("a negation of a number", "TypeMismatch", negated(item("x"))),
    *by_each("the row", "FilterNotBool", ROOT),
    of_filter("a number", "FilterNotBool", item("x")),
    # the first node that refuses, and the typing before the boolean
    of_filter("an unknown column before another type", "UnknownField", binary(item("y"), ">", lit("i32", 1)), call="rows"),
    of_filter("another type before no boolean", "TypeMismatch", binary(item("x"), "+", lit("i32", 1)), call="rules_out"),
]

# those that no call here comes to
NAMED = [
    {"name": "a refusal: " + name, "call": "answer_of", "refusal": name, "status": status, "text": line}
    for name, status, line in [
        ("no memory", 8, ""),
        ("many blocks", 10, "ManyBlocks"),
        ("a type too deep", 4, "NotSerializable"),
        ("a part too long", 4, "TooLong"),
        ("the filter of a request", 3, "BadRequest filter"),
        ("the projection of a request", 3, "BadRequest projection"),
        ("the digits of a filter", 3, "BadHex filter"),
        ("the digits of a projection", 3, "BadHex projection"),
    ]
]

ROWS = [*SCHEMAS, *PREDICATES, *FILTERS, *NAMED]
