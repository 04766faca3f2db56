"""Predicates and the bytes of the filters that they name, by docs/SQL.md and docs/FORMATS.md."""
import wire
from schemas import CATALOG, ITEMS, MAYBE_PLACE, PLACE, SALES, TABLE, TAGS, X, one, table
from wire import binary, cast, contains, item, like, lit, many, negated, null_test

X_ITEM = item("x")
MIXED = table([("a", "u8"), ("b", "i16?"), ("u", "u64"), ("t", "utf8?"), ("f", "bool?"), ("s", PLACE), ("m", MAYBE_PLACE), ("l", TAGS)])
A, B, U, T, F = (item(name) for name in "abutf")
NULL = lit("bool?", None)


def over_x(sign):
    return binary(X_ITEM, sign, lit("i64", 3))


def named(schema, predicate, spelled):
    return {"name": "the bytes of " + predicate, "call": "filter_bytes", "schema": schema, "predicate": predicate, "digits": spelled.hex()}


DEAR_ITEMS = binary(
    binary(item("price"), ">", lit("i32", 10)), "and", contains(lit(many("utf8"), ["Rome", "Oslo"]), item("city"))
)

ROWS = [
    # the filter of docs/OTHER_LANGUAGES.md, over its schema and over examples/items.json
    named(table(SALES), "price > 10 AND city IN ('Rome', 'Oslo')", DEAR_ITEMS),
    named(ITEMS, "city IN ('Rome', 'Oslo')", contains(lit(many("utf8"), ["Rome", "Oslo"]), item("city"))),
    # over examples/table.json and examples/catalog.json
    named(TABLE, "x = 3 OR x IS NULL", binary(over_x("="), "or", null_test(X_ITEM))),
    named(
        table(CATALOG),
        "price >= 100 AND name LIKE 'a%' AND address.city = 'Oslo'",
        binary(
            binary(binary(item("price"), ">=", lit("i64", 100)), "and", like(item("name"), "a%")),
            "and",
            binary(item("city", item("address")), "=", lit("utf8", "Oslo")),
        ),
    ),
    # each comparison, and the spellings of two
    *[named(X, "x %s 3" % sign, over_x(sign)) for sign in ["=", "!=", ">", ">=", "<", "<="]],
    named(X, "x == 3", over_x("=")),
    named(X, "x <> 3", over_x("!=")),
    named(X, "3 < x", binary(lit("i64", 3), "<", X_ITEM)),
    # the other forms
    named(X, "x + 1 > 3", binary(binary(X_ITEM, "+", lit("i64", 1)), ">", lit("i64", 3))),
    named(X, "0 - x > 3", binary(binary(lit("i64", 0), "-", X_ITEM), ">", lit("i64", 3))),
    named(X, "x BETWEEN 1 AND 9", wire.between(X_ITEM, lit("i64", 1), lit("i64", 9))),
    named(X, "x NOT BETWEEN 1 AND 9", negated(wire.between(X_ITEM, lit("i64", 1), lit("i64", 9)))),
    named(X, "x IN (1, NULL)", binary(contains(lit(many("i64"), [1]), X_ITEM), "or", NULL)),
    named(X, "x NOT IN (1, 2)", negated(contains(lit(many("i64"), [1, 2]), X_ITEM))),
    named(X, "x IS NOT NULL", negated(null_test(X_ITEM))),
    named(X, "NOT (x = 3)", negated(over_x("="))),
    named(X, "x = NULL", binary(X_ITEM, "=", lit("i64?", None))),
    named(X, "TRUE", wire.TRUE),
    named(X, "FALSE", lit("bool", False)),
    named(X, "NULL", NULL),
    named(table([]), "1 < 2", binary(lit("i64", 1), "<", lit("i64", 2))),
    # two integer types in the narrowest that has both, a cast, a boolean column, fields of structs, a list
    named(MIXED, "a < b", binary(cast(A, "i16"), "<", B)),
    named(MIXED, "CAST(b AS u8) = 1", binary(cast(B, "u8?"), "=", lit("u8", 1))),
    named(MIXED, "f", F),
    named(MIXED, "f = TRUE AND NOT f", binary(binary(F, "=", lit("bool", True)), "and", negated(F))),
    named(MIXED, "s.zip > 7", binary(item("zip", item("s")), ">", lit("u32", 7))),
    named(MIXED, "m.city IS NULL", null_test(item("city", item("m")))),
    named(MIXED, "l IS NULL", null_test(item("l"))),
    # both ends of types
    named(MIXED, "u = 18446744073709551615", binary(U, "=", lit("u64", 2**64 - 1))),
    named(MIXED, "b > -32768", binary(B, ">", lit("i16", -32768))),
    named(X, "x = -9223372036854775808", binary(X_ITEM, "=", lit("i64", -(2**63)))),
    # texts and names
    named(MIXED, "t = 'é''s'", binary(T, "=", lit("utf8", "é's"))),
    named(MIXED, "t NOT LIKE '_é%'", negated(like(T, "_é%"))),
    named(one("i8", 'größe "1"'), '"größe ""1""" = 1', binary(item('größe "1"'), "=", lit("i8", 1))),
    # what may stand round a predicate
    named(X, "x = 3;", over_x("=")),
    named(X, "(x = 3) -- note", over_x("=")),
    named(X, "\n\tx /* of */ = 3 ", over_x("=")),
    # the blocks and the statistics of a schema count for nothing
    named(table([("x", "i64")], [{"rows": 1, "values": [[4]]}], stats=[{"path": ["x"], "stat": "max", "values": [0]}]), "x = 3", over_x("=")),
]
