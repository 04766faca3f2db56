"""The columns that filters ask, and the statistics that their pruning needs, by docs/SEMANTICS.md ("Asking", "Statistics", "Passes") and
docs/OTHER_LANGUAGES.md."""
import json

import wire
from predicates import DEAR_ITEMS
from schemas import CATALOG, ITEMS, MAYBE_PLACE, PLACE, SALES, TAGS, X, example_filter, table
from wire import ROOT, binary, cast, contains, item, like, lit, many, negated, null_test

PAIR = table([("x", "i32?"), ("y", "i32"), ("t", "utf8?")])
XI, YI, TI = item("x"), item("y"), item("t")
NESTED = table([("a", PLACE), ("m", MAYBE_PLACE), ("l", TAGS), ("n", "u8")])
CATALOG_FILTER, CATALOG_TABLE = example_filter("catalog")


def number(n):
    return lit("i32", n)


def over(of, sign, n=5):
    return binary(of, sign, number(n))


X_LARGE, Y_LARGE = over(XI, ">"), over(YI, ">")
QUOTED = ['a "b" \\', "größe\n", "\x01\x1f"]


def columns(name, schema, spelled, names):
    told = json.dumps(names, ensure_ascii=False, separators=(",", ":"))
    return {"name": "columns: " + name, "call": "filter_columns", "schema": schema, "filter": spelled.hex(), "text": told}


ASKED = [
    columns("of docs/OTHER_LANGUAGES.md", table(SALES), DEAR_ITEMS, ["price", "city"]),
    columns("of items.json", ITEMS, DEAR_ITEMS, ["price", "city"]),
    columns("of catalog.json", CATALOG_TABLE, bytes.fromhex(CATALOG_FILTER), ["name", "price", "address"]),
    columns("in the schema's order", PAIR, binary(Y_LARGE, "and", X_LARGE), ["x", "y"]),
    columns("one twice", PAIR, binary(X_LARGE, "or", over(XI, "<")), ["x"]),
    columns("none", PAIR, wire.TRUE, []),
    columns("none of none", table([]), wire.TRUE, []),
    columns("the row, so all", PAIR, null_test(ROOT), ["x", "y", "t"]),
    columns("of a pack the value that is taken", PAIR, item("a", wire.pack(("a", X_LARGE), ("b", Y_LARGE))), ["x"]),
    columns("of a select the field that is taken", PAIR, over(item("y", wire.select(ROOT, "x", "y")), ">"), ["y"]),
    columns("a struct for its field", NESTED, null_test(item("zip", item("m"))), ["m"]),
    columns(
        "names with quotes",
        table([(name, "bool") for name in QUOTED]),
        binary(item(QUOTED[2]), "and", binary(item(QUOTED[1]), "and", item(QUOTED[0]))),
        QUOTED,
    ),
]


def statistics(name, schema, spelled, needed):
    """Needed are pairs of a path, its names with a point between, and a statistic."""
    told = [{"path": path.split("."), "stat": stat} for path, stat in needed]
    told = json.dumps(told, ensure_ascii=False, separators=(",", ":"))
    return {"name": "statistics: " + name, "call": "filter_statistics", "schema": schema, "filter": spelled.hex(), "text": told}


def least(path):
    return (path, "min")


def greatest(path):
    return (path, "max")


def nulls(path):
    return (path, "null_count")


NEEDED = [
    statistics("of docs/OTHER_LANGUAGES.md", table(SALES), DEAR_ITEMS, [greatest("price"), least("city"), greatest("city")]),
    statistics(
        "of catalog.json", CATALOG_TABLE, bytes.fromhex(CATALOG_FILTER), [greatest("price"), least("address.city"), greatest("address.city")]
    ),
    statistics(">", PAIR, X_LARGE, [greatest("x")]),
    statistics(">=", PAIR, over(XI, ">="), [greatest("x")]),
    statistics("<", PAIR, over(XI, "<"), [least("x")]),
    statistics("<=", PAIR, over(XI, "<="), [least("x")]),
    statistics("=", PAIR, over(XI, "="), [least("x"), greatest("x")]),
    statistics("!=", PAIR, over(XI, "!="), [least("x"), greatest("x")]),
    statistics("of the right side", PAIR, binary(number(5), "<", XI), [greatest("x")]),
    statistics("of both sides", PAIR, binary(XI, "<", YI), [least("x"), greatest("y")]),
    statistics("of both sides of =", PAIR, binary(YI, "=", XI), [least("x"), greatest("x"), least("y"), greatest("y")]),
    statistics("a null test", PAIR, null_test(XI), [nulls("x")]),
    statistics("a negated null test", PAIR, negated(null_test(XI)), []),
    statistics("a null test of structs", NESTED, null_test(item("a")), []),
    statistics("a null test of a field of structs", NESTED, null_test(item("city", item("m"))), [nulls("m.city")]),
    statistics("a range", PAIR, wire.between(XI, number(1), number(9)), [least("x"), greatest("x")]),
    statistics("membership", PAIR, contains(lit(many("i32"), [1, 9]), XI), [least("x"), greatest("x")]),
    statistics("membership in nothing", PAIR, contains(lit(many("i32"), []), XI), []),
    statistics("LIKE", PAIR, like(TI, "a%"), []),
    statistics("and, of both", PAIR, binary(X_LARGE, "and", over(YI, "<")), [greatest("x"), least("y")]),
    statistics("and, of the one that has any", PAIR, binary(like(TI, "a%"), "and", X_LARGE), [greatest("x")]),
    statistics("or, of both", PAIR, binary(null_test(TI), "or", X_LARGE), [greatest("x"), nulls("t")]),
    statistics("or beside one without", PAIR, binary(X_LARGE, "or", like(TI, "a%")), []),
    statistics("a negation, of the inverse", PAIR, negated(X_LARGE), [least("x")]),
    statistics("a negated and", PAIR, negated(binary(X_LARGE, "and", over(YI, "<"))), [least("x"), greatest("y")]),
    statistics("of a sum", PAIR, binary(binary(XI, "+", number(1)), ">", number(5)), []),
    statistics("of a cast", PAIR, binary(cast(XI, "i64?"), ">", lit("i64", 5)), []),
    statistics("constants alone", PAIR, wire.TRUE, []),
    statistics("a column of booleans", table([("b", "bool")]), binary(item("b"), "=", lit("bool", True)), [least("b"), greatest("b")]),
    statistics("a column of booleans alone", table([("b", "bool")]), item("b"), []),
    statistics("names with quotes", table([(QUOTED[0], "i32")]), over(item(QUOTED[0]), ">"), [greatest(QUOTED[0])]),
    # catalog.json's columns in another filter, and one over the first of two types of a column
    statistics("u64", table(CATALOG), binary(item("id"), "<", lit("u64", 5)), [least("id")]),
    statistics("i64", X, binary(XI, "<", lit("i64", 5)), [least("x")]),
]

ROWS = [*ASKED, *NEEDED]
