"""Rows at which filters are true, by meaning.py, over columns in the layout of layout.py."""
import json

from layout import INTEGERS, arrays, bits, column as buffers_of, ends, laid_out, letters, numbers, offsets
from meaning import NoValue, between, both, cast, column, compared, constant, either, is_null, like, member, negated, summed
from schemas import MAYBE_PLACE, TAGS, X, example, example_filter, one, table
from wire import binary, item, lit
import wire


def asked(name, schema, spelled, count, given):
    return {"name": "rows: " + name, "call": "rows", "schema": schema, "filter": spelled.hex(), "rows": count, **given}


def rows(name, chosen, columns, count=None, **form):
    """Columns are names with a type and values each."""
    kinds = [(column_name, kind) for column_name, (kind, _) in columns.items()]
    count = len(next(iter(columns.values()))[1]) if count is None else count
    told = [{column_name: values[place] for column_name, (_, values) in columns.items()} for place in range(count)]
    row = asked(name, table(kinds), chosen.spelled, count, arrays(list(columns.values()), **form))
    try:
        return {**row, "digits": bits([chosen.mean(each) is True for each in told]).hex()}
    except NoValue as refusal:
        return {**row, "status": {"Overflow": 5, "BadCast": 11}[str(refusal)], "text": str(refusal)}


def example_columns(name, asked_names):
    """Columns of a table of examples/: of each its type and its cells in all blocks, one after another."""
    told = json.loads(example(name))
    places = {field["name"]: place for place, field in enumerate(told["columns"])}
    return {
        asked_name: (told["columns"][places[asked_name]]["type"], [cell for block in told["blocks"] for cell in block["values"][places[asked_name]]])
        for asked_name in asked_names
    }


PRICE, CITY, NAME = column("price", "i32?"), column("city", "utf8"), column("name", "utf8")
X_COLUMN, A, B, T = column("x", "i64?"), column("a", "bool?"), column("b", "bool?"), column("t", "utf8?")
DEAR = both(compared(PRICE, ">", constant("i32", 10)), member(CITY, ["Rome", "Oslo"]))
THREE = [True, False, None]


def i64(n):
    return constant("i64", n)


EXAMPLES = [
    rows("of docs/OTHER_LANGUAGES.md", DEAR, {"price": ("i32?", [12, 8, None, 30, 3]), "city": ("utf8", ["Rome", "Oslo", "Rome", "Oslo", "Bern"])}),
    rows("of items.json", DEAR, example_columns("items", ["price", "city"])),
    rows("of items.json, prices unknown", is_null(PRICE), example_columns("items", ["price"])),
    rows("of items.json, names", like(NAME, "%e_s%"), example_columns("items", ["name"])),
    rows("of items.json, cities and names", both(compared(CITY, ">=", constant("utf8", "Oslo")), compared(NAME, "<", constant("utf8", "cheese"))),
         example_columns("items", ["name", "city"])),
    rows("of table.json", either(compared(X_COLUMN, "=", i64(3)), is_null(X_COLUMN)), example_columns("table", ["x"])),
    rows("of table.json, negated", negated(compared(X_COLUMN, "=", i64(3))), example_columns("table", ["x"])),
    rows("of catalog.json", both(compared(column("price", "i64"), ">=", i64(100)), like(column("name", "utf8?"), "a%")),
         example_columns("catalog", ["name", "price"])),
]


def at_both_ends(kind):
    low, high = ends(kind)
    of, values = column("x", kind), [low, low + 1, high - 1, high, None, 5]
    chosen = either(compared(of, "=", constant(kind, high)), compared(of, "<=", constant(kind, low)))
    return [
        rows("both ends of " + kind, chosen, {"x": (kind, values[:4])}),
        rows("both ends of %s and null" % kind, chosen, {"x": (kind + "?", values)}),
        rows("between the ends of " + kind, between(of, constant(kind, low + 1), constant(kind, high - 1)), {"x": (kind + "?", values)}),
    ]


PAIRS = {"a": ("bool?", [a for a in THREE for _ in THREE]), "b": ("bool?", THREE * 3)}
LOGIC = [
    rows("a and b", both(A, B), PAIRS),
    rows("a or b", either(A, B), PAIRS),
    rows("not a", negated(A), PAIRS),
    rows("not (a and b)", negated(both(A, B)), PAIRS),
    rows("not (a or b)", negated(either(A, B)), PAIRS),
    rows("a = b", compared(A, "=", B), PAIRS),
    rows("a < b", compared(A, "<", B), PAIRS),
    rows("null", constant("bool?", None), PAIRS),
    rows("true", constant("bool", True), {"a": ("bool", [False] * 9)}),
    rows("true, without columns", constant("bool", True), {}, 13),
    rows("true, without rows", constant("bool", True), {}, 0),
]

NUMBERS = [None if place % 5 == 4 else place * 37 % 101 - 50 for place in range(65)]
WORDS = ["", "a", "ab", "Zürich", "é", "日本", None, "z", "\0"]
COUNTS = [0, 1, 7, 8, 9, 65]
SIGNS = ["=", "!=", ">", ">=", "<", "<="]

FORMS = [
    *[rows("%d rows" % count, compared(X_COLUMN, "<", i64(1000)), {"x": ("i64", list(range(count)))}) for count in COUNTS],
    *[rows("%d rows, some of them null" % count, compared(X_COLUMN, "<", i64(0)), {"x": ("i64?", NUMBERS[:count])}, always=True) for count in COUNTS],
    *[rows("x %s -13" % sign, compared(X_COLUMN, sign, i64(-13)), {"x": ("i64?", NUMBERS)}) for sign in SIGNS],
    *[rows("t %s é" % sign, compared(T, sign, constant("utf8", "é")), {"t": ("utf8?", WORDS)}) for sign in SIGNS],
    rows("a sum", compared(summed(X_COLUMN, "+", i64(1)), ">", i64(0)), {"x": ("i64?", NUMBERS)}),
    rows("a difference", compared(summed(i64(0), "-", X_COLUMN), ">", i64(20)), {"x": ("i64?", NUMBERS)}),
    rows("membership", member(X_COLUMN, [-50, 24, 11]), {"x": ("i64?", NUMBERS)}),
    rows("not in", negated(member(X_COLUMN, [-50, 24, 11])), {"x": ("i64?", NUMBERS)}),
    rows("like two characters", like(T, "_本"), {"t": ("utf8?", WORDS)}),
    rows("not like", negated(like(T, "%")), {"t": ("utf8?", WORDS)}),
    rows("the empty text", compared(T, "=", constant("utf8", "")), {"t": ("utf8", ["", "", "a"])}),
    rows("a null test of no null", is_null(T), {"t": ("utf8", ["", "a"])}),
    rows("a column of booleans", A, {"a": ("bool?", THREE * 3)}),
    rows("three columns", either(both(compared(X_COLUMN, ">", i64(0)), A), compared(T, "=", constant("utf8", "b"))),
         {"x": ("i64", [1, 0, 1, 0, -9]), "a": ("bool?", [True, True, None, False, True]), "t": ("utf8?", ["a", "b", None, "bb", None])}),
    rows("the ends of u8 in a sum", compared(summed(column("n", "u8"), "+", constant("u8", 10)), ">", constant("u8", 200)), {"n": ("u8", [245, 3, 4])}),
    rows("a cast that fits", compared(cast(X_COLUMN, "u8?"), "=", constant("u8", 1)), {"x": ("i64?", [1, None, 255, 0])}),
    # sums and casts that have no value at a row; under a null none counts
    rows("a sum past its type", compared(summed(column("n", "u8"), "+", constant("u8", 10)), ">", constant("u8", 200)), {"n": ("u8", [3, 246])}),
    rows("a difference below its type", compared(summed(column("n", "u8"), "-", constant("u8", 4)), ">", constant("u8", 0)), {"n": ("u8?", [3, None])}),
    rows("the least number negated", compared(summed(i64(0), "-", X_COLUMN), "=", i64(0)), {"x": ("i64?", [1, None, -(2**63)])}),
    rows("a cast past its type", compared(cast(X_COLUMN, "u8?"), "=", constant("u8", 1)), {"x": ("i64?", [1, None, 256])}),
    rows("a cast below its type", compared(cast(X_COLUMN, "u8?"), "=", constant("u8", 1)), {"x": ("i64?", [-1])}),
]

# expressions of structs, each row written out; each node counts for a sum without a value, also where a side is false or a field isn't taken

N = item("n")
N_LARGE, N_NEXT_LARGE = binary(N, ">", lit("u8", 1)), binary(binary(N, "+", lit("u8", 1)), ">", lit("u8", 1))
GREATEST = [0, 2, 255]


def of_n(name, spelled, wanted, values=GREATEST, kind="u8"):
    return {**asked(name, one(kind, "n"), spelled, len(values), arrays([(kind, values)])), "digits": letters(wanted).hex()}


def past(name, spelled):
    return {**asked(name, one("u8", "n"), spelled, 3, arrays([("u8", GREATEST)])), "status": 5, "text": "Overflow"}


STRUCTS = [
    of_n("a field of a pack", item("a", wire.pack(("b", wire.TRUE), ("a", N_LARGE))), "011"),
    of_n("a field of a select", binary(item("n", wire.select(wire.ROOT, "n")), ">", lit("u8", 1)), "011"),
    of_n("a field of a merge, of the last that has it", item("a", wire.merge(wire.pack(("a", wire.TRUE)), wire.pack(("a", N_LARGE)))), "011"),
    of_n("a null test of the row", wire.null_test(wire.ROOT), "000"),
    of_n("a strict range", wire.between(N, lit("u8", 0), lit("u8", 255), lower_strict=True, upper_strict=True), "010"),
    of_n("a range between null and a bound", wire.between(N, lit("u8?", None), lit("u8", 2)), "000"),
    of_n("not in a range between null and a bound", wire.negated(wire.between(N, lit("u8?", None), lit("u8", 2))), "001"),
    of_n("membership in a list with null", wire.contains(lit(wire.many("u8?"), [None, 2]), N), "010"),
    of_n("not in a list with null", wire.negated(wire.contains(lit(wire.many("u8?"), [None, 2]), N)), "101"),
    past("a sum past its type where the other side is false", binary(lit("bool", False), "and", N_NEXT_LARGE)),
    past("a sum past its type in a field that isn't taken", item("a", wire.pack(("a", N_LARGE), ("b", N_NEXT_LARGE)))),
]

# one body by hand: three numbers, and bits behind them

THREE_NUMBERS = numbers("i64", [1, 2, 3]) + b"\7"
LARGE = compared(column("x", "i64"), ">", i64(1))
TEXTS = compared(T, "=", constant("utf8", "ab"))


def of_three(name, places, wanted, count=3, kind="i64"):
    return {**asked(name, one(kind), LARGE.spelled, count, {"body": THREE_NUMBERS.hex(), "buffers": places}), "digits": letters(wanted).hex()}


def of_texts(name, buffers, wanted, kind="utf8?", count=3):
    return {**asked(name, one(kind, "t"), TEXTS.spelled, count, laid_out(buffers)), "digits": letters(wanted).hex()}


PLACES = [
    of_three("without a validity", [0, 0, 0, 24], "011"),
    of_three("with a validity, and values longer than the rows need", [24, 1, 0, 25], "011"),
    of_three("an empty buffer at the body's end", [25, 0, 0, 24], "01", count=2),
    of_three("values within other bytes", [0, 0, 8, 16], "11", count=2),
    of_three("no row, and values of no bytes", [0, 0, 0, 0], "", count=0),
    of_three("no row, and values of some", [0, 0, 3, 5], "", count=0),
    of_texts("offsets that begin past 0", [b"", offsets(2, 4, 4, 6), b"xxabab"], "101"),
    of_texts("offsets that leave bytes behind", [b"", offsets(0, 2, 3, 4), b"abababab"], "100"),
    of_texts("one offset more than the rows need", [b"", offsets(0, 2, 3, 5, 1), b"abaab"], "101"),
    of_texts("what is no text under a null", [b"\3", offsets(0, 2, 2, 4), b"ab\xff\xff"], "100"),
    of_texts("offsets and bytes of no text", [b"", offsets(0, 0, 0, 0), b""], "000"),
    of_texts("no row, and no offsets", [b"", b"", b""], "", count=0),
    of_texts("no row, and one offset", [b"", offsets(9), b""], "", count=0),
    rows("bytes between the buffers", DEAR, {"price": ("i32?", [12, None]), "city": ("utf8", ["Oslo", "Rome"])},
         before=b"\xff", between=b"\xff" * 3, behind=b"\xff"),
]


def refused(name, line, schema, spelled, count, given):
    return {**asked(name, schema, spelled, count, given), "status": 10, "text": line}


def wrong(name, count, places):
    return refused(name, "WrongBuffers", X, LARGE.spelled, count, {"body": THREE_NUMBERS.hex(), "buffers": places})


def wrong_texts(name, line, buffers, kind="utf8?", count=3):
    return refused(name, line, one(kind, "t"), TEXTS.spelled, count, laid_out(buffers))


def null_in(kind, values):
    return refused("null in " + kind, "NullCell", one(kind), is_null(column("x", kind)).spelled, len(values), arrays([(kind, values)]))


NULLS = is_null(column("x", "i64")).spelled
CATALOG_FILTER, CATALOG_TABLE = example_filter("catalog")
REFUSED = [
    wrong("no buffers", 3, []),
    wrong("half a place", 3, [0]),
    wrong("a validity alone", 3, [0, 0]),
    wrong("an odd number of numbers, too few", 3, [0, 0, 0]),
    wrong("an odd number of numbers, too many", 3, [0, 0, 0, 24, 0]),
    wrong("one buffer too many", 3, [0, 0, 0, 24, 0, 0]),
    wrong("values too short by a row", 4, [0, 0, 0, 24]),
    wrong("values too short by a byte", 3, [0, 0, 0, 23]),
    wrong("values past the body's end", 3, [0, 0, 0, 26]),
    wrong("values that begin too late", 3, [0, 0, 2, 24]),
    wrong("an empty buffer behind the body", 3, [26, 0, 0, 24]),
    wrong("a first byte near 2^64", 3, [0, 0, 2**64 - 8, 24]),
    wrong("a length near 2^64", 3, [0, 0, 8, 2**64 - 1]),
    wrong("a validity too short by a byte", 9, [24, 1, 0, 25]),
    wrong("2^64 - 1 rows", 2**64 - 1, [0, 0, 0, 24]),
    wrong("2^61 rows", 2**61, [0, 0, 0, 24]),
    refused("booleans too short by a byte", "WrongBuffers", one("bool"), column("x", "bool").spelled, 9, laid_out([b"", b"\xff"])),
    wrong_texts("offsets too short by a byte", "WrongBuffers", [b"", offsets(0, 2, 2, 2)[:-1], b"ab"]),
    wrong_texts("offsets of as many as the rows", "WrongBuffers", [b"", offsets(0, 2, 2), b"ab"]),
    wrong_texts("offsets backwards", "WrongBuffers", [b"", offsets(0, 2, 1, 2), b"ab"]),
    wrong_texts("offsets backwards under nulls", "WrongBuffers", [b"\0", offsets(0, 2, 1, 2), b"ab"]),
    wrong_texts("an offset past the bytes", "WrongBuffers", [b"", offsets(0, 2, 2, 3), b"ab"]),
    wrong_texts("offsets past the bytes, of empty texts", "WrongBuffers", [b"", offsets(3, 3, 3, 3), b"ab"]),
    wrong_texts("the greatest offsets", "WrongBuffers", [b"", offsets(*[2**32 - 1] * 4), b""]),
    wrong_texts("texts without their bytes", "WrongBuffers", [b"", offsets(0, 0, 0, 0)]),
    wrong_texts("a byte of no character", "BadText", [b"", offsets(0, 2, 3, 3), b"ab\xff"]),
    wrong_texts("a character in more bytes than it needs", "BadText", [b"", offsets(0, 2, 2, 2), b"\xc0\x80"]),
    wrong_texts("half a pair", "BadText", [b"", offsets(0, 3, 3, 3), b"\xed\xa0\x80"]),
    wrong_texts("a character past the last", "BadText", [b"", offsets(0, 4, 4, 4), b"\xf4\x90\x80\x80"]),
    wrong_texts("two texts that share a character", "BadText", [b"", offsets(0, 1, 2, 2), "é".encode()]),
    wrong_texts("no text, and a null where there may be none", "BadText", [b"\6", offsets(0, 1, 2, 3), b"ab\xff"], kind="utf8"),
    null_in("bool", [True, None]),
    null_in("u8", [None, 1]),
    null_in("i64", [1, 2, None]),
    null_in("utf8", ["", None]),
    refused("a list", "NoArray", one(TAGS), NULLS, 1, laid_out([])),
    refused("a struct", "NoArray", one(MAYBE_PLACE), NULLS, 1, arrays([("i64", [1])])),
    refused("catalog.json, of which no narrower schema was made", "NoArray", CATALOG_TABLE, bytes.fromhex(CATALOG_FILTER), 1,
            arrays([("u64", [1]), ("utf8?", ["a"]), ("i64", [100])])),
    # the first column that is refused
    refused("a list before too few buffers", "NoArray", table([("l", TAGS), ("x", "i64")]), NULLS, 1, laid_out([])),
    refused("too few buffers before a list", "WrongBuffers", table([("x", "i64"), ("l", TAGS)]), NULLS, 1, laid_out([])),
    refused("a null before too few buffers", "NullCell", table([("x", "i64"), ("y", "i64")]), NULLS, 2, arrays([("i64", [1, None])])),
    refused("too few buffers before a null", "WrongBuffers", table([("y", "i64"), ("x", "i64")]), NULLS, 2,
            laid_out([b"", numbers("i64", [1]), *buffers_of("i64", [1, None])])),
    refused("a null before a buffer too many", "NullCell", X, NULLS, 2, laid_out([*buffers_of("i64", [1, None]), b""])),
    # the arrays before what breaks at a row
    refused("a null before a sum past its type", "NullCell", table([("n", "u8"), ("x", "i64")]),
            compared(summed(column("n", "u8"), "+", constant("u8", 10)), ">", constant("u8", 200)).spelled, 1, arrays([("u8", [255]), ("i64", [None])])),
]

ROWS = [*EXAMPLES, *[row for kind in INTEGERS for row in at_both_ends(kind)], *LOGIC, *FORMS, *STRUCTS, *PLACES, *REFUSED]
