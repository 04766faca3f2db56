"""Blocks that filters rule out, by the table of docs/SEMANTICS.md ("Statistics"): each answer is written out, a letter a block, `1` where the block is ruled
out."""
import wire
from asked import CATALOG_FILTER, CATALOG_TABLE, PAIR, X_LARGE, XI, YI, over
from layout import arrays, column, ends, laid_out, letters, numbers, offsets
from layout import INTEGERS
from predicates import DEAR_ITEMS
from schemas import MAYBE_PLACE, SALES, one, table
from wire import binary, contains, item, like, lit, many, negated, null_test


def asked(name, schema, spelled, lengths, given):
    return {"name": "blocks: " + name, "call": "rules_out", "schema": schema, "filter": spelled.hex(), "lengths": lengths, **given}


def blocks(name, schema, spelled, cells, wanted, lengths=None, **form):
    """Cells are pairs of a type, that of a statistic, and its values in the blocks."""
    given = arrays([(kind + "?", values) for kind, values in cells], **form)
    return {**asked(name, schema, spelled, lengths or [3] * len(wanted), given), "digits": letters(wanted).hex()}


def of_x(sign, cells, wanted):
    return blocks("x %s 10" % sign, PAIR, over(XI, sign, 10), [("i32", values) for values in cells], wanted)


def at_both_ends(kind):
    """The least and the greatest number of a type as bounds and as constants."""
    low, high = ends(kind)
    spelled = [binary(XI, ">=", lit(kind, high)), binary(XI, "<=", lit(kind, low)), binary(XI, "=", lit(kind, high))]
    return [
        blocks("the greatest of " + kind, one(kind), spelled[0], [(kind, [high, high - 1, None, low])], "0101"),
        blocks("the least of " + kind, one(kind + "?"), spelled[1], [(kind, [low, low + 1, None, high])], "0101"),
        blocks("both bounds of " + kind, one(kind), spelled[2], [(kind, [low, high, low, None]), (kind, [high, high, high - 1, None])], "0010"),
    ]


def so_many(count):
    """Blocks with the greatest values 0, 1, 2 and so on to 6, and again."""
    values = [place % 7 for place in range(count)]
    return blocks("%d blocks" % count, PAIR, X_LARGE, [("i32", values)], "".join("01"[value <= 5] for value in values), lengths=[1] * count)


CITIES = [("i32", [12, 30, 7]), ("utf8", ["Oslo", "Bern", "Oslo"]), ("utf8", ["Rome", "Bonn", "Rome"])]
BOOLS = one("bool", "b")
MEMBER = contains(lit(many("i32"), [5, 20]), XI)

RULED_OUT = [
    blocks("of docs/OTHER_LANGUAGES.md", table(SALES), DEAR_ITEMS, CITIES, "011"),
    blocks("of catalog.json, cities unknown", CATALOG_TABLE, bytes.fromhex(CATALOG_FILTER), [
        ("i64", [90, 250, 300, 400, 20, 500, 800, 1000]), ("utf8", [None] * 8), ("utf8", [None] * 8)], "10001000"),
    blocks("of catalog.json, cities known", CATALOG_TABLE, bytes.fromhex(CATALOG_FILTER), [
        ("i64", [90, 250, 300, 400, 20, 500, 800, 1000]),
        ("utf8", ["Oslo", "Bonn", "Oslo", "Oslo", "Oslo", "Rome", "Oslo", "Oslo"]),
        ("utf8", ["Rome", "Oslo", "Oslo", "Oslo", "Oslo", "Rome", "Oslo", "Oslo"])], "10001100"),
    # each comparison, with bounds below, at and above the constant, and unknown
    of_x(">", [[9, 10, 11, None]], "1100"),
    of_x(">=", [[9, 10, 11, None]], "1000"),
    of_x("<", [[9, 10, 11, None]], "0110"),
    of_x("<=", [[9, 10, 11, None]], "0010"),
    of_x("=", [[8, 9, 10, 10, 11, None, None, 11, None], [9, 10, 10, 11, 12, 9, 11, None, None]], "100011010"),
    of_x("!=", [[10, 9, 10, None, 10, None], [10, 10, 11, 10, None, None]], "100000"),
    blocks("10 < x", PAIR, binary(lit("i32", 10), "<", XI), [("i32", [9, 10, 11, None])], "1100"),
    blocks("x < y", PAIR, binary(XI, "<", YI), [("i32", [5, 5, 5, None, 5]), ("i32", [4, 5, 6, 4, None])], "11000"),
    # ranges, membership, null tests
    blocks("a range", PAIR, wire.between(XI, lit("i32", 1), lit("i32", 9)), [("i32", [0, 9, 10, None, None]), ("i32", [0, 12, 12, 0, None])], "10110"),
    blocks("membership", PAIR, MEMBER, [("i32", [6, 5, 1, 21, None, 21, None, 1]), ("i32", [19, 10, 4, 30, 4, None, None, 20])], "10111100"),
    blocks("membership in nothing", PAIR, contains(lit(many("i32"), []), XI), [], "111", lengths=[3, 0, 1]),
    blocks("a null test", PAIR, null_test(XI), [("u64", [0, 1, None, 2**64 - 1])], "1000"),
    blocks("a null test of a field", table([("m", MAYBE_PLACE)]), null_test(item("zip", item("m"))), [("u64", [0, 3])], "10"),
    # and, or, negations
    blocks("and", PAIR, binary(X_LARGE, "and", over(YI, "<")), [("i32", [5, 6, 6, None]), ("i32", [0, 0, 5, 5])], "1011"),
    blocks("or", PAIR, binary(X_LARGE, "or", over(YI, "<")), [("i32", [5, 6, 5, None]), ("i32", [0, 5, 5, 5])], "0010"),
    blocks("and beside LIKE", PAIR, binary(like(item("t"), "a%"), "and", X_LARGE), [("i32", [5, 6])], "10"),
    blocks("a negation", PAIR, negated(X_LARGE), [("i32", [5, 6, None])], "010"),
    blocks("a negated and", PAIR, negated(binary(X_LARGE, "and", over(YI, "<"))), [("i32", [6, 6, 5]), ("i32", [4, 5, 4])], "100"),
    # no statistics are needed: a constant, a sum, LIKE; a block without rows too
    blocks("true", PAIR, wire.TRUE, [], "000", lengths=[3, 0, 1]),
    blocks("false", PAIR, lit("bool", False), [], "00"),
    blocks("LIKE", PAIR, like(item("t"), "a%"), [], "0"),
    blocks("blocks without rows", PAIR, X_LARGE, [("i32", [None, 5, 6])], "010", lengths=[0, 0, 0]),
    # booleans and texts
    blocks("b = true", BOOLS, binary(item("b"), "=", lit("bool", True)), [("bool", [False, False, True, None]), ("bool", [False, True, True, None])], "1000"),
    blocks("texts by their bytes", one("utf8", "t"), binary(item("t"), "<", lit("utf8", "z")), [("utf8", ["", "é", "Z", "z", None, "日本"])], "010101"),
    # a field of structs by its path
    blocks("a field of structs", table([("m", MAYBE_PLACE)]), binary(item("city", item("m")), "=", lit("utf8", "Oslo")), [
        ("utf8", ["Bonn", "Rome", None, "Oslo"]), ("utf8", ["Rome", "Rome", "Bern", "Oslo"])], "0110"),
    *[row for kind in INTEGERS for row in at_both_ends(kind)],
    # bits behind the last are 0
    *[so_many(count) for count in (0, 1, 7, 8, 9, 65)],
    blocks("each with a validity", PAIR, X_LARGE, [("i32", [5] * 9)], "1" * 9, always=True),
    blocks("with bytes between", PAIR, over(XI, "="), [("i32", [6, 0]), ("i32", [6, 4])], "11", before=b"\xff", between=b"\xff\xff", behind=b"\xff"),
]


def refused(name, line, lengths, given, spelled=X_LARGE, schema=PAIR):
    return {**asked(name, schema, spelled, lengths, given), "status": 10, "text": line}


GIVEN = arrays([("i32", [5, 6, 7])])
TEXT_BOUND = binary(item("t"), "<", lit("utf8", "z"))

REFUSED = [
    refused("more than values", "WrongBuffers", [1] * 4, GIVEN),
    refused("no arrays", "WrongBuffers", [1], laid_out([])),
    refused("one array too many", "WrongBuffers", [1] * 3, laid_out([*column("i32", [5, 6, 7]), b""])),
    refused("arrays where none is needed", "WrongBuffers", [1] * 3, GIVEN, wire.TRUE),
    refused("a validity too short", "WrongBuffers", [1] * 9, laid_out([b"\xff", numbers("i32", range(9))])),
    refused("an odd number", "WrongBuffers", [1] * 3, {**GIVEN, "buffers": [*GIVEN["buffers"], 0]}),
    refused("a bound that is no text", "BadText", [1, 1], laid_out([b"", offsets(0, 1, 2), b"a\xff"]), TEXT_BOUND),
    {**asked("what is no text under a null", PAIR, TEXT_BOUND, [1, 1], laid_out([b"\1", offsets(0, 1, 2), b"z\xff"])), "digits": "01"},
]

ROWS = [*RULED_OUT, *REFUSED]
