"""Rows of calls on expressions and their constructors, each answer of which was worked out by hand.

Operands are queries, and an expression that is answered is the query that it is written as.
"""


def row(call, want, *of, **arguments):
    return {"call": call, "of": list(of), **arguments, "want": want}


# an expression of each kind that a query names: its kind, the expression as it is written, and its children
KINDS = [
    ("root", "$", []),
    ("literal", "1i32", []),
    ("get_item", "$.a", ["$"]),
    ("binary", "($ + 1i32)", ["$", "1i32"]),
    ("not", "(not $)", ["$"]),
    ("is_null", "is_null($)", ["$"]),
    ("like", "not_like($, 1i32)", ["$", "1i32"]),
    ("between", "between_oc($, 1i32, $.b)", ["$", "1i32", "$.b"]),
    ("cast", "cast($, bool)", ["$"]),
    ("list_contains", "contains($, 1i32)", ["$", "1i32"]),
    ("pack", "pack(a: $, b: 1i32)", ["$", "1i32"]),
    ("merge", "merge_null($, 1i32, $)", ["$", "1i32", "$"]),
    ("select", "${a}", ["$"]),
]

# the same with the children 7, 8 .. in place of its own
RENEWED = {
    "root": "$",
    "literal": "1i32",
    "get_item": "7i64.a",
    "binary": "(7i64 + 8i64)",
    "not": "(not 7i64)",
    "is_null": "is_null(7i64)",
    "like": "not_like(7i64, 8i64)",
    "between": "between_oc(7i64, 8i64, 9i64)",
    "cast": "cast(7i64, bool)",
    "list_contains": "contains(7i64, 8i64)",
    "pack": "pack(a: 7i64, b: 8i64)",
    "merge": "merge_null(7i64, 8i64, 9i64)",
    "select": "7i64{a}",
}


def listed(exprs):
    return "".join(expr + ";" for expr in exprs)


def kind_rows():
    for kind, expr, children in KINDS:
        given = ["7", "8", "9"][:len(children)]
        yield row("id", kind, expr)
        yield row("children", listed(children), expr)
        yield row("child_list", listed(children), expr)
        yield row("into_expr", expr, expr)
        yield row("with_children", expr, expr, children=children)
        yield row("with_children", RENEWED[kind], expr, children=given)
        yield row("with_children", "WrongChildren", expr, children=children + ["$"])
        if children:
            yield row("with_children", "WrongChildren", expr, children=children[1:])


# each operator: its sign, its constructor, its inverse, its logical inverse, its exchange, and whether it is a comparison
OPERATORS = [
    ("=", "eq", "!=", "none", "=", True),
    ("!=", "not_eq", "=", "none", "!=", True),
    (">", "gt", "<=", "none", "<", True),
    (">=", "gt_eq", "<", "none", "<=", True),
    ("<", "lt", ">=", "none", ">", True),
    ("<=", "lt_eq", ">", "none", ">=", True),
    ("and", "and", "none", "or", "and", False),
    ("or", "or", "none", "and", "or", False),
    ("+", "checked_add", "none", "none", "+", False),
    ("-", None, "none", "none", "-", False),
]


def operator_rows():
    for number, (sign, constructor, inverse, logical, exchanged, is_comparison) in enumerate(OPERATORS):
        yield row("operator", sign, number=number)
        yield row("inverse", inverse, number=number)
        yield row("logical_inverse", logical, number=number)
        yield row("exchanged", exchanged, number=number)
        yield row("comparison", sign if is_comparison else "NotComparison", number=number)
        if constructor:
            yield row(constructor, "($ %s $)" % sign, "$", "$")
            yield row(constructor, "($.a %s 1i32)" % sign, "a", "1i32")
        for other in range(10):
            yield row("is_less", "true" if number < other else "false", number=number, other=other)
    for number in [-1, 10, 11, 255, 256, 2147483647, -2147483648]:
        yield row("operator", "UnknownOperator", number=number)


TWICE = ["col1", "col2", "col1"]
SAMPLE = "{a: i32, col1: u16?, col2: u16?, bool1: bool, bool2: bool}"

CONSTRUCTORS = [
    row("root", "$"),
    row("lit", "5i32", scalar="5i32"),
    row("lit", "lit(utf8?, null)", scalar="lit(utf8?, null)"),
    row("col", "$.a", field="a"),
    row("get_item", "$.a", "$", field="a"),
    row("get_item", "$.b.\"\"", "b", field=""),
    row("not", "(not $.a)", "a"),
    row("is_null", "is_null($.nullable_col)", "nullable_col"),
    row("struct_cast", "cast($, %s)" % SAMPLE),
    row("cast", "cast($, %s)" % SAMPLE, "$", type=SAMPLE),
    row("cast", "cast($.a, u8?)", "a", type="u8?"),
    row("between", "between_co($.score, 10i32, 50i32)", "score", "10i32", "50i32", upper_strict=True),
    row("between", "between_oc($.score, 10i32, 50i32)", "score", "10i32", "50i32", lower_strict=True),
    row("between", "between_oo($.score, 10i32, 50i32)", "score", "10i32", "50i32", lower_strict=True, upper_strict=True),
    row("between", "between($.score, 10i32, 50i32)", "score", "10i32", "50i32"),
    row("list_contains", "contains($.tags, 2i32)", "tags", "2i32"),
    row("select", "${col1, col2, col1}", "$", names=TWICE),
    row("select", "$.a{}", "a", names=[]),
    row("select_exclude", "$~{col1, col2, col1}", "$", names=TWICE),
    row("pack", "pack(one: $.a, two: $.b, three: $.a)", "a", "b", "a", names=["one", "two", "three"]),
    row("pack", "pack(one: $.a, one: $.b)", "a", "b", names=["one", "one"]),
    row("pack", "pack_null()", names=[], nullable=True),
    row("merge", "merge($.\"0\", $.\"1\", $.\"2\")", "$.\"0\"", "$.\"1\"", "$.\"2\""),
    row("merge", "merge_null()", nullable=True),
]


def collector_rows():
    for call, sign in [("and_collect", "and"), ("or_collect", "or")]:
        yield row(call, "none")
        yield row(call, "1i32", "1i32")
        yield row(call, "(1i32 %s 2i32)" % sign, "1i32", "2i32")
        yield row(call, "(1i32 %s (2i32 %s 3i32))" % (sign, sign), "1i32", "2i32", "3i32")
    yield row("and_collect_right", "none")
    yield row("and_collect_right", "1i32", "1i32")
    yield row("and_collect_right", "(1i32 and 2i32)", "1i32", "2i32")
    yield row("and_collect_right", "((1i32 and 2i32) and 3i32)", "1i32", "2i32", "3i32")


def conjunct_rows():
    for call in ["conjuncts", "split_conjunction"]:
        yield row(call, "$.col1;1i32;", "col1 and 1i32")
        yield row(call, "($.col1 = 1i32);", "col1 = 1i32")
        yield row(call, "$;", "$")
        yield row(call, "1i32;2i32;3i32;", "1i32 and 2i32 and 3i32")
        yield row(call, "1i32;2i32;3i32;4i32;", "(1i32 and 2i32) and (3i32 and 4i32)")
        yield row(call, "1i32;(2i32 or (3i32 and 4i32));", "1i32 and (2i32 or 3i32 and 4i32)")
        yield row(call, "(not (1i32 and 2i32));", "not (1i32 and 2i32)")
        yield row(call, "$;" * 2048, "$" + " and $" * 2047)


LONG = "$" + " and $" * 2047

PARTS = [
    row("into_expr", "pack_null()", "pack_null()"),
    row("id", "pack", "pack_null()"),
    row("is_root", "true", "$"),
    row("is_root", "false", "1i32"),
    row("is_root", "false", "a"),
    row("comparisons", "((1i32 < $) and ($ <= 1i32))", "between_oc($, 1i32, 1i32)"),
    row("comparisons", "((1i32 <= $) and ($ < 2i32))", "between_co($, 1i32, 2i32)"),
    row("comparisons", "((1i32 < $) and ($ < 2i32))", "between_oo($, 1i32, 2i32)"),
    row("comparisons", "((1i32 <= $) and ($ <= 2i32))", "between($, 1i32, 2i32)"),
    row("packed_field", "1i32", "pack(a: $, b: 1i32)", field="b"),
    row("packed_field", "$", "pack(a: $, b: 1i32)", field="a"),
    row("packed_field", "$", "pack(a: $, a: 1i32)", field="a"),
    row("packed_field", "UnknownField", "pack(a: $, b: 1i32)", field="c"),
    row("taken", "[\"a\"]", "$~{b, c}", names=["a", "b", "c"]),
    row("taken", "[\"a\"]", "${a}", names=["a", "b", "c"]),
    row("taken", "[\"c\", \"a\"]", "${c, a}", names=["a", "b", "c"]),
    row("taken", "[\"a\", \"c\"]", "$~{b}", names=["a", "b", "c"]),
    row("taken", "[]", "$~{c, b, a}", names=["a", "b", "c"]),
    row("taken", "[\"a\", \"b\"]", "$~{}", names=["a", "b"]),
    row("taken", "UnknownField", "$~{d}", names=["a", "b", "c"]),
    row("taken", "UnknownField", "${a, d}", names=["a", "b", "c"]),
    row("as_include", "${a}", "$~{b}", names=["a", "b"]),
    row("as_include", "$.s{b, a}", "$.s{b, a}", names=["a", "b"]),
    row("as_include", "UnknownField", "$~{d}", names=["a", "b"]),
    row("key", "0", "$", keys=["$", "1i32"]),
    row("key", "1", "1i32", keys=["$", "1i32"]),
    row("key", "none", "2i32", keys=["$", "1i32"]),
    row("key", "none", "1i64", keys=["$", "1i32"]),
    row("key", "2", "$", keys=["$", "1i32", "$"]),
    row("key", "1", LONG, keys=["$", LONG]),
    *[row("key", "1", expr, keys=["1i8", expr, "2i8"]) for _, expr, _ in KINDS],
]

ROWS = [*kind_rows(), *operator_rows(), *CONSTRUCTORS, *collector_rows(), *conjunct_rows(), *PARTS]
