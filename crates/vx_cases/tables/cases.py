#!/usr/bin/env python3
"""Writes the tables of cases in crates/vx_cases/data, each answer of which was worked out by hand.

usage: crates/vx_cases/tables/cases.py

A case has a filter and a projection over the table of its group, or an input, and answers to questions about them, which the program
vx_cases compares with those of the public calls. The bytes of expressions are made by wire.py; the answers are written out here.
"""
import json
import os

import expressions
import rows
import values
from inputs import INPUTS
from rows import ABOVE_TEN, EMPTY_LIST, NEXT, NEXT_POSITIVE, NULL_OR_LESS, PQ, PQ_ROW, TWO, X, X32, X8, nots, realistic
from wire import ROOT, TRUE, between, binary, cast, contains, item, like, lit, many, merge, negated, node, null_test, pack, request, select, struct
from wire_bytes import WIRE_BYTES

DATA = os.path.join(os.path.dirname(os.path.dirname(os.path.abspath(__file__))), "data")


def group(columns, blocks, *cases, stats=()):
    """A table and the cases over it."""
    table = request(columns, blocks, b"", b"", stats)
    table = {member: table[member] for member in ("columns", "blocks", "stats")}
    return {**table, "cases": list(cases)}


def of(projection, filter_bytes=TRUE, **answers):
    """A case of this projection, whose answers are these."""
    written = {"bytes": projection.hex()} if "compact" in answers else {}
    return {"filter": filter_bytes.hex(), "projection": projection.hex(), **written, **answers}


def i32(n):
    return lit("i32", n)


def above(name, n):
    return binary(item(name), ">", i32(n))


# Texts: each kind once in each form, names of children, operators, and names that are hostile.

A, B = item("a"), item("b")
PET = struct(dog="u32", cat="utf8")
SCORE = select(cast(between(item("score"), i32(50), i32(100), True, False), "bool"), "result")
ODD = "a \"b\".c\n\x01"

TEXTS = group(
    X32, [[[]]],
    of(ROOT, compact="$", tree="Root\n", child_names="none"),
    of(i32(42), compact="42i32", tree="Literal(value: 42i32, dtype: i32)\n", child_names="none"),
    of(A, compact="$.a", tree="GetItem(a)\n└── Root\n", child_names="none"),
    of(binary(A, "and", B), compact="($.a and $.b)", child_names="lhs;rhs;",
       tree="Binary(and)\n├── lhs: GetItem(a)\n│   └── Root\n└── rhs: GetItem(b)\n    └── Root\n"),
    of(ABOVE_TEN, compact="($.x > 10i32)",
       tree="Binary(>)\n├── lhs: GetItem(x)\n│   └── Root\n└── rhs: Literal(value: 10i32, dtype: i32)\n"),
    of(negated(A), compact="(!$.a)", tree="Not\n└── GetItem(a)\n    └── Root\n", child_names="none"),
    of(null_test(item("name")), compact="is_null($.name)", tree="IsNull\n└── GetItem(name)\n    └── Root\n"),
    of(like(item("name"), "%john%"), compact="$.name LIKE \"%john%\"", child_names="child;pattern;",
       tree="Like\n├── child: GetItem(name)\n│   └── Root\n└── pattern: Literal(value: \"%john%\", dtype: utf8)\n"),
    of(between(item("score"), i32(10), i32(50), False, True), compact="(10i32 <= $.score < 50i32)",
       child_names="array;lower (NonStrict);upper (Strict);",
       tree="Between\n├── array: GetItem(score)\n│   └── Root\n├── lower (NonStrict): Literal(value: 10i32, dtype: i32)\n"
            "└── upper (Strict): Literal(value: 50i32, dtype: i32)\n"),
    of(cast(item("value"), "i64"), compact="cast($.value, i64)", tree="Cast(target: i64)\n└── GetItem(value)\n    └── Root\n"),
    of(contains(item("tags"), lit("utf8", "urgent")), compact="contains($.tags, \"urgent\")", child_names="list;value;",
       tree="ListContains\n├── list: GetItem(tags)\n│   └── Root\n└── value: Literal(value: \"urgent\", dtype: utf8)\n"),
    of(pack(("x", A), ("y", B), nullable=True), compact="pack(x: $.a, y: $.b)?", child_names="x;y;",
       tree="Pack\n├── x: GetItem(a)\n│   └── Root\n└── y: GetItem(b)\n    └── Root\n"),
    of(pack(), compact="pack()", tree="Pack\n", child_names=""),
    of(merge(A, nullable=True), compact="merge($.a)?", tree="Merge\n└── GetItem(a)\n    └── Root\n", child_names="none"),
    of(select(ROOT, "col1", "col2"), compact="${col1, col2}", tree="Select(include): [\"col1\", \"col2\"]\n└── Root\n", child_names="none"),
    of(select(ROOT, "col1", "col2", exclude=True), compact="$~{col1, col2}", tree="Select(exclude): [\"col1\", \"col2\"]\n└── Root\n"),
    of(between(ROOT, i32(0), i32(100), True, False), compact="(0i32 < $ <= 100i32)"),
    of(cast(ROOT, "bool?"), compact="cast($, bool?)"),
    of(lit("u8", 0), compact="0u8"),
    of(lit("i64", 9223372036854775807), compact="9223372036854775807i64"),
    of(lit("bool?", None), compact="null"),
    of(lit(PET, {"dog": 32, "cat": "rufus"}), compact="{dog: 32u32, cat: \"rufus\"}"),
    of(lit(many("i32"), [1, 2]), compact="[1i32, 2i32]", tree="Literal(value: [1i32, 2i32], dtype: list(i32))\n"),
    of(like(ROOT, "test*", True, True), compact="$ LIKE \"test*\""),
    of(item("a", negated(ROOT)), compact="(!$).a"),
    of(binary(i32(1), "and", binary(i32(2), "and", i32(3))), compact="(1i32 and (2i32 and 3i32))"),
    of(SCORE, compact="cast((50i32 < $.score <= 100i32), bool){result}",
       tree="Select(include): [\"result\"]\n└── Cast(target: bool)\n    └── Between\n        ├── array: GetItem(score)\n"
            "        │   └── Root\n        ├── lower (Strict): Literal(value: 50i32, dtype: i32)\n"
            "        └── upper (NonStrict): Literal(value: 100i32, dtype: i32)\n"),
    *[of(binary(A, sign, ROOT), compact="($.a %s $)" % sign) for sign in ["=", "!=", ">", ">=", "<", "<=", "and", "or", "+", "-"]],
    of(item(ODD), compact="$." + ODD, tree="GetItem(%s)\n└── Root\n" % ODD),
    of(item(""), compact="$.", tree="GetItem()\n└── Root\n"),
    of(select(ROOT, ODD, ""), compact="${%s, }" % ODD, tree="Select(include): [\"a \\\"b\\\".c\\n\\u0001\", \"\"]\n└── Root\n"),
    of(pack(("", ROOT), (" ", ROOT)), compact="pack(: $,  : $)", tree="Pack\n├── : Root\n└──  : Root\n", child_names="; ;"),
    *[of(binary(A, sign, i32(10)), compact="($.a %s 10i32)" % sign) for sign in ["=", "!=", ">", ">=", "<", "<="]],
    of(lit("utf8", "hello"), compact="\"hello\""), of(TRUE, compact="true"), of(item("column_name"), compact="$.column_name"),
    of(select(ROOT, "hello", "world"), compact="${hello, world}"),
    of(select(ROOT, "world", "hello", exclude=True), compact="$~{world, hello}"),
    of(binary(A, "+", i32(5)), compact="($.a + 5i32)"), of(null_test(item("nullable_col")), compact="is_null($.nullable_col)"),
    of(between(A, i32(10), i32(20)), compact="(10i32 <= $.a <= 20i32)"),
    of(contains(item("list_col"), lit("utf8", "item")), compact="contains($.list_col, \"item\")"),
    of(pack(("field1", A), ("field2", B)), compact="pack(field1: $.a, field2: $.b)"),
    of(merge(item("struct1"), item("struct2")), compact="merge($.struct1, $.struct2)"),
    of(binary(binary(between(ROOT, i32(1), A, True, True), "and", i32(1)), "or", binary(i32(1), "=", ROOT)),
       compact="(((1i32 < $ < $.a) and 1i32) or (1i32 = $))"),
    of(nots(250, ROOT), compact="(!" * 250 + "$" + ")" * 250,
       tree="Not\n" + "".join("    " * i + "└── Not\n" for i in range(249)) + "    " * 249 + "└── Root\n"),
)

# Types: over the type of the crate's own tests, and each refusal.

FIVE = [("a", "i32"), ("col1", "u16?"), ("col2", "u16?"), ("bool1", "bool"), ("bool2", "bool")]
COL1, COL2, BOOL1, BOOL2 = item("col1"), item("col2"), item("bool1"), item("bool2")
TWICE = {"struct": [{"name": "a", "type": "i32"}, {"name": "a", "type": "i32"}], "nullable": False}

TYPES = group(
    FIVE, [[[1], [2], [None], [True], [False]]],
    of(i32(10), loose_type="i32", strict_type="i32"),
    of(lit("bool?", None), loose_type="bool?", strict_type="bool?"),
    of(binary(BOOL1, "and", BOOL2), loose_type="bool", strict_type="bool"),
    of(binary(BOOL1, "or", BOOL2), loose_type="bool", strict_type="bool"),
    of(negated(BOOL1), loose_type="bool", strict_type="bool"),
    of(cast(ROOT, "bool"), loose_type="bool", strict_type="TypeMismatch"),
    of(null_test(ROOT), loose_type="bool", strict_type="bool"),
    *[of(binary(COL1, sign, COL2), loose_type="bool?", strict_type="bool?") for sign in ["=", "!=", ">", ">=", "<", "<="]],
    of(binary(binary(COL1, "<", COL2), "or", binary(COL1, "!=", COL2)), loose_type="bool?", strict_type="bool?"),
    of(select(ROOT, "a"), loose_type="{a=i32}", strict_type="{a=i32}"),
    of(select(ROOT, "col1", "col2", "bool1", "bool2", exclude=True), loose_type="{a=i32}", strict_type="{a=i32}"),
    of(select(ROOT, "col1", "col2", exclude=True), loose_type="{a=i32, bool1=bool, bool2=bool}",
       strict_type="{a=i32, bool1=bool, bool2=bool}"),
    of(binary(COL1, "+", lit("u16", 1)), strict_type="u16?", loose_type="u16?"),
    of(cast(COL1, "i64?"), strict_type="i64?", loose_type="i64?"),
    of(pack(("x", A), nullable=True), strict_type="{x=i32}?", loose_type="{x=i32}?"),
    of(merge(ROOT, pack(("a", COL1))), strict_type="{a=u16?, col1=u16?, col2=u16?, bool1=bool, bool2=bool}",
       loose_type="{a=u16?, col1=u16?, col2=u16?, bool1=bool, bool2=bool}"),
    of(between(A, i32(1), lit("i32?", None)), strict_type="bool?", loose_type="bool?"),
    of(contains(lit(many("i32"), [1]), A), strict_type="bool", loose_type="bool"),
    # what typing refuses, kind by kind
    of(lit(TWICE, {"a": 1}), strict_type="DuplicateField", loose_type="{a=i32, a=i32}"),
    of(item("c", A), strict_type="NotStruct", loose_type="NotStruct"),
    of(item("c"), strict_type="UnknownField", loose_type="UnknownField"),
    of(select(A, "c"), strict_type="NotStruct", loose_type="NotStruct"),
    of(select(pack(("x", A), nullable=True), "x"), strict_type="NullableSelect", loose_type="{x=i32}?"),
    of(select(ROOT, "c"), strict_type="UnknownField", loose_type="UnknownField"),
    of(select(ROOT, "c", exclude=True), strict_type="UnknownField"),
    of(select(ROOT, "a", "a"), strict_type="DuplicateField", loose_type="{a=i32, a=i32}"),
    of(pack(("x", A), ("x", A)), strict_type="DuplicateField", loose_type="{x=i32, x=i32}"),
    of(merge(A), strict_type="NotStruct", loose_type="NotStruct"),
    of(merge(ROOT, A), strict_type="NotStruct", loose_type="NotStruct"),
    of(null_test(item("zz")), strict_type="UnknownField", loose_type="bool"),
    of(contains(A, A), strict_type="TypeMismatch", loose_type="bool"),
    of(binary(BOOL1, "+", BOOL2), strict_type="TypeMismatch", loose_type="TypeMismatch"),
    of(binary(A, "=", BOOL1), strict_type="TypeMismatch", loose_type="bool"),
    of(binary(A, "=", COL1), strict_type="TypeMismatch", loose_type="bool?"),
    of(binary(ROOT, "=", ROOT), strict_type="TypeMismatch", loose_type="bool"),
    of(binary(A, "and", BOOL1), strict_type="TypeMismatch", loose_type="bool"),
    of(binary(A, "+", COL1), strict_type="TypeMismatch", loose_type="TypeMismatch"),
    of(negated(A), strict_type="TypeMismatch", loose_type="TypeMismatch"),
    of(like(A, "a"), strict_type="TypeMismatch", loose_type="bool"),
    of(between(A, COL1, i32(1)), strict_type="TypeMismatch", loose_type="TypeMismatch"),
    of(contains(lit(many("i32"), [1]), COL1), strict_type="TypeMismatch", loose_type="bool?"),
    of(cast(A, "utf8"), strict_type="TypeMismatch", loose_type="utf8"),
    # the first node in post-order that has no type
    of(binary(item("c"), "=", item("d", A)), strict_type="UnknownField"),
    of(binary(item("d", A), "=", item("c")), strict_type="NotStruct"),
)

OTHER_TYPES = [
    group([("s", "utf8")], [[["a"]]], {**of(like(ROOT, "%test%"), loose_type="bool", strict_type="bool"), "over": "s"}),
    group([("array", many("i32", True))], [[[None]]], of(contains(item("array"), i32(2)), loose_type="bool?", strict_type="bool?")),
    group(PQ, PQ_ROW, of(item("a", item("p")), strict_type="i32?", loose_type="i32?"),
          of(merge(item("p"), item("q")), strict_type="{a=i32?, b=i32}", loose_type="{a=i32?, b=i32}")),
    group([("p", struct(True, a="i32", b="i32"))], [[[None]]], {**of(select(ROOT, "b", exclude=True), strict_type="NullableSelect"), "over": "p"},
          {**of(A, strict_type="i32?"), "over": "p"}),
    group(X32, [[[1]]], {**of(A, strict_type="NotStruct"), "over": "x"}),
]

# Values: at each row, and what breaks.

LISTS = [("l", many("i32", True))]
LOGIC = [("l", "bool?"), ("r", "bool?")]
NINE = [[False, False, False, True, True, True, None, None, None], [False, True, None, False, True, None, False, True, None]]
L, R = item("l"), item("r")

VALUES = [
    group([("x", "bool")], [[[False, True, False, False, True, True]]],
          {**of(negated(ROOT), values="true / false / true / true / false / false"), "over": "x"}),
    group([("x", "i32?")], [[[1, None, 2, None, 3]]],
          {**of(null_test(ROOT), values="false / true / false / true / false", strict_type="bool"), "over": "x"},
          of(binary(X, ">", i32(1)), values="false / null / true / null / true"),
          of(binary(X, "+", i32(1)), values="2 / null / 3 / null / 4"),
          of(binary(X, "-", i32(1)), values="0 / null / 1 / null / 2"),
          of(between(X, i32(1), i32(3), True, False), values="false / null / true / null / true"),
          of(between(X, lit("i32?", None), i32(1)), values="null / null / false / null / false"),
          of(cast(X, "i8?"), values="1 / null / 2 / null / 3"),
          of(cast(X, "i32"), values="BadCast"),
          of(contains(lit(many("i32?"), [2, None]), X), values="false / null / true / null / false"),
          of(pack(("y", X)), values="{\"y\":1} / {\"y\":null} / {\"y\":2} / {\"y\":null} / {\"y\":3}"),
          of(lit("utf8", "a"), values="\"a\" / \"a\" / \"a\" / \"a\" / \"a\"")),
    group([("p", struct(True, a="i32"))], [[[None]]], of(item("a", item("p")), values="null", strict_type="i32?")),
    group([("a", "i32"), ("b", "i32")], [[[0, 1, 2], [4, 5, 6]]],
          of(item("c"), values="UnknownField"), of(item("c", A), values="NotStruct"), of(select(ROOT, "a", "a"), values="DuplicateField"),
          of(select(ROOT, "c", exclude=True), values="UnknownField"), of(binary(A, "=", lit("i64", 1)), values="TypeMismatch"),
          of(pack(("one", A), ("two", B), ("three", A)),
             values="{\"one\":0,\"two\":4,\"three\":0} / {\"one\":1,\"two\":5,\"three\":1} / {\"one\":2,\"two\":6,\"three\":2}"),
          of(pack(), values="{} / {} / {}"),
          of(pack(("one", A), ("two", pack(("first", B), ("second", A))), ("three", A)),
             values=" / ".join('{"one":%d,"two":{"first":%d,"second":%d},"three":%d}' % (a, b, a, a) for a, b in [(0, 4), (1, 5), (2, 6)])),
          of(merge(pack(("a", pack(("x", A))), ("c", A)), pack(("a", pack(("y", B))))),
             values=" / ".join('{"a":{"y":%d},"c":%d}' % (b, a) for a, b in [(0, 4), (1, 5), (2, 6)])),
          of(select(ROOT, "b"), values="{\"b\":4} / {\"b\":5} / {\"b\":6}"),
          of(select(ROOT, "b", exclude=True), values="{\"a\":0} / {\"a\":1} / {\"a\":2}"),
          of(merge(ROOT, pack(("b", A), ("c", B))), values="{\"a\":0,\"b\":0,\"c\":4} / {\"a\":1,\"b\":1,\"c\":5} / {\"a\":2,\"b\":2,\"c\":6}"),
          of(merge(pack(("a", A), ("c", A)), pack(("b", A), ("d", A))), strict_type="{a=i32, c=i32, b=i32, d=i32}"),
          of(merge(pack(("a", A), ("b", A)), pack(("b", B), ("c", A)), pack(("d", A), ("e", A))),
             strict_type="{a=i32, b=i32, c=i32, d=i32, e=i32}",
             values="{\"a\":0,\"b\":4,\"c\":0,\"d\":0,\"e\":0} / {\"a\":1,\"b\":5,\"c\":1,\"d\":1,\"e\":1} / {\"a\":2,\"b\":6,\"c\":2,\"d\":2,\"e\":2}")),
    group(LISTS, [[[[1, 1, 2, 2, 2], [2, 2, 3, 3, 3]]]],
          of(contains(item("l"), i32(1)), values="true / false")),
    group(LISTS, [[[[1, 1, 2, 2, 2], None]]],
          of(contains(item("l"), i32(2)), values="true / null"), of(item("l"), values="[1,1,2,2,2] / null")),
    group(LOGIC, [NINE],
          of(binary(L, "and", R), values="false / false / false / false / true / null / false / null / null"),
          of(binary(L, "or", R), values="false / true / null / true / true / true / null / true / null"),
          of(negated(L), values="true / true / true / false / false / false / null / null / null"),
          of(binary(L, "<", R), values="false / true / null / false / false / null / null / null / null")),
    group([("s", "utf8?")], [[["ab", "aB", "b", "", None, "a%"]]],
          of(like(item("s"), "a%"), values="true / true / false / false / null / true"),
          of(like(item("s"), "a%", True), values="false / false / true / true / null / false"),
          of(like(item("s"), "_b", False, True), values="true / true / false / false / null / false"),
          of(like(item("s"), "a\\%"), values="false / false / false / false / null / true"),
          of(binary(item("s"), "<", lit("utf8", "b")), values="true / true / false / true / null / true")),
    group(X8, [[[127, 1]]],
          of(NEXT_POSITIVE, values="Overflow"), of(item("b", pack(("a", NEXT), ("b", X))), values="Overflow"),
          of(null_test(pack(("a", NEXT))), values="Overflow"), of(cast(X, "u8"), values="127 / 1"),
          of(binary(X, "-", lit("i8", 127)), values="0 / -126"), of(binary(X, "+", X), values="Overflow")),
    group(X8, [[[-1]]], of(cast(X, "u8"), values="BadCast"), of(binary(X, "-", lit("i8", 127)), values="-128"),
          of(binary(X, "-", lit("i8", -128)), values="127"), of(binary(binary(X, "-", lit("i8", 127)), "-", lit("i8", 1)), values="Overflow")),
    group(X32, [[[1, 3, 6]]],
          of(between(X, i32(5), i32(2)), values="false / false / false"),
          of(binary(binary(X, "<=", i32(2)), "and", binary(X, ">=", i32(5))), values="false / false / false")),
    group(X32, [[[3, 1]]], of(NULL_OR_LESS, values="false / null"), of(negated(NULL_OR_LESS), values="true / null")),
    group(PQ, PQ_ROW, of(merge(item("p"), item("q")), values="{\"a\":null,\"b\":2}"), of(item("p"), values="null"),
          of(select(merge(item("p"), item("q")), "b"), strict_type="{b=i32}", values="{\"b\":2}", simplified_typed="pack(b: $.q.b)",
             without_select="pack(b: merge($.p, $.q).b)", parts="root: pack(b: $.q.q_0.b) {p: pack(p_0: $.p), q: pack(q_0: $.q)}"),
          of(select(merge(item("p"), item("q")), "b", exclude=True), strict_type="{a=i32?}", values="{\"a\":null}", simplified_typed="pack(a: $.p.a)",
             tree="Select(exclude): [\"b\"]\n└── Merge\n    ├── GetItem(p)\n    │   └── Root\n    └── GetItem(q)\n        └── Root\n"),
          of(select(item("p"), "a"), values="NullableSelect")),
]

# Rewriting: ranges, fields of packs, selects, merges, parts.


def le(n, name, left=False):
    return binary(i32(n), ">=", item(name)) if left else binary(item(name), "<=", i32(n))


ONE_TWO = pack(("a", i32(1)), ("b", i32(2)))
TABLE = [("a", struct(x="i32", y="i32")), ("b", "i32"), ("c", "i32")]
ABY = item("y", A)

def balanced(operator, operands):
    """Joined in halves."""
    if len(operands) == 1:
        return operands[0]
    half = len(operands) // 2
    return binary(balanced(operator, operands[:half]), operator, balanced(operator, operands[half:]))


REWRITING = [
    group([("x", "i32"), ("y", "i32")], [[[0], [0]]],
          of(item("b", ONE_TWO), simplified="2i32", simplified_typed="2i32"),
          of(item("c", pack(("a", i32(1)))), simplified="UnknownField", simplified_typed="UnknownField"),
          of(binary(binary(i32(2), "<", X), "and", binary(i32(5), ">=", X)), ranges="(2i32 < $.x <= 5i32)", simplified="(2i32 < $.x <= 5i32)"),
          of(binary(binary(X, ">=", i32(2)), "and", binary(X, "<", i32(5))), ranges="(2i32 <= $.x < 5i32)"),
          of(binary(binary(X, ">=", i32(2)), "and", binary(i32(5), ">=", X)), ranges="(2i32 <= $.x <= 5i32)"),
          of(binary(binary(binary(item("y"), ">=", i32(10)), "and", le(5, "x", True)), "and", binary(i32(2), "<", X)),
             ranges="(($.y >= 10i32) and (2i32 < $.x <= 5i32))"),
          of(binary(binary(le(5, "x", True), "and", binary(item("y"), ">=", i32(10))), "and", binary(i32(2), "<", X)),
             ranges="((2i32 < $.x <= 5i32) and ($.y >= 10i32))"),
          of(binary(le(2, "x"), "and", binary(X, ">=", i32(5))), ranges="(5i32 <= $.x <= 2i32)"),
          of(binary(le(2, "x"), "or", binary(X, ">=", i32(5))), ranges="(($.x <= 2i32) or ($.x >= 5i32))"),
          of(binary(le(2, "x"), "and", le(5, "x")), ranges="(($.x <= 2i32) and ($.x <= 5i32))"),
          of(ROOT, replaced="pack(x: $.x, y: $.y)"),
          of(balanced("and", [TRUE] * 2048), simplified="(" * 2047 + "true" + " and true)" * 2047),
          of(binary(X, "=", item("y")), replaced="(pack(x: $.x, y: $.y).x = pack(x: $.x, y: $.y).y)")),
    group([("0", struct(a="i32", b="i64")), ("1", struct(b="u32", c="u64"))], [[[{"a": 1, "b": 2}], [{"b": 3, "c": 4}]]],
          of(merge(item("0"), item("1")), without_merge="pack(a: $.0.a, b: $.1.b, c: $.1.c)", strict_type="{a=i32, b=u32, c=u64}",
             values="{\"a\":1,\"b\":3,\"c\":4}")),
    group([("0", struct(True, a="i32", b="i64"))], [[[None]]],
          of(merge(item("0"), nullable=True), without_merge="pack(a: $.0.a, b: $.0.b)?", strict_type="{a=i32?, b=i64?}?"),
          of(merge(item("a", item("0"))), without_merge="NotStruct"),
          of(select(item("0"), "a"), without_select="NullableSelect", simplified_typed="NullableSelect")),
    group(TABLE, [[[{"x": 1, "y": 2}], [3], [4]]],
          of(ABY, parts="root: $.a.a_0 {a: pack(a_0: $.a.y)}"),
          of(merge(A, pack(("b", B))),
             parts="root: pack(x: $.a.a_0.x, y: $.a.a_0.y, b: $.b.b_0.b) {a: pack(a_0: $.a), b: pack(b_0: pack(b: $.b))}"),
          of(ROOT, parts="root: $ {}"),
          of(binary(ABY, "and", select(ROOT, "a", "b")), simplified_typed="($.a.y and pack(a: $.a, b: $.b))"),
          of(binary(ABY, "and", pack(("a", A), ("b", B))),
             parts="root: ($.a.a_0 and pack(a: $.a.a_1, b: $.b.b_0)) {a: pack(a_0: $.a.y, a_1: $.a), b: pack(b_0: $.b)}"),
          of(binary(ABY, "=", B), parts="root: ($.a.a_0 = $.b.b_0) {a: pack(a_0: $.a.y), b: pack(b_0: $.b)}"),
          of(binary(above("b", 1), "and", above("c", 2)),
             parts="root: ($.b.b_0 and $.c.c_0) {b: pack(b_0: ($.b > 1i32)), c: pack(c_0: ($.c > 2i32))}"),
          of(select(ROOT, "b"), without_select="pack(b: $.b)", simplified_typed="pack(b: $.b)"),
          of(select(ROOT, "b", exclude=True), without_select="pack(a: $.a, c: $.c)"),
          of(select(A, "z"), without_select="UnknownField"),
          of(select(B, "z"), without_select="NotStruct"),
          # a part that no looser type has, which is refused where its type is asked
          of(select(pack(("a", negated(B))), "a"), without_select="TypeMismatch", simplified_typed="TypeMismatch"),
          of(merge(pack(("a", negated(B)))), without_merge="TypeMismatch", simplified_typed="TypeMismatch"),
          of(negated(B), simplified_typed="(!$.b)", parts="TypeMismatch"),
          of(item("y", select(merge(A, pack(("x", B))), "x", "y")), simplified_typed="$.a.y"),
          of(item("x", select(merge(A, pack(("x", B))), "x", "y")), simplified_typed="$.b")),
    group([("x", "i32")], [[[1]]],
          of(ABOVE_TEN, parts="root: $.x.x_0 {x: pack(x_0: ($.x > 10i32))}"), of(X, parts="root: $.x.x_0 {x: pack(x_0: $.x)}")),
    group([("x", "i32"), ("y", "i32")], [[[1], [1]]],
          of(binary(ABOVE_TEN, "and", binary(item("y"), "=", i32(1))),
             parts="root: ($.x.x_0 and $.y.y_0) {x: pack(x_0: ($.x > 10i32)), y: pack(y_0: ($.y = 1i32))}")),
]

SIX = ["id", "name", "price", "tags", "address", "active"]
SIX_FIELDS = "pack(%s)" % ", ".join("%s: $.%s" % (c, c) for c in SIX)


def nested(n, around):
    """The row within so many of these."""
    return ROOT if n == 0 else around(nested(n - 1, around))


REWRITING += [
    {**{member: realistic()[member] for member in ("columns", "blocks", "stats")},
     "cases": [of(nested(n, lambda e: select(e, *SIX)), simplified_typed=SIX_FIELDS) for n in (1, 12, 254)]
     + [of(nested(12, lambda e: merge(ROOT, e)), simplified_typed=SIX_FIELDS)]},
    # a refusal in a part that the passes drop
    group([("a", "i32"), ("b", "i32")], [[[0], [0]]],
          of(merge(pack(("x", cast(item("b", select(ROOT, "a")), "i32"))), pack(("x", i32(1)))), simplified_typed="pack(x: 1i32)")),
]

# Pruning: the trees, what they need, and the blocks that they rule out.

ONE_MAX = "(((($.a_max < 1i32) or ($.a_min > 1i32)) and (($.a_max < 2i32) or ($.a_min > 2i32))) and (($.a_max < 3i32) or ($.a_min > 3i32)))"
A_STATS = [(["a"], "min", [1, 20]), (["a"], "max", [1, 20])]
A_Z = [("a", "i32"), ("z", "i32")]
A_BLOCKS = [[[1], [0]], [[20], [0]]]


def filtered(filter_bytes, **answers):
    return of(ROOT, filter_bytes, **answers)


PRUNING = [
    group(A_Z, A_BLOCKS,
          filtered(contains(lit(many("i32"), [1, 2, 3]), A), pruning=ONE_MAX, required="a_min;a_max;", ruled_out="1;"),
          filtered(contains(lit(many("i32"), []), A), pruning="true", required="", ruled_out="0;1;"),
          filtered(binary(A, "=", i32(42)), pruning="(($.a_min > 42i32) or (42i32 > $.a_max))", required="a_min;a_max;", ruled_out="0;1;"),
          filtered(binary(above("a", 1), "and", above("z", 1)), pruning="($.a_max <= 1i32)", required="a_max;", ruled_out="0;"),
          filtered(binary(above("a", 1), "or", above("z", 1)), pruning="-", required="", ruled_out=""),
          filtered(above("z", 1), pruning="-", required="", ruled_out=""),
          filtered(binary(A, ">=", i32(2)), pruning="($.a_max < 2i32)", ruled_out="0;"),
          filtered(binary(A, "<", i32(20)), pruning="($.a_min >= 20i32)", ruled_out="1;"),
          filtered(binary(A, "<=", i32(19)), pruning="($.a_min > 19i32)", ruled_out="1;"),
          filtered(binary(A, "!=", i32(1)), pruning="(($.a_min = 1i32) and ($.a_max = 1i32))", ruled_out="0;"),
          filtered(between(A, i32(10), i32(50), False, True), pruning="((10i32 > $.a_max) or ($.a_min >= 50i32))", ruled_out="0;"),
          filtered(negated(le(10, "a")), pruning="($.a_max <= 10i32)", ruled_out="0;"),
          filtered(negated(binary(binary(A, "<", i32(5)), "or", above("a", 10))),
                   pruning="(($.a_max < 5i32) or ($.a_min > 10i32))", ruled_out="0;1;"),
          filtered(negated(binary(binary(A, "<", i32(5)), "and", above("a", 10))),
                   pruning="(($.a_max < 5i32) and ($.a_min > 10i32))", ruled_out=""),
          filtered(negated(negated(above("a", 1))), pruning="($.a_max <= 1i32)", ruled_out="0;"),
          filtered(binary(above("a", 10), "and", binary(A, "<", i32(50))), pruning="(($.a_max <= 10i32) or ($.a_min >= 50i32))",
                   required="a_min;a_max;", ruled_out="0;"),
          filtered(binary(binary(A, "<", i32(10)), "or", above("a", 50)), pruning="(($.a_min >= 10i32) and ($.a_max <= 50i32))",
                   required="a_min;a_max;", ruled_out="1;"),
          filtered(null_test(A), pruning="-", ruled_out=""),
          filtered(binary(A, "=", binary(A, "+", i32(0))), pruning="-", ruled_out=""),
          filtered(binary(item("b", pack(("b", A))), ">", i32(10)), pruning="-", ruled_out=""), stats=A_STATS),
    group([("a", "i32"), ("b", "i32")], [[[1], [5]], [[20], [5]]],
          filtered(binary(A, "=", B), pruning="(($.a_min > $.b_max) or ($.b_min > $.a_max))", required="a_min;a_max;b_min;b_max;", ruled_out="0;1;"),
          filtered(binary(A, "!=", B), pruning="(($.a_min = $.b_max) and ($.a_max = $.b_min))", required="a_min;a_max;b_min;b_max;", ruled_out=""),
          filtered(binary(A, ">", B), pruning="($.a_max <= $.b_min)", required="a_max;b_min;", ruled_out="0;"),
          filtered(binary(A, "<", B), pruning="($.a_min >= $.b_max)", required="a_min;b_max;", ruled_out="1;"),
          filtered(binary(A, ">=", B), pruning="($.a_max < $.b_min)", required="a_max;b_min;", ruled_out="0;"),
          filtered(binary(A, "<=", B), pruning="($.a_min > $.b_max)", required="a_min;b_max;", ruled_out="1;"),
          stats=[*A_STATS, (["b"], "min", [5, 5]), (["b"], "max", [5, 5])]),
    # a comparison has no bounds, whatever those of its operands are
    group([("x", "bool"), ("y", "i32"), ("z", "i32")], [[[True], [1], [2]]],
          filtered(binary(X, ">=", binary(item("y"), ">", item("z"))), pruning="-", ruled_out=""),
          stats=[([path], kind, [value]) for path, value in [("x", True), ("y", 1), ("z", 2)] for kind in ["min", "max"]]),
    group(A_Z, A_BLOCKS, filtered(binary(A, "=", i32(42)), pruning="(42i32 > $.a_max)", required="a_max;", ruled_out="0;1;"),
          filtered(binary(A, "!=", i32(1)), pruning="-", ruled_out=""), stats=A_STATS[1:]),
    group(A_Z, A_BLOCKS, filtered(above("a", 1), pruning="-", ruled_out=""),
          filtered(contains(lit(many("i32"), []), A), pruning="true", ruled_out="0;1;")),
    group([("x", "i32?")], [[[1, None]], [[2]]], filtered(null_test(X), pruning="($.x_null_count = 0u64)", required="x_null_count;", ruled_out="1;"),
          filtered(above("x", 5), pruning="-", ruled_out=""), stats=[(["x"], "null_count", [1, 0])]),
    group([("x", "i32?")], [[[1, None]], [[2]]], filtered(null_test(X), ruled_out=""), stats=[(["x"], "null_count", [None, None])]),
    group([("x", "i32?")], [[[None]], [[2]]], filtered(above("x", 1), pruning="($.x_max <= 1i32)", ruled_out=""),
          filtered(above("x", 2), ruled_out="1;"), stats=[(["x"], "max", [None, 2])]),
    group([("a_b", "i32"), ("a", struct(b="i32"))], [[[1], [{"b": 1}]]],
          filtered(binary(above("a_b", 5), "and", binary(item("b", A), ">", i32(5))), pruning="-", ruled_out=""),
          stats=[(["a_b"], "max", [1]), (["a", "b"], "max", [1])]),
    group([("a", struct(b="i32"))], [[[{"b": 1}]]],
          filtered(binary(item("b", A), ">", i32(5)), pruning="($.a_b_max <= 5i32)", required="a_b_max;", ruled_out="0;"),
          stats=[(["a", "b"], "max", [1])]),
    group(X32, [[[5]]], filtered(binary(X, "=", i32(5)), ruled_out="0;"), stats=[(["x"], "min", [9]), (["x"], "max", [1])]),
]

# Scans: the rows, the skipped blocks and the reads; over a store that doesn't tell its table; and with each read failing in turn.

CATALOG = realistic()
SHOP = "rows {\"id\":3,\"name\":\"alex\",\"city\":\"Oslo\"} {\"id\":6,\"name\":\"ann\",\"city\":\"Oslo\"} " \
       "{\"id\":13,\"name\":\"arne\",\"city\":\"Oslo\"} {\"id\":16,\"name\":\"aki\",\"city\":\"Oslo\"} / skipped 0 4 / reads " + " ".join(
           "%d name %d price %d address" % (b, b, b) + (" %d id" % b if b in (1, 2, 6, 7) else "") for b in (1, 2, 3, 5, 6, 7))
LESS_FIVE = binary(X, "<", lit("i8", 5))


def scanned(filter_bytes, projection, told, **answers):
    return of(projection, filter_bytes, scan=told, scan_untold=told, **answers)


def refused(filter_bytes, projection, name):
    return scanned(filter_bytes, projection, name + " / reads")


SCANS = [
    {**{member: CATALOG[member] for member in ("columns", "blocks", "stats")},
     "cases": [{"filter": CATALOG["filter"], "projection": CATALOG["projection"], "scan": SHOP, "scan_untold": SHOP, "scan_failing": "22 reads"}]},
    group(X32, TWO, scanned(ABOVE_TEN, X, "rows 12 20 / skipped / reads 0 x 1 x", scan_failing="2 reads"),
          scanned(contains(lit(EMPTY_LIST, []), X), X, "rows / skipped 0 1 / reads", scan_failing="0 reads"),
          scanned(TRUE, i32(7), "rows 7 7 7 / skipped / reads", scan_failing="0 reads"),
          scanned(TRUE, X, "rows 1 12 20 / skipped / reads 0 x 1 x"),
          refused(nots(256, ROOT), b"\0", "TooDeep(Filter)"),
          refused(nots(255, ROOT), X, "TypeMismatch(Filter)"),
          refused(ABOVE_TEN + b"\0", b"\0", "BadWire(Filter)"),
          refused(b"\x86\0" + ABOVE_TEN[1:], X, "BadWire(Filter)"),
          refused(ABOVE_TEN[:-1], X, "BadWire(Filter)"),
          refused(b"", X, "BadWire(Filter)"),
          refused(node("binary", b"\x0a", X, i32(10)), b"\0", "BadMetadata(Filter)"),
          refused(node("dynamic"), b"\0", "UnknownExpr(Filter)"),
          refused(node("binary", b"\3", ROOT, ROOT, ROOT), b"\0", "WrongChildren(Filter)"),
          refused(pack(*((str(i), ROOT) for i in range(4096))), b"\0", "TooManyNodes(Filter)"),
          refused(item("y"), b"\0", "BadWire(Projection)"),
          refused(item("y"), nots(256, ROOT), "TooDeep(Projection)"),
          refused(item("y"), node("binary", b"\x0a", X, i32(10)), "BadMetadata(Projection)"),
          refused(item("y"), node("dynamic"), "UnknownExpr(Projection)"),
          refused(item("y"), node("binary", b"\3", ROOT), "WrongChildren(Projection)"),
          refused(item("y"), item("y"), "UnknownField(Filter)"),
          refused(X, item("y"), "FilterNotBool"),
          refused(ABOVE_TEN, item("y"), "UnknownField(Projection)"),
          refused(ABOVE_TEN, negated(X), "TypeMismatch(Projection)")),
    group(X32, [], scanned(TRUE, X, "rows / skipped / reads")),
    group(X32, [[[1, 10]], [[11]]], scanned(ABOVE_TEN, X, "rows 11 / skipped 0 / reads 1 x", scan_failing="1 reads"),
          stats=[(["x"], "min", [0, 0]), (["x"], "max", [10, 11])]),
    group(X32, [[[1, 3, 6]]], scanned(binary(le(2, "x"), "and", binary(X, ">=", i32(5))), X, "rows / skipped / reads 0 x")),
    group(X32, [[[3, 1]]], scanned(NULL_OR_LESS, X, "rows / skipped / reads 0 x"), scanned(negated(NULL_OR_LESS), X, "rows 3 / skipped / reads 0 x")),
    group(X8, [[[127]]], scanned(NEXT_POSITIVE, X, "Overflow / reads 0 x"),
          scanned(TRUE, item("b", pack(("a", NEXT), ("b", X))), "rows 127 / skipped / reads 0 x"),
          scanned(null_test(pack(("a", NEXT))), X, "Overflow / reads 0 x")),
    group([("x", "i8"), ("y", "i8")], [[[127], [5]]],
          scanned(binary(binary(item("y"), ">", lit("i8", 9)), "and", NEXT_POSITIVE), X, "rows / skipped 0 / reads"), stats=[(["y"], "max", [5])]),
    group([("x", "i8"), ("y", "i8")], [[[1], [9]], [[127], [5]], [[2], [9]]],
          scanned(binary(item("y"), ">", lit("i8", 5)), NEXT, "rows 2 3 / skipped / reads 0 y 0 x 1 y 2 y 2 x", scan_failing="5 reads"),
          scanned(TRUE, NEXT, "Overflow / reads 0 x 1 x")),
    group(X8, [[[127, 1]]], scanned(LESS_FIVE, NEXT, "rows 2 / skipped / reads 0 x")),
    group(X8, [[[-1]]], scanned(LESS_FIVE, cast(X, "u8"), "BadCast / reads 0 x")),
    group(PQ, PQ_ROW, scanned(TRUE, merge(item("p"), item("q")), "rows {\"a\":null,\"b\":2} / skipped / reads 0 p 0 q", scan_failing="2 reads"),
          scanned(TRUE, select(merge(item("p"), item("q")), "b"), "rows {\"b\":2} / skipped / reads 0 q", scan_failing="1 reads"),
          scanned(TRUE, select(merge(item("p"), item("q")), "b", exclude=True), "rows {\"a\":null} / skipped / reads 0 p", scan_failing="1 reads"),
          refused(TRUE, select(item("p"), "a"), "NullableSelect(Projection)"), refused(TRUE, select(item("q"), "zz", exclude=True), "UnknownField(Projection)"),
          refused(TRUE, pack(("a", item("p")), ("a", item("q"))), "DuplicateField(Projection)"),
          refused(TRUE, item("c", item("b", item("q"))), "NotStruct(Projection)"), refused(item("b", item("q")), item("p"), "FilterNotBool")),
    group([("a_b", "i32"), ("a", struct(b="i32"))], [[[1], [{"b": 1}]]],
          scanned(binary(above("a_b", 5), "and", binary(item("b", A), ">", i32(5))), item("a_b"), "rows / skipped / reads 0 a_b 0 a"),
          stats=[(["a_b"], "max", [1]), (["a", "b"], "max", [1])]),
    group(X32, [[[5]]], scanned(binary(X, "=", i32(5)), X, "rows / skipped 0 / reads"), stats=[(["x"], "min", [9]), (["x"], "max", [1])]),
    *(group(X32, [[[5]]], scanned(binary(X, "=", i32(5)), X, "rows 5 / skipped / reads 0 x" if told == rows.FIVE else "rows / skipped 0 / reads"), stats=stats)
      for _, stats, told in rows.BOUNDS),
    group(X32, [[[1]], [[20]]], scanned(between(X, i32(10), i32(50), False, True), X, "rows 20 / skipped 0 / reads 1 x"),
          scanned(negated(le(10, "x")), X, "rows 20 / skipped 0 / reads 1 x"),
          scanned(negated(binary(binary(X, "<", i32(5)), "or", above("x", 10))), X, "rows / skipped 0 1 / reads"),
          scanned(binary(item("b", pack(("b", X))), ">", i32(10)), X, "rows 20 / skipped / reads 0 x 1 x"),
          stats=[(["x"], "min", [1, 20]), (["x"], "max", [1, 20])]),
    group([("x", "i32?")], [[[1, None]], [[2]]], scanned(null_test(X), X, "rows null / skipped 1 / reads 0 x"), stats=[(["x"], "null_count", [1, 0])]),
]

# Tokens: the longest that stands at each place, or none where a place has none.

SIGNS = [("(", "RoundOpen"), (")", "RoundClose"), ("[", "SquareOpen"), ("]", "SquareClose"), ("{", "CurlyOpen"), ("}", "CurlyClose"), (",", "Comma"),
         (":", "Colon"), (".", "Dot"), ("$", "Dollar"), ("?", "Question"), ("~", "Tilde"), ("+", "Plus"), ("-", "Minus"), ("=", "Eq"), ("!=", "NotEq"),
         (">", "Gt"), (">=", "Gte"), ("<", "Lt"), ("<=", "Lte")]
KEYWORDS = [("or", "Or"), ("and", "And"), ("not", "Not"), ("true", "True"), ("false", "False"), ("null", "Null"), ("lit", "Lit"), ("is_null", "IsNull"),
            ("cast", "Cast"), ("contains", "Contains"), ("like", "Like"), ("not_like", "NotLike"), ("ilike", "Ilike"), ("not_ilike", "NotIlike"),
            ("between", "Between"), ("between_oo", "BetweenOo"), ("between_oc", "BetweenOc"), ("between_co", "BetweenCo"), ("pack", "Pack"),
            ("pack_null", "PackNull"), ("merge", "Merge"), ("merge_null", "MergeNull")]


def held(kind, text, behind=""):
    """A token that holds a text."""
    return '%s(Text { text: "%s" }%s)' % (kind, text, behind)


CUT = [
    ("a>=not 'it''s' 10u8 \"o r\"",
     [held("Word", "a"), "Mark(Gte)", "Reserved(Not)", held("Quote", "it's"), held("Number", "10", ", Some(U8)"), held("Quoted", "o r")]),
    *[(sign, ["Mark(%s)" % name]) for sign, name in SIGNS],
    *[(word, ["Reserved(%s)" % name]) for word, name in KEYWORDS],
    *[("0" + t, [held("Number", "0", ", Some(%s)" % t.upper())]) for t in ["u8", "u16", "u32", "u64", "i8", "i16", "i32", "i64"]],
    ("", []),
    (" \t\n", []),
    ("orx or_ Or", [held("Word", "orx"), held("Word", "or_"), held("Word", "Or")]),
    ("12 0", [held("Number", "12", ", None"), held("Number", "0", ", None")]),
    ("<==", ["Mark(Lte)", "Mark(Eq)"]),
    (">>=", ["Mark(Gt)", "Mark(Gte)"]),
    ("'''' \"\"", [held("Quote", "'"), held("Quoted", "")]),
    ("--1", ["Mark(Minus)", "Mark(Minus)", held("Number", "1", ", None")]),
    *[(text, None) for text in ["'a", "\"a", "007", "1u9", "12x", "!", "a # b", "é"]],
]

# Queries: what each rule and each call names, and what is refused.

READ = [
    ("x > 10i32", "($.x > 10i32)"),
    ("a or b or c", "(($.a or $.b) or $.c)"),
    ("a or b and c", "($.a or ($.b and $.c))"),
    ("a and b or c", "(($.a and $.b) or $.c)"),
    ("a and b and c", "(($.a and $.b) and $.c)"),
    ("a - b - c", "(($.a - $.b) - $.c)"),
    ("a - (b - c)", "($.a - ($.b - $.c))"),
    ("a + b > c - d", "(($.a + $.b) > ($.c - $.d))"),
    ("a = b and c", "(($.a = $.b) and $.c)"),
    ("a - b.c", "($.a - $.b.c)"),
    ("not a = b or c", "((!($.a = $.b)) or $.c)"),
    ("not not a and b", "((!(!$.a)) and $.b)"),
    ("not a = b", "(!($.a = $.b))"),
    ("a + b - c <= d", "((($.a + $.b) - $.c) <= $.d)"),
    ("a!=b", "($.a != $.b)"),
    ("1 - -2", "(1i64 - -2i64)"),
    ("(a or b) and c", "(($.a or $.b) and $.c)"),
    ("$.\"or\".\"a\"\"b\"", "$.or.a\"b"),
    ("$.b{x, \"y z\"}", "$.b{x, y z}"),
    ("b~{x}{}", "$.b~{x}{}"),
    ("'it''s é' = \"é\"", "(\"it's é\" = $.é)"),
    ("true = false", "(true = false)"),
    ("lit(i32?, null)", "null"),
    ("lit(list(u8?), [1, null])", "[1u8, null]"),
    ("lit({a: i8, b: utf8?}?, {-128, 'x'})", "{a: -128i8, b: \"x\"}"),
    ("bool = u8", "($.bool = $.u8)"),
    ("9223372036854775807", "9223372036854775807i64"),
    ("-9223372036854775808", "-9223372036854775808i64"),
    ("255u8", "255u8"),
    ("18446744073709551615u64", "18446744073709551615u64"),
    ("is_null(a)", "is_null($.a)"),
    ("cast(a, list({x: u16})?)", "cast($.a, list({x=u16})?)"),
    ("contains(l, 1u8)", "contains($.l, 1u8)"),
    ("like(a, 'x%')", "$.a LIKE \"x%\""),
    ("between_oc(v, 1, 2)", "(1i64 < $.v <= 2i64)"),
    ("between_co(v, 1, 2)", "(1i64 <= $.v < 2i64)"),
    ("between_oo(v, 1, 2)", "(1i64 < $.v < 2i64)"),
    ("between(v, 1, 2)", "(1i64 <= $.v <= 2i64)"),
    ("pack(x: a, y: 1i8)", "pack(x: $.a, y: 1i8)"),
    ("pack_null()", "pack()?"),
    ("merge($, $.b)", "merge($, $.b)"),
    ("merge_null(a)", "merge($.a)?"),
    ("(" * 2046 + "$.x" + ")" * 2046, "$.x"),
    ("(" * 4096, "BadQuery"),
    ("(" * 4097, "TooManyTokens"),
    *[(text, "BadToken") for text in ["'a", "\"a", "007", "01", "1u9", "12x", "a ! b", "a # b", "é"]],
    *[(text, "BadQuery") for text in ["", "1 +", "or", "a b", "a = b = c", "a{x,}", "is_null(a, b)", "between(300u8, a)", "lit(u8, 1u8)", "300u8 +"]],
    *[(text, "BadValue") for text in ["300u8", "256u8", "-1u8", "9223372036854775808", "18446744073709551616u64", "9" * 41]],
    *[(text, "BadValue") for text in ["lit(u8, null)", "lit(bool, null)", "lit({a: u8}, [1])"]],
    ("x " * 4097, "TooManyTokens"),
    ("not " * 4096 + "a", "TooManyTokens"),
    ("x " * 4096, "BadQuery"),
]

# Written queries: each kind once in each form, constants, and names; each of them is read as the expression that it was written for.

RESERVED = ["or", "and", "not", "true", "false", "null", "lit", "is_null", "cast", "contains", "like", "not_like", "ilike", "not_ilike",
            "between", "between_oo", "between_oc", "between_co", "pack", "pack_null", "merge", "merge_null"]
WORDS = ["a", "a_1", "_", "_1", "x9", "Or", "nots", "bool", "u8", "list", "i64"]
QUOTED = [("", ""), ("1a", "1a"), ("a b", "a b"), ("a\"b", "a\"\"b"), ("\"", "\"\""), ("it's", "it's"), ("é", "é"), ("a.b", "a.b"), ("x\n", "x\n")]
MANY_FIELDS = pack(*(("f%d" % i, ROOT) for i in range(1025)))

WRITTEN = [
    (ROOT, "$"),
    (item("a", item("b")), "$.b.a"),
    *[(item(name), "$." + name) for name in WORDS],
    *[(item(name), "$.\"%s\"" % name) for name in RESERVED],
    *[(item(name), "$.\"%s\"" % inner) for name, inner in QUOTED],
    *[(binary(A, sign, ROOT), "($.a %s $)" % sign) for sign in ["=", "!=", ">", ">=", "<", "<=", "and", "or", "+", "-"]],
    (binary(binary(A, "or", B), "and", negated(A)), "(($.a or $.b) and (not $.a))"),
    (binary(A, "-", binary(A, "-", i32(-1))), "($.a - ($.a - -1i32))"),
    (negated(negated(A)), "(not (not $.a))"),
    (item("a", negated(ROOT)), "(not $).a"),
    (null_test(A), "is_null($.a)"),
    (like(A, "%x"), "like($.a, '%x')"),
    (like(A, B, True, False), "not_like($.a, $.b)"),
    (like(A, B, False, True), "ilike($.a, $.b)"),
    (like(A, B, True, True), "not_ilike($.a, $.b)"),
    (between(A, i32(1), i32(2)), "between($.a, 1i32, 2i32)"),
    (between(A, B, i32(2), True, True), "between_oo($.a, $.b, 2i32)"),
    (between(A, B, i32(2), True, False), "between_oc($.a, $.b, 2i32)"),
    (between(A, B, i32(2), False, True), "between_co($.a, $.b, 2i32)"),
    *[(cast(A, t), "cast($.a, %s)" % t) for t in ["bool", "bool?", "utf8", "utf8?", "u8", "u16?", "u32", "u64?", "i8", "i16?", "i32", "i64?"]],
    (cast(A, many(struct(True, x="u8?", y=many("utf8", True)), False)), "cast($.a, list({x: u8?, y: list(utf8)?}?))"),
    (cast(A, struct(**{"or": "i8", "a b": struct()})), "cast($.a, {\"or\": i8, \"a b\": {}})"),
    (contains(A, B), "contains($.a, $.b)"),
    (pack(), "pack()"),
    (pack(("a", A), ("or", B)), "pack(a: $.a, \"or\": $.b)"),
    (pack(("a", A), nullable=True), "pack_null(a: $.a)"),
    (merge(A, B, ROOT), "merge($.a, $.b, $)"),
    (merge(A, nullable=True), "merge_null($.a)"),
    (select(A), "$.a{}"),
    (select(A, "x", "y z", "x"), "$.a{x, \"y z\", x}"),
    (select(ROOT, "a", "b c"), "${a, \"b c\"}"),
    (select(select(A, exclude=True), "or", "x", exclude=True), "$.a~{}~{\"or\", x}"),
    (TRUE, "true"),
    (lit("bool", False), "false"),
    *[(lit(t, n), "%d%s" % (n, t)) for t, n in [("u8", 0), ("u16", 65535), ("u32", 10), ("u64", 18446744073709551615),
                                                ("i8", -128), ("i16", -5), ("i32", 2147483647), ("i64", -9223372036854775808)]],
    *[(lit("utf8", s), "'%s'" % inner) for s, inner in [("", ""), ("a", "a"), ("it's", "it''s"), ("'", "''"), ("a\"b é\n", "a\"b é\n"),
                                                        ("it's \"é\"", "it''s \"é\"")]],
    *[(lit(t + "?", None), "lit(%s?, null)" % t) for t in ["bool", "i32", "utf8"]],
    (lit("bool?", True), "lit(bool?, true)"),
    (lit("i8?", -5), "lit(i8?, -5)"),
    (lit("utf8?", "it's"), "lit(utf8?, 'it''s')"),
    (lit(many("i32"), []), "lit(list(i32), [])"),
    (lit(many("i32?", True), [1, None, -2]), "lit(list(i32?)?, [1, null, -2])"),
    (lit(struct(), {}), "lit({}, {})"),
    (lit(PET, {"dog": 32, "cat": "rufus"}), "lit({dog: u32, cat: utf8}, {32, 'rufus'})"),
    (lit(struct(True, a=many(struct(b="bool"))), {"a": [{"b": True}, {"b": False}]}), "lit({a: list({b: bool})}?, {[{true}, {false}]})"),
    (item("a", i32(10)), "10i32.a"),
    (select(lit("utf8", "x"), "a"), "'x'{a}"),
    (nots(250, ROOT), "(not " * 250 + "$" + ")" * 250),
    (MANY_FIELDS, "pack(" + ", ".join("f%d: $" % i for i in range(1025)) + "), refused with TooManyTokens"),
]
READ_AND_WRITTEN = [
    ("x > 10i32", "($.x > 10i32)"),
    ("\"x\".\"a\"\"b\"", "$.x.\"a\"\"b\""),
    ("not a = b or c and d", "((not ($.a = $.b)) or ($.c and $.d))"),
    ("a - b + 'it''s'", "(($.a - $.b) + 'it''s')"),
    ("-5", "-5i64"),
    ("-0u8", "0u8"),
    ("lit(u8, 1)", "1u8"),
    ("lit ( u8 ? , 1 )", "lit(u8?, 1)"),
    ("not " * 500 + "$", "(not " * 500 + "$" + ")" * 500),
    ("merge()", "merge()"),
    ("merge_null()", "merge_null()"),
    ("pack_null()", "pack_null()"),
    ("a", "$.a"),
    ("\"or\" = 'it''s'", "($.\"or\" = 'it''s')"),
    ("'it''s \"é\"'", "'it''s \"é\"'"),
    ("${a, \"b c\"}", "${a, \"b c\"}"),
    ("-5i8 <= a", "(-5i8 <= $.a)"),
    ("lit(i64?, null)", "lit(i64?, null)"),
    ("lit(i64?, 5)", "lit(i64?, 5)"),
    ("lit({a: list(bool)}, {[true, false]})", "lit({a: list(bool)}, {[true, false]})"),
    ("pack_null(a: $, b: merge($))", "pack_null(a: $, b: merge($))"),
    ("between_oc(a, 1, 2)", "between_oc($.a, 1i64, 2i64)"),
    ("not_ilike(a, 'x%')", "not_ilike($.a, 'x%')"),
    ("cast(a, u8?){b, c}", "cast($.a, u8?){b, c}"),
    ("$~{\"\"}", "$~{\"\"}"),
]
QUERIES = [
    group([], [], *[{"query": text, "tokens": "None" if told is None else "[%s]" % ", ".join(told)} for text, told in CUT]),
    group([], [], *[{"query": text, "read": told} for text, told in READ], *[{"query": text, "read_and_written": told} for text, told in READ_AND_WRITTEN]),
    group(X32, [[[]]], *[of(projection, written=told) for projection, told in WRITTEN], of(X, written_dynamic="NotWritable")),
]

# Runs of the program: the rows of rows.py, but for words that are no UTF-8 and an input that is too long to keep.


def run(words, taken, told, status):
    """A run of these words over an input; each line of what is written ends with ` / `."""
    text = taken.decode() if isinstance(taken, bytes) else json.dumps(taken, separators=(",", ":"))
    return {"words": words, "input": text, "run": "%d %s / " % (status, told)}


KEPT = [row for row in rows.rows() if len(row[2]) < rows.LONG and all(isinstance(word, str) for word in row[1])]
RUNS = [{"cases": [run(words, taken, told.replace("\n", " / "), status) for _, words, taken, told, status in KEPT]}]

TABLES = {
    "texts": [TEXTS],
    "typing": [TYPES, *OTHER_TYPES],
    "evaluation": VALUES,
    "rewriting": REWRITING,
    "pruning": PRUNING,
    "scans": SCANS,
    "runs": RUNS,
    "requests": INPUTS,
    "queries": QUERIES,
}

# Tables whose rows are calls of one crate; the answers are worked out by hand in the module that is named.
ROWS = {
    "values": values.ROWS,
    "expressions": expressions.ROWS,
    "wire_bytes": WIRE_BYTES,
}


def written(name, table, answers):
    """Writes a table, and prints the line of it that vx_cases prints."""
    with open(os.path.join(DATA, name + ".json"), "w", encoding="utf-8") as out:
        json.dump(table, out, ensure_ascii=False, separators=(",", ":"))
        out.write("\n")
    print("%s.json: %d answers agree" % (name, answers))


def main():
    os.makedirs(DATA, exist_ok=True)
    for name, groups in TABLES.items():
        cases = [case for table in groups for case in table["cases"]]
        answers = sum(len(case) - len({"filter", "projection", "over", "query", "input", "words"} & set(case)) for case in cases)
        written(name, groups, answers)
    for name, rows in ROWS.items():
        written(name, rows, len(rows))


if __name__ == "__main__":
    main()
