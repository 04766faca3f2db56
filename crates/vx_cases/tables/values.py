"""Rows of calls on types, scalars, names and paths, each answer of which was worked out by hand.

Types and scalars are spelled as in queries.
"""


def row(call, want, **arguments):
    return {"call": call, **arguments, "want": want}


def truth(answer):
    return "true" if answer else "false"


# two names, whether no name stands twice among them
PAIRS = [("a", "b", True), ("a", "a", False), ("a", "A", True), ("", "", False)]


def distinct_rows():
    for first, second, distinct in PAIRS:
        want = truth(distinct)
        fields = "{\"%s\": utf8?, \"%s\": bool?}" % (first, second)
        items = "list(%s)?" % fields
        outer = "{a: %s, b: bool?}" % items
        yield row("are_distinct", want, names=[first, second])
        yield row("is_among", truth(not distinct), names=[first, second])
        yield row("fields_are_distinct", want, type=fields)
        yield row("fields_are_distinct", want, type=outer)
        yield row("is_distinct", want, type=items)
        yield row("is_distinct", want, type=fields)
        yield row("is_distinct", want, type=outer)


NAMES = [
    row("are_distinct", "true", names=[]),
    row("are_distinct", "true", names=["a"]),
    row("are_distinct", "false", names=["a", "b", "c", "a"]),
    row("are_distinct", "false", names=["a", "b", "c", "c"]),
    row("are_distinct", "true", names=["é", "e", "É", "E"]),
    row("are_distinct", "true", names=["n%d" % i for i in range(2000)]),
    row("are_distinct", "false", names=["n%d" % i for i in range(2000)] + ["n1000"]),
    row("is_among", "false", names=["a"]),
    row("is_among", "true", names=["a", "b", "c", "a"]),
    row("is_among", "false", names=["a", "b", "b"]),
    row("names", "a b, \"", names=["a b", "\""]),
    row("names", "", names=[]),
    row("names", "a", names=["a"]),
    row("names", ", ", names=["", ""]),
    row("path", "", names=[]),
    row("path", "a;", names=["a"]),
    row("path", "a;max;", names=["a", "max"]),
    row("path", "a;a;;b;", names=["a", "a", "", "b"]),
    row("path_set", "0", names=[]),
    row("path_set", "new;old;1", names=["a", "a"]),
    row("path_set", "new;new;old;new;old;3", names=["a", "b", "a", "A", "b"]),
]

FIELDS = "{dog: u32, cat: utf8?}"

TYPES = [
    *[row("type", t, type=t) for t in ["bool", "bool?", "utf8", "utf8?", "u8", "u16?", "u32", "u64?", "i8", "i16?", "i32", "i64?"]],
    *[row("type", t, type=t) for t in ["list(i32)", "list(i32?)?", "list(list(bool)?)"]],
    row("type", "{}", type="{}"),
    row("type", "{dog=u32, cat=utf8?}?", type=FIELDS + "?"),
    row("type", "{dog=u32, cat=utf8?}", type=FIELDS),
    row("with_null", "bool?", type="bool"),
    row("with_null", "bool?", type="bool?"),
    row("with_null", "list(i32)?", type="list(i32)"),
    row("with_null", "{dog=u32, cat=utf8?}?", type=FIELDS),
    row("without_null", "bool", type="bool?"),
    row("without_null", "u8", type="u8"),
    row("without_null", "list(i32?)", type="list(i32?)?"),
    row("without_null", "{dog=u32, cat=utf8?}", type=FIELDS + "?"),
    row("depth", "1", type="utf8?"),
    row("depth", "2", type="list(i8)"),
    row("depth", "4", type="{a: bool, b: {c: list(u8)}}"),
    row("depth", "64", type="list(" * 63 + "i8" + ")" * 63),
    row("is_distinct", "true", type="bool"),
    row("fields_are_distinct", "no struct", type="bool"),
    row("fields_are_distinct", "true", type="{}"),
    row("is_distinct", "true", type="{a: {a: i8}, b: {a: i8}}"),
    row("projected", "{cat=utf8?}", type=FIELDS, names=["cat"]),
    row("projected", "{cat=utf8?, dog=u32}", type=FIELDS, names=["cat", "dog"]),
    row("projected", "{}", type=FIELDS, names=[]),
    row("projected", "{dog=u32, dog=u32}", type=FIELDS, names=["dog", "dog"]),
    row("projected", "UnknownField", type=FIELDS, names=["dog", "cow"]),
    row("projected", "{a=i8}", type="{a: i8, a: i16}", names=["a"]),
]

# a constant, its text, and its text as a row
SCALARS = [
    ("true", "true", "true"),
    ("lit(bool?, null)", "null", "null"),
    ("0u8", "0u8", "0"),
    ("-5i16", "-5i16", "-5"),
    ("9223372036854775807i64", "9223372036854775807i64", "9223372036854775807"),
    ("lit(i8?, -128)", "-128i8", "-128"),
    ("'a\"b'", "\"a\\\"b\"", "\"a\\\"b\""),
    ("'\n\t\\'", "\"\\n\\t\\\\\"", "\"\\n\\t\\\\\""),
    ("'\x01é'", "\"\\u0001é\"", "\"\\u0001é\""),
    ("lit(list(i32), [])", "[]", "[]"),
    ("lit(list(i32?), [1, null])", "[1i32, null]", "[1,null]"),
    ("lit({}, {})", "{}", "{}"),
    ("lit({dog: u32, cat: utf8}, {32, 'rufus'})", "{dog: 32u32, cat: \"rufus\"}", "{\"dog\":32,\"cat\":\"rufus\"}"),
    ("lit({\"a\"\"b\": list({c: bool})}?, {[{true}, {false}]})", "{a\"b: [{c: true}, {c: false}]}", "{\"a\\\"b\":[{\"c\":true},{\"c\":false}]}"),
]

MADE = [
    row("utf8", "\"text\"", text="text"),
    row("utf8", "\"\"", text=""),
    row("list", "[1i32, 2i32]", type="i32", items=["1i32", "2i32"]),
    row("list", "[]", type="i32", items=[]),
    row("list", "[1i8, 127i8]", type="i8", items=["1i32", "127u64"]),
    row("list", "WrongValue", type="i8", items=["1i32", "128u64"]),
    row("list", "WrongValue", type="i32", items=["1i32", "lit(i32?, null)"]),
    row("list", "[null]", type="i32?", items=["lit(bool?, null)"]),
    row("list", "WrongValue", type="i32", items=["'a'"]),
    row("struct", "{dog: 32u32, cat: \"rufus\"}", type=FIELDS, items=["32u32", "'rufus'"]),
    row("struct", "{dog: 32u32, cat: null}", type=FIELDS, items=["32u8", "lit(bool?, null)"]),
    row("struct", "WrongValue", type=FIELDS, items=["'rufus'", "32u32"]),
    row("struct", "WrongValue", type=FIELDS, items=["32u32"]),
    row("struct", "WrongValue", type=FIELDS, items=["32u32", "'rufus'", "true"]),
    row("struct", "WrongValue", type=FIELDS, items=["lit(u32?, null)", "'rufus'"]),
    row("struct", "WrongValue", type="bool", items=["true"]),
    row("struct", "{}", type="{}", items=[]),
]

ROWS = [
    *distinct_rows(),
    *NAMES,
    *TYPES,
    *[row("scalar", text, scalar=constant) for constant, text, _ in SCALARS],
    *[row("row", text, scalar=constant) for constant, _, text in SCALARS],
    *MADE,
]
