"""Rows of calls on wire texts, each answer of which was worked out by hand from docs/FORMATS.md.

What is read is written again. So the answer to a field that stands at a place tells the place after it and the digits that it is written as, which are
those that were read, since a field has one spelling; and the answer to a tree or an expression names other bytes where it is written as others.
"""
from wire import node, text

FILTER = bytes([
    0x06, 0x62, 0x69, 0x6e, 0x61, 0x72, 0x79, 0x01, 0x02, 0x02, 0x08, 0x67, 0x65, 0x74, 0x5f, 0x69,
    0x74, 0x65, 0x6d, 0x02, 0x01, 0x78, 0x01, 0x04, 0x72, 0x6f, 0x6f, 0x74, 0x00, 0x00, 0x07, 0x6c,
    0x69, 0x74, 0x65, 0x72, 0x61, 0x6c, 0x08, 0x01, 0x00, 0x06, 0x01, 0x0a, 0x00, 0x00, 0x00, 0x00,
])
FILTER_TEXT = "($.x > 10i32)"
ROOT = bytes([0x04, 0x72, 0x6f, 0x6f, 0x74, 0x00, 0x00])
OTHER = bytes([0x01, 0x78, 0x00, 0x00])
LONGEST = [0xff, 0xff, 0xff, 0xff, 0x0f]


def digits(spelled):
    return bytes(spelled).hex()


def pieces(*repeated):
    """Bytes in pieces, each of which stands so many times."""
    return [{"digits": digits(piece), "times": times} for piece, times in repeated]


def row(call, spelled, want, **more):
    written = spelled if isinstance(spelled, list) and spelled and isinstance(spelled[0], dict) else digits(spelled)
    return {"call": call, "bytes": written, **more, "want": want}


def field(call, spelled, told, end=None, at=0, **more):
    """A call on the field at a place: it holds this and ends there, or no field stands there."""
    want = "None" if told is None else "%s to %d as %s" % (told, end, digits(spelled[at:end]))
    return row(call, spelled, want, **({"at": at} if at else {}), **more)


# Fields: numbers, texts, types and values, at the front and behind other bytes.

NUMBERS = [
    field("number", [], None),
    field("number", [0x00], 0, 1),
    field("number", [0x7f, 0x80], 127, 1),
    field("number", [0x80], None),
    field("number", [0x80, 0x00], None),
    field("number", [0x80, 0x01], 128, 2),
    field("number", [0xac, 0x02], 300, 2),
    field("number", [0xff, 0x7f], 16383, 2),
    field("number", [0x80, 0x80, 0x01], 16384, 3),
    field("number", [0xff, 0xff, 0x7f], 2097151, 3),
    field("number", [0xff, 0xff, 0xff, 0x7f], 268435455, 4),
    field("number", [0x80, 0x80, 0x80, 0x80, 0x01], 268435456, 5),
    field("number", LONGEST, 4294967295, 5),
    field("number", [0xff, 0xff, 0xff, 0xff, 0x10], None),
    field("number", [0x80, 0x80, 0x80, 0x80, 0x00], None),
    field("number", [0xff, 0xff, 0xff, 0xff, 0x8f, 0x00], None),
    # at a place, at the end, and behind it
    field("number", [0x7f, 0x80, 0x01, 0x05], 128, 3, at=1),
    field("number", [0x7f], None, at=1),
    row("number", [0x7f], "not asked", at=2),
]
TEXTS = [
    field("text", FILTER, "binary", 7),
    field("text", FILTER, "get_item", 19, at=10),
    field("text", [0x00, 0x61], "", 1),
    field("text", text("é"), "é", 3),
    field("text", text("a" * 128), "a" * 128, 130),
    field("text", [], None),
    field("text", [0x02, 0x61], None),
    field("text", [0x81, 0x00, 0x61], None),
    field("text", [0x01, 0xff], None),
    field("text", [0x02, 0xc0, 0x80], None),
    field("text", LONGEST, None),
    row("text", [0x00], "not asked", at=2),
]


def lists(levels, nullable, inner):
    """So many lists around a type, all of them nullable or none."""
    return [3, nullable] * levels + inner


def lists_text(levels, nullable, inner):
    return "list(" * levels + inner + (")?" if nullable else ")") * levels


TYPES = [
    field("type", [0, 0], "bool", 2),
    field("type", [0, 1], "bool?", 2),
    *[field("type", [1, 0, i], width, 3) for i, width in enumerate(["u8", "u16", "u32", "u64", "i8", "i16", "i32", "i64"])],
    field("type", [1, 0, 7, 9], "i64", 3),
    field("type", [1, 1, 7], "i64?", 3),
    field("type", [1, 0, 8], None),
    field("type", [1, 0], None),
    field("type", [2, 0], "utf8", 2),
    field("type", [2, 1], "utf8?", 2),
    field("type", [2, 2], None),
    field("type", [2], None),
    field("type", [5, 0], None),
    field("type", [], None),
    field("type", [3, 0, 2, 1], "list(utf8?)", 4),
    field("type", [3, 0], None),
    field("type", [4, 0, 0], "{}", 3),
    field("type", [4, 0], None),
    field("type", [4, 1, 1, 1, 0x61, 0, 0], "{a=bool}?", 7),
    field("type", [4, 1, 0x81, 0, 1, 0x61, 0, 0], None),
    field("type", [4, 1, 2, 1, 0x61, 0, 0], None),
    field("type", [4, 0, 2, 1, 0x61, 0, 0, 1, 0x61, 1, 1, 4], "{a=bool, a=i8?}", 12),
    field("type", [4, 0, *LONGEST], None),
    field("type", [9, 3, 1, 0, 0], "list(bool)?", 5, at=1),
    field("type", lists(63, 0, [0, 0]), lists_text(63, 0, "bool"), 128),
    field("type", lists(64, 0, [0, 0]), None),
    field("type", [4, 0, 1, 1, 0x61] + lists(62, 0, [0, 0]), "{a=" + lists_text(62, 0, "bool") + "}", 131),
    field("type", [4, 0, 1, 1, 0x61] + lists(63, 0, [0, 0]), None),
    row("type", [0, 0], "not asked", at=3),
]


def value(kind, spelled, told, end=None, at=0):
    return field("value", spelled, told, end, at, type=digits(kind))


A_AND_B = [4, 0, 2, 1, 0x61, 2, 0, 1, 0x62, 0, 0]
PARTS = [4, 0, 3, 1, 0x61, 2, 0, 1, 0x62, 1, 0, 5, 1, 0x63, 3, 0, 0, 1]
VALUES = [
    # true and false, and no other boolean
    value([0, 0], [1, 1], "true", 2),
    value([0, 0], [1, 0, 7], "false", 2),
    value([0, 0], [1, 2], None),
    value([0, 0], [1], None),
    value([0, 0], [], None),
    # null only where the type is nullable, and no other first byte
    value([0, 0], [0], None),
    value([0, 1], [0], "null", 1),
    value([0, 1], [2, 0], None),
    value([3, 0, 0, 0], [1, 1, 0], None),
    value([3, 0, 0, 1], [1, 1, 0], "[null]", 3),
    value([4, 0, 1, 1, 0x61, 2, 0], [0], None),
    value([4, 1, 1, 1, 0x61, 2, 0], [0], "null", 1),
    # 10i32, whole and a byte too short
    value([1, 0, 6], [1, 0x0a, 0, 0, 0], "10", 5),
    value([1, 0, 6], [1, 0x0a, 0, 0], None),
    # texts, two of them no UTF-8, one with its length in two bytes
    value([2, 0], [1, 1, 0x61], '"a"', 3),
    value([2, 0], [1, 0], '""', 2),
    value([2, 0], [1, 1, 0xff], None),
    value([2, 0], [1, 2, 0xc0, 0x80], None),
    value([2, 0], [1, 0x81, 0, 0x61], None),
    # lists: two elements, none, one too few, and 2^32 - 1 of which none is there
    value([3, 0, 0, 0], [1, 2, 1, 0, 1, 1], "[false,true]", 6),
    value([3, 0, 0, 0], [1, 0], "[]", 2),
    value([3, 0, 0, 0], [1, 2, 1, 0], None),
    value([3, 0, 0, 0], [1, *LONGEST], None),
    value([3, 0, 2, 1], [1, 2, 0, 1, 1, 0x61], '[null,"a"]', 6),
    # structs: a text and a boolean, the same in the other order, and no field
    value(A_AND_B, [1, 1, 0, 1, 1], '{"a":"","b":true}', 5),
    value(A_AND_B, [1, 1, 1, 1, 0], None),
    value([4, 0, 0], [1], "{}", 1),
    value(PARTS, [1, 1, 1, 0x7a, 1, 0xfe, 0xff, 1, 2, 1, 1, 0], '{"a":"z","b":-2,"c":[true,null]}', 12),
    # behind other bytes
    value([0, 0], [7, 7, 1, 1], "true", 4, at=2),
    row("value", [1, 1], "not asked", at=3, type=digits([0, 0])),
]
INTEGERS = [
    (0, 0, [0]), (0, 255, [0xff]),
    (1, 0, [0, 0]), (1, 65535, [0xff, 0xff]),
    (2, 0, [0, 0, 0, 0]), (2, 4294967295, [0xff, 0xff, 0xff, 0xff]),
    (3, 0, [0, 0, 0, 0, 0, 0, 0, 0]), (3, 18446744073709551615, [0xff, 0xff, 0xff, 0xff, 0xff, 0xff, 0xff, 0xff]),
    (4, -128, [0x80]), (4, -1, [0xff]), (4, 127, [0x7f]),
    (5, -32768, [0, 0x80]), (5, -1, [0xff, 0xff]), (5, 32767, [0xff, 0x7f]),
    (6, -2147483648, [0, 0, 0, 0x80]), (6, -1, [0xff, 0xff, 0xff, 0xff]), (6, 2147483647, [0xff, 0xff, 0xff, 0x7f]),
    (7, -9223372036854775808, [0, 0, 0, 0, 0, 0, 0, 0x80]), (7, -1, [0xff, 0xff, 0xff, 0xff, 0xff, 0xff, 0xff, 0xff]),
    (7, 9223372036854775807, [0xff, 0xff, 0xff, 0xff, 0xff, 0xff, 0xff, 0x7f]),
]
INTEGER_VALUES = [value([1, 0, width], [1, *spelled], told, 1 + len(spelled)) for width, told, spelled in INTEGERS]

# Trees: their outermost node, what is no tree, and the limits.

OPEN_NOT = [0x03, 0x6e, 0x6f, 0x74, 0x00, 0x01]
BAD_WIRE = [
    [],
    # a byte after a node
    [0x04, 0x72, 0x6f, 0x6f, 0x74, 0x00, 0x00, 0x00],
    # 6 in two bytes
    [0x86, 0x00, 0x62, 0x69, 0x6e, 0x61, 0x72, 0x79, 0x00, 0x00],
    # 4 in two bytes
    [0x84, 0x00, 0x72, 0x6f, 0x6f, 0x74, 0x00, 0x00],
    # ids that are no UTF-8
    [0x01, 0xff, 0x00, 0x00],
    [0x02, 0xc0, 0x80, 0x00, 0x00],
    # 2^32 - 1 bytes of metadata, or children, of which none is there
    [0x00, *LONGEST],
    [0x00, 0x00, *LONGEST],
    # 2^32 children
    [0x00, 0x00, 0x80, 0x80, 0x80, 0x80, 0x10],
]
MARKED = [0x04, 0x72, 0x6f, 0x6f, 0x74, 0x01, 0x00, 0x00]
TREES = [
    row("tree", FILTER, "binary:02:2"),
    row("tree", FILTER[10:30], "get_item:0178:1"),
    row("tree", ROOT, "root::0"),
    row("tree", OTHER, "x::0"),
    row("tree", [0, 0, 0], "::0"),
    row("tree", MARKED, "root:00:0"),
    *[row("tree", FILTER[:length], "BadWire") for length in range(48)],
    *[row("tree", spelled, "BadWire") for spelled in BAD_WIRE],
    # open nodes
    row("tree", pieces((OPEN_NOT, 255)), "BadWire"),
    row("tree", pieces((OPEN_NOT, 256)), "TooDeep"),
    row("tree", pieces((OPEN_NOT, 255), (ROOT, 1)), "not::1"),
    row("tree", pieces((OPEN_NOT, 256), (ROOT, 1)), "TooDeep"),
    # 4,096 nodes and one more
    row("tree", pieces(([0x00, 0x00, 0xff, 0x1f], 1), (ROOT, 4095)), "::4095"),
    row("tree", pieces(([0x00, 0x00, 0x80, 0x20], 1), (ROOT, 4096)), "TooManyNodes"),
    # equality by the whole structure
    row("same_tree", FILTER, "true", other=digits(FILTER)),
    row("same_tree", FILTER, "false", other=digits(ROOT)),
    row("same_tree", ROOT, "false", other=digits(MARKED)),
    row("same_tree", ROOT, "false", other=digits(OTHER)),
    row("same_tree", ROOT, "false", other=digits([*ROOT[:-1], 1, *ROOT])),
    row("same_tree", node("", b"", ROOT, OTHER), "false", other=digits(node("", b"", OTHER, ROOT))),
]

# Expressions: what each kind's metadata builds over so many children, what is no metadata, and how many children it takes.

BUILT = [
    ("root", [], 0, "$"),
    ("not", [], 1, "(!$)"),
    ("is_null", [], 1, "is_null($)"),
    ("list_contains", [], 2, "contains($, $)"),
    *[("binary", [place], 2, "($ %s $)" % sign) for place, sign in enumerate(["=", "!=", ">", ">=", "<", "<=", "and", "or", "+", "-"])],
    ("between", [0, 0], 3, "($ <= $ <= $)"),
    ("between", [1, 0], 3, "($ < $ <= $)"),
    ("between", [0, 1], 3, "($ <= $ < $)"),
    ("between", [1, 1], 3, "($ < $ < $)"),
    ("like", [0, 0], 2, "$ LIKE $"),
    ("like", [1, 0], 2, "$ LIKE $"),
    ("like", [0, 1], 2, "$ LIKE $"),
    ("get_item", [1, 0x78], 1, "$.x"),
    ("cast", [3, 0, 2, 1], 1, "cast($, list(utf8?))"),
    ("select", [0, 0], 1, "${}"),
    ("select", [1, 0], 1, "$~{}"),
    # a name that stands twice
    ("select", [0, 2, 1, 0x61, 1, 0x61], 1, "${a, a}"),
    ("pack", [0, 0], 0, "pack()"),
    ("pack", [1, 0], 0, "pack()?"),
    ("pack", [0, 2, 1, 0x61, 0], 2, "pack(a: $, : $)"),
    ("merge", [1], 1, "merge($)?"),
    ("merge", [0], 3, "merge($, $, $)"),
    ("literal", [0, 1, 0], 0, "null"),
    ("literal", [0, 0, 1, 1], 0, "true"),
    ("literal", [1, 0, 4, 1, 0xff], 0, "-1i8"),
    ("literal", [3, 0, 2, 0, 1, 1, 1, 1, 0x61], 0, '["a"]'),
    ("literal", [4, 0, 1, 1, 0x61, 0, 0, 1, 1, 0], 0, "{a: false}"),
]
BAD_METADATA = [
    ("root", [0], 0),
    # bad metadata comes before a wrong number of children
    ("root", [0], 1),
    ("not", [1], 1),
    ("is_null", [0], 1),
    ("list_contains", [0], 2),
    ("binary", [], 2),
    ("binary", [10], 2),
    ("binary", [255], 2),
    ("binary", [0, 0], 2),
    ("binary", [10], 1),
    ("between", [0], 3),
    ("between", [0, 2], 3),
    ("between", [2, 0], 3),
    ("between", [0, 0, 0], 3),
    ("like", [2, 0], 2),
    ("like", [0, 2], 2),
    ("like", [0], 2),
    ("get_item", [], 1),
    ("get_item", [1], 1),
    ("get_item", [1, 0x78, 0], 1),
    ("get_item", [1, 0xff], 1),
    ("get_item", [0x81, 0, 0x78], 1),
    ("cast", [5, 0], 1),
    ("cast", [2, 2], 1),
    ("cast", [0, 0, 0], 1),
    ("select", [2, 0], 1),
    ("select", [0], 1),
    ("select", [0, 1], 1),
    ("select", [0, 0, 0], 1),
    # 2^32 - 1 names, of which none is there
    ("select", [0, *LONGEST], 1),
    ("pack", [2, 0], 0),
    ("pack", [0, 1, 1, 0x61, 0], 1),
    ("pack", [0, *LONGEST], 0),
    ("merge", [], 1),
    ("merge", [2], 1),
    ("merge", [0, 0], 1),
    # null where the type isn't nullable
    ("literal", [0, 0, 0], 0),
    # a boolean 2
    ("literal", [0, 0, 1, 2], 0),
    ("literal", [0, 0, 1, 1, 0], 0),
    ("literal", [1, 0, 6, 1, 10, 0, 0], 0),
    ("literal", [0, 0, 1], 0),
]
# no metadata spells a comparison with a slot, whose kind no registry holds where none is given
DYNAMIC = [("dynamic", [], 1), ("dynamic", [0], 1)]
WRONG_CHILDREN = [
    ("root", [], 1),
    ("literal", [0, 1, 0], 1),
    ("not", [], 0),
    ("not", [], 2),
    ("is_null", [], 0),
    ("list_contains", [], 1),
    ("list_contains", [], 3),
    ("binary", [9], 1),
    ("binary", [9], 3),
    ("between", [1, 1], 2),
    ("between", [1, 1], 4),
    ("like", [0, 0], 1),
    ("get_item", [1, 0x78], 0),
    ("get_item", [1, 0x78], 2),
    ("cast", [0, 0], 2),
    ("select", [0, 0], 0),
    ("pack", [0, 1, 1, 0x61], 0),
    ("pack", [0, 1, 1, 0x61], 2),
    ("pack", [0, 0], 1),
    ("merge", [0], 0),
]


def over_roots(kind, metadata, children):
    return node(kind, bytes(metadata), *[ROOT] * children)


def both(spelled, want):
    """Built by the kind of the outermost node, and by the registry that is used where none is given."""
    return [row("build", spelled, want), row("deserialize", spelled, want)]


def of_kind(kind, metadata, children, want):
    return both(over_roots(kind, metadata, children), want)


DEEPEST, DEEPER = lists(63, 1, [0, 0]), lists(64, 1, [0, 0])
DEEPEST_TEXT = lists_text(63, 1, "bool")
NOT_ROOT_MARKED = [3, 0x6e, 0x6f, 0x74, 1, 0]
EXPRESSIONS = [
    *[made for case in BUILT for made in of_kind(*case)],
    *[made for case in BAD_METADATA for made in of_kind(*case, "BadMetadata")],
    *[row("build", over_roots(*case), "BadMetadata") for case in DYNAMIC],
    *[row("deserialize", over_roots(*case), "UnknownExpr") for case in DYNAMIC],
    *[made for case in WRONG_CHILDREN for made in of_kind(*case, "WrongChildren")],
    # types that are 64 and 65 deep
    *of_kind("cast", DEEPEST, 1, "cast($, %s)" % DEEPEST_TEXT),
    *of_kind("cast", DEEPER, 1, "BadMetadata"),
    *of_kind("literal", [*DEEPEST, 0], 0, "null"),
    *of_kind("literal", [*DEEPER, 0], 0, "BadMetadata"),
    *both(node("not", b"", over_roots("cast", DEEPEST, 1)), "(!cast($, %s))" % DEEPEST_TEXT),
    row("serialize", [], node("not", b"", over_roots("cast", DEEPEST, 1)).hex(), query="not cast($, %s)" % DEEPEST_TEXT),
    row("serialize", [], "NotSerializable", query="not cast($, list(%s)?)" % DEEPEST_TEXT),
    # a merge of nothing is written, but nothing is built of its bytes
    row("serialize", [], digits([0x05, 0x6d, 0x65, 0x72, 0x67, 0x65, 0x01, 0x00, 0x00]), query="merge()"),
    *both([0x05, 0x6d, 0x65, 0x72, 0x67, 0x65, 0x01, 0x00, 0x00], "WrongChildren"),
    # the filter, of its kind over its two sides, and by its query
    *both(FILTER, FILTER_TEXT),
    row("serialize", [], FILTER.hex(), query="x > 10i32"),
]

# The refusal of the first node that has one, children before their parents.

REFUSALS = [
    # `x`, which no registry holds
    row("deserialize", [1, 0x78, 1, 0, 0], "UnknownExpr"),
    # `dynamic`
    row("deserialize", [7, 0x64, 0x79, 0x6e, 0x61, 0x6d, 0x69, 0x63, 0, 0], "UnknownExpr"),
    # `root` with metadata and a child: its metadata comes first
    row("deserialize", [4, 0x72, 0x6f, 0x6f, 0x74, 1, 0, 1, *ROOT], "BadMetadata"),
    # `root` over a root
    row("deserialize", [4, 0x72, 0x6f, 0x6f, 0x74, 0, 1, *ROOT], "WrongChildren"),
    # `not` with metadata over `x`: a child comes before its parent
    row("deserialize", [*NOT_ROOT_MARKED, 1, 1, 0x78, 0, 0], "UnknownExpr"),
    # `x` over `not` with metadata and `x`: the first child comes first
    row("deserialize", [1, 0x78, 0, 2, *NOT_ROOT_MARKED, 0, 1, 0x78, 0, 0], "BadMetadata"),
    # `x` over `not` without a child
    row("deserialize", [1, 0x78, 0, 1, 3, 0x6e, 0x6f, 0x74, 0, 0], "WrongChildren"),
    row("deserialize", FILTER[:47], "BadWire"),
]
KINDS = ["between", "binary", "cast", "get_item", "is_null", "like", "list_contains", "literal", "merge", "not", "pack", "root", "select"]
REGISTRY = [
    *[row("kind", [], name, name=name) for name in KINDS],
    *[row("kind", [], "None", name=name) for name in ["dynamic", "Root", "", "rooted", "roo", "x"]],
]

WIRE_BYTES = [*NUMBERS, *TEXTS, *TYPES, *VALUES, *INTEGER_VALUES, *TREES, *EXPRESSIONS, *REFUSALS, *REGISTRY]
