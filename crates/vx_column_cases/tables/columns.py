"""Rows of calls on columns. A column is told in words: the call that makes it, of values or of columns that are told within. How it is made
matters: a column kept as one value, as values, as truths or numbers, as a struct of columns, masked, masked once more, cast or filtered
answers alike. What is wanted is written out here, or computed by the plain rules on rows below, which know nothing of how columns are kept.
"""
import json
import re
from collections import namedtuple

# The words that make a column, its type as a query writes it, and its rows: a struct's row is a tuple, a list's a list.
Column = namedtuple("Column", "words dtype rows")

RANGES = {sign + str(bits): (-(1 << bits - 1), (1 << bits - 1) - 1) if sign == "i" else (0, (1 << bits) - 1)
          for sign in "iu" for bits in (8, 16, 32, 64)}
NO, YES = False, True


# Types and values as texts.

def bare(dtype):
    return dtype[:-1] if dtype.endswith("?") else dtype


def nullable(dtype, also=True):
    return bare(dtype) + "?" if also or dtype.endswith("?") else dtype


def fields_of(dtype):
    """The names and types of a struct's fields."""
    parts, depth = [""], 0
    for character in bare(dtype)[1:-1]:
        depth += (character in "{(") - (character in "})")
        if character == "," and depth == 0:
            parts.append("")
        else:
            parts[-1] += character
    return [tuple(part.strip().split(": ", 1)) for part in parts if part]


def struct_type(fields, is_nullable=False):
    return "{" + ", ".join("%s: %s" % field for field in fields) + "}" + "?" * is_nullable


def item(value):
    """A value as a query writes it."""
    if value is None or isinstance(value, bool):
        return {None: "null", False: "false", True: "true"}[value]
    if isinstance(value, str):
        return "'" + value.replace("'", "''") + "'"
    if isinstance(value, tuple):
        return "{" + ", ".join(map(item, value)) + "}"
    return "[" + ", ".join(map(item, value)) + "]" if isinstance(value, list) else str(value)


def row_text(dtype, value):
    """A value as a row of an answer."""
    if isinstance(value, tuple):
        return "{" + ",".join("%s:%s" % (json.dumps(name), row_text(of, part)) for (name, of), part in zip(fields_of(dtype), value)) + "}"
    if isinstance(value, list):
        return "[" + ",".join(row_text("", part) for part in value) + "]"
    return json.dumps(value, ensure_ascii=False)


def column_text(dtype, rows):
    return dtype.replace(": ", "=") + ": " + " / ".join(row_text(dtype, row) for row in rows)


# Columns of values.

def truths(rows, is_nullable=True):
    return Column({"call": "bool", "values": rows, "nullable": is_nullable}, nullable("bool", is_nullable), rows)


def numbers(dtype, rows):
    return Column({"call": "primitive", "type": bare(dtype), "values": rows, "nullable": dtype.endswith("?")}, dtype, rows)


def texts(rows, is_nullable=True):
    return Column({"call": "utf8", "values": rows, "nullable": is_nullable}, nullable("utf8", is_nullable), rows)


def lists(element, rows, is_nullable=False):
    words = {"call": "list", "type": element, "values": item(rows), "nullable": is_nullable}
    return Column(words, "list(%s)" % element + "?" * is_nullable, rows)


def values(dtype, rows, call="from_values", written=None):
    """Values of a type, which may be written as those of another."""
    words = {"call": call, "type": dtype, "values": item(rows)}
    return Column({**words, "written": written} if written else words, dtype, rows)


def constant(dtype, value, rows):
    return Column({"call": "constant", "type": dtype, "value": item(value), "rows": rows}, dtype, [value] * rows)


def struct(names, columns, rows, valid=None):
    words = {"call": "struct", "names": names, "rows": rows, "of": [c.words for c in columns]}
    dtype = struct_type(zip(names, (c.dtype for c in columns)), valid is not None)
    made = list(zip(*(c.rows for c in columns))) if columns else [()] * rows
    if valid is None:
        return Column(words, dtype, made)
    return Column({**words, "valid": valid}, dtype, [row if is_valid else None for row, is_valid in zip(made, valid)])


# Columns of columns, by plain rules on rows: a rule that breaks gives the name of the refusal in place of rows.

def made(call, columns, dtype, rows, **words):
    return Column({"call": call, **words, "of": [c.words for c in columns]}, dtype, rows)


def either_nullable(dtype, *columns):
    return nullable(dtype, any(c.dtype.endswith("?") for c in columns))


def clone(c):
    return made("clone", [c], c.dtype, c.rows)


def filtered(c, by):
    return made("filter", [c, by], c.dtype, [row for row, keep in zip(c.rows, by.rows) if keep is True])


def masked(c, by):
    return made("mask", [c, by], nullable(c.dtype), [None if hide is True else row for row, hide in zip(c.rows, by.rows)])


def field(c, name):
    fields = dict(fields_of(c.dtype))
    if name not in fields:
        return made("field", [c], "", "UnknownField", name=name)
    place = list(fields).index(name)
    rows = [None if row is None else row[place] for row in c.rows]
    return made("field", [c], nullable(fields[name], c.dtype.endswith("?")), rows, name=name)


def projected(c, *names):
    fields = dict(fields_of(c.dtype))
    if not set(names) <= set(fields):
        return made("project", [c], "", "UnknownField", names=names)
    if len(set(names)) < len(names):
        return made("project", [c], "", "DuplicateField", names=names)
    rows = [None if row is None else tuple(row[list(fields).index(name)] for name in names) for row in c.rows]
    return made("project", [c], struct_type([(name, fields[name]) for name in names], c.dtype.endswith("?")), rows, names=names)


def appended(c, *behind):
    return made("append", [c], c.dtype, list(behind) + c.rows, type=c.dtype, behind=item(list(behind)))


def by_rows(call, columns, dtype, rule, **words):
    """A call whose answer at a row is null where one of the arguments is."""
    rows = [None if None in row else rule(*row) for row in zip(*(c.rows for c in columns))]
    return made(call, columns, either_nullable(dtype, *columns), rows, **words)


def ordered(value):
    return value.encode() if isinstance(value, str) else value


SIGNS = {"=": lambda l, r: l == r, "!=": lambda l, r: l != r, ">": lambda l, r: l > r, ">=": lambda l, r: l >= r,
         "<": lambda l, r: l < r, "<=": lambda l, r: l <= r}


def compared(l, sign, r):
    return by_rows(sign, [l, r], "bool", lambda x, y: SIGNS[sign](ordered(x), ordered(y)))


def contains(c, value):
    return by_rows("contains", [c, value], "bool", lambda x, y: y in x)


def folded(text):
    return "".join(c.lower() if c.isascii() else c for c in text)


def matches(text, pattern):
    """LIKE as a regular expression."""
    parts = re.findall(r"\\.|.", pattern, re.DOTALL)
    regex = "".join({"%": ".*", "_": "."}.get(part, re.escape(part[-1])) for part in parts)
    return re.fullmatch(regex, text, re.DOTALL) is not None


LIKES = {"like": (NO, NO), "not_like": (YES, NO), "ilike": (NO, YES), "not_ilike": (YES, YES)}


def like(call, c, pattern):
    negated, fold = LIKES[call]
    return by_rows(call, [c, pattern], "bool", lambda x, y: negated != (matches(folded(x), folded(y)) if fold else matches(x, y)))


def total(call, l, r):
    c = by_rows(call, [l, r], bare(l.dtype), lambda x, y: x + y if call == "+" else x - y)
    least, greatest = RANGES[bare(l.dtype)]
    return c if all(row is None or least <= row <= greatest for row in c.rows) else c._replace(rows="Overflow")


def cast(c, dtype):
    least, greatest = RANGES.get(bare(dtype), (0, 0))
    fits = all(dtype.endswith("?") if row is None else bare(dtype) not in RANGES or least <= row <= greatest for row in c.rows)
    return made("cast", [c], dtype, c.rows if fits else "BadCast", type=dtype)


def both(l, r):
    return NO if NO in (l, r) else None if None in (l, r) else YES


def one(l, r):
    return YES if YES in (l, r) else None if None in (l, r) else NO


def connected(call, l, r):
    rule = both if call == "and" else one
    return made(call, [l, r], either_nullable("bool", l, r), [rule(x, y) for x, y in zip(l.rows, r.rows)])


def between(c, lower, upper, signs):
    rows = [both(None if None in (x, l) else SIGNS[signs[0]](ordered(l), ordered(x)), None if None in (x, u) else SIGNS[signs[1]](ordered(x), ordered(u)))
            for x, l, u in zip(c.rows, lower.rows, upper.rows)]
    return made("between", [c, lower, upper], either_nullable("bool", c, lower, upper), rows, lower=signs[0], upper=signs[1])


def inverted(c):
    return made("not", [c], c.dtype, [None if row is None else not row for row in c.rows])


def null_test(c):
    return made("is_null", [c], "bool", [row is None for row in c.rows])


# Rows: what is asked of columns, and what is wanted.

def asked(call, want, *columns):
    return {"call": call, "of": [c.words for c in columns], "want": want}


def says(c):
    """The rows of a column by the rules above, or its refusal."""
    return asked("rows", c.rows if isinstance(c.rows, str) else column_text(c.dtype, c.rows), c)


def has(c, dtype, *rows):
    """The rows of a column, written out; by the rules they are the same. It is equal to the column of them."""
    assert (c.dtype, c.rows) == (dtype, list(rows)), (c, dtype, rows)
    return [asked("rows", column_text(dtype, rows), c), same(c, values(dtype, list(rows)))]


def refuses(c, why):
    return asked("rows", why, c)


def same(l, r):
    return asked("same", "equal", l, r)


def differ(l, r):
    return asked("same", "different", l, r)


def flat(*rows):
    return [row for part in rows for row in (part if isinstance(part, list) else [part])]


# Columns of one value, structs of columns and masked columns: they are equal to their rows written out, and hash equally.

PAIR = struct_type([("a", "i8?"), ("b", "utf8?")])
A, B = numbers("i8?", [1, None, 3]), texts(["x", "y", None])
COLUMNS = struct(["a", "b"], [A, B], 3)
COLUMN_ROWS = values(PAIR, [(1, "x"), (None, "y"), (3, None)])
OTHER_COLUMN_ROWS = values(PAIR, [(1, "x"), (None, "y"), (3, "")])
TURNED_COLUMNS = struct(["b", "a"], [B, A], 3)
MASKED = struct(["a", "b"], [A, B], 3, [YES, NO, YES])
MASKED_OTHERS = struct(["a", "b"], [numbers("i8?", [1, 9, 3]), texts(["x", "hidden", None])], 3, [YES, NO, YES])
MASKED_ROWS = values(PAIR + "?", [(1, "x"), None, (3, None)])
WHOLE_ROWS = values(PAIR + "?", COLUMN_ROWS.rows)
FEWER_ROWS = values(PAIR + "?", [(1, "x"), None, None])
OTHER_ROWS = values(PAIR + "?", [(1, "x"), None, (3, "z")])
TURNED_MASKED = struct(["b", "a"], [texts(["x", "?", None]), numbers("i8?", [1, 7, 3])], 3, [YES, NO, YES])
NESTED = struct(["s", "n"], [MASKED, numbers("i8?", [4, 5, 6])], 3, [YES, YES, NO])
NESTED_ROWS = values(struct_type([("s", PAIR + "?"), ("n", "i8?")], True), [((1, "x"), 4), (None, 5), None])
WHOLE_TEXTS = texts(["x", "y", "xy"], False)
HIDDEN_TEXT = field(struct(["a", "b"], [WHOLE_TEXTS, WHOLE_TEXTS], 3, [NO, YES, YES]), "b")
ONE_STRUCT = struct(["a"], [numbers("u8", [4])], 1)
THRICE = constant("utf8?", "x", 3)
SEVENS = constant("i16", 7, 2)
FIRST = truths([YES, NO, None])

ONE_VALUE = flat(
    same(THRICE, texts(["x", "x", "x"])),
    differ(THRICE, texts(["x", "x"])), differ(THRICE, texts(["x", "y", "x"])), differ(THRICE, texts(["x", "x", None])),
    has(filtered(THRICE, truths([YES, None, YES])), "utf8?", "x", "x"),
    has(cast(constant("i64?", 127, 2), "i8"), "i8", 127, 127),
    refuses(cast(constant("i64?", 128, 2), "i8"), "BadCast"),
    # no row has a value out of the target's range
    has(cast(constant("i64?", 128, 0), "i8"), "i8"),
    same(SEVENS, numbers("i16", [7, 7])), differ(SEVENS, numbers("i16", [7, 8])), differ(SEVENS, numbers("i32", [7, 7])),
    same(constant("i16", 7, 1), values("i16", [7])), differ(values("i16", [7]), numbers("i16?", [7])),
    [row for rows in (64, 65, 129) for yes in [truths([YES] * rows, False)] for but_one in [truths([YES] * (rows - 1) + [NO], False)] for row in
     (same(constant("bool", YES, rows), yes), differ(constant("bool", YES, rows), but_one), differ(yes, but_one))],
    same(constant("bool", YES, 1), values("bool", [YES])), same(truths([YES], False), values("bool", [YES])),
    differ(values("bool", [YES]), truths([YES])),
)

STRUCTS = flat(
    same(COLUMNS, COLUMN_ROWS), same(COLUMNS, COLUMNS), differ(COLUMNS, OTHER_COLUMN_ROWS), differ(OTHER_COLUMN_ROWS, COLUMNS),
    has(field(COLUMNS, "a"), "i8?", 1, None, 3), has(field(COLUMNS, "b"), "utf8?", "x", "y", None), refuses(field(COLUMNS, "c"), "UnknownField"),
    has(filtered(COLUMNS, truths([None, YES, NO])), PAIR, (None, "y")),
    has(projected(COLUMNS, "b", "a"), "{b: utf8?, a: i8?}", ("x", 1), ("y", None), (None, 3)), same(projected(COLUMNS, "b", "a"), TURNED_COLUMNS),
    has(projected(ONE_STRUCT, "a"), "{a: u8}", (4,)), has(field(ONE_STRUCT, "a"), "u8", 4),
    has(struct([], [], 2), "{}", (), ()), has(struct([], [], 2, [NO, YES]), "{}?", None, ()),
    [refuses(struct(names, [A, B], rows), "WrongLength") for names, rows in
     [(["a"], 3), (["a", "b", "c"], 3), (["a", "b"], 2), (["a", "b"], 4), (["a", "a"], 2)]],
    refuses(struct(["a", "b"], [A, B], 3, [YES, NO]), "WrongLength"), refuses(struct(["a", "a"], [A, B], 3), "DuplicateField"),
    has(field(MASKED_ROWS, "a"), "i8?", 1, None, 3), has(field(MASKED_ROWS, "b"), "utf8?", "x", None, None),
    refuses(field(MASKED_ROWS, "c"), "UnknownField"),
    refuses(projected(MASKED_ROWS, "a", "c"), "UnknownField"), refuses(projected(MASKED_ROWS, "a", "a", "c"), "UnknownField"),
    refuses(projected(MASKED_ROWS, "a", "b", "a"), "DuplicateField"),
)

DOUBLED = "{a: i8?, a: utf8?}?"

REFUSED_VALUES = [
    *[row for call in ("from_values", "of_values") for row in (
        refuses(values(DOUBLED, [None], call, "i8?"), "DuplicateField"), refuses(values(DOUBLED, [1], call, "i8?"), "WrongValue"),
        refuses(values("i8", [None], call, "i8?"), "WrongValue"), refuses(values("i8", [128], call, "i16"), "WrongValue"),
        refuses(values("bool?", ["x"], call, "utf8"), "WrongValue"), refuses(values("utf8?", [None, YES], call, "bool?"), "WrongValue"),
        refuses(values("list(i8)", [[1, None]], call, "list(i8?)"), "WrongValue"))],
    refuses(lists(DOUBLED, [None], True), "DuplicateField"), refuses(lists(DOUBLED, [None]), "WrongValue"),
    refuses(constant(DOUBLED, None, 0), "DuplicateField"),
    refuses(numbers("u8?", [256]), "WrongValue"), refuses(numbers("u8?", [-1]), "WrongValue"), refuses(numbers("u8", [1, None]), "WrongValue"),
    refuses(truths([YES, None], False), "WrongValue"), refuses(texts(["x", None], False), "WrongValue"),
]

MASKS = flat(
    same(MASKED, MASKED_ROWS), same(MASKED, MASKED), same(MASKED, MASKED_OTHERS), same(MASKED_OTHERS, MASKED_ROWS),
    has(MASKED, PAIR + "?", (1, "x"), None, (3, None)), has(MASKED_OTHERS, PAIR + "?", (1, "x"), None, (3, None)),
    differ(MASKED, WHOLE_ROWS), differ(WHOLE_ROWS, MASKED), differ(MASKED, FEWER_ROWS), differ(FEWER_ROWS, MASKED), differ(MASKED, OTHER_ROWS),
    differ(MASKED, COLUMNS),
    has(masked(COLUMNS, truths([NO, YES, None])), PAIR + "?", (1, "x"), None, (3, None)),
    has(masked(COLUMNS, truths([None, None, None])), PAIR + "?", *WHOLE_ROWS.rows),
    has(masked(MASKED, truths([None, NO, YES])), PAIR + "?", *FEWER_ROWS.rows),
    has(masked(MASKED, truths([NO, None, None])), PAIR + "?", *MASKED_ROWS.rows),
    has(field(MASKED_OTHERS, "a"), "i8?", 1, None, 3), has(field(MASKED_OTHERS, "b"), "utf8?", "x", None, None),
    refuses(field(MASKED, "c"), "UnknownField"),
    has(projected(MASKED, "b", "a"), "{b: utf8?, a: i8?}?", ("x", 1), None, (None, 3)), same(projected(MASKED, "b", "a"), TURNED_MASKED),
    refuses(projected(MASKED, "b", "c"), "UnknownField"), refuses(projected(MASKED, "b", "b"), "DuplicateField"),
    has(filtered(MASKED, truths([None, YES, YES])), PAIR + "?", None, (3, None)),
    has(null_test(MASKED), "bool", NO, YES, NO),
    has(masked(WHOLE_TEXTS, FIRST), "utf8?", None, "y", "xy"),
    has(HIDDEN_TEXT, "utf8?", None, "y", "xy"),
    has(like("like", HIDDEN_TEXT, constant("utf8?", "x%", 3)), "bool?", None, NO, YES),
    has(filtered(HIDDEN_TEXT, truths([YES, None, YES])), "utf8?", None, "xy"),
    same(NESTED, NESTED), has(field(NESTED, "s"), PAIR + "?", (1, "x"), None, None), has(field(NESTED, "n"), "i8?", 4, 5, None),
    # structs and nulls that come in as values
    same(NESTED, NESTED_ROWS), same(NESTED_ROWS, NESTED), differ(NESTED_ROWS, FEWER_ROWS),
    has(field(NESTED_ROWS, "s"), PAIR + "?", (1, "x"), None, None), has(field(NESTED_ROWS, "n"), "i8?", 4, 5, None),
    has(projected(MASKED_ROWS, "b", "a"), "{b: utf8?, a: i8?}?", ("x", 1), None, (None, 3)), same(projected(MASKED_ROWS, "b", "a"), TURNED_MASKED),
    has(null_test(NESTED_ROWS), "bool", NO, NO, YES),
    has(field(values(PAIR + "?", []), "a"), "i8?"),
    has(masked(MASKED_ROWS, truths([None, NO, YES])), PAIR + "?", *FEWER_ROWS.rows),
    same(masked(NESTED_ROWS, truths([None, None, None])), NESTED),
    has(masked(texts(["x", None, "y"]), FIRST), "utf8?", None, None, "y"),
    has(masked(THRICE, FIRST), "utf8?", None, "x", "x"), has(masked(constant("i8?", 7, 3), FIRST), "i8?", None, 7, 7),
    has(masked(constant("bool", YES, 3), FIRST), "bool?", None, YES, YES), has(masked(constant("bool?", None, 3), FIRST), "bool?", None, None, None),
)

APPENDED = flat(
    has(appended(A, 9), "i8?", 9, 1, None, 3), has(appended(numbers("i8?", []), 9), "i8?", 9),
    has(appended(THRICE, "a"), "utf8?", "a", "x", "x", "x"),
    has(appended(COLUMNS, (7, "z")), PAIR, (7, "z"), (1, "x"), (None, "y"), (3, None)),
    has(appended(NESTED_ROWS), NESTED.dtype, ((1, "x"), 4), (None, 5), None), has(appended(MASKED_ROWS), PAIR + "?", (1, "x"), None, (3, None)),
    same(appended(NESTED), NESTED), same(appended(MASKED), MASKED),
)

COUNTED = [
    asked("true_count", str(want), c) for c, want in
    [(truths([YES, NO, None, YES]), 2), (truths([NO, None]), 0), (truths([]), 0), (constant("bool", YES, 3), 3), (constant("bool", NO, 3), 0),
     (constant("bool?", None, 3), 0)]
]

CASTS = flat(
    has(cast(numbers("u8", [0, 255]), "i16"), "i16", 0, 255), has(cast(numbers("i8", [-128, 127]), "i64"), "i64", -128, 127),
    refuses(cast(numbers("u8", [0, 128]), "i8"), "BadCast"), refuses(cast(numbers("i8", [-1, 0]), "u8"), "BadCast"),
    refuses(cast(numbers("i64", [0, 4294967296]), "u32"), "BadCast"),
    [says(cast(numbers(p, [end]), q)) for p in RANGES for end in RANGES[p] for q in RANGES],
    [says(total(sign, numbers(p, [end]), numbers(p, [1]))) for p in RANGES for end in RANGES[p] for sign in "+-"],
)

# Not asked: what the calls' conditions leave out.

NOT_ASKED = [refuses(c, "not asked") for c in [
    made("and", [A, A], "", []), made("not", [A], "", []), made("=", [COLUMNS, COLUMNS], "", []), made("<", [A, B], "", []), made("+", [B, B], "", []),
    made("filter", [A, truths([])], "", []), made("mask", [A, B], "", []), made("like", [A, B], "", []), made("field", [A], "", [], name="a"),
    made("project", [B], "", [], names=[]), made("cast", [A], "", [], type="utf8?"), made("contains", [A, A], "", [])]]

# Boolean columns beside plain loops, at lengths around those of words.

LENGTHS = [0, 1, 63, 64, 65, 127, 128, 129, 1000]
PAIRS = [(l, r) for l in (NO, YES, None) for r in (NO, YES, None)]


def truths_at(rows):
    left, right = (truths([PAIRS[i % 9][side] for i in range(rows)]) for side in (0, 1))
    return [
        says(connected("and", left, right)), says(connected("or", left, right)), says(compared(left, ">", right)),
        says(inverted(right)), says(null_test(right)), says(filtered(left, right)), says(filtered(numbers("i16", list(range(rows))), right)),
        asked("true_count", str(right.rows.count(YES)), right)]


# The nine pairs, written out: false beside anything is false, true beside true is true, and so on.

NINE = [truths([pair[side] for pair in PAIRS]) for side in (0, 1)]
LOGIC = flat(
    has(connected("and", *NINE), "bool?", NO, NO, NO, NO, YES, None, NO, None, None),
    has(connected("or", *NINE), "bool?", NO, YES, None, YES, YES, YES, None, YES, None),
    has(compared(NINE[0], ">", NINE[1]), "bool?", NO, NO, None, YES, NO, None, None, None, None),
    has(inverted(NINE[1]), "bool?", YES, NO, None, YES, NO, None, YES, NO, None),
    has(null_test(NINE[1]), "bool", NO, NO, YES, NO, NO, YES, NO, NO, YES),
)


def numbers_at(rows):
    left = numbers("i16?", [None if i % 5 == 3 else i % 200 - 100 for i in range(rows)])
    right = numbers("i16?", [None if i % 7 == 2 else i % 11 * 9 - 50 for i in range(rows)])
    seven = constant("i16", 7, rows)
    below, nulls = (truths(c.rows, c.dtype == "bool?") for c in (compared(left, "<", right), null_test(right)))
    return [
        says(compared(left, "<", right)), says(total("+", left, right)), says(total("-", left, right)), says(compared(left, "<", seven)),
        says(compared(seven, "<", left)), says(null_test(right)), says(masked(left, nulls)), says(filtered(left, below)), says(cast(left, "i64?"))]


# Texts and patterns, whether they match, and whether they do so without regard to case.

MATCHES = [
    ("", "", YES, YES), ("", "_", NO, NO), ("", "%", YES, YES), ("", "%%", YES, YES), ("", "\\", NO, NO), ("a", "", NO, NO), ("a", "a", YES, YES),
    ("a", "b", NO, NO), ("a", "_", YES, YES), ("a", "%", YES, YES), ("ab", "_", NO, NO), ("ab", "%%", YES, YES), ("a", "_%_", NO, NO),
    ("ab", "_%_", YES, YES), ("abc", "_%_", YES, YES), ("abcd", "a%d", YES, YES), ("abcd", "a%c", NO, NO), ("ad", "a%d", YES, YES),
    ("aab", "%ab", YES, YES), ("abab", "%ab", YES, YES), ("abcabd", "%abd", YES, YES), ("aXbXc", "a%b%c", YES, YES), ("acb", "a%b%c", NO, NO),
    ("a%", "a\\%", YES, YES), ("ab", "a\\%", NO, NO), ("a_", "a\\_", YES, YES), ("ab", "a\\_", NO, NO), ("a\\", "a\\\\", YES, YES),
    ("a\\\\", "a\\\\", NO, NO), ("a\\", "a\\", YES, YES), ("a", "\\a", YES, YES), ("%%", "\\%%", YES, YES), ("a%b", "%\\%_", YES, YES),
    ("ABC", "abc", NO, YES), ("az", "AZ", NO, YES), ("A%", "a\\%", NO, YES), ("[", "{", NO, NO), ("É", "é", NO, NO), ("é", "_", YES, YES),
    ("éa", "_A", NO, YES),
]


def match_rows(text, pattern, exact, fold):
    """The match of a text and a pattern, and of nulls on each side and on both."""
    wanted = {"like": exact, "not_like": not exact, "ilike": fold, "not_ilike": not fold}
    return [asked("rows", column_text("bool?", [want, None, None, None]), like(call, texts([text, None, text, None]), texts([pattern, pattern, None, None])))
            for call, want in wanted.items()]


# A column in each way that it can be made: each answers alike.

def ways(dtype, rows):
    """A plain column, made in each way that has these rows."""
    nulls, whole = [row is None for row in rows], dtype == bare(dtype)
    filler = {"bool": YES, "utf8": "hidden"}.get(bare(dtype), 77)
    filled = [filler if row is None else row for row in rows]

    def kept(dtype, rows):
        is_nullable = dtype.endswith("?")
        if bare(dtype) in RANGES:
            return numbers(dtype, rows)
        return texts(rows, is_nullable) if bare(dtype) == "utf8" else truths(rows, is_nullable)

    first = kept(dtype, rows)
    made_alike = [
        first, clone(first), values(dtype, rows), values(dtype, rows, "of_values"), field(struct(["n", "c"], [first, first], len(rows)), "c"),
        field(values(struct_type([("c", dtype)]), [(row,) for row in rows]), "c"),
        filtered(kept(dtype, [filler] + rows), truths([NO] + [YES] * len(rows))), appended(first), appended(kept(dtype, rows[1:]), *rows[:1]),
    ]
    if bare(dtype) in RANGES:
        made_alike.append(cast(numbers("i64" + "?" * (not whole), rows), dtype))
    if not whole:
        half = [null and i % 2 == 0 for i, null in enumerate(nulls)]
        rest = [null and not hide for null, hide in zip(nulls, half)]
        by = truths(nulls, False)
        made_alike += [
            masked(kept(bare(dtype), filled), by), masked(masked(kept(bare(dtype), filled), truths(half)), truths(rest)),
            field(struct(["c"], [kept(bare(dtype), filled)], len(rows), [not null for null in nulls]), "c"),
            field(masked(struct(["c"], [kept(dtype, filled)], len(rows)), by), "c")]
    if None not in rows and not whole:
        made_alike += [cast(kept(bare(dtype), rows), dtype)]
    if len(set(rows)) == 1:
        made_alike += [constant(dtype, rows[0], len(rows)), filtered(constant(dtype, rows[0], len(rows) + 1), truths([NO] + [YES] * len(rows)))]
    assert all((c.dtype, c.rows) == (dtype, rows) for c in made_alike)
    return made_alike


def one_by_one(dtype, rows):
    """What is asked of a column in each way, beside the first one."""
    first, *others = ways(dtype, rows)
    by, places = truths([(YES, NO, None)[i % 3] for i in range(len(rows))]), range(len(rows))
    asks = [lambda c: says(c), lambda c: asked("valid", "".join("-" if row is None else "+" for row in rows), c),
            lambda c: says(null_test(c)), lambda c: says(filtered(c, by)), lambda c: says(masked(c, by)),
            lambda c: says(struct(["c", "i"], [c, numbers("u8", list(places))], len(rows), [i != 1 for i in places]))]
    if bare(dtype) == "bool":
        asks += [lambda c: says(inverted(c)), lambda c: asked("true_count", str(rows.count(YES)), c), lambda c: says(cast(c, "bool")),
                 lambda c: says(filtered(numbers("u8", list(places)), c)), lambda c: says(masked(texts(["x"] * len(rows), False), c))]
    elif bare(dtype) in RANGES:
        asks += [lambda c: says(cast(c, "i8")), lambda c: says(cast(c, "u64?"))]
    return [ask(c) for c in (first, *others) for ask in asks] + [same(c, first) for c in others]


def two_by_two(dtype, left, other_dtype, right):
    """What is asked of two columns: each way of the one meets a way of the other."""
    lefts, rights = ways(dtype, left), ways(other_dtype, right)
    signs = SIGNS if bare(dtype) == "i16" else ("=", "<", ">=")
    asks = [lambda l, r, sign=sign: says(compared(l, sign, r)) for sign in signs]
    if bare(dtype) == "bool":
        asks += [lambda l, r, call=call: says(connected(call, l, r)) for call in ("and", "or")]
    elif bare(dtype) == "utf8":
        asks += [lambda l, r, call=call: says(like(call, l, r)) for call in LIKES]
    else:
        asks += [lambda l, r, call=call: says(total(call, l, r)) for call in "+-"]
    meetings = [(lefts[i % len(lefts)], rights[(3 * i + 1) % len(rights)]) for i in range(max(len(lefts), len(rights)))]
    return [ask(l, r) for l, r in meetings for ask in asks]


def ranges(dtype, rows, lower, upper):
    """Ranges, each bound strict or not, of columns in each way."""
    columns, lowers, uppers = ways(dtype, rows), ways(dtype, lower), ways(dtype, upper)
    return [says(between(c, lowers[(3 * i) % len(lowers)], uppers[(5 * i) % len(uppers)], signs))
            for i, c in enumerate(columns) for signs in [("<", "<"), ("<", "<="), ("<=", "<"), ("<=", "<=")]]


ALIKE = [
    *one_by_one("bool?", [YES, None, NO]), *one_by_one("i16?", [-1, None, 300]), *one_by_one("u8", [200, 200]),
    *one_by_one("utf8?", ["x", None, "é\n\"'"]),
    *two_by_two("bool?", [NO, YES, None], "bool?", [None, NO, YES]), *two_by_two("bool", [YES, YES], "bool?", [None, NO]),
    *two_by_two("i16?", [-300, None, 7, 7], "i16?", [7, 7, None, 7]), *two_by_two("u8", [255, 255], "u8", [1, 0]),
    *two_by_two("utf8?", ["ab", None, "Ab", ""], "utf8?", ["a_", "x", "a%", ""]), *two_by_two("utf8", ["x", "x"], "utf8", ["x%", "é"]),
    *ranges("i32?", [1, 9, None, 3, 9], [1, 1, 1, None, None], [9, 9, 9, 1, None]), *ranges("utf8", ["b", "b"], ["a", "b"], ["b", "bb"]),
]

# Lists and the values that they hold.

HELD = flat(
    [says(contains(c, value))
     for rows in [[[1, 2], [], [None, 3], None, [None]]]
     for c in [lists("i8?", rows, True), values("list(i8?)?", rows), field(values("{l: list(i8?)?}", [(row,) for row in rows]), "l"),
               masked(lists("i8?", rows[:3] + [[7]] + rows[4:]), truths([NO, NO, None, YES, NO]))]
     for value in ways("i8?", [2, 1, 3, 7, None]) + ways("i8", [3] * 5)],
    has(contains(lists("u8", [[4]]), numbers("u8", [4])), "bool", YES), same(lists("u8", [[4]]), values("list(u8)", [[4]])),
    has(contains(constant("list(utf8)", ["a", "b"], 3), texts(["a", "c", None])), "bool?", YES, NO, None),
    has(lists("list(utf8?)", [[["a", None], []], None], True), "list(list(utf8?))?", [["a", None], []], None),
)

ROWS = [
    *ONE_VALUE, *STRUCTS, *REFUSED_VALUES, *MASKS, *APPENDED, *COUNTED, *CASTS, *NOT_ASKED, *LOGIC,
    *(row for rows in LENGTHS for row in truths_at(rows) + numbers_at(rows)),
    *(row for match in MATCHES for row in match_rows(*match)), *ALIKE, *HELD,
]
