"""Columns of arrays with their values, as docs/FORMATS.md writes scalars, and truths as bitmaps."""
import json

from layout import INTEGERS, arrays, bits, column, ends, laid_out, letters, numbers, offsets, plain
from schemas import MAYBE_PLACE, TAGS, table


def shown(kind, value):
    if value is None:
        return "null"
    if plain(kind) == "bool":
        return "true" if value else "false"
    return json.dumps(value, ensure_ascii=False) if plain(kind) == "utf8" else "%d%s" % (value, plain(kind))


def text_of(columns):
    return "".join("[%s ]" % "".join(" " + shown(kind, value) for value in values) for kind, values in columns)


def asked(name, kinds, count, given):
    schema = table([("abcdefgh"[place], kind) for place, kind in enumerate(kinds)])
    return {"name": "arrays: " + name, "call": "columns_of_arrays", "schema": schema, "rows": count, **given}


def told(name, columns, count=None, given=None, **form):
    """Columns are pairs of a type and values; they are laid out plainly where nothing else is given."""
    count = len(columns[0][1]) if count is None else count
    row = asked(name, [kind for kind, _ in columns], count, arrays(columns, **form) if given is None else given)
    return {**row, "text": text_of(columns)}


def of_kind(kind):
    low, high = ends(kind)
    values = [low, low + 1, 0, 1, high - 1, high]
    return [
        told("all of " + kind, [(kind, values)]),
        told("all of %s, some of them null" % kind, [(kind + "?", [None, *values, None, None])]),
        told("all of %s, with a validity" % kind, [(kind, values)], always=True),
    ]


WORDS = ["", "a", "é", "Zürich", "日本", "", "it's \"a\" \\", "z"]
TRUTHS = [True, False, True, True, False, False, True, False, True]
ALL = [(kind + "?", [None, 1]) for kind in ["u8", "i16", "u32", "i64"]] + [("bool", [False, True]), ("utf8?", ["a", None]), ("bool?", [None, True])]

COLUMNS = [
    *[row for kind in INTEGERS for row in of_kind(kind)],
    told("texts", [("utf8", WORDS)]),
    told("texts, some of them null", [("utf8?", [None, *WORDS, None])]),
    told("booleans", [("bool", TRUTHS)]),
    told("booleans, some of them null", [("bool?", [None, *TRUTHS, None])]),
    told("several columns", ALL),
    told("several columns with bytes between their buffers", ALL, before=b"\1", between=b"\xff" * 7, behind=b"\2"),
    told("no columns", [], count=5),
    told("no rows", [("i32", []), ("utf8", []), ("bool?", [])]),
    told("no rows, and longer buffers", [("i32", []), ("utf8", [])], given=laid_out([b"\0", b"abc", b"", offsets(7), b"x"])),
    told("bits behind the rows count for nothing", [("bool?", [True, None, False])], given=laid_out([b"\xfd", b"\xfb"])),
    told("texts that begin past 0", [("utf8", ["é", "", "b"])], given=laid_out([b"", offsets(1, 3, 3, 4), "aébc".encode()])),
    told("what is no text under a null", [("utf8?", ["a", None, "b"])], given=laid_out([b"\5", offsets(0, 1, 2, 3), b"a\xffb"])),
    told("two columns of one buffer", [("u8", [1, 2]), ("u8", [1, 2])], given={"body": "0102", "buffers": [0, 0, 0, 2, 2, 0, 0, 2]}),
]


def refused(name, line, kinds, count, given):
    return {**asked(name, kinds, count, given), "status": 10, "text": line}


def too_short(kind):
    """Nine values whose last buffer is too short by a byte."""
    buffers = column(kind, [1] * 9 if kind in INTEGERS else [True] * 9)
    return refused("%s too short by a byte" % kind, "WrongBuffers", [kind], 9, laid_out([*buffers[:-1], buffers[-1][:-1]]))


REFUSED = [
    *[too_short(kind) for kind in [*INTEGERS, "bool"]],
    refused("a validity too short by a byte", "WrongBuffers", ["u8?"], 9, laid_out([b"\xff", numbers("u8", range(9))])),
    refused("a validity of booleans too short by a byte", "WrongBuffers", ["bool?"], 9, laid_out([b"\xff", b"\xff\xff"])),
    refused("a validity of texts too short by a byte", "WrongBuffers", ["utf8?"], 9, laid_out([b"\xff", offsets(*[0] * 10), b""])),
    refused("two columns, and the buffers of one", "WrongBuffers", ["u8", "u8"], 1, arrays([("u8", [1])])),
    refused("no columns, and a buffer", "WrongBuffers", [], 1, laid_out([b""])),
    refused("no columns, and a number", "WrongBuffers", [], 1, {"body": "", "buffers": [0]}),
    refused("a list", "NoArray", [TAGS], 0, laid_out([])),
    refused("a struct", "NoArray", [MAYBE_PLACE], 0, laid_out([])),
    refused("a list behind a column", "NoArray", ["u8", TAGS], 1, arrays([("u8", [1])])),
    refused("a byte of no character", "BadText", ["utf8?"], 1, laid_out([b"", offsets(0, 1), b"\xff"])),
    refused("a null without nullability", "NullCell", ["bool"], 1, arrays([("bool", [None])])),
    {**asked("a schema with a name twice", [], 0, laid_out([])), "schema": table([("a", "u8"), ("a", "u8")]), "status": 3, "text": "BadTable DuplicateName"},
]


def bitmap(truths):
    return {"name": "bitmap of '%s'" % truths, "call": "bitmap", "truths": truths, "digits": letters(truths).hex()}


LETTERS = ["", "0", "1", "1000000", "0000001", "00000001", "11111111", "111111110", "0101010110101010", "000000001", "110" * 21 + "11"]
BITMAPS = [bitmap(truths) for truths in LETTERS]
# bits beside letters, by hand
assert bits([True, False, True]) == b"\5" and letters("000000011") == b"\x80\1"

ROWS = [*COLUMNS, *REFUSED, *BITMAPS]
