#!/usr/bin/env python3
"""Writes the tables of rows in crates/vx_file_cases/data: sources and block files, with the answers that reader.py and answers.py work out.

usage: crates/vx_file_cases/tables/cases.py
"""
import json
import os
import sys

HERE = os.path.dirname(os.path.dirname(os.path.abspath(__file__)))
sys.path.insert(0, os.path.join(os.path.dirname(HERE), "vx_cases", "tables"))

from answers import read_whole, scan  # noqa: E402
from block_files import block_file  # noqa: E402
from wire import ROOT, TRUE, binary, cast, item, lit, number, pack, request, struct  # noqa: E402

DATA = os.path.join(HERE, "data")
SMALL = bytes.fromhex("5658424c4b3030310e0400010178010006020201000a050101000000010c0000000114000000")
MOSTS = [1, 2, 7, 1_000_000]


def row(call, given, want, **more):
    return {"call": call, "bytes": given.hex(), **more, "want": want}


# Pieces: the bytes 0 to 19, of which a call gives at most so many.

TWENTY = bytes(range(20))


def pieces():
    for most in MOSTS:
        for place in [0, 1, 7, 19, 20, 21, 4294967295]:
            yield row("byte", TWENTY, "%s, faults 0" % ("true" if place < 20 else "false"), most=most, place=place)
            for count in [0, 1, 2, 12, 13, 20, 21, 4294967295]:
                yield row("piece", TWENTY, "%s, faults 0" % TWENTY[place : place + count].hex(), most=most, place=place, count=count)
    # five calls of four bytes are needed, or one of twenty
    for most, fails in [(4, 1), (4, 4), (4, 5), (20, 1)]:
        yield row("piece", TWENTY, "ReadFault, faults 1", most=most, fails=fails, place=0, count=20)
    yield row("piece", TWENTY, TWENTY.hex() + ", faults 0", most=4, fails=100, place=0, count=20)
    for place in [0, 20]:
        yield row("byte", TWENTY, "RangeFailed, faults 1", most=1, fails=1, place=place)


# Files: the small one of docs/FORMATS.md, and one of all kinds of columns with statistics.

KINDS = [("x", "i16?"), ("t", "utf8"), ("b", "bool?"), ("l", {"list": "u8?", "nullable": True}), ("s", struct(True, a="utf8?", b="i8"))]
CELLS = [
    [[5, None, -300], ["é", "", "abc"], [True, None, False], [[], None, [1, None]], [{"a": None, "b": -1}, None, {"a": "z", "b": 7}]],
    [[], [], [], [], []],
    [[12], ["q"], [None], [[255]], [{"a": "", "b": 0}]],
]
STATS = [(["x"], "max", [5, None, 12]), (["x"], "min", [-300, None, 12]), (["s", "b"], "null_count", [1, 0, 0]), (["s", "a"], "max", ["z", None, ""]),
         (["b"], "min", [False, None, None])]
ALL_KINDS = block_file(request(KINDS, CELLS, TRUE, ROOT, STATS))


def changed(given):
    """The bytes with each byte changed to three others in turn."""
    for at, byte in enumerate(given):
        for other in [(byte + 1) % 256, (byte + 255) % 256, byte ^ 128]:
            yield given[:at] + bytes([other]) + given[at + 1 :]


def headed(header, ranges=b""):
    return b"VXBLK001" + number(len(header)) + header + ranges


X = b"\1x\1\0\6"
NESTED = b"\1s\4\0\2\1a\0\0\1a\0\0"
# files whose headers are written out, each beside one that differs in what is refused
HEADERS = [
    headed(b"\4\0\0\0\0"),
    headed(b"\4\0\0\1\3\0"),
    headed(b"\4\0\0\1\xff\xff\x3f\0"),
    headed(b"\4\0\0\1\x80\x80\x40\0"),
    headed(b"\4\0\0\1\x81\x80\x40\0"),
    headed(b"\4\0\0\2\x80\x80\x40\0\0"),
    headed(b"\4\0\0\2\x80\x80\x40\1\0"),
    headed(b"\4\0\0\1\xff\xff\xff\xff\x0f\0"),
    headed(b"\4\0\1" + X + b"\1\0\0\0"),
    headed(b"\4\0\1" + X + b"\1\0\0\1", b"\0"),
    headed(b"\4\0\1" + X + b"\1\1\0\5", b"\1\1\2\3\4"),
    headed(b"\4\0\1" + X + b"\1\1\0\5", b"\1\1\2\3"),
    headed(b"\4\0\1" + X + b"\1\1\0\5", b"\1\1\2\3\4\5"),
    headed(b"\4\0\1" + X + b"\1\1\0\x85\0", b"\1\1\2\3\4"),
    headed(b"\4\0\1" + X + b"\1\1\0\xff\xff\xff\xff\x0f", b"\1\1\2\3\4"),
    headed(b"\4\0\1" + X + b"\1\1\0\xff\xff\xff\xff\x10", b"\1\1\2\3\4"),
    headed(b"\4\0\1" + X + b"\1\1\0\5\0", b"\1\1\2\3\4"),
    headed(b"\4\1\1" + X + b"\1\1\0\5", b"\1\1\2\3\4"),
    headed(b"\3\0\1" + X + b"\1\1\0\5", b"\1\1\2\3\4"),
    headed(b"\4\0\2" + X + X + b"\0\0"),
    headed(b"\4\0\2" + X + b"\1y\1\0\6\0\0"),
    headed(b"\4\0\1" + NESTED + b"\0\0"),
    headed(b"\4\0\1\1l\3\0" + NESTED[2:] + b"\0\0"),
    headed(b"\4\0\1\1\xff\1\0\6\0\0"),
    headed(b"\4\0\1\2\xc3\xa9\1\0\6\0\0"),
    headed(b"\4\0\1\1x\1\0\x08\0\0"),
    headed(b"\4\0\1\1x\5\0\0\0"),
    headed(b"\4\0\1\1x\0\2\0\0"),
    headed(b"\4\0\1\1x" + b"\3\0" * 63 + b"\0\0\0\0"),
    headed(b"\4\0\1\1x" + b"\3\0" * 64 + b"\0\0\0\0"),
    headed(b"\4\0\1\1x" + b"\4\0\1\1f" * 20 + b"\0\0\0\0"),
]
# statistics of a table of one row, of a column x of i32, a struct s with a number b and a list l
STATISTICS = [
    b"\1\1\1x\0\1\1\0\0\0",
    b"\1\1\1x\0\0",
    b"\1\1\1x\1\1\1\0\0\0",
    b"\1\1\1x\2\1\1\0\0\0\0\0\0\0",
    b"\1\1\1x\3\1\1\0\0\0",
    b"\1\1\1x\4\1\1\0\0\0",
    b"\1\1\1x\0\2\1\0\0\0",
    b"\1\0\0\0",
    b"\1\1\1y\0\0",
    b"\1\1\1s\0\0",
    b"\1\1\1l\0\0",
    b"\1\2\1s\1b\0\1\x80",
    b"\1\2\1s\1b\2\0",
    b"\1\2\1s\1c\0\0",
    b"\1\2\1x\1x\0\0",
    b"\2\1\1x\0\0\1\1x\1\0",
    b"\2\1\1x\0\0\1\1x\0\0",
    b"\2\1\1x\1\0\1\1x\1\1\1\0\0\0",
    b"\2\1\1x\2\0\2\1s\1b\2\0",
    b"\3\2\1s\1b\2\0\1\1x\0\0\2\1s\1b\2\0",
    b"\2\1\1x\0\0",
]
COLUMNS = b"\4\0\3" + X + b"\1s\4\0\1\1b\1\0\4" + b"\1l\3\0\0\0"
WITH_STATISTICS = [headed(COLUMNS + b"\1\1" + stats + b"\5\3\2", b"\1\1\2\3\4" + b"\1\1\7" + b"\1\0") for stats in STATISTICS]
# both columns have one name: this rule is told before that a statistic stands twice
TWICE = headed(b"\4\0\2" + X + X + b"\0" + b"\2\1\1x\0\1\1x\0")
# a path leads to the first column of a name
FIRST_OF_NAME = headed(b"\4\0\2" + X + b"\1x\0\0" + b"\1\1" + b"\1\1\1x\0\1\1\0\0\0" + b"\5\2", b"\1\1\2\3\4\1\1")
SPOILT = SMALL[:-5] + bytes.fromhex("0214000000")
OTHER_RANGES = [b"\2\x14\0\0\0", b"\0\x14\0\0\0", b"\1\x14\0\0\x80"]


def files():
    for most in MOSTS:
        for given in [SMALL, ALL_KINDS, SPOILT, SMALL[:-1], b"W" + SMALL[1:], SMALL + b"\0"]:
            yield row("open", given, read_whole(given), most=most)
    for given in [SMALL, ALL_KINDS]:
        for end in range(len(given)):
            yield row("open", given[:end], read_whole(given[:end]), most=100)
        for other in changed(given):
            yield row("open", other, read_whole(other), most=100)
    for given in [*HEADERS, *WITH_STATISTICS, TWICE, FIRST_OF_NAME, *(SMALL[:-5] + end for end in OTHER_RANGES)]:
        yield row("open", given, read_whole(given), most=100)
    for given, most in [(SMALL, 100), (SMALL, 5), (SMALL, 1), (ALL_KINDS, 100), (ALL_KINDS, 50)]:
        yield row("open_failing", given, "opened, or ReadFault", most=most, calls=60)
    yield row("open", SMALL, "ReadFault, faults 1", most=100, fails=1)
    yield row("open", b"", "ReadFault, faults 1", most=100, fails=1)


# Scans: of the rows whose number is above another.

TWO = [("x", "i32"), ("y", "utf8?")]
TWO_CELLS = [[[1, 12], ["a", "b"]], [[3, 4], ["c", None]], [[20, 11], [None, "e"]]]
TWO_FILE = block_file(request(TWO, TWO_CELLS, TRUE, ROOT))
BOUNDED_FILE = block_file(request(TWO, TWO_CELLS, TRUE, ROOT, [(["x"], "max", [12, 4, 20])]))
LYING_FILE = block_file(request(TWO, TWO_CELLS, TRUE, ROOT, [(["x"], "max", [None, 20, 10])]))
SCANNED = [(SMALL, ["x"], "i32"), (SPOILT, ["x"], "i32"), (TWO_FILE, ["y"], "i32"), (TWO_FILE, ["x", "y"], "i32"), (BOUNDED_FILE, ["y"], "i32"),
           (LYING_FILE, ["y"], "i32"), (ALL_KINDS, ["t"], "i16"), (ALL_KINDS, ["x", "l"], "i16")]


def scan_row(call, given, projected, kind, least, **more):
    projection = item(projected[0]) if not projected[1:] else pack(*((name, item(name)) for name in projected))
    asked = {"filter": binary(item("x"), ">", lit(kind, least)).hex(), "projection": projection.hex()}
    return row(call, given, scan(given, "x", least, *projected), **asked, **more)


def scans():
    for given, projected, kind in SCANNED:
        for least in [-1000, 0, 3, 4, 10, 11, 12, 19, 20, 1000]:
            yield scan_row("scan", given, projected, kind, least, most=100)
        yield scan_row("scan", given, projected, kind, 10, most=1)
        for most in [1, 9, 100]:
            yield scan_row("scan_failing", given, projected, kind, 10, most=most, calls=80)
    # each byte of the ranges changed, behind a header that stays
    for file, projected in [(SMALL, ["x"]), (BOUNDED_FILE, ["y"]), (TWO_FILE, ["x", "y"])]:
        front = 9 + file[8]
        for other in changed(file):
            if other[:front] == file[:front]:
                yield scan_row("scan", other, projected, "i32", 10, most=100)
    yield scan_row("scan", SMALL[:-1], ["x"], "i32", 10, most=100)
    yield scan_row("scan", b"W" + SMALL[1:], ["x"], "i32", 10, most=100)
    # what is refused before the first read, damage or not
    for given in [SMALL, SPOILT]:
        for texts, told in REFUSED:
            yield row("scan", given, told + " / reads / failed / damage", **texts, most=100)
    for given, texts, told in BROKEN:
        yield row("scan", given, told, **texts, most=100)


def texts_of(filter_bytes, projection):
    return {"filter": filter_bytes.hex(), "projection": projection.hex()}


def sum_past(greatest):
    """x and a number, whose sum is out of range where x is above the greatest."""
    return binary(item("x"), "+", lit("i32", 2**31 - 1 - greatest))


ABOVE = binary(item("x"), ">", lit("i32", 10))
REFUSED = [
    (texts_of(b"", item("x")), "BadWire(Filter)"),
    (texts_of(ABOVE, b"\0"), "BadWire(Projection)"),
    (texts_of(ABOVE, item("y")), "UnknownField(Projection)"),
    (texts_of(item("x"), item("x")), "FilterNotBool"),
]
# phases that break before damage is read, and behind it: x is 1 and 12 in the first block, and 20 in the second, or damaged
BROKEN = [
    (SPOILT, texts_of(binary(sum_past(11), ">", lit("i32", 0)), item("x")), "Overflow / reads 0 x / failed / damage"),
    (SPOILT, texts_of(binary(sum_past(12), ">", lit("i32", 0)), item("x")), "StoreFault / reads 0 x / failed 1 x / damage 1 x"),
    (SMALL, texts_of(binary(sum_past(12), ">", lit("i32", 0)), item("x")), "Overflow / reads 0 x 1 x / failed / damage"),
    (SPOILT, texts_of(TRUE, sum_past(11)), "Overflow / reads 0 x / failed / damage"),
    (SPOILT, texts_of(TRUE, sum_past(12)), "StoreFault / reads 0 x / failed 1 x / damage 1 x"),
    (SPOILT, texts_of(TRUE, lit("i32", 7)), "rows 7 7 7 / skipped / reads / failed / damage"),
    (SPOILT, texts_of(ABOVE, sum_past(11)), "Overflow / reads 0 x / failed / damage"),
    (SMALL, texts_of(ABOVE, cast(item("x"), "i8")), "rows 12 20 / skipped / reads 0 x 1 x / failed / damage"),
]


def main():
    os.makedirs(DATA, exist_ok=True)
    for name, rows in [("pieces", pieces()), ("files", files()), ("scans", scans())]:
        table = list(rows)
        with open(os.path.join(DATA, name + ".json"), "w", encoding="utf-8") as out:
            json.dump(table, out, ensure_ascii=False, separators=(",", ":"))
            out.write("\n")
        print("%s.json: %d answers agree" % (name, len(table)))


if __name__ == "__main__":
    main()
