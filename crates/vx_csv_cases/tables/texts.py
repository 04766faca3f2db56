#!/usr/bin/env python3
"""Writes the table of texts of CSV, crates/vx_csv_cases/data/texts.json, whose answers are worked out here after docs/CSV.md.

usage: crates/vx_csv_cases/tables/texts.py

A row holds a text of CSV in hexadecimal digits (`csv`), the null text, the number of rows of a block (`size`) and of rows at most (`most`), and where
types are given the `columns`, as a query writes the struct of them; and the answer that is wanted (`want`). Records are read by a walk over characters
that is written for this table, and where Python's csv module reads a text in the same way its records are held against these.
"""
import csv
import io
import json
import os
import re

DATA = os.path.join(os.path.dirname(os.path.dirname(os.path.abspath(__file__))), "data", "texts.json")
RANGES = {"i64": (-2**63, 2**63 - 1), "i32": (-2**31, 2**31 - 1), "i16": (-2**15, 2**15 - 1), "i8": (-128, 127),
          "u64": (0, 2**64 - 1), "u32": (0, 2**32 - 1), "u16": (0, 2**16 - 1), "u8": (0, 255)}


class Refused(Exception):
    pass


def records(text):
    """The records of bytes; refused where a quote is left open."""
    if text.startswith(b"\xef\xbb\xbf"):
        text = text[3:]
    rows, row, cell, at, begun = [], [], bytearray(), 0, False
    quoted = False      # between two quotes
    fresh = True        # at the beginning of a cell
    closed = False      # behind a quote that closes one
    while at < len(text):
        c = text[at:at + 1]
        at += 1
        if quoted:
            if c == b'"':
                quoted, closed = False, True
            else:
                cell += c
            continue
        if c == b'"' and (fresh or closed):
            if closed:
                cell += c
            quoted, closed, fresh, begun = True, False, False, True
            continue
        closed = False
        if c == b",":
            row.append(bytes(cell))
            cell, fresh, begun = bytearray(), True, True
        elif c in b"\r\n":
            if begun or row:
                rows.append(row + [bytes(cell)])
            row, cell, fresh, begun = [], bytearray(), True, False
        else:
            cell += c
            fresh, begun = False, True
    if quoted:
        raise Refused("QuoteLeftOpen")
    if begun or row:
        rows.append(row + [bytes(cell)])
    return rows


def is_text(cell):
    try:
        cell.decode("utf-8")
        return True
    except UnicodeDecodeError:
        return False


def number(cell):
    s = cell.decode("latin-1")
    return int(s) if re.fullmatch(r"0|-?[1-9][0-9]*", s) else None


def value(cell, kind, nullable, null):
    """The value of a cell at a type as a text, none where it is no value of the type."""
    if cell == null:
        return "null" if nullable else None
    if kind == "utf8":
        return quoted_text(cell.decode("utf-8"))
    if kind == "bool":
        return {b"true": "true", b"false": "false"}.get(cell)
    if kind in RANGES:
        i = number(cell)
        return None if i is None or not RANGES[kind][0] <= i <= RANGES[kind][1] else "%d%s" % (i, kind)
    return None


def quoted_text(s):
    out = '"'
    for c in s:
        special = {'"': '\\"', "\\": "\\\\", "\b": "\\b", "\t": "\\t", "\n": "\\n", "\f": "\\f", "\r": "\\r"}
        out += special[c] if c in special else "\\u%04x" % ord(c) if ord(c) < 32 else c
    return out + '"'


def found(cells, null):
    nullable = any(cell == null for cell in cells)
    told = [cell for cell in cells if cell != null]
    if told and all(value(cell, "i64", False, null) is not None for cell in told):
        return "i64", nullable
    if told and all(cell in (b"true", b"false") for cell in told):
        return "bool", nullable
    return "utf8", nullable


def shown_type(kind, nullable):
    return kind + ("?" if nullable else "")


def answer(text, null, size, most, columns):
    try:
        lines = records(text)
        if not lines:
            raise Refused("NoHeader")
        names, rows = lines[0], lines[1:]
        for j, name in enumerate(names):
            if not is_text(name):
                raise Refused("NotText 0 %d" % (j + 1))
        if len(set(names)) < len(names):
            raise Refused("NameTwice")
        for i, row in enumerate(rows):
            if len(row) != len(names):
                raise Refused("OtherLength %d %d %d" % (i + 1, len(row), len(names)))
            for j, cell in enumerate(row):
                if not is_text(cell):
                    raise Refused("NotText %d %d" % (i + 1, j + 1))
        if len(rows) > most:
            raise Refused("TooManyRows %d" % len(rows))
        if columns is None:
            types = [found([row[j] for row in rows], null) for j in range(len(names))]
        else:
            if [name.encode() for name, _, _ in columns] != names:
                raise Refused("OtherNames")
            for j, (_, kind, nullable) in enumerate(columns):
                if kind not in RANGES and kind not in ("bool", "utf8"):
                    raise Refused("NotPlain %d %s" % (j + 1, shown_type(kind.replace(": ", "="), nullable)))
            types = [(kind, nullable) for _, kind, nullable in columns]
            for i, row in enumerate(rows):
                for j, cell in enumerate(row):
                    if value(cell, *types[j], null) is None:
                        raise Refused("BadCell %d %d %s %s" % (i + 1, j + 1, cell.hex(), shown_type(*types[j])))
    except Refused as refused:
        return str(refused)
    told = "{%s}" % ", ".join("%s=%s" % (name.decode(), shown_type(*t)) for name, t in zip(names, types))
    blocks = [rows[at:at + size] for at in range(0, len(rows), size)]
    for block in blocks:
        told += " /" + "".join(" [%s ]" % "".join(" " + value(row[j], *types[j], null) for row in block) for j in range(len(names)))
    return told + "".join(" %d" % len(block) for block in blocks)


def columns_text(columns):
    return "{%s}" % ", ".join("%s: %s" % (name, shown_type(kind, nullable)) for name, kind, nullable in columns)


def typed(*columns):
    return [(name, kind.rstrip("?"), kind.endswith("?")) for name, kind in columns]


NUMBERS = ["0", "-1", "1", "7", "007", "+5", "-0", "-", "", "00", "1.5", "1e3", " 5", "5 ", "12x", "127", "128", "-128", "-129", "255", "256", "32767", "32768",
           "-32769", "65535", "65536", "2147483647", "2147483648", "-2147483648", "-2147483649", "4294967295", "4294967296", "9223372036854775807",
           "9223372036854775808", "-9223372036854775808", "-9223372036854775809", "18446744073709551615", "18446744073709551616", "1" * 40, "true", "\u0665"]
TRUTHS = ["true", "false", "True", "TRUE", "1", "t", "", " true"]
TEXTS = [b"", b"\n", b"\r\n\r\n", b"a", b"a\n", b"a,b\n1,2\n", b"a,b\r\n1,2\r\n", b"a,b\r1,2\r", b"a,b\n\n1,2\n\n\n3,4", b"a,b\n1,2\n3\n", b"a,b\n1,2\n3,4,5\n",
         b"a,a\n1,2\n", b"a,b,a\n", b"a,b\n1,\n", b",\n", b"a,\n1,2\n", b"a\n\"\"\n", b"a\n\n", b"a,b\n\"1\",\"x,y\"\n", b"a,b\n1,\"x\"\"y\"\n", b"a\n\"x\ny\"\n",
         b"a\n\"x", b"a\n\"x\"\"", b"a\nx\"y\n", b"a\n\"x\"y\n", b"a\n\"x\"\"y\"z\"w\n", b"a,b\n1\n\"x", b"\"a", b"\xef\xbb\xbfa\n1\n", b"\xef\xbb\xbf\"a\"\n1\n",
         b"\xef\xbb\xbf", b"\xef\xbb\xbf\xef\xbb\xbfa\n", b"\xef\xbba\n", b"\xff,b\n1,2\n", b"a,\xff\n1,2\n", b"a,b\n1,\xff\n", b"a,b\n1,2\n\xc3,3\n",
         b"a,b\n1\n\xff,2\n", "n\u00e4me\n\u00e4\n".encode(), b"a\n\x00\n", b"a\n\t\"x\n", b"a, b\n1, 2\n", b"a\n1\n2\n3\n4\n5\n", b"a,b,c\n1,true,x\n2,false,\n",
         b"a,b,c\n,,\n,,\n", b"a\n1\n\n2\n", b"a,b\n1,true\nx,false\n", b"a,b\n1,1\n2,x\n", b"a\n9223372036854775807\n-9223372036854775808\n", b"a\n9223372036854775808\n",
         b"a\n-0\n", b"a\n007\n1\n", b"a\n1\ntrue\n", b"a\ntrue\nfalse\n", b"a\nnull\n1\n", b"a\nNA\n1\nNA\n", b"a\r\n\"x\r\ny\"\r\n"]


def rows():
    for text in TEXTS:
        for size, most in [(2, 100), (1, 4294967295), (3, 1)]:
            yield text, b"", size, most, None
        yield text, b"NA", 2, 100, None
        yield text, b"", 2, 100, typed(("a", "i64?"), ("b", "utf8?"))
        yield text, b"", 2, 100, typed(("a", "utf8"),)
    for cell in NUMBERS + TRUTHS:
        text = ("a,b\nx,%s\n" % cell).encode()
        yield text, b"", 4, 9, None
        for kind in [*RANGES, "bool", "utf8"]:
            yield text, b"", 4, 9, typed(("a", "utf8"), ("b", kind))
            yield text, b"", 4, 9, typed(("a", "utf8"), ("b", kind + "?"))
            yield text, cell.encode(), 4, 9, typed(("a", "utf8"), ("b", kind + "?"))
    for kind in ["list(i64)", "{x: i64}"]:
        yield b"a,b\n1,2\n", b"", 4, 9, [("a", "i64", False), ("b", kind, False)]
    yield b"b,a\n1,2\n", b"", 4, 9, typed(("a", "i64"), ("b", "i64"))
    yield b"a\n1\n", b"", 4, 9, typed(("a", "i64"), ("b", "i64"))
    yield b"a,b\n1,x\ny,2\n", b"", 4, 9, typed(("a", "i64"), ("b", "i64"))
    yield b"a,b\n1,2\ny,x\n", b"", 4, 9, typed(("a", "i64"), ("b", "i64"))


def check(text):
    """Python's module reads the same records, where a text is UTF-8 and has no quote in a cell, no NUL, no lone CR and no quote left open."""
    try:
        ours = records(text)
    except Refused:
        return
    if not is_text(text) or b"\x00" in text or re.search(rb'[^",\r\n]"|"[^",\r\n]', text) or re.search(rb"\r(?!\n)", text):
        return
    theirs = [row for row in csv.reader(io.StringIO(text.decode("utf-8-sig"), newline="")) if row]
    assert [[cell.decode() for cell in row] for row in ours] == theirs, (text, ours, theirs)


def main():
    lines = []
    for text, null, size, most, columns in rows():
        check(text)
        row = {"csv": text.hex(), "null": null.decode(), "size": size, "most": most}
        if columns is not None:
            row["columns"] = columns_text(columns)
        row["want"] = answer(text, null, size, most, columns)
        lines.append(json.dumps(row, ensure_ascii=True))
    with open(DATA, "w") as out:
        out.write("[\n" + ",\n".join(lines) + "\n]\n")
    print(len(lines), "rows")


if __name__ == "__main__":
    main()
