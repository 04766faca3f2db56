#!/usr/bin/env python3
"""Times the built program on scans, beside Python's json doing the same scan of the same bytes, and the scan alone beside the calls on
columns that it needs.

usage: bench/scan.py            (first build the programs: cd crates/vx && rt run, and cd crates/vx_bench && rt run)

The tables are of 1,000,000 rows of i64 with honest least and greatest values, of i32 with nulls and of short texts, and of
200,000 rows of six columns with the greatest price, filtered by price, name and city; each at its whole size and at half of
it, in blocks of 4,096 rows. It prints seconds (the best of three runs), the peak memory, the ratio to Python's seconds, and
the growth from the half to the whole. Where the answers differ it ends. Then comes the scan alone, of numbers that are above 10
among 1,000,000, over columns in memory.
"""
import json
import os
import subprocess
import sys
import tempfile
import time

import tables  # noqa: F401: brings wire and rows into reach
from calls import beside_calls
from rows import X
from wire import ROOT, binary, item, lit, merge, node, request, select, struct

HERE = os.path.dirname(os.path.dirname(os.path.abspath(__file__)))
PROGRAM = os.path.join(HERE, "crates", "vx", "out", "vx")
BLOCK = 4096

# What Python does: `keep` and `show` go over the cells of a row, `rules_out` over the statistics of a block.
SCAN = """
import json, sys
request = json.load(sys.stdin)
text = lambda v: json.dumps(v, ensure_ascii=False, separators=(",", ":"))
rows, skipped, reads = [], [], 0
for number, block in enumerate(request["blocks"]):
    if rules_out([s["values"][number] for s in request["stats"]]):
        skipped.append(number)
        continue
    reads += {asked}
    matched = [show(r) for r in zip(*block["values"]) if keep(r)]
    reads += {further} if matched else 0
    rows.extend(matched)
out = ["rows %d" % len(rows), *map(text, rows), "skipped " + (" ".join(map(str, skipped)) or "-")]
out += ["columns " + " ".join(text(c["name"]) for c in request["columns"] if c["name"] in {columns}), "reads %d" % reads]
sys.stdout.write("\\n".join(out) + "\\n")
"""


def python(keep, show, rules_out, columns, further=()):
    """The program in Python: which columns the filter reads, and which further ones the projection."""
    numbers = {"{asked}": len(columns), "{further}": len(further), "{columns}": [*columns, *further]}
    body = SCAN
    for name, value in numbers.items():
        body = body.replace(name, repr(value))
    return f"keep = lambda r: {keep}\nshow = lambda r: {show}\nrules_out = lambda s: {rules_out}\n{body}"


def in_blocks(cells):
    return [[cells[at : at + BLOCK]] for at in range(0, len(cells), BLOCK)]


def numbers(rows):
    """Numbers from 0 to 999, so that some blocks hold none above 900."""
    block = [(37 * i + 11) % 1000 for i in range(BLOCK)]
    low = [i % 800 for i in range(BLOCK)]
    cells = [v for number in range(rows // BLOCK + 1) for v in (low if number % 4 == 0 else block)][:rows]
    blocks = in_blocks(cells)
    stats = [(["x"], "min", [min(b[0]) for b in blocks]), (["x"], "max", [max(b[0]) for b in blocks])]
    return request([("x", "i64")], blocks, binary(X, ">", lit("i64", 900)), X, stats)


def nullable(rows):
    cells = [None if i % 7 == 0 else (37 * i + 11) % 1000 for i in range(rows)]
    return request([("x", "i32?")], in_blocks(cells), binary(X, ">", lit("i32", 900)), X)


def above_ten(rows):
    """Numbers from 0 to 99, in one block, and of these those above 10."""
    return request([("x", "i64")], [[[i % 100 for i in range(rows)]]], binary(X, ">", lit("i64", 10)), X)


def texts(rows):
    cells = ["t%d" % (i % 1000) for i in range(rows)]
    return request([("x", "utf8")], in_blocks(cells), node("like", b"\0\0", X, lit("utf8", "t9%")), X)


def catalog(rows):
    columns = [("id", "u64"), ("name", "utf8?"), ("price", "i64"), ("tags", {"list": "utf8", "nullable": False})]
    columns += [("address", struct(city="utf8?", zip="u32")), ("active", "bool")]
    names, cities = ["anna", "bob", "alex", "amy", None, "carl", "axel"], ["Oslo", "Rome", "Bonn", None]
    blocks = []
    for at in range(0, rows, BLOCK):
        ids = range(at, min(at + BLOCK, rows))
        addresses = [{"city": cities[i % 4], "zip": i} for i in ids]
        prices = [(37 * i) % (90 if at // BLOCK % 4 == 0 else 1000) for i in ids]
        blocks.append([list(ids), [names[i % 7] for i in ids], prices, [[] for _ in ids], addresses, [True for _ in ids]])
    like = node("like", b"\0\0", item("name"), lit("utf8", "a%"))
    dear = binary(binary(item("price"), ">=", lit("i64", 100)), "and", like)
    where = binary(dear, "and", binary(item("city", item("address")), "=", lit("utf8", "Oslo")))
    brief = select(merge(ROOT, item("address")), "id", "name", "city")
    return request(columns, blocks, where, brief, [(["price"], "max", [max(b[2]) for b in blocks])])


CASES = [
    ("rows of i64", numbers, 1_000_000, python("r[0] > 900", "r[0]", "s[1] <= 900", ["x"])),
    ("rows of i32 with nulls", nullable, 1_000_000, python("r[0] is not None and r[0] > 900", "r[0]", "False", ["x"])),
    ("rows of short texts", texts, 1_000_000, python("r[0].startswith('t9')", "r[0]", "False", ["x"])),
    ("rows of six columns", catalog, 200_000, python(
        "r[2] >= 100 and r[1] is not None and r[1].startswith('a') and r[4]['city'] == 'Oslo'",
        "{'id': r[0], 'name': r[1], 'city': r[4]['city']}", "s[0] < 100", ["name", "price", "address"], ["id"])),
]


def measure(command, file):
    """The best seconds of three runs, the peak memory in MiB, and what was printed."""
    best, peak, printed = None, 0, b""
    for _ in range(3):
        with open(file, "rb") as given, tempfile.TemporaryFile() as taken:
            start = time.perf_counter()
            child = subprocess.Popen(command, stdin=given, stdout=taken)
            _, status, used = os.wait4(child.pid, 0)
            seconds = time.perf_counter() - start
            child.returncode = os.waitstatus_to_exitcode(status)
            if child.returncode:
                sys.exit(f"{command[0]} ended with status {child.returncode}")
            taken.seek(0)
            printed = taken.read()
        best = seconds if best is None else min(best, seconds)
        peak = max(peak, used.ru_maxrss / 1024)
    return best, peak, printed


def main():
    if not os.path.exists(PROGRAM):
        sys.exit("the program isn't built: cd crates/vx && rt run")
    for name, make, whole, body in CASES:
        before = None
        for rows in (whole // 2, whole):
            with tempfile.NamedTemporaryFile("w", suffix=".json") as file:
                json.dump(make(rows), file, separators=(",", ":"))
                file.flush()
                size = os.path.getsize(file.name)
                ours, memory, answer = measure([PROGRAM, "scan"], file.name)
                theirs, their_memory, expected = measure([sys.executable, "-c", body], file.name)
            if answer != expected:
                sys.exit(f"{rows} {name}: the answers differ")
            print(f"{rows} {name}, {size} bytes: vx {ours:.2f} s, {memory:.0f} MiB; Python {theirs:.2f} s, {their_memory:.0f} MiB; ratio {ours / theirs:.2f}")
            if before:
                print(f"growth: vx {ours / before[0]:.2f}, Python {theirs / before[1]:.2f}")
            before = ours, theirs
    beside_calls("scan", ["scan"], above_ten, 1_000_000, 1.3, 2.1)


if __name__ == "__main__":
    main()
