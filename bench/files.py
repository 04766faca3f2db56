#!/usr/bin/env python3
"""Scans a block file of the most rows on disk, and says what was read of it, in which time and in how much memory.

usage: bench/files.py [FOLDER]      (first build the program: cd crates/vx_file_bench && rt run; the file takes 0.6 GB in the folder)

The file has 1,048,576 rows in 256 blocks and 64 columns of i64. The filter is over one column, whose statistics keep 1 block in 100, 1 in 10, or each;
the projection is of two others. It prints the bytes that the system counted for the process beside those of the header and of the ranges that the log
names, the milliseconds of opening and of scanning (the least of three runs), and the peak memory; and first the peak memory for the least file. It ends
where a range was read that wasn't asked, or more bytes than the ranges that were asked, the header and 64 KiB have, or where 1 block in 100 takes more
than 16 MiB of memory. Last it scans the generated table of 200,000 rows as a file, whose answer and reads are worked out from its rule.
"""
import os
import subprocess
import sys
import tempfile
from array import array

import tables  # noqa: F401: brings wire and block_files into reach
from block_files import MARK, block_file, counted
from wire import TRUE, binary, item, lit, number, pack, text, type_bytes, value_bytes

HERE = os.path.dirname(os.path.dirname(os.path.abspath(__file__)))
PROGRAM = os.path.join(HERE, "crates", "vx_file_bench", "out", "vx_file_bench")
BLOCKS, ROWS, COLUMNS = 256, 4096, 64
NAMES = ["c%d" % i for i in range(COLUMNS)]
# how many bytes more than the header and the asked ranges may be read
OTHER = 65_536
# how much memory a scan of 1 block in 100 may take, in KiB
MOST_MEMORY = 16 * 1024


def numbers(block, column):
    """The numbers of a column in a block: of the first one from 0 on, a thousand more for each block; of another its own."""
    first = block * 1000 if column == 0 else column
    return [first + i % 1000 for i in range(ROWS)]


def range_bytes(cells):
    """The bytes of numbers, each behind a byte that says that it isn't null."""
    words = array("q", cells)
    if sys.byteorder == "big":
        words.byteswap()
    whole = bytearray(9 * len(cells))
    whole[0::9] = b"\1" * len(cells)
    plain = words.tobytes()
    for i in range(8):
        whole[1 + i :: 9] = plain[i::8]
    return bytes(whole)


def header():
    """The header of the file, with the bounds of the first column."""
    bounds = [("min", [numbers(block, 0)[0] for block in range(BLOCKS)]), ("max", [numbers(block, 0)[0] + 999 for block in range(BLOCKS)])]
    stats = [counted([text(NAMES[0])]) + bytes([("min", "max").index(kind)]) + b"".join(value_bytes("i64", v) for v in values) for kind, values in bounds]
    columns = [{"name": name, "type": "i64"} for name in NAMES]
    whole = type_bytes({"struct": columns, "nullable": False}) + counted([number(ROWS)] * BLOCKS) + counted(stats)
    return whole + number(9 * ROWS) * (BLOCKS * COLUMNS)


def write(path):
    """Writes the file, and answers how long its header is, with what stands before it."""
    head = header()
    others = b"".join(range_bytes(numbers(0, column)) for column in range(1, COLUMNS))
    with open(path, "wb") as out:
        front = MARK + number(len(head)) + head
        out.write(front)
        for block in range(BLOCKS):
            out.write(range_bytes(numbers(block, 0)) + others)
    return len(front)


def run(path, filter_bytes, projection):
    """What the program printed, by name; the peak memory in KiB. The system tells it of the program alone: a child of this script would begin with the
    memory of this script."""
    ran = subprocess.run([PROGRAM, path, filter_bytes.hex(), projection.hex()], stdout=subprocess.PIPE, check=True)
    told = {"read": []}
    for line in ran.stdout.decode().splitlines():
        name, rest = line.split(" ", 1)
        if name == "read":
            told["read"].append(rest)
        else:
            told[name] = next(int(word) for word in rest.split() if word.isdigit())
    return told


def scan(path, front, kept):
    """Scans for the rows of so many blocks, the last ones, and prints what was read."""
    least = (BLOCKS - kept) * 1000 + 499
    filter_bytes = binary(item(NAMES[0]), ">", lit("i64", least))
    projection = pack((NAMES[7], item(NAMES[7])), (NAMES[9], item(NAMES[9])))
    runs = [run(path, filter_bytes, projection) for _ in range(3)]
    told, memory = runs[0], runs[0]["peak"]
    asked = ["%d %s" % (block, NAMES[column]) for block in range(BLOCKS - kept, BLOCKS) for column in (0, 7, 9)]
    if told["read"] != asked:
        sys.exit("other ranges were read than were asked: %s" % told["read"])
    found = sum(1 for block in range(BLOCKS - kept, BLOCKS) for value in numbers(block, 0) if value > least)
    if (told["rows"], told["skipped"]) != (found, BLOCKS - kept):
        sys.exit("another answer: %d rows of %d, %d blocks skipped" % (told["rows"], found, told["skipped"]))
    needed, counted_bytes = front + 9 * ROWS * len(asked), told["after"] - told["before"]
    if counted_bytes > needed + OTHER:
        sys.exit("%d bytes were read where %d are asked" % (counted_bytes, needed))
    if kept <= BLOCKS // 100 and memory > MOST_MEMORY:
        sys.exit("%d KiB of memory where %d may be taken" % (memory, MOST_MEMORY))
    times = {name: min(ran[name] for ran in runs) / 1e6 for name in ("open", "scan")}
    print("%d of %d blocks kept: %d bytes read, of which %d are the header's and %d those of %d ranges; opened in %.1f ms, scanned in %.1f ms; %.1f MiB" % (
        kept, BLOCKS, counted_bytes, front, 9 * ROWS * len(asked), len(asked), times["open"], times["scan"], memory / 1024), flush=True)
    return times["scan"] / len(asked)


def scan_generated(folder):
    """Scans the generated table as a file by its two expressions, and prints what was read."""
    path, rows = os.path.join(folder, "generated.blocks"), 200_000
    blocks = [range(start, min(start + 64, rows)) for start in range(0, rows, 64)]
    numbers_of = [[None if i % 10 == 9 else (37 * i + 11) % 100 for i in ids] for ids in blocks]
    known = [[v for v in numbers if v is not None] for numbers in numbers_of]
    bounds = [("id", "min", [ids[0] for ids in blocks]), ("id", "max", [ids[-1] for ids in blocks])]
    bounds += [("v", "min", [min(numbers) for numbers in known]), ("v", "max", [max(numbers) for numbers in known])]
    request = {
        "columns": [{"name": "id", "type": "i64"}, {"name": "v", "type": "i32?"}],
        "blocks": [{"rows": len(ids), "values": [list(ids), numbers]} for ids, numbers in zip(blocks, numbers_of)],
        "stats": [{"path": [name], "stat": kind, "values": values} for name, kind, values in bounds],
    }
    with open(path, "wb") as out:
        out.write(block_file(request))
    filter_bytes = binary(binary(item("id"), ">=", lit("i64", rows // 2)), "and", binary(item("v"), "<", lit("i32", 50)))
    told = run(path, filter_bytes, item("id"))
    kept = [number for number, (ids, numbers) in enumerate(zip(blocks, known)) if ids[-1] >= rows // 2 and min(numbers) < 50]
    found = sum(1 for ids, numbers in zip(blocks, numbers_of) for i, v in zip(ids, numbers) if i >= rows // 2 and v is not None and v < 50)
    asked = ["%d %s" % (number, name) for number in kept for name in ("id", "v")]
    if (told["read"], told["rows"], told["skipped"]) != (asked, found, len(blocks) - len(kept)):
        sys.exit("the generated table has another answer: %d rows, %d blocks skipped, %d reads" % (told["rows"], told["skipped"], len(told["read"])))
    print("the generated table of %d rows, a file of %d bytes: %d rows, %d of %d blocks skipped, %d ranges read" % (
        rows, os.path.getsize(path), found, len(blocks) - len(kept), len(blocks), len(asked)), flush=True)


def main():
    if not os.path.exists(PROGRAM):
        sys.exit("the program isn't built: cd crates/vx_file_bench && rt run")
    with tempfile.TemporaryDirectory(dir=sys.argv[1] if len(sys.argv) > 1 else None) as folder:
        least = os.path.join(folder, "least.blocks")
        with open(least, "wb") as out:
            out.write(MARK + number(5) + b"\4\0\0\0\0")
        print("a file without blocks: %.1f MiB" % (run(least, TRUE, pack())["peak"] / 1024))
        path = os.path.join(folder, "rows.blocks")
        front = write(path)
        print("%d bytes in %d blocks of %d rows and %d columns" % (os.path.getsize(path), BLOCKS, ROWS, COLUMNS), flush=True)
        each = [scan(path, front, kept) for kept in (BLOCKS // 100, BLOCKS // 10, BLOCKS)]
        print("milliseconds a range: %s" % ", ".join("%.3f" % time for time in each))
        scan_generated(folder)


if __name__ == "__main__":
    main()
