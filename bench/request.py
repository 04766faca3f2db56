#!/usr/bin/env python3
"""Times how the built program decodes requests, beside Python's json.loads of the same bytes, and hostile inputs alone.

usage: bench/request.py            (first build the program: cd crates/vx && rt run)

The tables are of 1,000,000 cells of i64, of 1,000,000 short texts and of 200,000 structs of three fields, each at its whole
size and at half of it. Both byte texts are of one byte that spells no expression, so the program decodes the whole request
and then refuses it by one line. It prints seconds of processor time (the best of three runs), the peak memory as a multiple
of the bytes, the ratio to Python's seconds, and the growth from the half to the whole. Then come inputs of 16 MiB that try
to make the decoder slow, each with its answer, its seconds and its peak memory.
"""
import json
import os
import subprocess
import sys
import tempfile

HERE = os.path.dirname(os.path.dirname(os.path.abspath(__file__)))
PROGRAM = os.path.join(HERE, "crates", "vx", "out", "vx")
MOST = 16_777_216
BLOCK = 4096
LOADS = "import json, sys; json.loads(sys.stdin.buffer.read())"


def table(kind, cells, stats=()):
    """The request of a table of one column `x` with these cells, in blocks."""
    blocks = [{"rows": len(part), "values": [part]} for part in (cells[at : at + BLOCK] for at in range(0, len(cells), BLOCK))]
    return {"columns": [{"name": "x", "type": kind}], "blocks": blocks, "stats": list(stats), "filter": "ff", "projection": "ff"}


def numbers(n):
    return table("i64", [(7919 * i) % 1_000_003 for i in range(n)])


def texts(n):
    return table("utf8", ["t%d" % (i % 1000) for i in range(n)])


def structs(n):
    fields = [{"name": "a", "type": "i32"}, {"name": "b", "type": "utf8?"}, {"name": "c", "type": "bool"}]
    return table({"struct": fields, "nullable": False}, [{"a": i, "b": "b", "c": True} for i in range(n)])


def packed(value):
    return json.dumps(value, separators=(",", ":")).encode()


def named(i):
    """A short name for a number."""
    return "" if i < 0 else chr(97 + i % 26) + named(i // 26 - 1)


def wide_struct():
    """A struct of 500,000 names."""
    fields = [{"name": named(i), "type": "i64"} for i in range(500_000)]
    return table({"struct": fields, "nullable": False}, [])


def many_stats():
    """Two statistics for each of 128 fields of each of 1,024 structs."""
    struct = {"struct": [{"name": named(i), "type": "u8"} for i in range(128)], "nullable": False}
    columns = [{"name": named(i), "type": struct} for i in range(1024)]
    paths = [[named(i), named(j)] for i in range(1024) for j in range(128)]
    stats = [{"path": path, "stat": stat, "values": []} for path in paths for stat in ("min", "max")]
    return {"columns": columns, "blocks": [], "stats": stats, "filter": "ff", "projection": "ff"}


def empty_blocks():
    """Five million objects without members."""
    return {"columns": [], "blocks": [{}] * 5_000_000, "stats": [], "filter": "", "projection": ""}


def long_text():
    return {"columns": [], "blocks": [], "stats": [], "filter": "a" * (MOST - 100), "projection": ""}


def measure(command, given):
    """The best processor seconds of three runs, the peak memory in bytes, and what was printed."""
    best, peak, printed = None, 0, b""
    with tempfile.NamedTemporaryFile() as file:
        file.write(given)
        file.flush()
        for _ in range(3):
            with open(file.name, "rb") as source, tempfile.TemporaryFile() as taken:
                child = subprocess.Popen(command, stdin=source, stdout=taken)
                _, status, used = os.wait4(child.pid, 0)
                child.returncode = os.waitstatus_to_exitcode(status)
                taken.seek(0)
                printed = taken.read()
            seconds = used.ru_utime + used.ru_stime
            best = seconds if best is None else min(best, seconds)
            peak = max(peak, used.ru_maxrss * 1024)
    return best, peak, printed.decode().strip()


def beside_python(name, make, whole):
    before = None
    for n in (whole // 2, whole):
        given = packed(make(n))
        ours, memory, answer = measure([PROGRAM, "scan"], given)
        theirs, their_memory, _ = measure([sys.executable, "-c", LOADS], given)
        if not answer.startswith("error: BadWire filter"):
            sys.exit(f"{name}: {answer}")
        print(
            f"{n} {name}, {len(given)} bytes: vx {ours:.2f} s, {memory / len(given):.1f} times the bytes; "
            f"Python {theirs:.2f} s, {their_memory / len(given):.1f} times; ratio {ours / theirs:.2f}"
        )
        if before:
            print(f"growth: vx {ours / before[0]:.2f}, Python {theirs / before[1]:.2f}")
        before = ours, theirs


def main():
    if not os.path.exists(PROGRAM):
        sys.exit("the program isn't built: cd crates/vx && rt run")
    beside_python("numbers", numbers, 1_000_000)
    beside_python("texts", texts, 1_000_000)
    beside_python("structs", structs, 200_000)
    hostile = {"one struct of 500,000 names": wide_struct, "262,144 statistics": many_stats, "5,000,000 empty blocks": empty_blocks, "one text": long_text}
    for name, make in hostile.items():
        given = packed(make())
        if len(given) > MOST:
            sys.exit(f"{name}: {len(given)} bytes")
        seconds, memory, answer = measure([PROGRAM, "scan"], given)
        print(f"{name}, {len(given)} bytes: {answer}, {seconds:.2f} s, {memory / len(given):.1f} times the bytes")


if __name__ == "__main__":
    main()
