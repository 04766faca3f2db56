#!/usr/bin/python3
"""Times calls of the library from Python (python/vx.py), and holds their answers against numpy's.

usage: /usr/bin/python3 bench/library.py         (first make the library: python/build; Debian's python3-numpy has to be there)

`rules_out` over 1,000,000 blocks by the greatest value of one i64 column: the whole method of Filter, beside the one call of the library within it, which is
timed by itself over the same arrays, ready made. `rows` over 10,000,000 numbers of i64: the whole method, in ten calls, beside the same calls by themselves,
and beside numpy's own comparison of the same array, which makes the same array of truths. Once more with nulls at each tenth row, beside numpy's comparison
and its `&`. Each is timed five times in turn, and the least time of each counts. Ends where an answer differs.
"""
import os
import sys
import time

HERE = os.path.dirname(os.path.dirname(os.path.abspath(__file__)))
sys.path.insert(0, os.path.join(HERE, "python"))
import vx  # noqa: E402

numpy = vx.numpy
BLOCKS, ROWS, TIMES = 1_000_000, 10_000_000, 5


def least(calls):
    """The least seconds of each call, all timed in turn, and what each answered last."""
    times, answers = [float("inf")] * len(calls), [None] * len(calls)
    for _ in range(TIMES):
        for place, call in enumerate(calls):
            start = time.perf_counter()
            answers[place] = call()
            times[place] = min(times[place], time.perf_counter() - start)
    return times, answers


def truths(parts, count):
    return numpy.unpackbits(numpy.frombuffer(b"".join(parts), numpy.uint8), count=count, bitorder="little").view(bool)


def runs(count):
    return [(first, min(first + vx.RUN, count)) for first in range(0, count, vx.RUN)]


def blocks():
    greatest = numpy.arange(BLOCKS, dtype="i8") * 7919 % 1_000_003
    chosen = vx.Filter("n > 500000", {"n": "i64"})
    schema, lengths = vx._schema_bytes(chosen.schema), bytes(4 * BLOCKS)
    calls = [
        lambda: chosen.rules_out(max={"n": greatest}),
        lambda: vx.rules_out(schema, chosen.bytes, lengths, greatest, [0, 0, 0, greatest.nbytes]),
        lambda: greatest <= 500_000,
    ]
    (whole, inside, beside), (found, bits, wanted) = least(calls)
    if not ((found == wanted).all() and (truths([bits], BLOCKS) == wanted).all()):
        sys.exit("rules_out: a block differs")
    figures = (BLOCKS, whole * 1e3, inside * 1e3, beside * 1e3)
    print("rules_out over %d blocks: %.0f ms; the call by itself %.0f ms; numpy compares the bounds in %.1f ms" % figures)


def rows(name, kind, column, arrays, compare):
    chosen = vx.Filter("n > 500000", {"n": kind})
    schema = vx._schema_bytes(chosen.schema)
    calls = [
        lambda: chosen.rows({"n": column}),
        lambda: [vx.rows(schema, chosen.bytes, last - first, *arrays(first, last)) for first, last in runs(ROWS)],
        compare,
    ]
    (whole, inside, beside), (found, bits, wanted) = least(calls)
    if not ((found == wanted).all() and (truths(bits, ROWS) == wanted).all()):
        sys.exit("rows: a row differs")
    figures = (ROWS, name, whole * 1e3, inside * 1e3, beside * 1e3, whole / beside)
    print("rows over %d %s: %.0f ms; the calls by themselves %.0f ms; numpy %.0f ms, so that the first takes %.0f times as long" % figures)


def main():
    if numpy is None:
        sys.exit("bench/library.py: Debian's python3-numpy isn't there")
    blocks()
    numbers = numpy.arange(ROWS, dtype="i8") * 7919 % 1_000_003
    rows("i64", "i64", numbers, lambda first, last: (numbers[first:last], [0, 0, 0, 8 * (last - first)]), lambda: numbers > 500_000)
    known = numpy.arange(ROWS) % 10 != 0
    bodies = {}
    for first, last in runs(ROWS):
        bits = numpy.packbits(known[first:last], bitorder="little").tobytes()
        bodies[first] = numbers[first:last].tobytes() + bits, [8 * (last - first), len(bits), 0, 8 * (last - first)]
    rows("i64 with nulls", "i64?", (numbers, known), lambda first, last: bodies[first], lambda: (numbers > 500_000) & known)


if __name__ == "__main__":
    main()
