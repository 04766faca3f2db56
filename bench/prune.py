#!/usr/bin/env python3
"""Times which of 1,000,000 blocks `(10i64 < $.x < 20i64) and ($.y = "a")` rules out by four statistics, beside the calls on columns that it
needs.

usage: bench/prune.py           (first build the program: cd crates/vx_bench && rt run)
"""
import tables  # noqa: F401: brings wire and rows into reach
from calls import X, Y_IS_A, beside_calls, x_between
from wire import binary, request

COPIES = 1000


def blocks(n):
    """The bounds of so many blocks: a block of the request stands for 1,000."""
    n //= COPIES
    least = [i % 40 for i in range(n)]
    first = ["ab"[i % 2] for i in range(n)]
    stats = [(["x"], "min", least), (["x"], "max", [v + 5 for v in least]), (["y"], "min", first), (["y"], "max", first)]
    where = binary(x_between(10, 20, lower_strict=True, upper_strict=True), "and", Y_IS_A)
    return request([("x", "i64"), ("y", "utf8")], [[[], []]] * n, where, X, stats)


if __name__ == "__main__":
    beside_calls("prune", ["prune"], blocks, 1_000_000, 2.0, 2.1)
