#!/usr/bin/env python3
"""Times the evaluation of `(($.x + 1i64) > 10i64) and ($.y = "a")` and of `(10i64 <= $.x < 50i64)` over 1,000,000 rows beside the calls on
columns that it needs.

usage: bench/evaluate.py        (first build the program: cd crates/vx_bench && rt run)
"""
import tables  # noqa: F401: brings wire and rows into reach
from calls import X, Y_IS_A, beside_calls, x_between
from wire import binary, lit, request


def rows(n):
    """So many rows of a number from 0 to 99 and of a text, `a` or `b`."""
    above = binary(binary(X, "+", lit("i64", 1)), ">", lit("i64", 10))
    block = [[i % 100 for i in range(n)], ["ab"[i % 2] for i in range(n)]]
    return request([("x", "i64"), ("y", "utf8")], [block], binary(above, "and", Y_IS_A), x_between(10, 50, upper_strict=True))


if __name__ == "__main__":
    beside_calls("evaluate", ["sum", "range"], rows, 1_000_000, 1.2, 2.1)
