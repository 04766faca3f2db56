#!/usr/bin/env python3
"""Times the first ten rows by a key of 1,000,000 i64 in 1,000 blocks beside scans.

usage: bench/top.py             (first build the program: cd crates/vx_bench && rt run)

Over keys in order just the first block must be read, so the time is told beside that of a scan of a table that has this block alone. Over keys
in no order it is told beside that of a scan of the whole table. The least of nine times counts.
"""
from calls import X, told
from wire import TRUE, request

BLOCKS, ROWS = 1_000, 1_000
IN_ORDER_AIM, NO_ORDER_AIM = 1.5, 1.3


def table(blocks):
    """A request for all rows of a table with these numbers, block by block, and their least and greatest."""
    stats = [(["x"], "min", [min(block) for block in blocks]), (["x"], "max", [max(block) for block in blocks])]
    return request([("x", "i64")], [[block] for block in blocks], TRUE, X, stats)


def cut(numbers):
    return [numbers[at:at + ROWS] for at in range(0, len(numbers), ROWS)]


def main():
    total = BLOCKS * ROWS
    in_order = cut(list(range(total)))
    no_order = cut([number * 611_953 % 1_000_003 for number in range(total)])
    first, one = told("top", table(in_order))["top"], told("top", table(in_order[:1]))["scan"]
    print("keys in order: first rows %.3f ms, the scan of the block that must be read %.3f ms; ratio %.1f (at most %.1f)" % (
        first / 1e6, one / 1e6, first / one, IN_ORDER_AIM))
    times = told("top", table(no_order))
    print("keys in no order: first rows %.1f ms, a scan %.1f ms; ratio %.2f (at most %.1f)" % (
        times["top"] / 1e6, times["scan"] / 1e6, times["top"] / times["scan"], NO_ORDER_AIM))


if __name__ == "__main__":
    main()
