#!/usr/bin/env python3
"""Times simplifying by types, and the split into parts, of filters of 64 to 4,095 nodes, of the filter of examples/catalog.json, and of
selects and merges that are nested 1 to 100 deep.

usage: bench/rewrite.py         (first build the program: cd crates/vx_bench && rt run)
"""
import json
import os

import tables  # noqa: F401: brings wire and rows into reach
from calls import HERE, X, Y_IS_A, joined, told, x_between
from wire import ROOT, merge, request, select

# How many nodes, and by how many ranges of `x` (six nodes each, its `and` included) and comparisons of `y` (five) they come.
SIZES = [(64, 5, 7), (128, 14, 9), (256, 22, 25), (512, 48, 45), (1024, 95, 91), (2048, 184, 189), (4095, 371, 374)]


def over(filter_bytes):
    return request([("x", "i64"), ("y", "utf8")], [], filter_bytes, X)


def conditions(ranges, comparisons):
    """Conditions on two columns in turn."""
    made = [x_between(i % 100, 50) for i in range(ranges)] + [Y_IS_A] * comparisons
    return joined([made[(i * 7919) % len(made)] for i in range(len(made))])


def nested(depth, wrap):
    of = ROOT
    for _ in range(depth):
        of = wrap(of)
    return of


def told_of(name, filter_request):
    times = told("rewrite", filter_request)
    print("%s, a text of %d bytes: simplify %.3f ms, to a text of %d bytes; partition %.3f ms" % (
        name, times["given"], times["simplify"] / 1e6, times["simplified"], times["partition"] / 1e6))


if __name__ == "__main__":
    for nodes, ranges, comparisons in SIZES:
        told_of("%d nodes" % nodes, over(conditions(ranges, comparisons)))
    with open(os.path.join(HERE, "examples", "catalog.json")) as file:
        told_of("the filter of the catalog", json.load(file))
    for name, wrap in [("selects", lambda of: select(of, "x", "y")), ("merges", lambda of: merge(of, ROOT))]:
        for depth in (1, 10, 25, 50, 100):
            told_of("%d %s" % (depth, name), over(nested(depth, wrap)))
