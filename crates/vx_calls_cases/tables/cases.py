#!/usr/bin/env python3
"""Writes the table of calls in crates/vx_calls_cases/data, and what the program prints where all of them agree. Each answer is written out by hand, by the
documents that its module names, or worked out by plain Python there; the bytes of filters are made by crates/vx_cases/tables/wire.py.

usage: crates/vx_calls_cases/tables/cases.py
"""
import json
import os
import sys

HERE = os.path.dirname(os.path.dirname(os.path.abspath(__file__)))
sys.path.insert(0, os.path.join(os.path.dirname(HERE), "vx_cases", "tables"))

import array_rows  # noqa: E402
import asked  # noqa: E402
import blocks  # noqa: E402
import filtered  # noqa: E402
import predicates  # noqa: E402
import refusals  # noqa: E402

ROWS = [row for module in (predicates, asked, blocks, filtered, array_rows, refusals) for row in module.ROWS]

with open(os.path.join(HERE, "data", "calls.json"), "w", encoding="utf-8") as out:
    out.write("[\n" + ",\n".join(json.dumps(row, ensure_ascii=False, separators=(",", ":")) for row in ROWS) + "\n]\n")
with open(os.path.join(HERE, "stdout"), "w", encoding="utf-8") as out:
    out.write("%d calls agree\n" % len(ROWS))
