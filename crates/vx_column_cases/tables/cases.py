#!/usr/bin/env python3
"""Writes the tables of calls in crates/vx_column_cases/data, each answer of which a plain loop worked out in the module that is named.

usage: crates/vx_column_cases/tables/cases.py
"""
import json
import os

import columns
import integers
import words

DATA = os.path.join(os.path.dirname(os.path.dirname(os.path.abspath(__file__))), "data")
TABLES = {
    "words": words.ROWS,
    "numbers": integers.NUMBERS,
    "number_totals": integers.TOTALS,
    "number_comparisons": integers.COMPARISONS,
    "columns": columns.ROWS,
}


def main():
    os.makedirs(DATA, exist_ok=True)
    for name, rows in TABLES.items():
        with open(os.path.join(DATA, name + ".json"), "w", encoding="utf-8") as out:
            json.dump(rows, out, ensure_ascii=False, separators=(",", ":"))
            out.write("\n")
        print("%s.json: %d answers agree" % (name, len(rows)))


if __name__ == "__main__":
    main()
