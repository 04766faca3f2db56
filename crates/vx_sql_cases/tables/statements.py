#!/usr/bin/env python3
"""Writes the table of statements, crates/vx_sql_cases/data/statements.json, whose answers were worked out by hand from docs/SQL.md.

usage: crates/vx_sql_cases/tables/statements.py

A row holds the type of a table's rows, a statement of SQL, and either what it names or `refusal`. What it names: `filter` and `projection`,
expressions as queries write them (a filter that isn't there is null), `key` and `descending`, `limit`, and `table`. A refusal has a `kind`,
the `clause` that the line begins with, `words` that the line quotes, and where docs/SQL.md tells it the `line`; where no token can be read,
and where the line quotes a name or an expression as it is written, it has the place `at` in bytes from 0, or null where none is told.

Before it writes, the script checks each row by what doesn't come from the project:
- filter, projection and key are strictly typed over the table, and the filter is a boolean (queries.py);
- over rows with nulls, SQLite gives the rows that the expressions mean, in their order, and the value of a condition at each row;
- of a statement that can't be read SQLite complains too, at the same word, where it has no more of SQL than is taken here;
- a reader that is written after docs/SQL.md (reading.py) gives the same expressions, and the same kind and clause of a refusal.
"""
import collections
import json
import os
import re
import sys

import clauses
import conditions
import depths
import integers
import queries
import reading
import refusals
import sqlite_answers
from rows import Taken

DATA = os.path.join(os.path.dirname(os.path.dirname(os.path.abspath(__file__))), "data", "statements.json")
ROWS = [*conditions.ROWS, *integers.ROWS, *clauses.ROWS, *depths.ROWS, *refusals.ROWS]
TRUTHS = {True: 1, False: 0, None: None}
# what the reader doesn't tell, which reads one statement that the grammar of SQL takes
NOT_READ = ("Unreadable", "TooDeep", "NoStatement", "TwoStatements")


def read(query):
    return None if query is None else queries.read_query(query)


def check_types(row):
    """The filter is a boolean, the projection is typed, the key is a plain column of the table."""
    scope = row.table.type
    if row.named["filter"] is not None:
        dtype = queries.type_of(read(row.named["filter"]), scope)
        assert dtype[0] == "bool", (row.sql, dtype)
    assert queries.type_of(read(row.named["projection"]), scope)[0] == "struct", row.sql
    if row.named["key"] is not None:
        assert dict(scope[1])[row.named["key"]][0] not in ("list", "struct"), row.sql


def ordered(rows, key, descending):
    """Rows by a key, null last, and rows of one key in their order."""
    known = [row for row in rows if row[key] is not None]
    known.sort(key=lambda row: row[key].encode() if isinstance(row[key], str) else row[key], reverse=descending)
    return known + [row for row in rows if row[key] is None]


def meant_rows(row):
    """The rows that the expressions mean, as SQLite stores their values."""
    named, table = row.named, row.table
    filter_read, projection = read(named["filter"]), read(named["projection"])
    rows = [values for values in table.rows if filter_read is None or queries.value_at(filter_read, values, table.type) is True]
    if named["key"] is not None:
        rows = ordered(rows, named["key"], named["descending"])
    rows = rows if named["limit"] is None else rows[:named["limit"]]
    return [[sqlite_answers.stored(value) for value in queries.value_at(projection, values, table.type).values()] for values in rows]


def check_condition(row):
    """The value of a condition at each row is that of SQLite."""
    given = sqlite_answers.rows_of(row.table, "t", "SELECT (%s) FROM t" % row.condition)
    meant = [[TRUTHS[queries.value_at(read(row.named["filter"]), values, row.table.type)]] for values in row.table.rows]
    assert given == meant, (row.sql, given, meant)


def check_taken(row):
    check_types(row)
    if row.sqlite is None:
        return "typed"
    given, meant = sqlite_answers.rows_of(row.table, row.named["table"], row.sqlite), meant_rows(row)
    assert given == meant, (row.sql, given, meant)
    if row.condition is not None:
        check_condition(row)
    return "compared with SQLite's rows"


def check_refused(row):
    if row.complaint is None:
        return "refused, not asked of SQLite"
    found = sqlite_answers.complaint_of(row.table, "t", row.sql)
    assert re.fullmatch(row.complaint, found), (row.sql, found, row.complaint)
    return "refused, and by SQLite likewise"


def check_reading(row):
    """The reader gives what the row holds."""
    try:
        found = reading.plan_of(row.sql, row.table.type)
    except reading.Fault as fault:
        found = {"kind": fault.kind, "clause": fault.clause}
    if isinstance(row, Taken):
        wanted = {**row.named, "filter": read(row.named["filter"]), "projection": read(row.named["projection"])}
    else:
        wanted = {"kind": row.refusal["kind"], "clause": row.refusal["clause"]}
    assert found == wanted, (row.sql, found, wanted)


def check(row):
    if isinstance(row, Taken) or row.refusal["kind"] not in NOT_READ:
        check_reading(row)
    return check_taken(row) if isinstance(row, Taken) else check_refused(row)


def main():
    sys.setrecursionlimit(20000)
    assert len({(row.sql, row.table.text) for row in ROWS}) == len(ROWS), collections.Counter(row.sql for row in ROWS).most_common(3)
    checked = collections.Counter(check(row) for row in ROWS)
    with open(DATA, "w", encoding="utf-8") as out:
        out.write("[\n%s\n]\n" % ",\n".join(json.dumps(row.written(), ensure_ascii=False) for row in ROWS))
    for what, count in checked.items():
        print("%d rows %s" % (count, what))
    print("statements.json: %d rows" % len(ROWS))


if __name__ == "__main__":
    main()
