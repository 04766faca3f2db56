"""Rows of the table: a statement over a row type, and what it names, or how it is refused.

What SQLite is asked is the statement itself, or `sqlite` where its words are others, or nothing where that is None. `condition` is a filter whose
value is compared at each row of the table, also where the row isn't taken.
"""
import re

ITSELF = object()
# the refusals whose line quotes a name, or an expression as it is written, as the first of their words
QUOTING = ("UnknownColumn", "UnknownField", "UnknownType", "Unnamed", "NameTwice", "BadKey")
OF_WORD = rb"[0-9A-Za-z_\x80-\xff]"
LONGEST_WORD = 128


def only_place(sql, word, is_name):
    """The place in bytes from 0 where a word stands in a statement just once, and not within a longer word; None where there is no such place."""
    text, sought = sql.encode(), word.encode()
    if not sought or len(sought) > LONGEST_WORD or (is_name and re.search(rb"[\"'`]", sought)):
        return None
    before = rb"(?<!%s)" % OF_WORD if re.match(OF_WORD, sought[:1]) else b""
    behind = rb"(?!%s)" % OF_WORD if re.match(OF_WORD, sought[-1:]) else b""
    places = [found.start() for found in re.finditer(rb"(?=%s%s%s)" % (before, re.escape(sought), behind), text)]
    return places[0] if len(places) == 1 else None


class Taken:
    """A statement that is taken: a filter and a projection as queries, a key, whether the greatest come first, a limit, and the table's name."""

    def __init__(self, table, sql, filter=None, projection="$", key=None, descending=False, limit=None, source="t", sqlite=ITSELF, condition=None):
        self.table = table
        self.sql = sql
        self.named = {"filter": filter, "projection": projection, "key": key, "descending": descending, "limit": limit, "table": source}
        self.sqlite = sql if sqlite is ITSELF else sqlite
        self.condition = condition

    def written(self):
        return {"type": self.table.text, "sql": self.sql, **self.named}


class Refused:
    """A statement that is refused, by the clause where that is told, with words that the line quotes, and the whole line where docs/SQL.md tells it.

    `at` is the place that is told with the line. Where the line quotes a name, or an expression as it is written, that is the only place of it.
    `complaint` is what SQLite complains of too, None where it isn't asked.
    """

    def __init__(self, table, sql, kind, clause=None, words=(), line=None, complaint=None, at=None):
        self.table = table
        self.sql = sql
        self.refusal = {"kind": kind, "clause": clause, "words": list(words)}
        if at is not None:
            self.refusal["at"] = at
        elif kind in QUOTING:
            self.refusal["at"] = only_place(sql, words[0], kind != "Unnamed")
        if line:
            self.refusal["line"] = line
        self.complaint = complaint

    def written(self):
        return {"type": self.table.text, "sql": self.sql, "refusal": self.refusal}


def where(table, condition, expression, sqlite=ITSELF):
    """The rows where a condition holds."""
    asked = condition if sqlite is ITSELF else sqlite
    start = "SELECT * FROM t WHERE "
    return Taken(table, start + condition, filter=expression, sqlite=asked and start + asked, condition=asked)


def shown(table, value, expression, sqlite=ITSELF):
    """A value at each row, by a name."""
    asked = value if sqlite is ITSELF else sqlite
    text = "SELECT %s AS n FROM t"
    return Taken(table, text % value, projection="pack(n: %s)" % expression, sqlite=asked and text % asked)
