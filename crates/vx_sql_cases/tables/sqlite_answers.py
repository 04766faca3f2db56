"""What SQLite answers to a statement over a table, through Python's module sqlite3.

SQLite is asked in its own words where these differ from ours: a struct is a column of JSON, of which `->>` takes a field; a text is cast AS TEXT;
null stands last, and rows of one key in the table's order, where that is written; LIKE minds case where the pragma says so.
"""
import json
import re
import sqlite3


def quoted(name):
    return "\"%s\"" % name.replace("\"", "\"\"")


def stored(value):
    """A value as SQLite stores it: a truth as 1 or 0, a struct or a list as JSON."""
    if isinstance(value, bool):
        return int(value)
    return json.dumps(value, ensure_ascii=False) if isinstance(value, (dict, list)) else value


def spellings(name):
    """How a name may be written in SQL, as an expression of re."""
    written = [quoted(name), "`%s`" % name, "[%s]" % name] + [name] * (re.fullmatch(r"\w+", name) is not None)
    return "(?:%s)" % "|".join(re.escape(text) for text in written)


def with_fields(sql, table):
    """The text with each field of a struct taken from JSON."""
    for name, dtype in table.type[1]:
        for field, _ in dtype[1] if dtype[0] == "struct" else ():
            path = r"(?<![\w.])%s\s*\.\s*%s(?!\w)" % (spellings(name), spellings(field))
            taken = "(%s ->> '%s')" % (quoted(name), field)
            sql = re.sub(path, lambda _, taken=taken: taken, sql)
    return sql


def in_its_words(sql, table):
    sql = with_fields(sql, table)
    sql = re.sub(r"(?i)\bAS\s+\"?utf8\??\"?\s*\)", "AS TEXT)", sql)
    key = r"(?:\"[^\"]*\"|\[[^]]*\]|`[^`]*`|\w+)"
    return re.sub(r"(?is)\b(ORDER\s+BY\s+%s(?:\s+(?:ASC|DESC)\b)?)" % key, r"\1 NULLS LAST, rowid", sql)


def opened(table, name):
    """A database that holds the table under a name."""
    base = sqlite3.connect(":memory:")
    base.execute("PRAGMA case_sensitive_like = ON")
    base.execute("CREATE TABLE %s (%s)" % (quoted(name), ", ".join(quoted(column) for column in table.names)))
    for row in table.rows:
        places = ", ".join("?" for _ in row)
        base.execute("INSERT INTO %s VALUES (%s)" % (quoted(name), places), [stored(value) for value in row.values()])
    return base


def rows_of(table, name, sql):
    """The rows that SQLite gives."""
    base = opened(table, name)
    found = [list(row) for row in base.execute(in_its_words(sql, table))]
    base.close()
    return found


def complaint_of(table, name, sql):
    """What SQLite complains of a statement, or the empty text."""
    base = opened(table, name)
    try:
        base.execute(in_its_words(sql, table))
        return ""
    except (sqlite3.Error, sqlite3.Warning) as complaint:
        return str(complaint)
    finally:
        base.close()
