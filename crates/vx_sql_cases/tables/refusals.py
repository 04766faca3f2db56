"""Statements that are refused: each line of the table of docs/SQL.md, and which of several faults is told."""
import re

from rows import Refused
from sample_tables import BRIEF, CASES, CATALOG, EMPTY_NAME

ALL_IDS = "SELECT id FROM t"
START = "SELECT * FROM t WHERE "


def unreadable(marked, word, table=BRIEF, complaint=None):
    """A statement in which no token can be read where the mark stands; SQLite complains there too, unless told otherwise."""
    before, after = marked.split("¦")
    assert after.startswith(word), marked
    at = len(before.encode())
    line = "at byte %d: \"%s\" can't be read here" % (at, word) if word else None
    likewise = "near \"%s\": syntax error" % re.escape(word) if word else "incomplete input"
    return Refused(table, before + after, "Unreadable", None, [word] if word else [], line, likewise if complaint is None else complaint, at)


def of_more_sql(marked, word, table=BRIEF):
    """The same at a word that SQLite reads, or complains of otherwise."""
    return unreadable(marked, word, table, complaint=".*")


def refused(sql, kind, clause=None, words=(), line=None, table=CATALOG, complaint=None):
    return Refused(table, sql, kind, clause, words, line, complaint)


def condition(text, kind, words=(), line=None, table=CATALOG, complaint=None):
    return refused(START + text, kind, "WHERE", words, line, table, complaint)


def conditions(kind, words, texts):
    """Conditions that are refused alike, each of which quotes the same words."""
    return [condition(text, kind, words) for text in texts]


UNREADABLE = [
    unreadable("SELECT ¦WHERE", "WHERE"),
    unreadable("SELECT ¦FROM t", "FROM"),
    unreadable("SELECT a AS b ¦WHEER price > 1", "WHEER"),
    unreadable("SELECT id, ¦FROM t", "FROM"),
    unreadable("SELECT id FROM ¦WHERE price = 1", "WHERE"),
    unreadable("SELECT id FROM t WHEER ¦price > 1", "price"),
    unreadable("SELECT id FROM t WHERE price ¦price", "price"),
    unreadable("SELECT id FROM t WHERE price > 1 ¦LIMT 5", "LIMT"),
    unreadable("SELECT id FROM t WHERE price = ¦= 5", "="),
    unreadable("SELECT id FROM t WHERE price = 1¦)", ")"),
    unreadable("SELECT id FROM t WHERE price IN ¦50", "50"),
    unreadable("SELECT id FROM t WHERE name LIKE ¦AND price = 1", "AND"),
    unreadable("SELECT id FROM t WHERE price BETWEEN 1 ¦LIMIT 2", "LIMIT"),
    unreadable("SELECT id FROM t WHERE price = 1¦, 2", ","),
    unreadable("SELECT id FROM t ORDER ¦price", "price"),
    unreadable("SELECT id FROM t ORDER BY price ¦WHERE price = 1", "WHERE"),
    unreadable("SELECT id FROM t LIMIT 5 ¦ORDER BY id", "ORDER"),
    unreadable("SELECT CAST(price ¦i64) AS n FROM t", "i64"),
    unreadable("SELECT name AS größe ¦größe FROM t", "größe"),
    unreadable("SELECT address.city¦.street FROM t", ".", CATALOG),
    unreadable("¦SELEKT id FROM t", "SELEKT"),
    unreadable("¦)", ")"),
    unreadable("SELECT¦", ""),
    unreadable("SELECT id FROM t WHERE¦", ""),
    unreadable("SELECT id FROM t WHERE price =¦", ""),
    unreadable("SELECT id FROM t WHERE (price = 1¦", ""),
    unreadable("SELECT id FROM t WHERE NOT¦", ""),
    unreadable("SELECT id FROM t WHERE name = ¦'abc", "", complaint="unrecognized token: .*"),
    unreadable("SELECT id FROM t WHERE name = ¦\"abc", "", complaint="unrecognized token: .*"),
    unreadable("SELECT id FROM t WHERE price = ¦5abc", "", complaint="unrecognized token: .*"),
    unreadable("SELECT id FROM t WHERE ¦{price} = 1", "{", complaint="unrecognized token: .*"),
    unreadable("SELECT id FROM t WHERE price ¦^ 2 = 1", "^", complaint="unrecognized token: .*"),
    of_more_sql("SELECT id FROM t WHERE name ¦GLOB 'a*'", "GLOB"),
    of_more_sql("SELECT id FROM t WHERE name ¦REGEXP 'a'", "REGEXP"),
    of_more_sql("SELECT id FROM t WHERE name LIKE 'a!%' ¦ESCAPE '!'", "ESCAPE"),
    of_more_sql("SELECT id FROM t WHERE (price¦, id) = (1, 2)", ","),
    of_more_sql("SELECT id FROM t ¦NATURAL JOIN u", "NATURAL"),
    of_more_sql("SELECT id FROM t ¦FULL JOIN u", "FULL"),
    of_more_sql("SELECT id FROM main¦.t", "."),
    of_more_sql("SELECT CAST(price AS VARCHAR¦(10)) AS n FROM t", "("),
    of_more_sql("SELECT CAST(price AS unsigned ¦int) AS n FROM t", "int"),
    of_more_sql("¦EXPLAIN SELECT id FROM t", "EXPLAIN"),
    of_more_sql("¦VALUES (1)", "VALUES"),
    of_more_sql("¦ALTER TABLE t RENAME TO u", "ALTER"),
]

STATEMENTS = [
    *[refused(text, "NoStatement") for text in ["", " \n\t", ";", "-- nothing", "/* nothing */"]],
    refused("DROP TABLE t", "NotTaken", None, ["DROP"]),
    refused("INSERT INTO t VALUES (1)", "NotTaken", None, ["INSERT"]),
    refused("UPDATE t SET price = 1", "NotTaken", None, ["UPDATE"]),
    refused("DELETE FROM t", "NotTaken", None, ["DELETE"]),
    refused("CREATE TABLE u (a)", "NotTaken", None, ["CREATE"]),
    refused("BEGIN", "NotTaken", None, ["BEGIN"]),
    refused("SELECT id FROM t; DROP TABLE t", "TwoStatements"),
    refused("SELECT id FROM t; SELECT name FROM t;", "TwoStatements"),
    refused("SELECT id FROM t; nonsense", "TwoStatements"),
    refused("WITH u AS (SELECT id FROM t) SELECT id FROM u", "NotTaken", None, ["WITH"]),
    *[refused("SELECT id FROM t %s SELECT id FROM u" % word, "NotTaken", None, [word.split()[0]]) for word in
      ["UNION", "UNION ALL", "EXCEPT", "INTERSECT"]],
    refused("SELECT id FROM t, u", "NotTaken", "FROM"),
    refused("SELECT id FROM t JOIN u ON price = cost", "NotTaken", "FROM"),
    refused("SELECT id FROM t INNER JOIN u USING (id)", "NotTaken", "FROM"),
    refused("SELECT id FROM t LEFT JOIN u", "NotTaken", "FROM"),
    refused("SELECT id FROM t CROSS JOIN u", "NotTaken", "FROM"),
    refused("SELECT id FROM (SELECT id FROM t)", "NotTaken", "FROM"),
    refused("SELECT id FROM t AS u", "NotTaken", "FROM", ["u"]),
    refused("SELECT id FROM t u", "NotTaken", "FROM", ["u"]),
    refused("SELECT id", "NoTable", "FROM"),
    refused("SELECT 1 AS n", "NoTable", "FROM"),
    refused("SELECT id WHERE price = 1", "NoTable", "FROM"),
    refused("SELECT DISTINCT id FROM t", "NotTaken", None, ["DISTINCT"]),
    refused("SELECT id FROM t GROUP BY id", "NotTaken", None, ["GROUP BY"], "GROUP BY is not taken"),
    refused("SELECT id FROM t WHERE active GROUP BY name, id", "NotTaken", None, ["GROUP BY"], "GROUP BY is not taken"),
    refused("SELECT id FROM t HAVING price > 1", "NotTaken", None, ["HAVING"]),
    refused("SELECT id FROM t LIMIT 5 OFFSET 2", "NotTaken", None, ["OFFSET"]),
    refused("SELECT id FROM t LIMIT 2, 5", "NotTaken", None, ["OFFSET"]),
]

SUBQUERIES = [
    *[condition(text, "NotTaken") for text in [
        "price IN (SELECT price FROM u)", "price NOT IN (SELECT 1)", "price = (SELECT 1)", "price IN u", "EXISTS (SELECT 1)", "NOT EXISTS (SELECT 1)"]],
    refused("SELECT (SELECT 1) AS n FROM t", "NotTaken", "SELECT"),
    refused("SELECT EXISTS (SELECT 1) AS n FROM t", "NotTaken", "SELECT"),
]

CALLS = [
    condition("lower(name) = 'anna'", "NotTaken", ["lower"]),
    condition("coalesce(cost, 0) > 1", "NotTaken", ["coalesce"]),
    condition("like('a%', name)", "NotTaken", ["like"]),
    condition("price = abs(-5)", "NotTaken", ["abs"]),
    condition("NOT (length(name) > 3 OR active)", "NotTaken", ["length"]),
    condition("CASE WHEN active THEN 1 ELSE 0 END = 1", "NotTaken", ["CASE"]),
    condition("name COLLATE NOCASE = 'ANNA'", "NotTaken", ["COLLATE"]),
    refused("SELECT count(*) AS n FROM t", "NotTaken", "SELECT", ["count"]),
    refused("SELECT count(id) AS n FROM t", "NotTaken", "SELECT", ["count"]),
    refused("SELECT count(DISTINCT id) AS n FROM t", "NotTaken", "SELECT", ["count"]),
    refused("SELECT upper(name) AS n FROM t", "NotTaken", "SELECT", ["upper"]),
    refused("SELECT CASE price WHEN 1 THEN 2 END AS n FROM t", "NotTaken", "SELECT", ["CASE"]),
]

OPERATORS = [
    *[condition("price %s 2 > 1" % sign, "NotTaken", [sign]) for sign in ["*", "/", "%", "&", "|", "<<", ">>"]],
    condition("name || 'a' = 'aa'", "NotTaken", ["||"]),
    condition("~price = 1", "NotTaken", ["~"]),
    condition("-price > 1", "NotTaken", ["-"]),
    condition("-(price + 1) > 1", "NotTaken", ["-"]),
    condition("+price > 1", "NotTaken", ["+"]),
    condition("price = - -5", "NotTaken", ["-"]),
    *conditions("NotTaken", ["IS"], ["price IS 5", "price IS NOT 5", "price IS cost", "active IS TRUE", "sold IS NOT FALSE", "NULL IS cost", "name IS 'a'"]),
    refused("SELECT price * 2 AS n FROM t", "NotTaken", "SELECT", ["*"]),
    refused("SELECT -price AS n FROM t", "NotTaken", "SELECT", ["-"]),
]

# the parameters and the clock are looked for before the clauses, so the clause isn't told
PARAMETERS = [
    *[refused(START + text, "NotTaken") for text in [
        "price = ?", "price = ?1", "price = :price", "price = @price", "price = $price", "price IN (1, ?)", "price BETWEEN ? AND 5",
        "name < CURRENT_DATE", "name < CURRENT_TIME", "name < current_timestamp", "name < date('now')", "name < datetime()"]],
    refused("SELECT ? AS n FROM t", "NotTaken"),
    refused("SELECT CURRENT_DATE AS today FROM t", "NotTaken"),
    refused("SELECT id FROM t LIMIT ?", "NotTaken"),
    refused("SELECT id FROM t LIMIT :limit", "NotTaken"),
]

NUMBERS = [
    *[condition("price = " + text, "NotTaken", [text]) for text in ["1.5", ".5", "5.", "1e3", "0x10", "0XfF"]],
    condition("price < -1.5", "NotTaken", ["1.5"]),
    condition("price BETWEEN 1 AND 1.5", "NotTaken", ["1.5"]),
    condition("name = x'00'", "NotTaken"),
    condition("name = X'61'", "NotTaken"),
    refused("SELECT 1.5 AS n FROM t", "NotTaken", "SELECT", ["1.5"]),
    refused("SELECT CAST(1.5 AS i64) AS n FROM t", "NotTaken", "SELECT", ["1.5"]),
]


def unnamed(text, table=BRIEF):
    return refused("SELECT %s FROM t" % text, "Unnamed", "SELECT", [text], "SELECT: %s has no name; write %s AS a name" % (text, text), table)


def twice(columns, name, table=CATALOG):
    return refused("SELECT %s FROM t" % columns, "NameTwice", "SELECT", [name], table=table)


PROJECTIONS = [
    refused("SELECT t.* FROM t", "NotTaken", "SELECT", ["t.*"]),
    refused("SELECT address.* FROM t", "NotTaken", "SELECT", ["address.*"]),
    refused("SELECT id, address.* FROM t", "NotTaken", "SELECT", ["address.*"]),
    *[unnamed(text) for text in ["price + 1", "price+1", "5", "'a'", "NULL", "TRUE", "price > 1", "NOT price = 1", "price IS NULL", "CAST(price AS i64)"]],
    refused("SELECT id, price + 1, name FROM t", "Unnamed", "SELECT", ["price + 1"], "SELECT: price + 1 has no name; write price + 1 AS a name"),
    twice("id, id", "id"),
    twice("id, name, price, name", "name"),
    twice("id, price AS id", "id"),
    twice("price AS n, cost AS n", "n"),
    twice("price AS n, cost + 1 AS [n]", "n"),
    twice("address.city, home.city", "city"),
    twice("address.city, name AS city", "city"),
    twice("*, id", "id"),
    twice("price AS id, *", "id"),
    twice("*, *", "id"),
]

COLUMNS_OF_BRIEF = "the columns are id, name, price"


def unknown(text, name, table=BRIEF, complaint=True):
    line = "WHERE: no column %s; %s" % (name, COLUMNS_OF_BRIEF) if table is BRIEF else None
    return condition(text, "UnknownColumn", [name], line, table, "no such column: .*" if complaint else None)


UNKNOWN = [
    unknown("price2 > 1", "price2"),
    unknown("1 > price2", "price2"),
    unknown("nope", "nope"),
    unknown("NOT nope", "nope"),
    unknown("nope IS NULL", "nope"),
    unknown("nope NOTNULL", "nope"),
    unknown("nope IN (1)", "nope"),
    unknown("nope NOT IN (1, NULL)", "nope"),
    unknown("nope LIKE 'a%'", "nope"),
    unknown("name LIKE nope", "nope"),
    unknown("price BETWEEN 1 AND nope", "nope"),
    unknown("nope NOT BETWEEN 1 AND 2", "nope"),
    unknown("CAST(nope AS i64) = 1", "nope"),
    unknown("price + nope = 1", "nope"),
    unknown("[no pe] = 1", "no pe"),
    unknown("Price > 1", "Price", complaint=False),
    unknown("name = \"anna\"", "anna", complaint=False),
    unknown("rowid = 1", "rowid", complaint=False),
    unknown("t.id = 1", "t", complaint=False),
    unknown("nope.city = 'Oslo'", "nope"),
    unknown("pRICE = 1", "pRICE", CASES, complaint=False),
    refused("SELECT nope FROM t", "UnknownColumn", "SELECT", ["nope"], "SELECT: no column nope; " + COLUMNS_OF_BRIEF, BRIEF, "no such column: nope"),
    refused("SELECT id, nope AS n FROM t", "UnknownColumn", "SELECT", ["nope"], "SELECT: no column nope; " + COLUMNS_OF_BRIEF, BRIEF, "no such column: nope"),
    refused("SELECT t.id FROM t", "UnknownColumn", "SELECT", ["t"], "SELECT: no column t; " + COLUMNS_OF_BRIEF, BRIEF),
    refused("SELECT id FROM t ORDER BY nope", "UnknownColumn", "ORDER BY", ["nope"], "ORDER BY: no column nope; " + COLUMNS_OF_BRIEF, BRIEF,
            "no such column: nope"),
    refused("SELECT price + 1 AS dearer FROM t ORDER BY dearer", "UnknownColumn", "ORDER BY", ["dearer"],
            "ORDER BY: no column dearer; " + COLUMNS_OF_BRIEF, BRIEF),
    condition("address.town = 'Oslo'", "UnknownField", ["town"]),
    condition("home.City IS NULL", "UnknownField", ["City"]),
    condition("NOT home.far", "UnknownField", ["far"]),
    condition("price.cents = 5", "UnknownField", ["cents"]),
    condition("tags.first = 'a'", "UnknownField", ["first"]),
    refused("SELECT address.town FROM t", "UnknownField", "SELECT", ["town"]),
    refused("SELECT address.town AS town FROM t", "UnknownField", "SELECT", ["town"]),
]

KEYS = [
    refused("SELECT id FROM t ORDER BY id, price", "SeveralKeys", "ORDER BY"),
    refused("SELECT id FROM t ORDER BY id DESC, id ASC LIMIT 5", "SeveralKeys", "ORDER BY"),
    refused("SELECT id FROM t ORDER BY price + 1", "NoColumn", "ORDER BY"),
    refused("SELECT id FROM t ORDER BY 1", "NoColumn", "ORDER BY"),
    refused("SELECT id FROM t ORDER BY 'id'", "NoColumn", "ORDER BY"),
    refused("SELECT id FROM t ORDER BY active AND sold DESC", "NoColumn", "ORDER BY"),
    refused("SELECT id FROM t ORDER BY address.city", "NoColumn", "ORDER BY"),
    refused("SELECT id FROM t ORDER BY cost NULLS FIRST", "NotTaken", "ORDER BY", ["NULLS FIRST"]),
    refused("SELECT id FROM t ORDER BY cost DESC NULLS FIRST", "NotTaken", "ORDER BY", ["NULLS FIRST"]),
    refused("SELECT id FROM t ORDER BY address", "BadKey", "ORDER BY", ["address"]),
    refused("SELECT id FROM t ORDER BY tags DESC", "BadKey", "ORDER BY", ["tags"]),
    refused("SELECT many FROM t ORDER BY many", "BadKey", "ORDER BY", ["many"], table=EMPTY_NAME),
]

LIMITS = [refused("SELECT id FROM t LIMIT " + text, "BadLimit", "LIMIT") for text in [
    "NULL", "-1", "-9223372036854775808", "'5'", "id", "1 + 1", "TRUE", "5 = 5", "CAST(5 AS i64)"]]

KINDS = [
    condition("price = 'abc'", "OtherKinds", ["price", "i32", "'abc'"], "WHERE: price is i32, 'abc' is a text", BRIEF),
    condition("price < 'it''s'", "OtherKinds", ["price", "i32"], None, BRIEF),
    condition("'abc' <> price", "OtherKinds", ["price", "i32", "'abc'"], None, BRIEF),
    condition("name = 5", "OtherKinds", ["name", "utf8", "5"]),
    condition("5 > name", "OtherKinds", ["name", "utf8", "5"]),
    condition("active = 1", "OtherKinds", ["active", "bool", "1"]),
    condition("price = TRUE", "OtherKinds", ["price", "i32"]),
    condition("cost <> active", "OtherKinds", ["cost", "active"]),
    condition("name < price", "OtherKinds", ["name", "price"]),
    condition("name = sold", "OtherKinds", ["name", "sold"]),
    condition("'5' = 5", "OtherKinds", ["'5'", "5"]),
    condition("TRUE = 5", "OtherKinds", ["5"]),
    condition("'a' < FALSE", "OtherKinds", ["'a'"]),
    condition("price < cost < 5", "OtherKinds", ["5"]),
    condition("price + 'a' = 1", "OtherKinds", ["price", "'a'"]),
    condition("name - 1 = name", "OtherKinds", ["name", "1"]),
    condition("price IN (1, 'a')", "OtherKinds", ["price", "'a'"]),
    condition("name IN ('a', 1)", "OtherKinds", ["name", "1"]),
    condition("active NOT IN (TRUE, 1)", "OtherKinds", ["active", "1"]),
    condition("price IN (TRUE)", "OtherKinds", ["price"]),
    condition("5 IN ('a')", "OtherKinds", ["5", "'a'"]),
    condition("NULL IN ('a', 1)", "OtherKinds", ["1"]),
    condition("price BETWEEN 'a' AND 'b'", "OtherKinds", ["price", "'a'"]),
    condition("price BETWEEN 1 AND 'b'", "OtherKinds", ["price", "'b'"]),
    condition("name NOT BETWEEN 1 AND 'b'", "OtherKinds", ["name", "1"]),
    condition("5 BETWEEN 'a' AND 'b'", "OtherKinds", ["5", "'a'"]),
    condition("address.city = 5", "OtherKinds", ["city", "5"]),
]

PLACES = [
    *conditions("NotPlain", ["address"], ["address = NULL", "address = address", "address IN (NULL)", "address BETWEEN NULL AND NULL"]),
    condition("NULL <> address", "NotPlain"),
    *conditions("NotPlain", ["tags"], ["tags = tags", "tags < NULL"]),
    *conditions("NoBoolean", ["price"], ["NOT price", "price AND active", "active OR price", "NOT price OR active", "(price) AND TRUE"]),
    *conditions("NoBoolean", ["name"], ["NOT name", "sold OR name"]),
    *conditions("NoBoolean", ["5"], ["NOT 5", "active AND 5", "5 OR active"]),
    *conditions("NoBoolean", ["'a'"], ["NOT 'a'", "active AND 'a'"]),
    condition("NOT address", "NoBoolean", ["address"]),
    *conditions("NoText", ["5"], ["name LIKE 5", "5 LIKE 'a%'", "5 NOT LIKE name"]),
    *conditions("NoText", ["price"], ["price LIKE 'a%'", "name LIKE price", "price NOT LIKE NULL"]),
    *conditions("NoText", ["active"], ["active LIKE 'a%'", "name LIKE active"]),
    condition("name LIKE TRUE", "NoText"),
    condition("address LIKE 'a%'", "NoText", ["address"]),
    *conditions("NoNumber", ["name"], ["name + nick = 'a'", "name - 'a' = 'a'"]),
    *conditions("NoNumber", ["active"], ["active + sold", "active - TRUE = FALSE"]),
    condition("TRUE + FALSE", "NoNumber"),
    refused("SELECT name + 'a' AS n FROM t", "NoNumber", "SELECT", ["name"]),
    refused("SELECT NOT price AS n FROM t", "NoBoolean", "SELECT", ["price"]),
]

LISTS = [
    *[condition(text, "NoConstants") for text in ["price IN ()", "name NOT IN ()", "5 IN ()", "NULL IN ()"]],
    *[condition(text, "NotConstant", ["cost"], "WHERE: cost is no constant") for text in
      ["price IN (cost, 1)", "price IN (1, cost)", "price NOT IN (NULL, cost)"]],
    *[condition(text, "NotConstant") for text in ["price IN (1 + 1)", "price IN (CAST(1 AS i32))", "active IN (NOT TRUE)", "active IN (TRUE, 1 = 1)"]],
    condition("name IN (address.city)", "NotConstant", ["address.city"], "WHERE: address.city is no constant"),
]


def no_type(text, name):
    line = "WHERE: no type %s; the types are bool, utf8, u8 to u64, i8 to i64, each with ? behind it or without" % name
    return condition(text, "UnknownType", [name], line)


CASTS = [
    *conditions("NoCast", ["name", "i64"], ["CAST(name AS i64) = 1", "CAST(name AS \"i64?\") = 1"]),
    condition("CAST(active AS i32) = 1", "NoCast", ["active", "i32"]),
    condition("CAST(price AS utf8) = 'a'", "NoCast", ["price", "utf8"]),
    condition("CAST(price AS bool)", "NoCast", ["price", "bool"]),
    condition("CAST(name AS bool)", "NoCast", ["name", "bool"]),
    condition("CAST(5 AS utf8) = '5'", "NoCast", ["5", "utf8"]),
    condition("CAST(1 AS bool)", "NoCast", ["1", "bool"]),
    condition("CAST('5' AS i64) = 5", "NoCast", ["'5'", "i64"]),
    condition("CAST(TRUE AS u8) = 1", "NoCast", ["u8"]),
    condition("CAST(address AS utf8) = 'a'", "NoCast", ["address", "utf8"]),
    no_type("CAST(tags AS \"list(utf8)\") IS NULL", "list(utf8)"),
    *[no_type("CAST(price AS %s) = 1" % name, word) for name, word in [
        ("INTEGER", "INTEGER"), ("TEXT", "TEXT"), ("i128", "i128"), ("float", "float"), ("\"i64??\"", "i64??"), ("[i 64]", "i 64"), ("varchar", "varchar")]],
    refused("SELECT CAST(price AS INTEGER) AS n FROM t", "UnknownType", "SELECT", ["INTEGER"]),
]

FILTERS = [
    condition("price", "FilterNotBool", ["price"]),
    condition("name", "FilterNotBool", ["name"]),
    condition("address", "FilterNotBool", ["address"]),
    condition("address.city", "FilterNotBool", ["city"]),
    condition("5", "FilterNotBool", ["5"]),
    condition("'a'", "FilterNotBool", ["'a'"]),
    condition("price + 1", "FilterNotBool"),
    condition("CAST(price AS i64)", "FilterNotBool"),
]

# several faults in one statement, of which the first by the order of docs/SQL.md is told
ORDERS = [
    unreadable("SELECT nope FROM t WHERE other = ¦", ""),
    unreadable("SELECT nope FROM t GROUP BY id LIMIT ¦", ""),
    refused(START + " AND ".join(["nope"] * 400), "TooDeep"),
    refused("SELECT nope FROM t WHERE nope = 1 GROUP BY id", "NotTaken", None, ["GROUP BY"], "GROUP BY is not taken"),
    refused("SELECT DISTINCT nope FROM t WHERE price = 'a'", "NotTaken", None, ["DISTINCT"]),
    refused("SELECT nope FROM t WHERE price LIMIT 5 OFFSET 2", "NotTaken", None, ["OFFSET"]),
    refused("SELECT nope FROM t WHERE price = 'a' HAVING price", "NotTaken", None, ["HAVING"]),
    refused("SELECT nope FROM t WHERE other = ?", "NotTaken"),
    refused("SELECT nope FROM t LIMIT ?", "NotTaken"),
    refused("SELECT nope FROM t; DROP TABLE t", "TwoStatements"),
    refused("SELECT nope WHERE other = 1", "NoTable", "FROM"),
    refused("SELECT nope ORDER BY other LIMIT -1", "NoTable", "FROM"),
    refused("SELECT nope FROM t WHERE other = 1", "UnknownColumn", "WHERE", ["other"]),
    refused("SELECT nope FROM t WHERE price = 'a'", "OtherKinds", "WHERE", ["price", "'a'"]),
    refused("SELECT price + 1 FROM t WHERE price", "FilterNotBool", "WHERE", ["price"]),
    refused("SELECT id, id FROM t WHERE price IN ()", "NoConstants", "WHERE"),
    refused("SELECT nope FROM t ORDER BY other", "UnknownColumn", "SELECT", ["nope"]),
    refused("SELECT price + 1 FROM t LIMIT -1", "Unnamed", "SELECT", ["price + 1"], "SELECT: price + 1 has no name; write price + 1 AS a name"),
    refused("SELECT id, id FROM t ORDER BY address LIMIT NULL", "NameTwice", "SELECT", ["id"]),
    refused("SELECT id FROM t WHERE nope ORDER BY address", "UnknownColumn", "WHERE", ["nope"]),
    refused("SELECT id FROM t WHERE active = 1 LIMIT -1", "OtherKinds", "WHERE", ["active", "1"]),
    refused("SELECT id FROM t ORDER BY nope LIMIT -1", "UnknownColumn", "ORDER BY", ["nope"]),
    refused("SELECT id FROM t ORDER BY address LIMIT NULL", "BadKey", "ORDER BY", ["address"]),
    refused("SELECT nope, other FROM t", "UnknownColumn", "SELECT", ["nope"]),
    refused("SELECT address.town, nope FROM t", "UnknownField", "SELECT", ["town"]),
    refused("SELECT id, price + 1, nope FROM t", "Unnamed", "SELECT", ["price + 1"]),
    refused("SELECT price + 'a' AS n, nope FROM t", "OtherKinds", "SELECT", ["price", "'a'"]),
    condition("nope = 1 AND other = 2", "UnknownColumn", ["nope"]),
    condition("price = 'a' AND nope = 1", "OtherKinds", ["price", "'a'"]),
    condition("nope = 1 AND price = 'a'", "UnknownColumn", ["nope"]),
    condition("active = 1 OR name = 2", "OtherKinds", ["active", "1"]),
    condition("price AND nope = 1", "UnknownColumn", ["nope"]),
    condition("price AND name", "NoBoolean", ["price"]),
    condition("price OR active = 1", "OtherKinds", ["active", "1"]),
    condition("NOT (price AND nope)", "UnknownColumn", ["nope"]),
    condition("price LIKE nope", "UnknownColumn", ["nope"]),
    condition("price LIKE 5", "NoText", ["price"]),
    condition("address = nope", "UnknownColumn", ["nope"]),
    condition("nope BETWEEN other AND 'a'", "UnknownColumn", ["nope"]),
    condition("price BETWEEN 'a' AND nope", "UnknownColumn", ["nope"]),
    condition("nope IN ()", "UnknownColumn", ["nope"]),
    condition("nope IN (cost)", "UnknownColumn", ["nope"]),
    condition("price IN ('a', cost)", "NotConstant", ["cost"]),
    condition("price IN ('a', TRUE)", "OtherKinds", ["price", "'a'"]),
    condition("CAST(nope AS INTEGER) = 1", "UnknownColumn", ["nope"]),
    condition("CAST(CAST(name AS i64) AS INTEGER) = 1", "NoCast", ["name", "i64"]),
    condition("lower(name) = 1 AND nope", "NotTaken", ["lower"]),
    condition("price * 2 = 'a'", "NotTaken", ["*"]),
]

ROWS = [
    *UNREADABLE, *STATEMENTS, *SUBQUERIES, *CALLS, *OPERATORS, *PARAMETERS, *NUMBERS, *PROJECTIONS, *UNKNOWN, *KEYS, *LIMITS, *KINDS, *PLACES, *LISTS,
    *CASTS, *FILTERS, *ORDERS,
]
