"""The clauses of a statement: SELECT, FROM, ORDER BY and LIMIT, names that are quoted, the case of words, comments, and what ends a statement."""
from rows import Taken, where
from sample_tables import BRIEF, CASES, CATALOG, EMPTY_NAME, NAMES

ALL = ", ".join("%s: %s" % (name, name) for name in CATALOG.names)


def taken(sql, projection="$", table=CATALOG, **named):
    return Taken(table, sql, projection=projection, **named)


PROJECTIONS = [
    taken("SELECT * FROM t"),
    taken("SELECT id FROM t", "pack(id: id)"),
    taken("SELECT id, name FROM t", "pack(id: id, name: name)"),
    taken("SELECT name, cost, id FROM t", "pack(name: name, cost: cost, id: id)"),
    taken("SELECT home, tags FROM t", "pack(home: home, tags: tags)"),
    taken("SELECT price + 1 AS dearer FROM t", "pack(dearer: price + 1i32)"),
    taken("SELECT id, price + 1 AS dearer, cost FROM t", "pack(id: id, dearer: price + 1i32, cost: cost)"),
    taken("SELECT address.city FROM t", "pack(city: address.city)"),
    taken("SELECT address.city, home.zip FROM t", "pack(city: address.city, zip: home.zip)"),
    taken("SELECT address.city AS town, home.city FROM t", "pack(town: address.city, city: home.city)"),
    taken("SELECT address.city, home.city AS other, id FROM t", "pack(city: address.city, other: home.city, id: id)"),
    taken("SELECT price AS cost, cost AS price FROM t", "pack(cost: price, price: cost)"),
    taken("SELECT price AS price FROM t", "pack(price: price)"),
    taken("SELECT price, price AS again FROM t", "pack(price: price, again: price)"),
    taken("SELECT *, price + 1 AS dearer FROM t", "pack(%s, dearer: price + 1i32)" % ALL),
    taken("SELECT price + 1 AS dearer, * FROM t", "pack(dearer: price + 1i32, %s)" % ALL),
    taken("SELECT address.city, *, home.zip AS other FROM t", "pack(city: address.city, %s, other: home.zip)" % ALL),
    taken("SELECT price AS \"a b\" FROM t", "pack(\"a b\": price)"),
    taken("SELECT price AS [select], cost AS `from` FROM t", "pack(select: price, from: cost)"),
    taken("SELECT price AS \"it\"\"s\" FROM t", "pack(\"it\"\"s\": price)"),
    taken("SELECT price AS ID, id FROM t", "pack(ID: price, id: id)"),
    taken("SELECT price > 50 AND active AS dear FROM t", "pack(dear: price > 50i32 and active)"),
    taken("SELECT 5 AS five, 'x' AS word, FALSE AS no, NULL AS none FROM t", "pack(five: 5i64, word: 'x', no: false, none: lit(i64?, null))"),
    taken("SELECT price FROM t WHERE cost > 50", "pack(price: price)", filter="cost > 50i32"),
    taken("SELECT cost FROM t WHERE sold", "pack(cost: cost)", filter="sold"),
]

SOURCES = [
    taken("SELECT id FROM 'catalog.vxb'", "pack(id: id)", source="catalog.vxb"),
    taken("SELECT id FROM \"catalog.vxb\"", "pack(id: id)", source="catalog.vxb"),
    taken("SELECT id FROM catalog", "pack(id: id)", source="catalog"),
    taken("SELECT id FROM stdin", "pack(id: id)", source="stdin"),
    taken("SELECT id FROM 'a folder/it''s.vxb'", "pack(id: id)", source="a folder/it's.vxb"),
    taken("SELECT id FROM [my catalog]", "pack(id: id)", source="my catalog"),
    taken("SELECT id FROM `order`", "pack(id: id)", source="order"),
    taken("SELECT id FROM id", "pack(id: id)", source="id"),
    taken("SELECT id FROM 'größe.vxb'", "pack(id: id)", source="größe.vxb"),
]


def sorted_by(ending, key, descending=False, **named):
    return taken("SELECT id FROM t ORDER BY " + ending, "pack(id: id)", key=key, descending=descending, **named)


KEYS = [
    sorted_by("price", "price"),
    sorted_by("price ASC", "price"),
    sorted_by("price DESC", "price", True),
    sorted_by("cost", "cost"),
    sorted_by("cost DESC", "cost", True),
    sorted_by("name", "name"),
    sorted_by("name DESC", "name", True),
    sorted_by("nick asc", "nick"),
    sorted_by("nick desc", "nick", True),
    sorted_by("active", "active"),
    sorted_by("sold DESC", "sold", True),
    sorted_by("\"price\" DESC", "price", True),
    sorted_by("[cost]", "cost"),
    sorted_by("`id` DESC", "id", True),
    sorted_by("price LIMIT 3", "price", limit=3),
    sorted_by("price DESC LIMIT 3", "price", True, limit=3),
    sorted_by("cost DESC LIMIT 7", "cost", True, limit=7),
    taken("SELECT name FROM t ORDER BY cost LIMIT 5", "pack(name: name)", key="cost", limit=5),
    taken("SELECT price AS cost FROM t ORDER BY id DESC", "pack(cost: price)", key="id", descending=True),
    taken("SELECT * FROM t WHERE active ORDER BY price", key="price", filter="active"),
    taken("SELECT id FROM t WHERE cost > 50 ORDER BY cost DESC LIMIT 2", "pack(id: id)", filter="cost > 50i32", key="cost", descending=True, limit=2),
]

LIMITS = [
    taken("SELECT * FROM t LIMIT 0", limit=0),
    taken("SELECT * FROM t LIMIT 1", limit=1),
    taken("SELECT * FROM t LIMIT 8", limit=8),
    taken("SELECT * FROM t LIMIT 1000000", limit=1000000),
    taken("SELECT * FROM t LIMIT +2", limit=2),
    taken("SELECT * FROM t LIMIT 002", limit=2),
    taken("SELECT * FROM t LIMIT 9223372036854775807", limit=9223372036854775807),
    taken("SELECT * FROM t WHERE active LIMIT 2", filter="active", limit=2),
]

EXAMPLE = """SELECT id, name, price + 1 AS dearer, address.city
FROM 'catalog.vxb'
WHERE price >= 100 AND name LIKE 'a%' AND address.city IN ('Oslo', 'Rome')
ORDER BY price DESC
LIMIT 10
"""
EXAMPLE_FILTER = "price >= 100i32 and like(name, 'a%') and contains(lit(list(utf8), ['Oslo', 'Rome']), address.city)"
BOTH = "pack(id: id, price: price)"
DEAR = "price > 50i32"

WRITTEN = [
    taken(EXAMPLE, "pack(id: id, name: name, dearer: price + 1i32, city: address.city)", filter=EXAMPLE_FILTER, key="price", descending=True, limit=10,
          source="catalog.vxb"),
    taken("select id, price from t where price > 50 order by price desc limit 2", BOTH, filter=DEAR, key="price", descending=True, limit=2),
    taken("SeLeCt id, price FrOm t WhErE price > 50 OrDeR bY price AsC lImIt 2", BOTH, filter=DEAR, key="price", limit=2),
    taken("SELECT id FROM t WHERE not active and sold is not null or price between 1 and 50", "pack(id: id)",
          filter="not active and not is_null(sold) or between(price, 1i32, 50i32)"),
    taken("SELECT id FROM t WHERE cost In (50, Null) Or name Like 'b%' Or cost NotNull And True", "pack(id: id)",
          filter="contains(lit(list(i32), [50]), cost) or lit(bool?, null) or like(name, 'b%') or not is_null(cost) and true"),
    taken("SELECT Cast(price aS i64) As wide FROM t WHERE false or sold isnull", "pack(wide: cast(price, i64))", filter="false or is_null(sold)"),
    taken("SELECT id FROM t;", "pack(id: id)"),
    taken("SELECT id FROM t ;  ", "pack(id: id)"),
    taken("\tSELECT\nid\r\nFROM\ft\n;\n", "pack(id: id)"),
    taken("SELECT id,price FROM t WHERE(price>50)AND(active)", BOTH, filter="price > 50i32 and active"),
    taken("SELECT id -- its number\nFROM t", "pack(id: id)"),
    taken("SELECT id FROM t -- WHERE sold", "pack(id: id)"),
    taken("SELECT id FROM t; -- the end", "pack(id: id)"),
    taken("-- first\n-- second\nSELECT id FROM t", "pack(id: id)"),
    taken("/* all */ SELECT /**/ id FROM/* of */t /* ; DROP TABLE t */", "pack(id: id)"),
    taken("SELECT id FROM t; /* behind\n the statement */", "pack(id: id)"),
    taken("SELECT id FROM t WHERE price = 5 --1\n+ 95", "pack(id: id)", filter="cast(price, i64) = 5i64 + 95i64"),
    taken("SELECT id FROM t WHERE name = '-- no comment' OR nick = '/* nor this */'", "pack(id: id)",
          filter="name = '-- no comment' or nick = '/* nor this */'"),
    taken("SELECT id FROM t WHERE name = 'a;b'", "pack(id: id)", filter="name = 'a;b'"),
]

QUOTED = [
    ("\"a b\" = 1", "\"a b\" = 1i32"),
    ("[a b] = 1", "\"a b\" = 1i32"),
    ("`a b` = 1", "\"a b\" = 1i32"),
    ("\"select\" = 2", "select = 2i32"),
    ("[select] IS NULL", "is_null(select)"),
    ("`order` = 'a'", "order = 'a'"),
    ("\"order\" LIKE 'a'", "like(order, 'a')"),
    ("\"true\"", "\"true\""),
    ("\"null\" = 3", "\"null\" = 3i32"),
    ("[null] IS NOT NULL", "not is_null(\"null\")"),
    ("\"it's\" = 4", "\"it's\" = 4i32"),
    ("\"a\"\"b\" = 5", "\"a\"\"b\" = 5i32"),
    ("[a\"b] = 5", "\"a\"\"b\" = 5i32"),
    ("\"größe\" = 6", "\"größe\" = 6i32"),
    ("größe = 6", "\"größe\" = 6i32"),
    ("\"x`y\" = 7", "\"x`y\" = 7i32"),
    ("`x``y` = 7", "\"x`y\" = 7i32"),
    ("\"1st\" = 9", "\"1st\" = 9i32"),
    ("_under = 10", "_under = 10i32"),
    ("\"in\" IN (TRUE)", "contains(lit(list(bool), [true]), in)"),
    ("lit = 11", "\"lit\" = 11i32"),
    ("\"p]q\" < [p[q]", "\"p]q\" < \"p[q\""),
    ("\"and\".\"group by\" = 8", "\"and\".\"group by\" = 8i32"),
    ("[and].[limit] IS NULL AND `and`.`group by` = 1", "is_null(\"and\".limit) and \"and\".\"group by\" = 1i32"),
]

# beside a column that is named so SQLite takes TRUE for the column; asked with 1 in its place
TRUE_BESIDE = [
    ("NOT [true] AND TRUE", "not \"true\" and true", "NOT [true] AND 1"),
    ("\"true\" = TRUE", "\"true\" = true", "\"true\" = 1"),
    ("TRUE", "true", "1"),
]

QUOTED_ROWS = [
    *[where(NAMES, condition, expression) for condition, expression in QUOTED],
    *[where(NAMES, condition, expression, sqlite=asked) for condition, expression, asked in TRUE_BESIDE],
    taken("SELECT \"a b\", [select], `order` FROM t", "pack(\"a b\": \"a b\", select: select, order: order)", table=NAMES),
    taken("SELECT \"and\".\"limit\", `true` FROM t ORDER BY [a b] DESC", "pack(limit: \"and\".limit, \"true\": \"true\")", table=NAMES, key="a b",
          descending=True),
    taken("SELECT [p[q] AS [a\"\"b] FROM t ORDER BY \"select\"", "pack(\"a\"\"\"\"b\": \"p[q\")", table=NAMES, key="select"),
]

# names that differ by case, and a name that is empty, which SQLite is not asked
CASE_ROWS = [
    taken("SELECT price, Price, PRICE FROM t", "pack(price: price, Price: Price, PRICE: PRICE)", table=CASES, sqlite=None),
    taken("SELECT price AS pRice, price FROM t", "pack(pRice: price, price: price)", table=CASES, sqlite=None),
    taken("SELECT * FROM t WHERE price = 5", table=CASES, filter="price = 5i32", sqlite=None),
    taken("SELECT * FROM t WHERE Price = 5", table=CASES, filter="Price = 5i64", sqlite=None),
    taken("SELECT * FROM t WHERE PRICE = '5' ORDER BY Price", table=CASES, filter="PRICE = '5'", key="Price", sqlite=None),
    taken("SELECT \"\" FROM t WHERE \"\" = 5 ORDER BY \"\"", "pack(\"\": \"\")", table=EMPTY_NAME, filter="\"\" = 5i32", key="", sqlite=None),
]

BRIEF_ROWS = [
    taken("SELECT name, id FROM t WHERE name <> '' ORDER BY name DESC LIMIT 2", "pack(name: name, id: id)", table=BRIEF, filter="name != ''", key="name",
          descending=True, limit=2),
    taken("SELECT *, price - 1 AS less FROM stdin WHERE id IN (1, 3) ORDER BY id DESC;", "pack(id: id, name: name, price: price, less: price - 1i32)",
          table=BRIEF, filter="contains(lit(list(i64), [1, 3]), id)", key="id", descending=True, source="stdin"),
]

ROWS = [*PROJECTIONS, *SOURCES, *KEYS, *LIMITS, *WRITTEN, *QUOTED_ROWS, *CASE_ROWS, *BRIEF_ROWS]
