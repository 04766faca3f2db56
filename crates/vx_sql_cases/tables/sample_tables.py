"""The tables that the statements are about: the type of each, as queries write types, and rows that hold nulls and the ends of types."""
from queries import INTEGERS, read_type


class Table:
    """A row type and rows of it, each a list of the columns' values. A number of SQLite has 64 bits and a sign, so no larger one stands in a row."""

    def __init__(self, text, rows=()):
        self.text = text
        self.type = read_type(text)
        self.names = [name for name, _ in self.type[1]]
        self.rows = [dict(zip(self.names, row)) for row in rows]


CATALOG = Table(
    "{id: i64, name: utf8, nick: utf8?, price: i32, cost: i32?, active: bool, sold: bool?, "
    "address: {city: utf8, zip: u32, floor: i16?}, home: {city: utf8, zip: u32?, near: bool?}?, tags: list(utf8)}",
    [
        [1, "anna", "Anna", 50, 50, True, True, {"city": "Oslo", "zip": 1, "floor": 3}, {"city": "Oslo", "zip": 1, "near": True}, []],
        [2, "bob", None, 90, None, False, None, {"city": "Rome", "zip": 2, "floor": None}, None, ["a"]],
        [3, "alex", "a%", 100, 120, True, False, {"city": "Oslo", "zip": 3, "floor": -1}, {"city": "Rome", "zip": None, "near": False}, ["a", "b"]],
        [4, "a%b", "%", 250, 250, False, True, {"city": "Bonn", "zip": 4, "floor": 0}, {"city": "Bonn", "zip": 7, "near": None}, []],
        [5, "", "", -5, -6, True, None, {"city": "", "zip": 0, "floor": 5}, {"city": "", "zip": 5, "near": True}, []],
        [6, "it's", "it_s", 5, 1, False, False, {"city": "Oslo", "zip": 100, "floor": 7}, None, ["x"]],
        [7, "Anna", "anna", 499, None, True, True, {"city": "Rome", "zip": 250, "floor": None}, {"city": "Oslo", "zip": 9, "near": False}, []],
        [8, "bar", None, 100, 99, False, None, {"city": "Oslo", "zip": 8, "floor": 2}, {"city": "Oslo", "zip": 8, "near": True}, []],
        [9, "b", "c", 99, 100, True, False, {"city": "Oslo", "zip": 6, "floor": 0}, {"city": "Paslo", "zip": 6, "near": False}, ["a"]],
        [10, "a", "a", 101, 101, False, True, {"city": "slo", "zip": 5, "floor": 1}, {"city": "Oslo", "zip": 5, "near": None}, []],
        [11, "c", "b", 0, 0, True, None, {"city": "oslo", "zip": 4, "floor": -4}, None, ["", "b"]],
        [12, "it_s", "it's", 51, 3, False, False, {"city": "Bonn", "zip": 9, "floor": -3}, {"city": None, "zip": None, "near": None}, []],
        [13, "é", "grün", 2, 4, True, True, {"city": "Ålo", "zip": 51, "floor": 50}, {"city": "Oslo", "zip": 50, "near": True}, []],
        [14, "ann", "ba", 60, 61, False, None, {"city": "Oslo", "zip": 60, "floor": 60}, {"city": "Rome", "zip": 60, "near": False}, []],
        [15, "anna", "anna%", 1, 2, True, False, {"city": "Rome", "zip": 1, "floor": 1}, {"city": "Rome", "zip": 2, "near": True}, []],
        [16, "bb", "%a", 49, None, False, True, {"city": "Bonn", "zip": 16, "floor": None}, None, ["a"]],
    ],
)

# three columns, as in the examples of docs/SQL.md
BRIEF = Table("{id: i64, name: utf8, price: i32}", [[1, "anna", 50], [2, "bob", 100], [3, "", -1], [4, "Bob", 100]])

# columns of each integer type, with null and without
NUMBERS_TYPE = "{%s}" % ", ".join(["the_%s: %s" % (name, name) for name in INTEGERS] + ["maybe_%s: %s?" % (name, name) for name in INTEGERS])
GREATEST = [min(greatest, 2 ** 63 - 1) for _, greatest in INTEGERS.values()]
LEAST = [least for least, _ in INTEGERS.values()]
NULLS = [None] * len(INTEGERS)
NUMBERS = Table(NUMBERS_TYPE, [
    LEAST + LEAST, GREATEST + GREATEST, LEAST + NULLS, GREATEST + NULLS, [0] * 16, [1] * 8 + [2] * 8, [2] * 8 + [1] * 8,
    [127] * 8 + [100] * 8, [100] * 8 + NULLS, LEAST + GREATEST, GREATEST + LEAST,
])

# the same with small numbers, whose sums stay in each type
SMALL = Table(NUMBERS_TYPE, [[5] * 8 + [3] * 8, [9] * 8 + NULLS, [7] * 8 + [1] * 8, [2] * 8 + [2] * 8, [60] * 8 + [50] * 8])

# names that are no words, or words of SQL
NAMES = Table(
    "{\"a b\": i32, \"select\": i32?, \"order\": utf8, \"true\": bool, \"null\": i32, \"it's\": i32, \"a\"\"b\": i32, \"größe\": i32, "
    "\"x`y\": i32, \"and\": {\"group by\": i32, \"limit\": utf8?}, \"1st\": i32, _under: i32, \"in\": bool, \"lit\": i32, \"p]q\": i32, \"p[q\": i32}",
    [
        [1, 2, "a", True, 3, 4, 5, 6, 7, {"group by": 8, "limit": "x"}, 9, 10, False, 11, 12, 13],
        [2, None, "b", False, 0, 5, 1, 2, 3, {"group by": 1, "limit": None}, 1, 2, True, 3, 4, 5],
        [-1, 1, "", True, -3, -4, -5, -6, -7, {"group by": -8, "limit": ""}, -9, -10, True, 1, 2, 3],
    ],
)

# names that differ by case alone, which SQLite holds for one
CASES = Table("{price: i32, Price: i64, PRICE: utf8}")

# a column of a name that is empty, and one that isn't plain
EMPTY_NAME = Table("{\"\": i32, pair: {left: i32, right: utf8}, many: list(i32)?}")
