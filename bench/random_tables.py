"""Random tables, as JSON for the program and as tables of SQLite that are typed by CHECKs.

SQLite has no structs, lists and booleans: a struct is a column that is 1 where the struct isn't null and a column for each field, a list is a text of JSON,
a boolean is 1 or 0. Its numbers have 64 bits and a sign, so no greater one stands in a table. No two names of a table differ by case alone, which SQLite
holds for one, and no text ends in a backslash, which stands for itself at the end of a pattern here and matches nothing there.
"""
import json

INTEGERS = {"%s%d" % (sign, bits): (-(2 ** (bits - 1)) * (sign == "i"), 2 ** (bits - (sign == "i")) - 1) for bits in (8, 16, 32, 64) for sign in "ui"}
# the greatest number that SQLite has
GREATEST = 2**63 - 1
NAMES = ["id", "price", "cost", "name", "nick", "city", "kind", "sold", "flag", "x", "y2", "_low", "Mixed"]
NAMES += ["a b", "select", "größe", "it's", "1st", "q\"t", "limit"]
FIELDS = ["zip", "town", "near", "group by", "low"]
TEXTS = ["", "a", "b", "ab", "abc", "B", "Ab", "a%", "a_c", "%", "_", "it's", "é", "äb", "日本", "Oslo", "Rome", "oslo", "a\\%b", "x\ny", "\"q\"", "zz"]


def quoted(name):
    return "\"%s\"" % name.replace("\"", "\"\"")


class Plain:
    """A boolean, an integer or a text."""

    def __init__(self, type_name, nullable):
        self.type, self.nullable = type_name, nullable

    def told(self):
        return self.type + "?" * self.nullable

    def value(self, random, place):
        """A value, in some part by its place from 0 to 1 among the rows."""
        if self.nullable and random.random() < 0.2:
            return None
        if self.type == "bool":
            return random.random() < 0.5
        if self.type == "utf8":
            return random.choice(TEXTS)
        least, greatest = INTEGERS[self.type]
        greatest = min(greatest, GREATEST)
        kind = random.random()
        if kind < 0.05:
            return random.choice([least, greatest])
        if kind < 0.1:
            return random.randint(least, greatest)
        if kind < 0.5:
            return int(place * 40) + random.randint(0, 3)
        return random.randint(max(least, -3), 9)

    def cells(self, value):
        """What SQLite stores of a value."""
        return [int(value) if isinstance(value, bool) else value]

    def taken(self, cells):
        """The value that was stored so."""
        return bool(cells[0]) if self.type == "bool" and cells[0] is not None else cells[0]

    def columns(self, name):
        return [name]

    def declared(self, name, nullable=False):
        """The column of SQLite, with its CHECK."""
        column = quoted(name)
        if self.type == "utf8":
            check = "typeof(%s) = 'text'" % column
        else:
            least, greatest = (0, 1) if self.type == "bool" else INTEGERS[self.type]
            check = "typeof(%s) = 'integer' AND %s BETWEEN %d AND %d" % (column, column, least, min(greatest, GREATEST))
        if self.nullable or nullable:
            check = "%s IS NULL OR (%s)" % (column, check)
        return ["%s %s CHECK (%s)" % (column, "TEXT" if self.type == "utf8" else "INTEGER", check)]


class Struct:
    """Plain fields with names."""

    def __init__(self, fields, nullable):
        self.fields, self.nullable = fields, nullable

    def told(self):
        return {"struct": [{"name": name, "type": dtype.told()} for name, dtype in self.fields], "nullable": self.nullable}

    def value(self, random, place):
        if self.nullable and random.random() < 0.2:
            return None
        return {name: dtype.value(random, place) for name, dtype in self.fields}

    def cells(self, value):
        whole = [None if value is None else 1]
        return whole + [cell for name, dtype in self.fields for cell in dtype.cells(None if value is None else value[name])]

    def taken(self, cells):
        if cells[0] is None:
            return None
        return {name: dtype.taken([cell]) for (name, dtype), cell in zip(self.fields, cells[1:])}

    def columns(self, name):
        return [name] + ["%s/%s" % (name, field) for field, _ in self.fields]

    def declared(self, name):
        column = quoted(name)
        whole = "%s INTEGER CHECK (%s)" % (column, "%s IS NULL OR %s = 1" % (column, column) if self.nullable else "%s IS 1" % column)
        return [whole] + [text for field, dtype in self.fields for text in dtype.declared("%s/%s" % (name, field), self.nullable)]


class Listed:
    """A list of small numbers."""

    def __init__(self, nullable):
        self.nullable = nullable

    def told(self):
        return {"list": "u8", "nullable": self.nullable}

    def value(self, random, place):
        if self.nullable and random.random() < 0.2:
            return None
        return [random.randint(0, 9) for _ in range(random.randint(0, 3))]

    def cells(self, value):
        return [None if value is None else json.dumps(value)]

    def taken(self, cells):
        return None if cells[0] is None else json.loads(cells[0])

    def columns(self, name):
        return [name]

    def declared(self, name):
        column = quoted(name)
        return ["%s TEXT CHECK (%s)" % (column, "%s IS NULL OR json_valid(%s)" % (column, column) if self.nullable else "json_valid(%s) IS 1" % column)]


def random_type(random):
    kind = random.random()
    nullable = random.random() < 0.5
    if kind < 0.6:
        return Plain(random.choice(list(INTEGERS)), nullable)
    if kind < 0.75:
        return Plain("utf8", nullable)
    if kind < 0.85:
        return Plain("bool", nullable)
    if kind < 0.9:
        return Listed(nullable)
    types = list(INTEGERS) + ["bool", "utf8"] * 2
    fields = random.sample(FIELDS, random.randint(1, 3))
    return Struct([(name, Plain(random.choice(types), random.random() < 0.5)) for name in fields], nullable)


class Table:
    """Columns, and rows in blocks of some lengths."""

    def __init__(self, random):
        self.columns = [(name, random_type(random)) for name in random.sample(NAMES, random.randint(1, 7))]
        self.lengths = [random.choice([0, 1, 2, 5, 8, random.randint(3, 30)]) for _ in range(random.randint(0, 6))]
        count = sum(self.lengths)
        self.rows = [[dtype.value(random, row / count) for _, dtype in self.columns] for row in range(count)]

    def json(self):
        """The table alone as a text that the program reads."""
        blocks, start = [], 0
        for length in self.lengths:
            rows = self.rows[start : start + length]
            blocks.append({"rows": length, "values": [[row[column] for row in rows] for column in range(len(self.columns))]})
            start += length
        return json.dumps({"columns": [{"name": name, "type": dtype.told()} for name, dtype in self.columns], "blocks": blocks})

    def cut(self, length):
        """The table in blocks of one length, of which the last has what is left."""
        count = len(self.rows)
        self.lengths = [min(length, count - start) for start in range(0, count, length)]

    def keep_in(self, base):
        """Makes the table `t` of a database."""
        base.execute("CREATE TABLE \"t\" (%s)" % ", ".join(text for name, dtype in self.columns for text in dtype.declared(name)))
        for row in self.rows:
            cells = [cell for (_, dtype), value in zip(self.columns, row) for cell in dtype.cells(value)]
            base.execute("INSERT INTO \"t\" VALUES (%s)" % ", ".join("?" for _ in cells), cells)
