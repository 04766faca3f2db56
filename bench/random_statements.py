"""Random statements over a table: each as the program is asked it, and as SQLite is, whose words are others in some places.

The two have the same tokens but for these, so that the brackets that are left out are left to both grammars: a name is quoted for SQLite, and a field is a
column of it; LIKE has `ESCAPE '\\'`; a type of CAST is INTEGER or TEXT; the table is its blocks that are asked, and rows are ordered by their numbers, behind
the key, which is one of the table and whose nulls stand last. Types are followed as docs/SQL.md says, so that each number is one of the type that it takes,
and the two sides of each form are of types that have one in common.
"""
from random_tables import GREATEST, INTEGERS, TEXTS, Listed, Plain, Struct, quoted

BY_WIDTH = ["u8", "i8", "u16", "i16", "u32", "i32", "u64", "i64"]
WORDS = {"id", "price", "cost", "name", "nick", "city", "kind", "sold", "flag", "x", "y2", "_low", "Mixed", "zip", "town", "near", "low"}
PATTERNS = ["%", "a%", "%b", "_", "__", "a_", "%a%", "a\\%%", "\\_%", "%\\\\%", "O%o", "%l_", "é", "_b", "", "%%", "日_"]
# how tightly the operators bind, as in SQLite
OR, AND, NOT, EQUAL, ORDER, SUM, WHOLE = range(1, 8)
MOST = 2**64 - 1
# how a block file is named, by its name or by its path
FILES = ["%s", "'%s.vxb'", "'./%s.vxb'", "[%s]", "`%s`"]


def holds(outer, inner):
    return INTEGERS[outer][0] <= INTEGERS[inner][0] and INTEGERS[inner][1] <= INTEGERS[outer][1]


def common(types):
    """The narrowest type that has the numbers of all, or None."""
    return next((outer for outer in BY_WIDTH if all(holds(outer, inner) for inner in types)), None)


class Expression:
    """An expression in both words. Its type is None where it is NULL, and `number` where it is a number that takes its type. `parts` are the sums and casts
    in it that may leave their types, in SQLite's words, with the least and the greatest number of the type."""

    def __init__(self, ours, theirs, level, dtype, parts=()):
        self.ours, self.theirs, self.level, self.type, self.parts = ours, theirs, level, dtype, list(parts)


def joined(level, dtype, *pieces):
    """The expression of these pieces: expressions, and words as they stand or as a pair of ours and theirs."""
    ours = theirs = ""
    parts = []
    for piece in pieces:
        if isinstance(piece, Expression):
            ours, theirs, parts = ours + piece.ours, theirs + piece.theirs, parts + piece.parts
        else:
            our, their = (piece, piece) if isinstance(piece, str) else piece
            ours, theirs = ours + our, theirs + their
    return Expression(ours, theirs, level, dtype, parts)


class Statement:
    """A statement in both words; `shown` are the names that its rows have, each with its type and the number of SQLite's columns that it is made of; `source`
    is the table in SQLite's words; `words` are the options behind the statement."""

    def __init__(self, ours, theirs, shown, source, parts, words, of_input):
        self.ours, self.theirs, self.shown, self.source, self.parts, self.words, self.of_input = ours, theirs, shown, source, parts, words, of_input

    def row(self, cells):
        """The row of SQLite's cells."""
        values, start = {}, 0
        for name, dtype, count in self.shown:
            values[name] = dtype.taken(cells[start : start + count])
            start += count
        return values


class Writer:
    """Writes statements over a table, which is kept as a block file of a name."""

    def __init__(self, random, table, name="items"):
        self.random, self.table, self.file = random, table, name
        self.leaves = []
        for name, dtype in table.columns:
            if isinstance(dtype, Struct):
                self.leaves += [(self.field(name, field), "%s/%s" % (name, field), of.type) for field, of in dtype.fields]
            elif isinstance(dtype, Plain):
                self.leaves.append((None, name, dtype.type))

    # ---- words

    def chance(self, share):
        return self.random.random() < share

    def gap(self):
        return " " if self.chance(0.93) else self.random.choice(["  ", "\n", "\t ", " /* , ( */ ", " -- '\n"])

    def keywords(self, text):
        """Words of SQL, in any case, with gaps between."""
        change = self.random.choice([str.upper] * 6 + [str.lower] * 3 + [str.title])
        return self.gap().join(change(word) for word in text.split(" "))

    def around(self, text):
        """Words of SQL with gaps around them."""
        return self.gap() + self.keywords(text) + self.gap()

    def name(self, name):
        written = [quoted(name), "`%s`" % name.replace("`", "``")] + ["[%s]" % name] * ("]" not in name)
        return name if name in WORDS and self.chance(0.8) else self.random.choice(written)

    def field(self, name, field):
        return name, field

    def text(self, value):
        return "'%s'" % value.replace("'", "''")

    # ---- leaves

    def column(self, types):
        """A column or a field of one of these types, or None."""
        found = [leaf for leaf in self.leaves if leaf[2] in types]
        if not found:
            return None
        of_field, name, dtype = self.random.choice(found)
        ours = self.name(name) if of_field is None else "%s.%s" % (self.name(of_field[0]), self.name(of_field[1]))
        return Expression(ours, quoted(name), WHOLE, dtype)

    def number(self, of="i64"):
        """A number of a type."""
        least, greatest = INTEGERS[of]
        kind = self.random.random()
        if kind < 0.7:
            value = self.random.randint(max(least, -5), 45)
        elif kind < 0.9:
            value = self.random.randint(0, 9)
        else:
            value = self.random.choice([least, min(greatest, GREATEST), self.random.randint(least, min(greatest, GREATEST))])
        ours = "+%d" % value if value >= 0 and self.chance(0.05) else str(value)
        return Expression(ours, ours, WHOLE, "number")

    def null(self):
        word = self.keywords("NULL")
        return Expression(word, word, WHOLE, None)

    def literal_text(self):
        written = self.text(self.random.choice(TEXTS))
        return Expression(written, written, WHOLE, "utf8")

    # ---- forms

    def within(self, expression, least):
        """The expression, in brackets where it binds less tightly, and sometimes where it doesn't."""
        if expression.level >= least and not self.chance(0.1):
            return expression
        return joined(WHOLE, expression.type, "(" + self.gap() * self.chance(0.1), expression, ")")

    def cast(self, inner, dtype, theirs):
        nullable = self.chance(0.2)
        written = quoted(dtype + "?") if nullable else dtype if self.chance(0.8) else quoted(dtype)
        whole = joined(WHOLE, dtype, self.keywords("CAST"), "(", inner, self.around("AS"), (written, theirs), ")")
        if dtype in INTEGERS and inner.type in INTEGERS:
            whole.parts.append((inner.theirs,) + INTEGERS[dtype])
        return whole

    def other_integer(self, depth, dtype):
        """What may stand across from an expression of an integer type."""
        kind = self.random.random()
        if kind < 0.5 or depth == 0:
            return self.number(dtype)
        if kind < 0.55:
            return self.null()
        other = self.integer(depth - 1)
        return other if common([dtype, other.type]) else self.number(dtype)

    def types_of(self, expressions):
        """The type that these have in common, where the numbers take that of the first that has one."""
        types = [expression.type for expression in expressions if expression.type in INTEGERS]
        return common(types) if types else "i64"

    def sum(self, depth):
        first = self.number() if self.chance(0.05) else self.integer(depth - 1)
        other = self.number() if first.type == "number" else self.other_integer(depth - 1, first.type)
        if self.chance(0.3):
            first, other = other, first
        dtype = self.types_of([first, other])
        sign = self.random.choice("+-")
        whole = joined(SUM, dtype, self.within(first, SUM), self.gap() + sign + self.gap(), self.within(other, WHOLE))
        whole.parts.append((whole.theirs,) + INTEGERS[dtype])
        return whole

    def integer(self, depth):
        """An expression of an integer type."""
        kind = self.random.random()
        if depth > 0 and kind < 0.3:
            return self.sum(depth)
        dtype = self.random.choice(BY_WIDTH)
        if depth > 0 and kind < 0.45:
            inner = self.number(dtype) if self.chance(0.1) else self.integer(depth - 1)
            return self.cast(inner, dtype, "INTEGER")
        return self.column(INTEGERS) or self.cast(self.number(dtype), dtype, "INTEGER")

    def utf8(self, depth):
        """An expression of type utf8."""
        if depth > 0 and self.chance(0.05):
            return self.cast(self.utf8(depth - 1), "utf8", "TEXT")
        if self.chance(0.25):
            return self.literal_text()
        return self.column(["utf8"]) or self.literal_text()

    def operands(self, depth, count):
        """Some expressions that are compared with one another."""
        kind = self.random.random()
        if kind < 0.6:
            first = self.integer(depth)
            found = [first] + [self.other_integer(depth, first.type) for _ in range(count - 1)]
            if not self.types_of(found):
                found = [first] + [self.number(first.type) for _ in range(count - 1)]
        elif kind < 0.85:
            found = [self.utf8(depth)] + [self.null() if self.chance(0.05) else self.utf8(depth) for _ in range(count - 1)]
        else:
            found = [self.truth(depth)] + [self.null() if self.chance(0.05) else self.truth(depth) for _ in range(count - 1)]
        return found

    def swapped(self, found):
        """The same in another order, where each number is still of the type that it takes."""
        moved = self.random.sample(found, len(found))
        first = [it.type for it in found if it.type in INTEGERS][:1]
        return moved if [it.type for it in moved if it.type in INTEGERS][:1] == first else found

    def comparison(self, depth):
        first, other = self.swapped(self.operands(depth, 2))
        if self.chance(0.5):
            level, sign = ORDER, self.random.choice(["<", "<=", ">", ">="])
        else:
            level, sign = EQUAL, self.random.choice(["=", "==", "<>", "!="])
        if self.chance(0.7):
            sign = self.gap() + sign + self.gap()
        return joined(level, "bool", self.within(first, level), sign, self.within(other, level + 1))

    def between(self, depth):
        found = [self.within(expression, ORDER) for expression in self.swapped(self.operands(depth, 3))]
        words = self.random.choice(["BETWEEN", "BETWEEN", "NOT BETWEEN"])
        return joined(EQUAL, "bool", found[0], self.around(words), found[1], self.around("AND"), found[2])

    def membership(self, depth):
        kind = self.random.random()
        if kind < 0.6:
            value = self.integer(depth) if self.chance(0.95) else self.random.choice([self.number(), self.null()])
            of = value.type if value.type in INTEGERS else "i64"
            constants = [self.number(of) for _ in range(self.random.randint(1, 5))]
        elif kind < 0.9:
            value, constants = self.utf8(depth), [self.literal_text() for _ in range(self.random.randint(1, 4))]
        else:
            value, constants = self.truth(depth), [self.constant_truth() for _ in range(self.random.randint(1, 2))]
        if self.chance(0.15):
            constants.insert(self.random.randint(0, len(constants)), self.null())
        pieces = [piece for constant in constants for piece in (constant, "," + self.gap())][:-1]
        return joined(EQUAL, "bool", self.within(value, EQUAL), self.around(self.random.choice(["IN", "IN", "NOT IN"])), "(", *pieces, ")")

    def like(self, depth):
        value = self.null() if self.chance(0.02) else self.utf8(depth)
        if self.chance(0.75):
            written = self.text(self.random.choice(PATTERNS))
            pattern = Expression(written, written, WHOLE, "utf8")
        else:
            pattern = self.utf8(depth)
        words = self.random.choice(["LIKE", "LIKE", "NOT LIKE"])
        return joined(EQUAL, "bool", self.within(value, EQUAL), self.around(words), self.within(pattern, ORDER), ("", " ESCAPE '\\'"))

    def whole_column(self):
        """A struct or a list as it is, or None."""
        found = [name for name, dtype in self.table.columns if isinstance(dtype, (Struct, Listed))]
        if not found:
            return None
        name = self.random.choice(found)
        return Expression(self.name(name), quoted(name), WHOLE, "whole")

    def null_test(self, depth):
        kind = self.random.random()
        if kind < 0.5:
            value = self.integer(depth)
        elif kind < 0.7:
            value = self.utf8(depth)
        elif kind < 0.85:
            value = self.truth(depth)
        else:
            value = self.whole_column() or self.random.choice([self.null(), self.number()])
        words = self.random.choice(["IS NULL", "ISNULL", "IS NOT NULL", "NOTNULL", "NOT NULL"])
        return joined(EQUAL, "bool", self.within(value, EQUAL), self.gap() + self.keywords(words))

    def constant_truth(self):
        word = self.keywords(self.random.choice(["TRUE", "FALSE"]))
        return Expression(word, word, WHOLE, "bool")

    def logic(self, depth):
        kind = self.random.random()
        if kind < 0.2:
            return joined(NOT, "bool", self.keywords("NOT") + self.gap(), self.within(self.truth(depth - 1), NOT))
        level, word = (AND, "AND") if kind < 0.6 else (OR, "OR")
        first, other = [self.null() if self.chance(0.03) else self.truth(depth - 1) for _ in range(2)]
        return joined(level, "bool", self.within(first, level), self.around(word), self.within(other, level + 1))

    def truth(self, depth):
        """An expression of type bool."""
        if depth <= 0:
            return (self.chance(0.7) and self.column(["bool"])) or self.constant_truth()
        if self.chance(0.4):
            return self.logic(depth)
        if self.chance(0.08):
            return self.column(["bool"]) or self.constant_truth()
        if self.chance(0.04):
            return self.cast(self.truth(depth - 1), "bool", "INTEGER")
        form = self.random.choice([self.comparison] * 4 + [self.between, self.membership, self.like, self.null_test])
        return form(depth - 1)

    # ---- clauses

    def star(self):
        columns = [(name, dtype, len(dtype.columns(name))) for name, dtype in self.table.columns]
        theirs = ", ".join(quoted(column) for name, dtype in self.table.columns for column in dtype.columns(name))
        return joined(WHOLE, None, ("*", theirs)), columns

    def named(self):
        """An expression with a name, whether the name may be left out and is the column's."""
        kind = self.random.random()
        if kind < 0.5:
            name, dtype = self.random.choice(self.table.columns)
            theirs = ", ".join(quoted(column) for column in dtype.columns(name))
            return Expression(self.name(name), theirs, WHOLE, None), name, dtype, len(dtype.columns(name))
        found = self.random.choice([self.integer, self.integer, self.utf8, self.truth])(2) if kind < 0.95 else self.random.choice([self.number, self.null])()
        return found, None, Plain("bool" if found.type == "bool" else "i64", True), 1

    def item(self, taken):
        """An item of SELECT whose name isn't taken, with the columns that it shows, or None."""
        value, own, dtype, count = self.named()
        name, written = own, ""
        if own is None or self.chance(0.2):
            name = self.random.choice(list(WORDS) + ["total", "more", "an other", "größer"])
            word = name if name in WORDS else quoted(name)
            written = self.gap() + (self.keywords("AS") + self.gap()) * self.chance(0.8) + word
        if name in taken:
            return None
        return joined(WHOLE, None, value, (written, "")), [(name, dtype, count)]

    def selected(self):
        """What stands behind SELECT, and what its rows show."""
        if self.chance(0.25):
            return self.star()
        found = [self.star()] * self.chance(0.1)
        for _ in range(self.random.randint(1, 4)):
            item = self.item({name for _, columns in found for name, _, _ in columns})
            if item:
                found.append(item)
        if not found:
            return self.star()
        pieces = [piece for item, _ in found for piece in (item, "," + self.gap())][:-1]
        return joined(WHOLE, None, *pieces), [column for _, columns in found for column in columns]

    def source(self, blocks):
        """The table, in both words: of SQLite's a row has its number, which orders the rows."""
        if blocks is None:
            rows = ""
        else:
            ends = [sum(self.table.lengths[:block]) for block in blocks]
            rows = " WHERE rowid > %d AND rowid <= %d" % tuple(ends)
        return "(SELECT rowid AS \"/\", * FROM \"t\"%s) AS \"t\"" % rows

    def order(self):
        """ORDER BY with its LIMIT, LIMIT alone, or neither."""
        keys = [name for name, dtype in self.table.columns if isinstance(dtype, Plain)]
        plain = " ORDER BY \"/\""
        limit = self.random.choice([0, 1, 2, 3, 5, 10, 1000])
        if keys and self.chance(0.4):
            key = self.random.choice(keys)
            way = self.random.choice(["", " ASC", " DESC"])
            last = " NULLS LAST" * self.chance(0.1)
            ours = self.around("ORDER BY") + self.name(key) + self.keywords(way) + self.keywords(last) + self.around("LIMIT") + str(limit)
            return ours, " ORDER BY \"t\".%s%s NULLS LAST, \"/\" LIMIT %d" % (quoted(key), way, limit)
        if self.chance(0.3):
            limit = MOST if self.chance(0.05) else limit
            return self.around("LIMIT") + str(limit), plain + " LIMIT %d" % min(limit, GREATEST)
        return "", plain

    def statement(self):
        shown, columns = self.selected()
        count = len(self.table.lengths)
        blocks = sorted(self.random.choices(range(count + 1), k=2)) if self.chance(0.15) else None
        source, of_input = self.source(blocks), self.chance(0.1)
        name = self.random.choice(["stdin", "\"stdin\""] if of_input else [form % self.file for form in FILES])
        pieces = [self.keywords("SELECT") + self.gap(), shown, self.around("FROM"), (name, source)]
        if self.chance(0.85):
            pieces += [self.around("WHERE"), self.null() if self.chance(0.01) else self.truth(self.random.randint(0, 4))]
        pieces.append(self.order())
        pieces.append((self.random.choice([""] * 8 + [";", " ; ", " -- all"]), ""))
        whole = joined(WHOLE, None, *pieces)
        words = [] if blocks is None else ["--blocks", "%d..%d" % tuple(blocks)]
        return Statement(whole.ours, whole.theirs, columns, source, whole.parts, words, of_input)
