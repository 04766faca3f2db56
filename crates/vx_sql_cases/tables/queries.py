"""Types and expressions as queries write them (docs/FORMATS.md, "Queries as texts"): reading them, their strict types, and their values at a row.

A type is a tuple: ("bool", nullable), ("utf8", nullable), ("i32", nullable), ("list", element, nullable) or ("struct", fields, nullable), where
fields are pairs of a name and a type. An expression is a tuple whose first part is its kind. A value is None, a truth, a number, a text, a list,
or a dictionary for a struct.
"""
import re

INTEGERS = {name: (least, greatest) for width in (8, 16, 32, 64) for name, least, greatest in [
    ("u%d" % width, 0, 2 ** width - 1), ("i%d" % width, -2 ** (width - 1), 2 ** (width - 1) - 1)]}
COMPARISONS = ("=", "!=", ">", ">=", "<", "<=")
CALLS = ("is_null", "cast", "contains", "like", "between", "pack")
TOKEN = re.compile(
    r"\s*(?:(?P<word>[A-Za-z_][A-Za-z0-9_]*)|\"(?P<name>(?:[^\"]|\"\")*)\"|'(?P<text>(?:[^']|'')*)'"
    r"|(?P<number>0|[1-9][0-9]*)(?P<of>[ui](?:8|16|32|64))?(?![A-Za-z0-9_])|(?P<mark>!=|>=|<=|[][(){},:.$?~+=<>-]))")


class NotTyped(Exception):
    """The query has no strict type."""


class Breaks(Exception):
    """A number leaves its type."""


def tokens_of(text):
    """The tokens of a query, each a pair of a kind and what it says; a number says its digits and its type's name."""
    tokens, at = [], 0
    while text[at:].strip():
        found = TOKEN.match(text, at)
        if not found:
            raise ValueError("no token at %d of %s" % (at, text))
        kind = found.lastgroup if found.lastgroup != "of" else "number"
        said = found.group(kind)
        if kind in ("name", "text"):
            quote = "\"" if kind == "name" else "'"
            said = said.replace(quote * 2, quote)
        tokens.append((kind, (int(said), found.group("of")) if kind == "number" else said))
        at = found.end()
    return tokens


class Reader:
    """Reads a query from its tokens, by one method for each rule of the grammar."""

    def __init__(self, text):
        self.tokens = tokens_of(text)
        self.at = 0

    def sees(self, said, kinds=("mark", "word")):
        return self.at < len(self.tokens) and self.tokens[self.at] in [(kind, said) for kind in kinds]

    def eats(self, said):
        found = self.sees(said)
        self.at += found
        return found

    def expect(self, said):
        if not self.eats(said):
            raise ValueError("%s is wanted at token %d of %s" % (said, self.at, self.tokens))

    def takes(self):
        self.at += 1
        return self.tokens[self.at - 1]

    def listed(self, part, closing):
        """Parts with commas between, up to the closing mark."""
        found = []
        if self.eats(closing):
            return found
        while True:
            found.append(part())
            if self.eats(closing):
                return found
            self.expect(",")

    def whole(self, part):
        found = part()
        if self.at < len(self.tokens):
            raise ValueError("something is left at token %d of %s" % (self.at, self.tokens))
        return found

    def name(self):
        kind, said = self.takes()
        if kind not in ("word", "name"):
            raise ValueError("%s is no name" % (said,))
        return said

    def dtype(self):
        kind, said = self.takes()
        if said == "list":
            self.expect("(")
            parts = (self.dtype(),)
            self.expect(")")
        elif said == "{":
            said, parts = "struct", (tuple(self.listed(self.field, "}")),)
        else:
            parts = ()
            if kind != "word" or said not in ("bool", "utf8", *INTEGERS):
                raise ValueError("%s is no type" % (said,))
        return (said, *parts, self.eats("?"))

    def field(self):
        name = self.name()
        self.expect(":")
        return (name, self.dtype())

    def chain(self, words, part):
        found = part()
        while any(self.sees(word) for word in words):
            found = ("binary", self.takes()[1], found, part())
        return found

    def either(self):
        return self.chain(["or"], self.both)

    def both(self):
        return self.chain(["and"], self.negation)

    def negation(self):
        return ("not", self.negation()) if self.eats("not") else self.compared()

    def compared(self):
        found = self.sum()
        return ("binary", self.takes()[1], found, self.sum()) if any(self.sees(sign) for sign in COMPARISONS) else found

    def sum(self):
        return self.chain(["+", "-"], self.followed)

    def followed(self):
        found = self.atom()
        while self.eats("."):
            found = ("item", self.name(), found)
        return found

    def atom(self):
        kind, said = self.takes()
        if kind == "text":
            return ("literal", ("utf8", False), said)
        if kind == "number":
            return ("literal", (said[1] or "i64", False), said[0])
        if (kind, said) == ("mark", "-"):
            number, of = self.takes()[1]
            return ("literal", (of or "i64", False), -number)
        if (kind, said) == ("mark", "("):
            found = self.either()
            self.expect(")")
            return found
        if kind == "word" and said in ("true", "false"):
            return ("literal", ("bool", False), said == "true")
        if (kind, said) == ("mark", "$"):
            return ("root",)
        return self.call(said) if kind == "word" and said in ("lit", *CALLS) else ("item", said, ("root",))

    def call(self, word):
        self.expect("(")
        if word == "pack":
            fields = self.listed(self.packed, ")")
            return ("pack", tuple(name for name, _ in fields), tuple(value for _, value in fields))
        if word == "lit":
            found = ("literal", self.dtype(), (self.expect(","), self.item())[1])
        elif word == "cast":
            value = self.either()
            self.expect(",")
            found = ("cast", value, self.dtype())
        else:
            return (word, *self.listed(self.either, ")"))
        self.expect(")")
        return found

    def packed(self):
        name = self.name()
        self.expect(":")
        return (name, self.either())

    def item(self):
        kind, said = self.takes()
        if said == "[":
            return self.listed(self.item, "]")
        if said == "-":
            return -self.takes()[1][0]
        if kind == "word":
            return {"null": None, "true": True, "false": False}[said]
        return said[0] if kind == "number" else said


def read_type(text):
    reader = Reader(text)
    return reader.whole(reader.dtype)


def read_query(text):
    reader = Reader(text)
    return reader.whole(reader.either)


def demand(holds, what):
    if not holds:
        raise NotTyped(what)


def fits(value, dtype):
    """Whether a constant is a value of a type."""
    kind = dtype[0]
    if value is None:
        return dtype[-1]
    if kind == "list":
        return isinstance(value, list) and all(fits(part, dtype[1]) for part in value)
    if kind in INTEGERS:
        return type(value) is int and INTEGERS[kind][0] <= value <= INTEGERS[kind][1]
    return isinstance(value, {"bool": bool, "utf8": str}.get(kind, ()))


def alike(first, second):
    """Whether two plain types are one but for nullability."""
    return first[0] == second[0] and first[0] not in ("list", "struct")


def type_of(expr, scope):
    """The strict type of an expression over a row type."""
    kind = expr[0]
    if kind == "root":
        return scope
    if kind == "literal":
        demand(fits(expr[2], expr[1]), "%s is no %s" % (expr[2], expr[1]))
        return expr[1]
    if kind == "item":
        return field_type(expr[1], type_of(expr[2], scope))
    if kind == "pack":
        demand(len(set(expr[1])) == len(expr[1]), "a name stands twice")
        return ("struct", tuple(zip(expr[1], (type_of(part, scope) for part in expr[2]))), False)
    if kind == "binary":
        return operation_type(expr[1], type_of(expr[2], scope), type_of(expr[3], scope))
    if kind == "cast":
        return cast_type(type_of(expr[1], scope), expr[2])
    return call_type(kind, *[type_of(part, scope) for part in expr[1:]])


def field_type(name, dtype):
    demand(dtype[0] == "struct", "%s has no field %s" % (dtype, name))
    fields = dict(dtype[1])
    demand(name in fields, "no field %s" % name)
    return (*fields[name][:-1], fields[name][-1] or dtype[-1])


def operation_type(sign, left, right):
    nullable = left[-1] or right[-1]
    demand(alike(left, right), "%s %s %s" % (left, sign, right))
    if sign in ("and", "or"):
        demand(left[0] == "bool", "%s %s" % (left, sign))
    if sign in ("+", "-"):
        demand(left[0] in INTEGERS, "%s %s" % (left, sign))
        return (left[0], nullable)
    return ("bool", nullable)


def cast_type(given, target):
    demand(alike(given, target) or (given[0] in INTEGERS and target[0] in INTEGERS), "%s to %s" % (given, target))
    return target


def call_type(kind, *types):
    nullable = any(dtype[-1] for dtype in types)
    if kind == "is_null":
        return ("bool", False)
    if kind == "not":
        demand(types[0][0] == "bool", "not %s" % (types[0],))
    elif kind == "like":
        demand(types[0][0] == types[1][0] == "utf8", "like %s" % (types,))
    elif kind == "contains":
        demand(types[0][0] == "list" and alike(types[0][1], types[1]), "contains %s" % (types,))
    else:
        demand(alike(types[0], types[1]) and alike(types[0], types[2]), "%s %s" % (kind, types))
    return ("bool", nullable)


def value_at(expr, row, scope):
    """The value of an expression at a row of a type."""
    kind = expr[0]
    if kind == "root":
        return row
    if kind == "literal":
        return expr[2]
    if kind == "item":
        whole = value_at(expr[2], row, scope)
        return None if whole is None else whole[expr[1]]
    if kind == "pack":
        return dict(zip(expr[1], (value_at(part, row, scope) for part in expr[2])))
    if kind == "cast":
        return held(value_at(expr[1], row, scope), expr[2])
    if kind == "binary":
        return operated(expr, value_at(expr[2], row, scope), value_at(expr[3], row, scope), scope)
    return called(kind, *[value_at(part, row, scope) for part in expr[1:]])


def held(value, dtype):
    if not fits(value, dtype):
        raise Breaks("%s is no %s" % (value, dtype))
    return value


def operated(expr, left, right, scope):
    sign = expr[1]
    if sign in ("and", "or"):
        return kleene(sign == "or", left, right)
    if left is None or right is None:
        return None
    if sign in ("+", "-"):
        return held(left + right if sign == "+" else left - right, type_of(expr, scope))
    return compared(sign, left, right)


def kleene(strong, left, right):
    """`or` with a strong side of true, `and` with a strong side of false: a strong side decides, else null stays."""
    if strong in (left, right):
        return strong
    return None if None in (left, right) else not strong


def compared(sign, left, right):
    if isinstance(left, str):
        left, right = left.encode(), right.encode()
    return {"=": left == right, "!=": left != right, "<": left < right, "<=": left <= right, ">": left > right, ">=": left >= right}[sign]


def called(kind, *values):
    if kind == "is_null":
        return values[0] is None
    if kind == "between":
        lower, upper = (None if None in (values[0], bound) else compared(sign, values[0], bound) for sign, bound in [(">=", values[1]), ("<=", values[2])])
        return kleene(False, lower, upper)
    if None in values:
        return None
    if kind == "not":
        return not values[0]
    return matches(*values) if kind == "like" else values[1] in values[0]


def matches(text, pattern):
    """Whether a text matches a pattern of LIKE."""
    parts = re.findall(r"\\.|.", pattern, re.DOTALL)
    signs = {"%": ".*", "_": "."}
    return re.fullmatch("".join(signs.get(part, re.escape(part[-1])) for part in parts), text, re.DOTALL) is not None
