"""What a statement names, or how it is refused, read once more by rules that are written after docs/SQL.md.

The rows are worked out by hand; this reader works them out too, so that a slip in one of the two shows. It reads statements that the grammar of
SQL takes, one to a text, and knows no limit of depth.
"""
import re

import queries
from queries import INTEGERS

BLANKS = re.compile(r"(?:\s|--[^\n]*|/\*.*?\*/)*", re.DOTALL)
TOKEN = re.compile(
    r"(?:(?P<blob>[xX]'[^']*')|(?P<word>[^\W\d]\w*)|\"(?P<name>(?:[^\"]|\"\")*)\"|`(?P<tick>(?:[^`]|``)*)`|\[(?P<bracket>[^]]*)\]"
    r"|'(?P<text>(?:[^']|'')*)'|(?P<number>0[xX][0-9a-fA-F]+|(?:\d+\.?\d*|\.\d+)(?:[eE][+-]?\d+)?)|(?P<parameter>[?:@$]\w*)"
    r"|(?P<mark><<|>>|<=|>=|<>|!=|==|\|\||[-+*/%&|~<>=(),.;]))", re.DOTALL)
QUOTES = {"name": "\"", "tick": "`", "text": "'"}
LEVELS = [["OR"], ["AND"], None, None, ["<", "<=", ">", ">="], ["&", "|", "<<", ">>"], ["+", "-"], ["*", "/", "%"], ["||"]]
SIGNS = {"=": "=", "==": "=", "<>": "!=", "!=": "!=", "<": "<", "<=": "<=", ">": ">", ">=": ">="}
CLOCK = ("CURRENT_DATE", "CURRENT_TIME", "CURRENT_TIMESTAMP")
BY_WIDTH = ["u8", "i8", "u16", "i16", "u32", "i32", "u64", "i64"]
TEXT, TRUTH, ALONE = ("utf8", False), ("bool", False), ("i64", False)


class Fault(Exception):
    """A refusal: its kind, and its clause where one is told."""

    def __init__(self, kind, clause=None):
        super().__init__(kind, clause)
        self.kind = kind
        self.clause = clause


def tokens_of(sql):
    tokens, at = [], 0
    while found := TOKEN.match(sql, BLANKS.match(sql, at).end()):
        kind, at = found.lastgroup, found.end()
        said = found.group(kind)
        said = said.replace(QUOTES[kind] * 2, QUOTES[kind]) if kind in QUOTES else said
        tokens.append(("name" if kind in ("tick", "bracket") else kind, said))
    return tokens


class Statement:
    """Reads a statement's clauses as trees, by one method for each level of an expression."""

    def __init__(self, sql):
        self.tokens = [*tokens_of(sql), ("end", "")]
        self.at = 0
        self.faults = []

    def kind(self):
        return self.tokens[self.at][0]

    def said(self):
        kind, said = self.tokens[self.at]
        return said.upper() if kind == "word" else said if kind == "mark" else None

    def eats(self, *words):
        found = [token[1].upper() for token in self.tokens[self.at:self.at + len(words)] if token[0] in ("word", "mark")] == list(words)
        self.at += len(words) * found
        return found

    def takes(self):
        self.at += 1
        return self.tokens[self.at - 1]

    def expect(self, *words):
        assert self.eats(*words), (words, self.tokens[self.at:])

    def listed(self, part):
        found = [part()]
        while self.eats(","):
            found.append(part())
        return found

    def whole(self):
        """The parts of a statement; a part that is refused by its name is a fault at once."""
        if self.kind() != "word" or self.said() != "SELECT":
            raise Fault("NotTaken")
        self.expect("SELECT")
        if self.eats("DISTINCT"):
            self.faults.append(Fault("NotTaken"))
        parts = {"SELECT": self.listed(self.shown), "FROM": self.source() if self.eats("FROM") else None}
        parts["WHERE"] = self.level(0) if self.eats("WHERE") else None
        for words in [("GROUP", "BY"), ("HAVING",)]:
            if self.eats(*words):
                self.faults.append(Fault("NotTaken"))
                self.listed(lambda: self.level(0))
        if self.said() in ("UNION", "EXCEPT", "INTERSECT"):
            raise Fault("NotTaken")
        parts["ORDER BY"] = self.listed(self.sorted) if self.eats("ORDER", "BY") else []
        parts["LIMIT"] = self.level(0) if self.eats("LIMIT") else None
        if self.eats("OFFSET") or self.eats(","):
            self.faults.append(Fault("NotTaken"))
        for fault in self.faults:
            raise fault
        return parts

    def source(self):
        if self.eats("("):
            raise Fault("NotTaken", "FROM")
        table = self.takes()[1]
        if self.said() in (",", "JOIN", "INNER", "LEFT", "CROSS", "AS") or (self.kind() in ("word", "name", "text") and self.said() not in (
                "WHERE", "GROUP", "HAVING", "ORDER", "LIMIT", "UNION", "EXCEPT", "INTERSECT")):
            raise Fault("NotTaken", "FROM")
        return table

    def shown(self):
        if self.eats("*"):
            return ("all",)
        if [self.tokens[self.at + step][1] for step in (1, 2) if self.at + 2 < len(self.tokens)] == [".", "*"]:
            self.at += 3
            return ("not_taken",)
        value = self.level(0)
        return ("shown", value, self.takes()[1] if self.eats("AS") else None)

    def sorted(self):
        key = self.level(0)
        descending = not self.eats("ASC") and self.eats("DESC")
        if self.eats("NULLS", "FIRST"):
            key = ("not_taken",)
        return (key, descending)

    def level(self, at):
        if at == len(LEVELS):
            return self.signed()
        if at == 2:
            return ("negation", self.level(2)) if self.eats("NOT") else self.level(3)
        found = self.level(at + 1)
        if at == 3:
            return self.tested(found)
        while self.said() in LEVELS[at]:
            found = ("operation", self.takes()[1].upper(), found, self.level(at + 1))
        return found

    def tested(self, found):
        """The tests and comparisons for equality that follow an operand."""
        while True:
            if self.said() in ("=", "==", "<>", "!="):
                found = ("operation", self.takes()[1], found, self.level(4))
            elif self.eats("ISNULL") or self.eats("IS", "NULL"):
                found = ("null_test", found)
            elif self.eats("NOTNULL") or self.eats("NOT", "NULL") or self.eats("IS", "NOT", "NULL"):
                found = ("negation", ("null_test", found))
            elif self.eats("IS", "NOT") or self.eats("IS"):
                found = ("not_taken", found, self.level(4))
            elif self.eats("COLLATE"):
                self.takes()
                found = ("not_taken", found)
            else:
                is_negated = self.eats("NOT")
                test = self.test(found)
                if test is None:
                    return found
                found = ("negation", test) if is_negated else test

    def test(self, value):
        if self.eats("LIKE"):
            return ("like", value, self.level(4))
        if self.eats("BETWEEN"):
            lower = self.level(3)
            self.expect("AND")
            return ("between", value, lower, self.level(4))
        return self.membership(value) if self.eats("IN") else None

    def membership(self, value):
        if not self.eats("("):
            self.takes()
            return ("not_taken", value)
        if self.said() == "SELECT":
            return ("not_taken", value, self.subquery())
        members = [] if self.said() == ")" else self.listed(lambda: self.level(0))
        self.expect(")")
        return ("membership", value, members)

    def subquery(self):
        """Skips up to the bracket that closes."""
        depth = 1
        while depth:
            depth += {"(": 1, ")": -1}.get(self.takes()[1], 0)
        return ("not_taken",)

    def signed(self):
        for sign in "+-~":
            if self.eats(sign):
                return ("sign", sign, self.signed())
        return self.term()

    def term(self):
        kind, said = self.takes()
        if kind == "number":
            return ("number", int(said)) if said.isdigit() else ("not_taken",)
        if kind == "text":
            return ("text", said)
        if kind in ("blob", "parameter"):
            self.faults += [Fault("NotTaken")] if kind == "parameter" else []
            return ("not_taken",)
        if (kind, said) == ("mark", "("):
            if self.said() == "SELECT":
                return self.subquery()
            found = self.level(0)
            self.expect(")")
            return found
        return self.named(kind, said)

    def named(self, kind, said):
        word = said.upper() if kind == "word" else None
        if word in ("TRUE", "FALSE", "NULL"):
            return ("null",) if word == "NULL" else ("truth", word == "TRUE")
        if word in CLOCK:
            self.faults.append(Fault("NotTaken"))
        if word == "CASE":
            while not self.eats("END"):
                self.takes()
            return ("not_taken",)
        if word == "CAST":
            return self.cast()
        if self.eats("("):
            is_clock = word in ("DATE", "TIME", "DATETIME") and self.tokens[self.at] in [("mark", ")"), ("text", "now")]
            self.faults += [Fault("NotTaken")] * is_clock
            return self.subquery()
        return ("column", said, self.takes()[1] if self.eats(".") else None)

    def cast(self):
        self.expect("(")
        value = self.level(0)
        self.expect("AS")
        name = self.takes()[1]
        self.expect(")")
        return ("cast", value, name)


class Clause:
    """Operands over a table's type: ("known", type, tree), ("number", number) or ("null",). A fault names its kind."""

    def __init__(self, scope):
        self.scope = scope
        self.columns = {}
        for name, dtype in scope[1]:
            self.columns.setdefault(name, dtype)

    def operand(self, tree):
        kind = tree[0]
        if kind in ("number", "null"):
            return tree
        if kind in ("text", "truth"):
            return constant(TEXT if kind == "text" else TRUTH, tree[1])
        if kind == "not_taken":
            for part in tree[1:]:
                self.operand(part)
            raise Fault("NotTaken")
        return getattr(self, kind)(*tree[1:])

    def sign(self, sign, tree):
        if tree[0] == "number" and sign != "~":
            return ("number", -tree[1] if sign == "-" else tree[1])
        self.operand(tree)
        raise Fault("NotTaken")

    def column(self, name, field):
        if name not in self.columns:
            raise Fault("UnknownColumn")
        dtype, tree = self.columns[name], ("item", name, ("root",))
        if field is None:
            return ("known", dtype, tree)
        fields = dict(dtype[1]) if dtype[0] == "struct" else {}
        if field not in fields:
            raise Fault("UnknownField")
        return ("known", (*fields[field][:-1], fields[field][-1] or dtype[-1]), ("item", field, tree))

    def operation(self, sign, left, right):
        left, right = self.operand(left), self.operand(right)
        if sign in ("AND", "OR"):
            left, right = asked("bool", left), asked("bool", right)
            return ("known", ("bool", left[1][-1] or right[1][-1]), ("binary", sign.lower(), left[2], right[2]))
        if sign not in SIGNS and sign not in "+-":
            raise Fault("NotTaken")
        left, right = together([taking(right, left), taking(left, right)])
        nullable = left[1][-1] or right[1][-1]
        if sign in SIGNS:
            return ("known", ("bool", nullable), ("binary", SIGNS[sign], left[2], right[2]))
        if left[1][0] not in INTEGERS:
            raise Fault("NoNumber")
        return ("known", (left[1][0], nullable), ("binary", sign, left[2], right[2]))

    def negation(self, tree):
        value = asked("bool", self.operand(tree))
        return ("known", value[1], ("not", value[2]))

    def null_test(self, tree):
        return ("known", TRUTH, ("is_null", taking(("null",), self.operand(tree))[2]))

    def like(self, value, pattern):
        value, pattern = self.operand(value), self.operand(pattern)
        value, pattern = asked("utf8", value), asked("utf8", pattern)
        return ("known", ("bool", value[1][-1] or pattern[1][-1]), ("like", value[2], pattern[2]))

    def between(self, *trees):
        operands = [self.operand(tree) for tree in trees]
        across = next((operand for operand in operands if operand[0] == "known"), operands[-1])
        parts = together([taking(across, operand) for operand in operands])
        return ("known", ("bool", any(part[1][-1] for part in parts)), ("between", *[part[2] for part in parts]))

    def membership(self, value, members):
        value = self.operand(value)
        constants = [self.member(member) for member in members]
        if not constants:
            raise Fault("NoConstants")
        across = next((member for member in constants if member[0] == "known"), ("null",))
        value = taking(across, value)
        if value[1][0] in ("list", "struct"):
            raise Fault("NotPlain")
        listed = [taking(value, member) for member in constants if member[0] != "null"]
        if any(member[1][0] != value[1][0] for member in listed):
            raise Fault("OtherKinds")
        elements = ("literal", ("list", (value[1][0], False), False), [member[2][2] for member in listed])
        found, nullable = ("contains", elements, value[2]), value[1][-1]
        if len(listed) < len(constants):
            found, nullable = ("binary", "or", found, ("literal", ("bool", True), None)), True
        return ("known", ("bool", nullable), found)

    def member(self, tree):
        is_number = tree[0] == "sign" and tree[1] != "~" and tree[2][0] == "number"
        if tree[0] not in ("number", "null", "text", "truth") and not is_number:
            raise Fault("NotConstant")
        return self.operand(tree)

    def cast(self, tree, name):
        value = self.operand(tree)
        try:
            target = queries.read_type(name)
        except (ValueError, IndexError):
            raise Fault("UnknownType") from None
        if target[0] in ("list", "struct"):
            raise Fault("UnknownType")
        kind = value[1][0] if value[0] == "known" else "i64" if value[0] == "number" else target[0]
        if kind != target[0] and not (kind in INTEGERS and target[0] in INTEGERS):
            raise Fault("NoCast")
        if value[0] == "number":
            return number_of(target, value[1])
        if value[0] == "null":
            return constant((target[0], True), None)
        target = (target[0], target[-1] or value[1][-1])
        return ("known", target, ("cast", value[2], target))


def constant(dtype, value):
    return ("known", dtype, ("literal", dtype, value))


def number_of(dtype, number):
    if not queries.fits(number, dtype):
        raise Fault("OutOfRange")
    return constant(dtype, number)


def taking(other, operand):
    """An operand with the type that it takes from the one across from it."""
    if operand[0] == "known":
        return operand
    dtype = other[1] if other[0] == "known" else ALONE
    if operand[0] == "null":
        return constant((*dtype[:-1], True), None)
    if dtype[0] not in INTEGERS:
        raise Fault("OtherKinds")
    return number_of((dtype[0], False), operand[1])


def asked(kind, operand):
    """An operand where a boolean or a text is asked."""
    if operand[0] == "null":
        return constant((kind, True), None)
    if operand[0] == "number" or operand[1][0] != kind:
        raise Fault("NoBoolean" if kind == "bool" else "NoText")
    return operand


def together(parts):
    """Operands as they are compared: of one plain type, integers in the narrowest type that has the numbers of all."""
    kinds = [part[1][0] for part in parts]
    if all(kind in INTEGERS for kind in kinds):
        outer = next((name for name in BY_WIDTH if all(
            INTEGERS[name][0] <= INTEGERS[kind][0] and INTEGERS[kind][1] <= INTEGERS[name][1] for kind in kinds)), None)
        if outer is None:
            raise Fault("NoCommonType")
        return [part if part[1][0] == outer else ("known", (outer, part[1][-1]), ("cast", part[2], (outer, part[1][-1]))) for part in parts]
    if any(kind in ("list", "struct") for kind in kinds):
        raise Fault("NotPlain")
    if len(set(kinds)) > 1:
        raise Fault("OtherKinds")
    return parts


def filter_of(clause, tree):
    found = clause.operand(tree)
    if found[0] == "null":
        return ("literal", ("bool", True), None)
    if found[0] == "number" or found[1][0] != "bool":
        raise Fault("FilterNotBool")
    return found[2]


def projection_of(clause, shown):
    if shown == [("all",)]:
        return ("root",)
    names, values = [], []
    for part in shown:
        for name, value in columns_of(clause, part):
            if name in names:
                raise Fault("NameTwice")
            names.append(name)
            values.append(value)
    return ("pack", tuple(names), tuple(values))


def columns_of(clause, part):
    if part[0] == "all":
        return [(name, ("item", name, ("root",))) for name, _ in clause.scope[1]]
    if part[0] == "not_taken":
        raise Fault("NotTaken")
    value = taking(("null",), clause.operand(part[1]))
    name = part[2]
    if name is None:
        if part[1][0] != "column":
            raise Fault("Unnamed")
        name = part[1][2] or part[1][1]
    return [(name, value[2])]


def key_of(clause, keys):
    if not keys:
        return None, False
    if len(keys) > 1:
        raise Fault("SeveralKeys")
    tree, descending = keys[0]
    if tree[0] == "not_taken":
        raise Fault("NotTaken")
    if tree[0] != "column" or tree[2] is not None:
        raise Fault("NoColumn")
    if clause.operand(tree)[1][0] in ("list", "struct"):
        raise Fault("BadKey")
    return tree[1], descending


def limit_of(clause, tree):
    if tree is not None and tree[:2] == ("sign", "+"):
        tree = tree[2]
    if tree is not None and tree[0] != "number":
        raise Fault("BadLimit")
    return None if tree is None else tree[1]


def within(name, part, *given):
    """A part of a statement, whose fault is told with its clause."""
    try:
        return part(*given)
    except Fault as fault:
        raise Fault(fault.kind, name) from None


def plan_of(sql, scope):
    """What a statement names over a row type, its expressions as trees."""
    parts, clause = Statement(sql).whole(), Clause(scope)
    if parts["FROM"] is None:
        raise Fault("NoTable", "FROM")
    filter_tree = None if parts["WHERE"] is None else within("WHERE", filter_of, clause, parts["WHERE"])
    projection = within("SELECT", projection_of, clause, parts["SELECT"])
    key, descending = within("ORDER BY", key_of, clause, parts["ORDER BY"])
    limit = within("LIMIT", limit_of, clause, parts["LIMIT"])
    return {"filter": filter_tree, "projection": projection, "key": key, "descending": descending, "limit": limit, "table": parts["FROM"]}
