"""Expressions with their wire bytes and, beside them, what they mean at a row in Python: the value, None where it is null (docs/SEMANTICS.md)."""
import operator
import re

import wire
from layout import ends, plain

SIGNS = {"=": operator.eq, "!=": operator.ne, ">": operator.gt, ">=": operator.ge, "<": operator.lt, "<=": operator.le}


class NoValue(Exception):
    """A sum or a cast has no value of its type; what is told of it is the name."""


class Expr:
    def __init__(self, spelled, kind, mean):
        self.spelled, self.kind, self.mean = spelled, kind, mean


def column(name, kind):
    return Expr(wire.item(name), plain(kind), lambda row: row[name])


def constant(kind, value):
    return Expr(wire.lit(kind, value), plain(kind), lambda row: value)


def known(left, right, give):
    """What two expressions give where neither is null."""

    def mean(row):
        values = [left.mean(row), right.mean(row)]
        return None if None in values else give(*values)

    return mean


def ordered(value):
    """A value as it is compared: a text by its bytes."""
    return value.encode() if isinstance(value, str) else value


def compared(left, sign, right):
    return Expr(wire.binary(left.spelled, sign, right.spelled), "bool", known(left, right, lambda a, b: SIGNS[sign](ordered(a), ordered(b))))


def both(left, right):
    def mean(row):
        values = [left.mean(row), right.mean(row)]
        return False if False in values else None if None in values else True

    return Expr(wire.binary(left.spelled, "and", right.spelled), "bool", mean)


def either(left, right):
    def mean(row):
        values = [left.mean(row), right.mean(row)]
        return True if True in values else None if None in values else False

    return Expr(wire.binary(left.spelled, "or", right.spelled), "bool", mean)


def negated(of):
    def mean(row):
        value = of.mean(row)
        return None if value is None else not value

    return Expr(wire.negated(of.spelled), "bool", mean)


def is_null(of):
    return Expr(wire.null_test(of.spelled), "bool", lambda row: of.mean(row) is None)


def within(kind, number, name):
    least, greatest = ends(kind)
    if not least <= number <= greatest:
        raise NoValue(name)
    return number


def summed(left, sign, right):
    def give(a, b):
        return within(left.kind, a + b if sign == "+" else a - b, "Overflow")

    return Expr(wire.binary(left.spelled, sign, right.spelled), left.kind, known(left, right, give))


def cast(of, kind):
    def mean(row):
        value = of.mean(row)
        return None if value is None else within(plain(kind), value, "BadCast")

    return Expr(wire.cast(of.spelled, kind), plain(kind), mean)


def between(of, lower, upper):
    inside = both(compared(of, ">=", lower), compared(of, "<=", upper))
    return Expr(wire.between(of.spelled, lower.spelled, upper.spelled), "bool", inside.mean)


def member(of, values):
    """Membership in a list of constants, none of which is null."""

    def mean(row):
        value = of.mean(row)
        return None if value is None else value in values

    return Expr(wire.contains(wire.lit(wire.many(of.kind), values), of.spelled), "bool", mean)


def like(of, pattern):
    wanted = re.compile("".join({"%": ".*", "_": "."}.get(letter, re.escape(letter)) for letter in pattern), re.DOTALL)

    def mean(row):
        value = of.mean(row)
        return None if value is None else wanted.fullmatch(value) is not None

    return Expr(wire.like(of.spelled, pattern), "bool", mean)
