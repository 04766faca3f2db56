"""How deep an expression may be: chains and brackets at what is read, and one past it.

What is read stands in the README of the parser: a height of 300, in which a column counts one, a comparison three, each AND, OR, + and each
bracket one; and 60 expressions in one another, in which each bracket and each NOT counts one, and so does what stands right of an operator.
"""
from rows import Refused, shown, where
from sample_tables import BRIEF, CATALOG


def chained(part, sign, times):
    """A chain of so many signs, and so of one part more."""
    return (" %s " % sign).join([part] * (times + 1))


def chain(part, sign, times, expression, word):
    return where(CATALOG, chained(part, sign, times), chained(expression, word, times))


def too_deep(condition):
    return Refused(CATALOG, "SELECT * FROM t WHERE " + condition, "TooDeep")


def bracketed(times, part):
    return "(" * times + part + ")" * times


def negated(times, part, word):
    return (word + " ") * times + part


ROWS = [
    chain("active", "AND", 299, "active", "and"),
    too_deep(chained("active", "AND", 300)),
    chain("sold", "OR", 299, "sold", "or"),
    too_deep(chained("sold", "OR", 300)),
    chain("price = 100", "AND", 296, "price = 100i32", "and"),
    too_deep(chained("price = 100", "AND", 297)),
    chain("price = 100", "OR", 296, "price = 100i32", "or"),
    too_deep(chained("price = 100", "OR", 1000)),
    shown(BRIEF, chained("price", "-", 299), chained("price", "-", 299)),
    Refused(BRIEF, "SELECT %s AS n FROM t" % chained("price", "-", 300), "TooDeep"),
    where(CATALOG, bracketed(59, "sold"), "sold"),
    too_deep(bracketed(60, "sold")),
    where(CATALOG, bracketed(58, "price = 100"), "price = 100i32"),
    too_deep(bracketed(59, "price = 100")),
    too_deep(bracketed(300, "sold")),
    where(CATALOG, negated(59, "sold", "NOT"), negated(59, "sold", "not")),
    too_deep(negated(60, "sold", "NOT")),
]
