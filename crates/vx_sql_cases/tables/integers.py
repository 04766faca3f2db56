"""Numbers that take each integer type, at both ends of each and one past, and expressions of two and three integer types."""
from queries import INTEGERS
from rows import Refused, shown, where
from sample_tables import NUMBERS, SMALL

BY_WIDTH = ["u8", "i8", "u16", "i16", "u32", "i32", "u64", "i64"]
OF_ONE = "the_%s"
OR_NULL = "maybe_%s"


def holds(outer, inner):
    return INTEGERS[outer][0] <= INTEGERS[inner][0] and INTEGERS[inner][1] <= INTEGERS[outer][1]


def common(*types):
    """The narrowest type that has the numbers of all, or None."""
    return next((outer for outer in BY_WIDTH if all(holds(outer, inner) for inner in types)), None)


def widened(name, column, outer):
    """A column of an integer type in a wider one, nullable where the column is."""
    written = column % name
    return written if name == outer else "cast(%s, %s%s)" % (written, outer, "?" if column == OR_NULL else "")


def typed(number, name):
    return "%d%s" % (number, name)


def past(table, condition, number, name):
    """A condition that is refused since the number is none of the type."""
    line = "WHERE: %s is no %s" % (number, name)
    return Refused(table, "SELECT * FROM t WHERE " + condition, "OutOfRange", "WHERE", [str(number), name], line)


def past_all(condition, digits):
    """A condition that is refused since the number of these digits is of no integer type."""
    line = "WHERE: the number %s is of no integer type" % digits
    return Refused(NUMBERS, "SELECT * FROM t WHERE " + condition, "OutOfRange", "WHERE", [digits], line)


def apart(condition, first, second):
    """A condition that is refused since no type has the numbers of two."""
    line = "WHERE: no integer type holds both %s and %s; cast one of the two" % (first, second)
    return Refused(NUMBERS, "SELECT * FROM t WHERE " + condition, "NoCommonType", "WHERE", [first, second], line)


def end_rows():
    """Each end of each type across from a column of the type, one past it, and in a cast."""
    for name, (least, greatest) in INTEGERS.items():
        column, other = OF_ONE % name, OR_NULL % name
        for number, beyond in [(least, least - 1), (greatest, greatest + 1)]:
            yield where(NUMBERS, "%s = %d" % (column, number), "%s = %s" % (column, typed(number, name)))
            yield where(NUMBERS, "%d >= %s" % (number, other), "%s >= %s" % (typed(number, name), other))
            yield past(NUMBERS, "%s = %d" % (column, beyond), beyond, name)
            yield past(NUMBERS, "%d < %s" % (beyond, other), beyond, name)
            yield where(NUMBERS, "CAST(%d AS %s) <> %s" % (number, name, column), "%s != %s" % (typed(number, name), column))
            yield past(NUMBERS, "CAST(%d AS %s) <> %s" % (beyond, name, column), beyond, name)


def form_rows():
    """Ends in ranges, memberships and sums, and one past them."""
    for name, (least, greatest) in INTEGERS.items():
        column, other = OF_ONE % name, OR_NULL % name
        ends = (column, typed(least, name), typed(greatest, name))
        yield where(NUMBERS, "%s BETWEEN %d AND %d" % (column, least, greatest), "between(%s, %s, %s)" % ends)
        constants = "contains(lit(list(%s), [%d, %d]), %s)" % (name, least, greatest, other)
        yield where(NUMBERS, "%s IN (%d, %d)" % (other, least, greatest), constants)
        yield where(NUMBERS, "%s NOT IN (%d, %d, NULL)" % (other, least, greatest), "not (%s or lit(bool?, null))" % constants)
        yield past(NUMBERS, "%s BETWEEN %d AND %d" % (column, least, greatest + 1), greatest + 1, name)
        yield past(NUMBERS, "%s IN (%d, %d)" % (column, least - 1, greatest), least - 1, name)
        yield where(SMALL, "%s + 1 < 50" % column, "%s + 1%s < 50%s" % (column, name, name))
        yield past(SMALL, "%s + %d < 50" % (column, greatest + 1), greatest + 1, name)


def pair_rows():
    """Two columns of two types, compared in the narrowest type that has the numbers of both."""
    for first in BY_WIDTH:
        for second in BY_WIDTH:
            outer = common(first, second)
            condition = "%s < %s" % (OF_ONE % first, OR_NULL % second)
            if outer:
                yield where(NUMBERS, condition, "%s < %s" % (widened(first, OF_ONE, outer), widened(second, OR_NULL, outer)))
            else:
                yield apart(condition, first, second)


def summed(first, second, sign):
    outer = common(first, second)
    value = "%s %s %s" % (OF_ONE % first, sign, OR_NULL % second)
    return shown(SMALL, value, "%s %s %s" % (widened(first, OF_ONE, outer), sign, widened(second, OR_NULL, outer)))


def ranged(value, lower, upper):
    """A range over columns of three types."""
    outer = common(value, lower, upper)
    parts = [(value, OF_ONE), (lower, OR_NULL), (upper, OF_ONE)]
    condition = "%s BETWEEN %s AND %s" % tuple(column % name for name, column in parts)
    return where(NUMBERS, condition, "between(%s, %s, %s)" % tuple(widened(name, column, outer) for name, column in parts))


SUMS = [("u8", "i16", "+"), ("i8", "u8", "+"), ("u32", "i32", "+"), ("u64", "u8", "+"), ("i64", "u32", "-"), ("i32", "i8", "-"), ("u16", "i16", "-")]
RANGES = [("u8", "i8", "u8"), ("u8", "u16", "i16"), ("i32", "u32", "i8"), ("u64", "u8", "u32"), ("i64", "u32", "i16"), ("i16", "i16", "i64")]

WRITTEN_OUT = [
    where(NUMBERS, "the_u8 = the_i16", "cast(the_u8, i16) = the_i16"),
    where(NUMBERS, "the_u8 <> maybe_i8", "cast(the_u8, i16) != cast(maybe_i8, i16?)"),
    where(NUMBERS, "the_u32 >= the_i32", "cast(the_u32, i64) >= cast(the_i32, i64)"),
    where(NUMBERS, "5 BETWEEN the_u8 AND the_i16", "between(cast(5u8, i16), cast(the_u8, i16), the_i16)"),
    where(NUMBERS, "NULL BETWEEN the_u8 AND the_i16", "between(cast(lit(u8?, null), i16?), cast(the_u8, i16), the_i16)"),
    where(NUMBERS, "the_u64 = CAST(the_u8 AS u64)", "the_u64 = cast(the_u8, u64)"),
    where(NUMBERS, "the_i64 < 9223372036854775807", "the_i64 < 9223372036854775807i64"),
    where(NUMBERS, "-9223372036854775808 = the_i64", "-9223372036854775808i64 = the_i64"),
    where(SMALL, "the_u8 + the_i8 < 100", "cast(the_u8, i16) + cast(the_i8, i16) < 100i16"),
    where(SMALL, "the_u8 + 1 < the_i16", "cast(the_u8 + 1u8, i16) < the_i16"),
    where(SMALL, "the_u8 + 1 + the_i16 < 1000", "cast(the_u8 + 1u8, i16) + the_i16 < 1000i16"),
    where(SMALL, "(the_u8 + the_u32) - the_i32 = 5", "cast(cast(the_u8, u32) + the_u32, i64) - cast(the_i32, i64) = 5i64"),
    where(SMALL, "the_i8 = the_u8 = TRUE", "(cast(the_i8, i16) = cast(the_u8, i16)) = true"),
    where(SMALL, "the_u8 IN (5, 9) AND the_i16 > 5", "contains(lit(list(u8), [5, 9]), the_u8) and the_i16 > 5i16"),
]

PAST = [
    past(NUMBERS, "300 BETWEEN the_u8 AND the_i16", 300, "u8"),
    past(NUMBERS, "the_u8 BETWEEN 300 AND the_i16", 300, "u8"),
    past(NUMBERS, "the_u8 BETWEEN the_i16 AND 300", 300, "u8"),
    past(NUMBERS, "the_u8 IN (1, 300, NULL)", 300, "u8"),
    past(NUMBERS, "the_u8 IN (300, 400)", 300, "u8"),
    past(NUMBERS, "the_u8 IN (-1)", -1, "u8"),
    past(NUMBERS, "9223372036854775808 IN (1)", 9223372036854775808, "i64"),
    past(NUMBERS, "9223372036854775808 = 1", 9223372036854775808, "i64"),
    past(NUMBERS, "1 BETWEEN 1 AND 9223372036854775808", 9223372036854775808, "i64"),
    past(NUMBERS, "9223372036854775808 IS NULL", 9223372036854775808, "i64"),
    past(NUMBERS, "NULL = -9223372036854775809", -9223372036854775809, "i64"),
    past(NUMBERS, "the_u64 < 18446744073709551616", 18446744073709551616, "u64"),
    past_all("the_u8 = %d" % 10 ** 50, str(10 ** 50)),
    past_all("the_i64 > -%d" % 10 ** 39, str(10 ** 39)),
    past(SMALL, "the_u8 + 256 > 0", 256, "u8"),
    past(SMALL, "-129 + the_i8 > 0", -129, "i8"),
    past(SMALL, "the_u8 - -1 > 0", -1, "u8"),
    Refused(SMALL, "SELECT 9223372036854775808 AS n FROM t", "OutOfRange", "SELECT", ["9223372036854775808", "i64"], "SELECT: 9223372036854775808 is no i64"),
    Refused(SMALL, "SELECT the_u8 + 256 AS n FROM t", "OutOfRange", "SELECT", ["256", "u8"], "SELECT: 256 is no u8"),
    Refused(SMALL, "SELECT CAST(256 AS u8) AS n FROM t", "OutOfRange", "SELECT", ["256", "u8"], "SELECT: 256 is no u8"),
    Refused(SMALL, "SELECT the_u64 + the_i8 AS n FROM t", "NoCommonType", "SELECT", ["u64", "i8"],
            "SELECT: no integer type holds both u64 and i8; cast one of the two"),
    Refused(SMALL, "SELECT the_i64 - the_u64 AS n FROM t", "NoCommonType", "SELECT", ["i64", "u64"],
            "SELECT: no integer type holds both i64 and u64; cast one of the two"),
    apart("the_u64 BETWEEN 1 AND the_i8", "u64", "i8"),
    apart("the_u8 BETWEEN the_u64 AND the_i8", "u64", "i8"),
    apart("the_u64 BETWEEN the_i8 AND the_u8", "u64", "i8"),
    apart("1 + 2 = the_u64", "i64", "u64"),
]

ROWS = [
    *end_rows(), *form_rows(), *pair_rows(), *[summed(*of) for of in SUMS], *[ranged(*of) for of in RANGES], *WRITTEN_OUT, *PAST,
]
