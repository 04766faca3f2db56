"""Calls on lists of integers, with their answers by plain loops, for each type, at lengths around those of words."""
from words import hidden, kept, letters

LENGTHS = [0, 1, 63, 64, 65, 127, 128, 129, 1000]
# How many nulls the lists of nulls alone have.
NULLS = [1, 64, 65, 130]
# How many numbers the lists have whose last number alone differs.
BEFORE_THE_LAST = [0, 63, 64, 127, 128]

# Each type with its least number and its greatest.
BOUNDS = {name: (0, 2 ** bits - 1) for name, bits in [("u8", 8), ("u16", 16), ("u32", 32), ("u64", 64)]}
BOUNDS |= {name: (-(2 ** (bits - 1)), 2 ** (bits - 1) - 1) for name, bits in [("i8", 8), ("i16", 16), ("i32", 32), ("i64", 64)]}
WITH_SIGN = ["i8", "i16", "i32", "i64"]
# The types without a sign, each with the number in the middle, whose highest bit alone is set.
MIDDLES = {"u8": 128, "u16": 32768, "u32": 2147483648, "u64": 9223372036854775808}
# A type, and one that has the number above its greatest; and one that has the number below its least.
WIDER_ABOVE = [("u8", "u16"), ("u16", "u32"), ("u32", "u64"), ("i8", "i16"), ("i16", "i32"), ("i32", "i64"), ("i64", "u64")]
WIDER_BELOW = [("u8", "i8"), ("u16", "i16"), ("u32", "i32"), ("u64", "i64"), ("i8", "i16"), ("i16", "i32"), ("i32", "i64")]
# A number that is among the left ones of each type.
AMONG_THEM = 13

OPERATORS = {
    "=": lambda a, b: a == b,
    "!=": lambda a, b: a != b,
    ">": lambda a, b: a > b,
    ">=": lambda a, b: a >= b,
    "<": lambda a, b: a < b,
    "<=": lambda a, b: a <= b,
}


# What stands at the places of the lists.

def spread(name, i):
    """Distinct numbers at any 101 places in a row: from 1 to 101, or for a type with sign from -50 to 50."""
    return i % 101 * 37 % 101 + (-50 if name in WITH_SIGN else 1)


def known(name, length):
    return [spread(name, i) for i in range(length)]


def left(name, length):
    """The known numbers, one of seven null."""
    return [None if i % 7 == 3 else spread(name, i) for i in range(length)]


def right(name, length):
    """The known number less 1, the same, and with 1 more by turns, one of five null."""
    return [None if i % 5 == 2 else spread(name, i) + i % 3 - 1 for i in range(length)]


def keep(length):
    return [[False, True, None][i % 3] for i in range(length)]


def on_both(rule, ls, rs):
    return [None if l is None or r is None else rule(l, r) for l, r in zip(ls, rs)]


def sums(ls, rs):
    return on_both(lambda a, b: a + b, ls, rs)


def differences(ls, rs):
    return on_both(lambda a, b: a - b, ls, rs)


# Arguments and answers.

def of(name, numbers, mask=None):
    """A list as an argument, maybe with the truths that make numbers null."""
    return {"type": name, "numbers": numbers, **({} if mask is None else {"mask": mask})}


def numbers_of(argument):
    """The numbers of such a list."""
    return hidden(argument["numbers"], argument["mask"]) if "mask" in argument else argument["numbers"]


def fit(name, numbers):
    least, greatest = BOUNDS[name]
    return all(number is None or least <= number <= greatest for number in numbers)


def text(name, numbers):
    """The list as an answer, `none` where a number leaves the type."""
    return " ".join([name, *("null" if number is None else str(number) for number in numbers)]) if fit(name, numbers) else "none"


def compared(ls, rs):
    return "".join("%s%s;" % (sign, letters(on_both(rule, ls, rs))) for sign, rule in OPERATORS.items())


# Rows.

def made(argument):
    return {"call": "numbers", "list": argument, "want": text(argument["type"], numbers_of(argument))}


def copied(argument):
    return {"call": "copy", "list": argument, "want": text(argument["type"], numbers_of(argument))}


def tested_for_null(argument):
    return {"call": "is_null", "list": argument, "want": letters(number is None for number in numbers_of(argument))}


def bounds(argument):
    """The answer is the least number, the greatest, and at how many places there is none."""
    numbers = numbers_of(argument)
    known = [number for number in numbers if number is not None]
    least, greatest = (min(known), max(known)) if known else ("null", "null")
    return {"call": "bounds", "list": argument, "want": "%s %s %d" % (least, greatest, len(numbers) - len(known))}


def filtered(argument, keeps):
    return {"call": "filter", "list": argument, "keep": keeps, "want": text(argument["type"], kept(numbers_of(argument), keeps))}


def compare_with(argument, number):
    numbers = numbers_of(argument)
    return {"call": "compare_with", "list": argument, "number": number, "want": compared(numbers, [number] * len(numbers))}


def cast(argument):
    numbers = numbers_of(argument)
    return {"call": "cast", "list": argument, "want": "".join(text(target, numbers) + ";" for target in BOUNDS)}


def compare(l, r):
    return {"call": "compare", "left": l, "right": r, "want": compared(numbers_of(l), numbers_of(r))}


def add(l, r):
    return {"call": "add", "left": l, "right": r, "want": text(l["type"], sums(numbers_of(l), numbers_of(r)))}


def sub(l, r):
    return {"call": "sub", "left": l, "right": r, "want": text(l["type"], differences(numbers_of(l), numbers_of(r)))}


def equal(l, r):
    same = (l["type"], numbers_of(l)) == (r["type"], numbers_of(r))
    return {"call": "equal", "left": l, "right": r, "want": "true" if same else "false"}


def same(argument):
    """Whether two lists made of one argument are equal."""
    return {"call": "same", "list": argument, "want": "true"}


def repeated(name, number, times):
    """The answer is the type, the length, and at how many places the number stands."""
    return {"call": "repeated", "type": name, "number": number, "times": times, "want": "%s %d %d" % (name, times, times)}


# Tables.

def at_length(name, length):
    """Each call on lists of a length."""
    ls, rs = of(name, left(name, length)), of(name, right(name, length))
    return [
        made(ls),
        copied(ls),
        same(ls),
        tested_for_null(ls),
        bounds(ls),
        bounds(of(name, known(name, length))),
        filtered(ls, keep(length)),
        filtered(of(name, known(name, length)), keep(length)),
        made(of(name, left(name, length), keep(length))),
        compare(ls, rs),
        compare_with(ls, AMONG_THEM),
        compare_with(ls, None),
        add(ls, rs),
        sub(of(name, sums(ls["numbers"], rs["numbers"])), ls),
        sub(ls, rs),
        cast(ls),
        *[repeated(name, number, length) for number in (*BOUNDS[name], None)],
    ]


def of_bounds(name):
    """The least number of a type and the greatest, side by side and hidden by a mask."""
    least, greatest = BOUNDS[name]
    three = of(name, [least, greatest, greatest]), of(name, [greatest, greatest, least])
    low, high = (of(name, [number, 2, 3], [True, False, None]) for number in (least, greatest))
    bare = of(name, [None, 2, 3])
    return [
        made(of(name, [least, greatest])),
        compare(*three),
        *[bounds(argument) for argument in (*three, low, high)],
        *[bounds(of(name, [first, *[between] * 64, last])) for between in (7, None) for first, last in ((least, greatest), (greatest, least))],
        add(of(name, [greatest, None]), of(name, [None, greatest])),
        *[equal(l, r) for l, r in ((low, high), (bare, high), (high, bare))],
        compare(high, high),
        compare_with(high, greatest),
        tested_for_null(high),
        filtered(high, [True, None, True]),
        add(high, high),
        sub(low, of(name, [1, 2, 3], [True, False, None])),
    ]


def of_signs():
    """Numbers around 0, and around the number whose highest bit alone is set."""
    rows = []
    for name in WITH_SIGN:
        rows += [compare_with(of(name, [-1, 0, 1]), 0), compare(of(name, [-1, 0, 0]), of(name, [0, 0, -1]))]
    for name, middle in MIDDLES.items():
        greatest = BOUNDS[name][1]
        rows += [compare_with(of(name, [0, middle, greatest]), middle), compare(of(name, [0, greatest, greatest]), of(name, [greatest, greatest, 0]))]
    return rows


def past_the_bounds():
    """Totals that leave a type by 1, alone and at the end of 65, and those of a type that has them; casts of the same numbers, and of such as a mask hides."""
    rows = [add(of("u64", [BOUNDS["u64"][1]]), of("u64", [1])), sub(of("i64", [BOUNDS["i64"][0]]), of("i64", [1]))]
    for name, wider in WIDER_ABOVE:
        greatest = BOUNDS[name][1]
        for other in (name, wider):
            rows += [add(of(other, [greatest]), of(other, [1])), add(of(other, [1] * 64 + [greatest]), of(other, [1] * 65)), cast(of(other, [greatest]))]
        rows += [cast(of(wider, [greatest + 1])), cast(of(wider, [greatest + 1, 7], [True, False]))]
    for name, wider in WIDER_BELOW:
        least = BOUNDS[name][0]
        for other in (name, wider):
            rows += [sub(of(other, [least]), of(other, [1])), sub(of(other, [3] * 64 + [least]), of(other, [1] * 65)), cast(of(other, [least]))]
        rows += [cast(of(wider, [least - 1])), cast(of(wider, [least - 1, 7], [True, False]))]
    return rows


def beside_null(name):
    """Null beside numbers and beside null."""
    ls, rs, nulls = (of(name, numbers) for numbers in ([7, None, None], [None, 7, None], [None] * 3))
    of_no_number = {"left": of(name, [5, None, 3]), "right": of(name, [None, 6, 4]), "total": of(name, [None, None, 7])}
    rows = [compare(ls, rs), compare_with(ls, None), compare_with(nulls, 7), add(ls, rs), sub(ls, rs), {"call": "add_equals", **of_no_number, "want": "true"}]
    for length in NULLS:
        alone = of(name, [None] * length)
        rows += [made(alone), tested_for_null(alone), bounds(alone), copied(alone), filtered(alone, [True] * length), filtered(alone, [None] * length)]
        rows += [add(alone, alone), sub(alone, alone)]
    return rows + [cast(of(name, [None] * 65))]


def of_equality(name):
    """Lists that are equal, that differ in the last number alone, that are longer by one, and that are of other types."""
    rows = []
    for length in BEFORE_THE_LAST:
        fives, nulls = [5] * length, [None] * length
        pairs = [(fives + [6], fives + [6]), (fives + [6], fives + [7]), (fives + [0], fives + [None]), (fives + [None], fives + [0])]
        pairs += [(fives, fives + [5]), (nulls + [None], nulls)]
        rows += [equal(of(name, l), of(name, r)) for l, r in pairs]
    return rows + [equal(of(name, items), of(other, items)) for other in BOUNDS for items in ([], [None], [1, None, 0])]


def not_asked(name):
    """What makes no list, or no pair of lists."""
    least, greatest = BOUNDS[name]
    one, other = of(name, [1]), of("u8" if name == "i8" else "i8", [1])
    rows = [{"call": "numbers", "list": of(name, [7, beyond])} for beyond in (least - 1, greatest + 1) if -(2 ** 63) <= beyond < 2 ** 64]
    rows += [{"call": call, "left": one, "right": r} for call in ("compare", "add", "sub") for r in (of(name, []), other)]
    return [{**row, "want": "not asked"} for row in rows + [{"call": "filter", "list": one, "keep": []}, {"call": "numbers", "list": of(name, [1], [])}]]


ALL = [
    *[row for name in BOUNDS for length in LENGTHS for row in at_length(name, length)],
    *[row for name in BOUNDS for row in of_bounds(name)],
    *of_signs(),
    *past_the_bounds(),
    *[row for name in BOUNDS for row in beside_null(name)],
    *[row for name in BOUNDS for row in of_equality(name)],
    *[row for name in BOUNDS for row in not_asked(name)],
]


def of_calls(*calls):
    return [row for row in ALL if row["call"] in calls]


NUMBERS = of_calls("numbers", "copy", "repeated", "is_null", "bounds", "filter")
TOTALS = of_calls("add", "sub", "add_equals", "cast")
# A comparison is asked by all six operators.
COMPARISONS = of_calls("compare", "compare_with", "equal", "same")
