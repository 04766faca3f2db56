"""Calls on words of bits and on lists of truths, with their answers by plain loops, at lengths around those of words and of vectors of words."""

LENGTHS = [0, 1, 63, 64, 65, 127, 128, 129, 255, 256, 257, 1000]
TRUTHS = [False, True, None]


def quick(length):
    """Truths that change at each place."""
    return [TRUTHS[i % 3] for i in range(length)]


def slow(length):
    """Truths that change at each third place, so that beside the quick ones each pair comes."""
    return [TRUTHS[i // 3 % 3] for i in range(length)]


def letters(truths):
    return "".join({True: "t", False: "f", None: "n"}[truth] for truth in truths)


def conjunction(left, right):
    if left is False or right is False:
        return False
    return None if left is None or right is None else True


def disjunction(left, right):
    if left is True or right is True:
        return True
    return None if left is None or right is None else False


def kept(items, keep):
    return [item for item, keeps in zip(items, keep) if keeps is True]


def hidden(items, nulls):
    return [None if hides is True else item for item, hides in zip(items, nulls)]


def next_places(truths, places):
    """The next true place from each of these on."""
    following = [next((i for i in range(place, len(truths)) if truths[i] is True), None) for place in places]
    return "".join("none;" if place is None else "%d;" % place for place in following)


def next_true(truths, places, want):
    return {"call": "next_true", "truths": truths, "from": places, "want": want}


def on_list(truths):
    """The calls of one list."""
    places = list(range(len(truths) + 1))
    wants = {
        "truths": letters(truths),
        "copy": letters(truths),
        "not": letters(None if truth is None else not truth for truth in truths),
        "is_null": letters(truth is None for truth in truths),
        "true_count": str(sum(truth is True for truth in truths)),
    }
    return [{"call": call, "truths": truths, "want": want} for call, want in wants.items()] + [next_true(truths, places, next_places(truths, places))]


def on_pair(left, right):
    """The calls of two lists of one length."""
    wants = {
        "and": map(conjunction, left, right),
        "or": map(disjunction, left, right),
        "filter": kept(left, right),
        "kept": kept(left, right),
        "mask": hidden(left, right),
    }
    return [{"call": call, "left": left, "right": right, "want": letters(want)} for call, want in wants.items()]


def of_one_truth(truth, length):
    """The list of one truth many times, and whether it equals lists that are as long or longer, or differ at the end."""
    times = [truth] * length
    others = [times, times + [truth]] + [times[1:] + [other] for other in TRUTHS if length > 0 and other is not truth]
    asked = {"truth": truth, "times": length}
    made = {"call": "repeated", **asked, "want": letters(times)}
    return [made] + [{"call": "is_repeated", **asked, "truths": other, "want": "true" if other == times else "false"} for other in others]


def sparse(length, true_places, null_places):
    """False but at these places."""
    return [True if i in true_places else None if i in null_places else False for i in range(length)]


# True at the first place, at the last of a word, at the first of the next word and in the third, null beside them.
SPARSE = sparse(200, {0, 63, 64, 130}, {1, 62, 65, 129, 131})

NEXT_TRUE = [
    next_true(SPARSE, [0], "0;"),
    next_true(SPARSE, [1, 2, 62, 63], "63;63;63;63;"),
    next_true(SPARSE, [64], "64;"),
    next_true(SPARSE, [65, 66, 127, 128, 129, 130], "130;130;130;130;130;130;"),
    next_true(SPARSE, [131, 191, 192, 199, 200, 256, 2 ** 64 - 1], "none;" * 7),
    next_true([None] * 200, [0, 63, 64, 199, 200], "none;" * 5),
    next_true([False] * 200, [0, 63, 64, 199, 200], "none;" * 5),
    next_true([], [0, 1, 64], "none;" * 3),
]


def on_words(call, want, *words):
    """A call of Kleene's logic on one word of each list, by the words of validity and of values."""
    names = ["left_valid", "left_values", "right_valid", "right_values"]
    return {"call": call, **dict(zip(names, words)), "want": "%d;%d;" % want}


# The nine pairs of false, true and null at places 0 to 8, the left side changing slowest; then with bits set under null, which change nothing.
WORDS_OF_LOGIC = [
    on_words("and_words", (0x5F, 0x10), 0x3F, 0x38, 0xDB, 0x92),
    on_words("or_words", (0xBB, 0xBA), 0x3F, 0x38, 0xDB, 0x92),
    on_words("not_words", (0x3F, 0x07), 0x3F, 0x38),
    on_words("and_words", (0x5F, 0x10), 0x3F, 0x1F8, 0xDB, 0x1B6),
    on_words("or_words", (0xBB, 0xBA), 0x3F, 0x1F8, 0xDB, 0x1B6),
    on_words("not_words", (0x3F, 0x07), 0x3F, 0x1F8),
]

ROWS = [
    *[row for length in LENGTHS for truths in (quick(length), slow(length)) for row in on_list(truths)],
    *[row for length in LENGTHS for left, right in ((quick(length), slow(length)), (slow(length), quick(length))) for row in on_pair(left, right)],
    *[row for length in LENGTHS for truth in TRUTHS for row in of_one_truth(truth, length)],
    {"call": "and", "left": [True], "right": [], "want": "not asked"},
    {"call": "kept", "left": [True], "right": [], "want": "not asked"},
    *NEXT_TRUE,
    *WORDS_OF_LOGIC,
]
