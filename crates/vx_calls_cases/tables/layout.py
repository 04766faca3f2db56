"""Columns in the layout of Apache Arrow, as docs/OTHER_LANGUAGES.md says it ("Arrays"): a body of bytes, and for each buffer its first byte and its length."""
import struct

INTEGERS = {"u8": "B", "u16": "H", "u32": "I", "u64": "Q", "i8": "b", "i16": "h", "i32": "i", "i64": "q"}


def plain(kind):
    return kind.rstrip("?")


def ends(kind):
    """The least and the greatest number of an integer type."""
    bits = int(kind[1:])
    return (0, 2**bits - 1) if kind[0] == "u" else (-(2 ** (bits - 1)), 2 ** (bits - 1) - 1)


def bits(truths):
    """A bitmap: a bit a truth, the least bit of a byte first."""
    packed = bytearray((len(truths) + 7) // 8)
    for place, truth in enumerate(truths):
        packed[place // 8] |= bool(truth) << place % 8
    return bytes(packed)


def letters(text):
    """The bitmap of letters, `1` where it is true."""
    return bits([letter == "1" for letter in text])


def offsets(*numbers):
    return struct.pack("<%dI" % len(numbers), *numbers)


def numbers(kind, values):
    return struct.pack("<%d%s" % (len(values), INTEGERS[plain(kind)]), *values)


def value_buffers(kind, values):
    """The buffers of values, none of which is null, behind the validity."""
    if plain(kind) == "bool":
        return [bits(values)]
    if plain(kind) == "utf8":
        texts = [value.encode() for value in values]
        return [offsets(*(sum(map(len, texts[:count])) for count in range(len(texts) + 1))), b"".join(texts)]
    return [numbers(kind, values)]


def stand_in(kind):
    """What stands under a null: of numbers the greatest, to which nothing can be added."""
    name = plain(kind)
    return {"bool": True, "utf8": "under"}[name] if name not in INTEGERS else ends(name)[1]


def column(kind, values, always=False):
    """The buffers of a column: a validity of no bytes where no value is null, unless it is asked always."""
    valid = [value is not None for value in values]
    validity = b"" if all(valid) and not always else bits(valid)
    return [validity, *value_buffers(kind, [stand_in(kind) if value is None else value for value in values])]


def laid_out(buffers, before=b"", between=b"", behind=b""):
    """Buffers in a body, with bytes before the first, behind each and behind the last, and their places."""
    body, places = before, []
    for buffer in buffers:
        places += [len(body), len(buffer)]
        body += buffer + between
    return {"body": (body + behind).hex(), "buffers": places}


def arrays(columns, always=False, **spaced):
    """Pairs of a type and values as arrays."""
    return laid_out([buffer for kind, values in columns for buffer in column(kind, values, always)], **spaced)
