"""Filters over columns in this process, by the proved library: which blocks a filter rules out by their statistics, and at which rows it is true.

    import vx

    cheap = vx.Filter("price < 10 AND city IN ('Rome', 'Oslo')", {"name": "utf8", "price": "i32?", "city": "utf8"})
    cheap.columns       # ['price', 'city']
    cheap.statistics    # [(('price',), 'min'), (('city',), 'min'), (('city',), 'max')]
    cheap.rules_out(min={"price": [3, 12, None]})
    cheap.rows({"price": [12, 8, None], "city": ["Rome", "Oslo", "Rome"]})

`python/build` makes the library, `libvx.so`, beside this file; VX_LIBRARY names another one. Nothing else is needed: where numpy is there, its arrays are
taken too, and answers over them are arrays. docs/OTHER_LANGUAGES.md says what the calls promise, and what of it is proved: this file isn't.

A column is a list, in which None is null; an array of numpy or of the module `array`; or a pair, a tuple, of such values and of truths that say where they
aren't null. One array of a column's own type, without nulls, isn't copied. Nothing that a call reads may change while it runs.
"""
import array
import ctypes
import json
import os
import struct
import sys

try:
    import numpy
except ImportError:
    numpy = None

DONE, SCHEMA, FILTER, OVERFLOW, NO_MEMORY, TOO_SHORT, ARRAYS, BAD_CAST = 0, 3, 4, 5, 8, 9, 10, 11
# how many rows, or blocks, are asked in one call at most: a multiple of 8, so that the bits of calls stand one behind the other
RUN = 1_048_576
# the least room for an answer: most lines of refusals are shorter
ROOM = 4096
STATISTICS = ("min", "max", "null_count")
# of each integer type its sign in `struct`, and its number of bytes
INTEGERS = {"u8": ("B", 1), "u16": ("H", 2), "u32": ("I", 4), "u64": ("Q", 8), "i8": ("b", 1), "i16": ("h", 2), "i32": ("i", 4), "i64": ("q", 8)}


class VxError(Exception):
    """Why a call has no answer: the status of its refusal, and the refusal's line."""

    def __init__(self, number, text):
        self.number, self.text = number, text
        super().__init__("%s (status %d)" % (text, number))


class Overflow(VxError):
    """A sum or a difference has no value of its type at a row."""


class BadCast(VxError):
    """A cast has no value of its type at a row."""


ERRORS = {OVERFLOW: Overflow, BAD_CAST: BadCast}


# ---- the library: bytes in, bytes out


def _library():
    """The library, with the forms of its functions."""
    path = os.environ.get("VX_LIBRARY") or os.path.join(os.path.dirname(os.path.abspath(__file__)), "libvx.so")
    if not os.path.exists(path):
        raise ImportError("there is no library at %s; python/build makes it" % path)
    library = ctypes.CDLL(path)
    size, place = ctypes.c_size_t, ctypes.c_void_p
    slice, answer = [place, size], [place, size, ctypes.POINTER(size)]
    for name, parameters in [
        ("vx_filter", slice * 2),
        ("vx_filter_columns", slice * 2),
        ("vx_filter_statistics", slice * 2),
        ("vx_rules_out", slice * 5),
        ("vx_rows", slice * 2 + [size] + slice * 2),
        ("vx_run", slice * 2),
    ]:
        function = getattr(library, name, None)
        if function is not None:
            function.argtypes, function.restype = parameters + answer, ctypes.c_uint8
    return library


LIBRARY = _library()


def _is_array(values):
    return numpy is not None and isinstance(values, numpy.ndarray)


def _slice(data):
    """Where bytes stand, how many there are, and what has to be kept while they are read. The address is never null."""
    if _is_array(data) and data.nbytes:
        data = numpy.ascontiguousarray(data)
        return data.ctypes.data, data.nbytes, data
    view = memoryview(data)
    if view.nbytes and not view.readonly:
        kept = (ctypes.c_ubyte * view.nbytes).from_buffer(view)
        return ctypes.addressof(kept), view.nbytes, kept
    kept = data if isinstance(data, bytes) else view.tobytes()
    return ctypes.cast(ctypes.c_char_p(kept), ctypes.c_void_p).value, len(kept), kept


def _numbers(numbers, sign):
    """Numbers of 32 bits (I) or of 64 (Q): where they stand, how many there are, and what has to be kept."""
    kept = array.array(sign, numbers.tolist() if _is_array(numbers) else numbers)
    address, _, held = _slice(kept if kept else array.array(sign, [0]))
    return address, len(kept), held


def _called(name, parameters, room):
    """The status and the bytes of a call. Where the room is too short for the bytes, the call is made once more."""
    function = getattr(LIBRARY, name)
    written = ctypes.c_size_t()
    while True:
        out = ctypes.create_string_buffer(room)
        status = function(*parameters, ctypes.addressof(out), room, ctypes.byref(written))
        if status != TOO_SHORT:
            return status, ctypes.string_at(out, written.value)
        room = written.value


def _answered(name, slices, room=ROOM):
    """The bytes that a call answers; a refusal is raised. The slices are three things each, or a number."""
    parameters = [number for part in slices for number in ([part] if isinstance(part, int) else part[:2])]
    status, answer = _called(name, parameters, room)
    if status == DONE:
        return answer
    raise ERRORS.get(status, VxError)(status, "NoMemory" if status == NO_MEMORY else answer.decode())


def filter_bytes(schema, predicate):
    """The bytes of the filter that a predicate of SQL names over the columns of a schema, a text of JSON."""
    return _answered("vx_filter", [_slice(schema), _slice(predicate)])


def filter_columns(schema, filter):
    """The names of the columns that a filter asks, as a text of JSON."""
    return _answered("vx_filter_columns", [_slice(schema), _slice(filter)])


def filter_statistics(schema, filter):
    """The statistics that the pruning of a filter needs, as a text of JSON."""
    return _answered("vx_filter_statistics", [_slice(schema), _slice(filter)])


def rules_out(schema, filter, lengths, body, buffers):
    """The blocks that a filter rules out, a bit a block, by arrays of the statistics of `filter_statistics`; `lengths` are the blocks' numbers of rows."""
    lengths = _numbers(lengths, "I")
    slices = [_slice(schema), _slice(filter), lengths, _slice(body), _numbers(buffers, "Q")]
    return _answered("vx_rules_out", slices, lengths[1] // 8 + ROOM)


def rows(schema, filter, count, body, buffers):
    """The rows at which a filter is true, a bit a row, by arrays of the schema's columns over so many rows."""
    slices = [_slice(schema), _slice(filter), count, _slice(body), _numbers(buffers, "Q")]
    return _answered("vx_rows", slices, min(count, RUN) // 8 + ROOM)


def run(words, input=b""):
    """What the program does with these arguments and this standard input: its exit status, and the bytes that it writes."""
    line = b"\0".join(word if isinstance(word, bytes) else word.encode() for word in words)
    slices = [_slice(line), _slice(input)]
    return _called("vx_run", [number for part in slices for number in part[:2]], 16 * ROOM)


# ---- bits


def _bits(truths):
    """Truths as a bitmap, least bit first."""
    if _is_array(truths):
        return numpy.packbits(truths, bitorder="little").tobytes()
    digits = "".join(["1" if truth else "0" for truth in truths])
    return int(digits[::-1] or "0", 2).to_bytes((len(digits) + 7) // 8, "little")


def _truths(bits, count, as_array):
    """The first truths of a bitmap: a list, or an array of numpy."""
    if as_array:
        return numpy.unpackbits(numpy.frombuffer(bits, numpy.uint8), count=count, bitorder="little").view(bool)
    digits = bin(int.from_bytes(bits, "little"))[2:].zfill(count)
    return [digit == "1" for digit in digits[::-1][:count]]


# ---- columns


class _Column:
    """The values of a column as they were given, and the truths that say where they aren't null, if those were given."""

    def __init__(self, name, kind, given):
        self.name = ".".join(name) if isinstance(name, tuple) else name
        self.kind = kind.rstrip("?") if isinstance(kind, str) else None
        self.values, self.valid = given if isinstance(given, tuple) else (given, None)
        if numpy is not None and isinstance(self.values, numpy.ma.MaskedArray):
            hidden = numpy.ma.getmaskarray(self.values)
            self.values, self.valid = self.values.data, ~hidden if self.valid is None else ~hidden & numpy.asarray(self.valid, bool)
        if numpy is not None and hasattr(self.values, "__array__"):
            self.values = numpy.asarray(self.values)
        elif not isinstance(self.values, list):
            self.values = memoryview(self.values) if hasattr(self.values, "itemsize") else list(self.values)
        self.as_array = _is_array(self.values)
        if self.as_array and self.values.ndim != 1:
            raise self.refused("an array of %d dimensions" % self.values.ndim)
        if self.valid is not None and len(self.valid) != len(self):
            raise self.refused("%d values, and %d truths that say where they aren't null" % (len(self), len(self.valid)))

    def __len__(self):
        return len(self.values)

    def refused(self, why):
        return ValueError("column %s: %s" % (self.name, why))

    def put(self, arrays, first, last):
        """Puts the buffers of some rows: validity and values, of texts validity, offsets and bytes. Lists and structs have none."""
        if self.kind is None:
            return
        values, valid = self.values[first:last], None if self.valid is None else self.valid[first:last]
        plain = self._plain(values, valid)
        if plain is not None:
            arrays.add(b"" if valid is None else _bits(valid))
            arrays.add(plain)
            return
        values = self._listed(values)
        known = [value is not None for value in values]
        if valid is not None:
            known = [there and bool(truth) for there, truth in zip(known, valid)]
        arrays.add(b"" if all(known) else _bits(known))
        self._put_listed(arrays, values, known)

    def _plain(self, values, valid):
        """Integers and truths of an array as a buffer holds them; none where they stand otherwise."""
        if isinstance(values, list) or self.kind == "utf8":
            return None
        if self.kind == "bool":
            return _bits(values) if self.as_array and values.dtype.kind == "b" else None
        sign, width = INTEGERS[self.kind]
        if not self.as_array:
            alike = sys.byteorder == "little" and values.contiguous and values.ndim == 1 and values.itemsize == width
            return values if alike and values.format in ("bhilq", "BHILQ")[sign.isupper()] else None
        if values.dtype.kind not in "iu":
            return None
        wanted = numpy.dtype("<%s%d" % ("u" if sign.isupper() else "i", width))
        known = values if valid is None else values[numpy.asarray(valid, bool)]
        if values.dtype != wanted and len(known):
            least, greatest = numpy.iinfo(wanted).min, numpy.iinfo(wanted).max
            if not (least <= int(known.min()) and int(known.max()) <= greatest):
                raise self.refused("a number is no %s" % self.kind)
        return numpy.ascontiguousarray(values, dtype=wanted)

    def _listed(self, values):
        """Values as a list, each None or of a type that the column's values may have."""
        values = values if isinstance(values, list) else values.tolist()
        kinds = {"bool": (bool,), "utf8": (str, bytes)}.get(self.kind)
        for kind in set(map(type, values)) - {type(None)}:
            alike = issubclass(kind, kinds) if kinds is not None else hasattr(kind, "__index__") and kind is not bool
            if not (alike or self.kind == "bool" and numpy is not None and kind is numpy.bool_):
                raise self.refused("a value of type %s is no %s" % (kind.__name__, self.kind))
        return values

    def _put_listed(self, arrays, values, known):
        """Puts the values of a list; what stands under a null is 0, false or the empty text."""
        if self.kind == "bool":
            arrays.add(_bits([there and value for value, there in zip(values, known)]))
        elif self.kind == "utf8":
            self._put_texts(arrays, [b"" if not there else text if isinstance(text, bytes) else text.encode() for text, there in zip(values, known)])
        else:
            try:
                numbers = struct.pack("<%d%s" % (len(values), INTEGERS[self.kind][0]), *[value if there else 0 for value, there in zip(values, known)])
            except struct.error:
                raise self.refused("a number is no %s" % self.kind) from None
            arrays.add(numbers)

    def _put_texts(self, arrays, texts):
        offsets, end = [0], 0
        for text in texts:
            end += len(text)
            offsets.append(end)
        if end >= 2**32:
            raise self.refused("%d texts of 2^32 bytes or more; ask fewer rows at once" % len(texts))
        arrays.add(struct.pack("<%dI" % len(offsets), *offsets))
        arrays.add(b"".join(texts))


class _Arrays:
    """Buffers in the order of their columns, and the body that they stand in, each at a multiple of 8 bytes. A buffer alone is the body as it is."""

    def __init__(self):
        self.pieces, self.buffers, self.length = [], [], 0

    def add(self, piece):
        size = piece.nbytes if hasattr(piece, "nbytes") else len(piece)
        self.buffers += [self.length if size else 0, size]
        if size:
            self.pieces.append(piece)
            self.length += size + -size % 8

    def body(self):
        if len(self.pieces) == 1:
            return self.pieces[0]
        body, end = bytearray(self.length), 0
        for piece in self.pieces:
            view = memoryview(piece).cast("B")
            body[end : end + view.nbytes] = view
            end += view.nbytes + -view.nbytes % 8
        return body


def _one_length(lengths, of_what):
    """The length that all of these are; none where there are none."""
    lengths = sorted(set(lengths))
    if len(lengths) > 1:
        raise ValueError("%s of %s" % (of_what, " and ".join(map(str, lengths))))
    return lengths[0] if lengths else None


def _by_runs(count, as_array, ask):
    """The truths of so many rows, or blocks, of which `ask` tells the bits run by run."""
    parts = []
    for first in range(0, count or 1, RUN):
        last = first + RUN if first + RUN < count else count
        parts.append(_truths(ask(first, last), last - first, as_array))
    return numpy.concatenate(parts) if as_array else [truth for part in parts for truth in part]


# ---- schemas and filters


def _columns_of(schema):
    """The columns of a schema as those of a table as JSON."""
    pairs = schema.items() if isinstance(schema, dict) else schema
    return [pair if isinstance(pair, dict) else {"name": pair[0], "type": pair[1]} for pair in pairs]


def _schema_bytes(columns):
    return json.dumps({"columns": columns, "blocks": []}, separators=(",", ":")).encode()


def _type_at(columns, path):
    """The type of the field that a path leads to."""
    kinds = [column["type"] for column in columns if column["name"] == path[0]]
    if not kinds or len(path) > 1 and "struct" not in kinds[0]:
        raise ValueError("the schema has no field %s" % ".".join(path))
    return _type_at(kinds[0]["struct"], path[1:]) if len(path) > 1 else kinds[0]


class Filter:
    """A predicate over columns: a condition of SQL, read over a schema. docs/SQL.md says which conditions are taken, and what they mean.

    The schema is a dict of names and types, or a list of objects `name` and `type`, with types as those of a table as JSON: "i32?", {"struct": [..],
    "nullable": false}. Where the predicate isn't taken, VxError is raised, whose text is the line that tells why.

    `bytes` are the filter in the wire form, `columns` the names of the columns that it asks, in the schema's order, and `statistics` those that its pruning
    needs: of each the path of its field, a tuple of names, and "min", "max" or "null_count".
    """

    def __init__(self, predicate, schema):
        self.schema = _columns_of(schema)
        self._open(filter_bytes(_schema_bytes(self.schema), predicate if isinstance(predicate, bytes) else predicate.encode()))

    @classmethod
    def of_bytes(cls, bytes, schema):
        """The filter that bytes in the wire form spell."""
        made = cls.__new__(cls)
        made.schema = _columns_of(schema)
        made._open(bytes)
        return made

    def _open(self, bytes):
        schema = _schema_bytes(self.schema)
        self.bytes = bytes
        self.columns = json.loads(filter_columns(schema, bytes))
        self.statistics = [(tuple(told["path"]), told["stat"]) for told in json.loads(filter_statistics(schema, bytes))]

    def rules_out(self, min=None, max=None, null_count=None, rows=None):
        """Of each block whether the filter rules it out: then it is true at no row of the block, where the statistics are honest.

        Each statistic is a dict of columns: under a name, or the path of a field in structs, a column of a value a block, null where it isn't known. What the
        filter doesn't need is passed over, and of what isn't given nothing is known. `rows` are the blocks' numbers of rows; the answer doesn't hang on them,
        and they may be left out where a statistic is given. The answer is a list, or an array where one was given.
        """
        given = {}
        for stat, columns in zip(STATISTICS, (min, max, null_count)):
            for path, values in (columns or {}).items():
                path = path if isinstance(path, tuple) else (path,)
                given[path, stat] = _Column(path, "u64" if stat == "null_count" else _type_at(self.schema, path), values)
        count = _one_length([len(column) for column in given.values()] + ([] if rows is None else [len(rows)]), "blocks")
        if count is None:
            raise ValueError("neither statistics nor numbers of rows are given")
        needed = [given.get(statistic) for statistic in self.statistics]
        schema = _schema_bytes(self.schema)

        def ask(first, last):
            lengths = bytes(4 * (last - first)) if rows is None else rows[first:last]
            return rules_out(schema, self.bytes, lengths, *self._cells(needed, first, last))

        return _by_runs(count, any(column.as_array for column in given.values()), ask)

    def _cells(self, needed, first, last):
        """The arrays of the statistics of some blocks; of one that isn't given each cell is null."""
        arrays = _Arrays()
        for column, (path, stat) in zip(needed, self.statistics):
            if column is not None:
                column.put(arrays, first, last)
            else:
                _Column(path, "u64" if stat == "null_count" else _type_at(self.schema, path), [None] * (last - first)).put(arrays, 0, last - first)
        return arrays.body(), arrays.buffers

    def rows(self, columns, count=None):
        """Of each row whether the filter is true there: neither false nor null.

        The columns are a dict by names, of which those that the filter asks are read. `count` is the number of rows where it asks none. Overflow and BadCast
        are raised where a sum or a cast of the filter has no value at a row; of runs of 1,048,576 rows the first one counts that is refused. The answer is a
        list, or an array where one was given.
        """
        missing = [name for name in self.columns if name not in columns]
        if missing:
            raise ValueError("the filter asks %s" % ", ".join(missing))
        narrow = [column for column in self.schema if column["name"] in self.columns]
        asked = [_Column(column["name"], column["type"], columns[column["name"]]) for column in narrow]
        count = _one_length([len(column) for column in asked] + ([] if count is None else [count]), "rows")
        if count is None:
            raise ValueError("the filter asks no column, so that the number of rows has to be given")
        schema = _schema_bytes(narrow)

        def ask(first, last):
            arrays = _Arrays()
            for column in asked:
                column.put(arrays, first, last)
            return rows(schema, self.bytes, last - first, arrays.body(), arrays.buffers)

        return _by_runs(count, any(column.as_array for column in asked), ask)
