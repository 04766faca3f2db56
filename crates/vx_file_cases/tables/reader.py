"""Reads block files by their form in docs/FORMATS.md ("Block files"): why bytes are none, or what they hold, each damaged range told apart."""

MARK = b"VXBLK001"
INTEGERS = ["u8", "u16", "u32", "u64", "i8", "i16", "i32", "i64"]
KINDS = ["min", "max", "null_count"]
MOST_ROWS = 1_048_576
MOST_DEEP = 64
DAMAGED = object()


class Other(Exception):
    """The bytes aren't of the form that is read."""


class Bytes:
    """Bytes that are read from left to right."""

    def __init__(self, given):
        self.given, self.at = given, 0

    def take(self, count):
        piece = self.given[self.at : self.at + count]
        if len(piece) < count:
            raise Other
        self.at += count
        return piece

    def byte(self):
        return self.take(1)[0]

    def number(self):
        """A number below 2^32 in the fewest bytes, seven bits in each, the least first."""
        total, shift = 0, 0
        while True:
            low = self.byte()
            total |= (low & 127) << shift
            if low < 128:
                break
            shift += 7
        if total >= 2**32 or (shift and not low):
            raise Other
        return total

    def text(self):
        try:
            return self.take(self.number()).decode()
        except UnicodeDecodeError as error:
            raise Other from error

    def of(self, names):
        """One of some names, by the byte that numbers it."""
        number = self.byte()
        if number >= len(names):
            raise Other
        return names[number]

    def kind(self, deep):
        """A type of at most so many levels, as in a request, but with its nullability beside: ("i32", False), ({"list": ..}, True)."""
        if not deep:
            raise Other
        name = self.of(["bool", "int", "utf8", "list", "struct"])
        nullable = self.of([False, True])
        if name == "int":
            return self.of(INTEGERS), nullable
        if name == "list":
            return {"list": self.kind(deep - 1)}, nullable
        if name == "struct":
            return {"struct": self.fields(deep - 1)}, nullable
        return name, nullable

    def fields(self, deep):
        return [(self.text(), self.kind(deep)) for _ in range(self.number())]

    def value(self, kind):
        name, nullable = kind
        if not self.of([False, True]):
            if nullable:
                return None
            raise Other
        if name == "bool":
            return self.of([False, True])
        if name == "utf8":
            return self.text()
        if isinstance(name, str):
            return int.from_bytes(self.take(int(name[1:]) // 8), "little", signed=name[0] == "i")
        if "list" in name:
            return [self.value(name["list"]) for _ in range(self.number())]
        return {field: self.value(of) for field, of in name["struct"]}


def type_at(fields, path):
    """The plain type that a path leads to from fields, the first of each name."""
    if not path:
        raise Other
    found = next((kind for field, kind in fields if field == path[0]), None)
    if found is None:
        raise Other
    name = found[0]
    if path[1:]:
        if isinstance(name, str) or "list" in name:
            raise Other
        return type_at(name["struct"], path[1:])
    if not isinstance(name, str):
        raise Other
    return name


def header_at(bytes_of):
    """The columns, the lengths of blocks, the statistics and the lengths of ranges of a header that nothing stands behind."""
    if bytes_of.take(2) != b"\x04\x00":
        raise Other
    columns = bytes_of.fields(MOST_DEEP)
    rows = [bytes_of.number() for _ in range(bytes_of.number())]
    if sum(rows) > MOST_ROWS:
        raise Other
    stats = []
    for _ in range(bytes_of.number()):
        path = [bytes_of.text() for _ in range(bytes_of.number())]
        stat = bytes_of.of(KINDS)
        plain = type_at(columns, path)
        told = "u64" if stat == "null_count" else plain
        stats.append((path, stat, [bytes_of.value((told, True)) for _ in rows]))
    lengths = [[bytes_of.number() for _ in columns] for _ in rows]
    if bytes_of.at < len(bytes_of.given):
        raise Other
    return columns, rows, stats, lengths


def names_twice(fields):
    """Whether a name stands twice in a struct of these fields, or in one at any depth."""
    names = [name for name, _ in fields]
    return len(set(names)) < len(names) or any(names_twice_in(kind) for _, kind in fields)


def names_twice_in(kind):
    name = kind[0]
    if isinstance(name, str):
        return False
    return names_twice_in(name["list"]) if "list" in name else names_twice(name["struct"])


def values_of(kind, rows, given):
    """The values of a range, so many, or that it is damaged."""
    bytes_of = Bytes(given)
    try:
        values = [bytes_of.value(kind) for _ in range(rows)]
    except Other:
        return DAMAGED
    return values if bytes_of.at == len(given) else DAMAGED


def opened(given):
    """Why bytes are no block file; or their columns' names, the number of rows of each block, their statistics, and the columns of each block, values
    or damaged."""
    if given[:8] != MARK:
        return "BadMagic"
    bytes_of = Bytes(given[8:])
    try:
        columns, rows, stats, lengths = header_at(Bytes(bytes_of.take(bytes_of.number())))
    except Other:
        return "BadHeader"
    if names_twice(columns):
        return "BadZones(DuplicateName)"
    if any((path, stat) == other[:2] for i, (path, stat, _) in enumerate(stats) for other in stats[:i]):
        return "BadZones(DuplicateStat)"
    left = bytes_of.given[bytes_of.at :]
    if len(left) != sum(map(sum, lengths)):
        return "BadEnd"
    blocks = []
    for number, widths in zip(rows, lengths):
        block = []
        for (_, kind), width in zip(columns, widths):
            block.append(values_of(kind, number, left[:width]))
            left = left[width:]
        blocks.append(block)
    return [name for name, _ in columns], rows, stats, blocks
