"""Expressions as bytes, by the wire form in docs/FORMATS.md, and requests that hold them."""

INTEGERS = ["u8", "u16", "u32", "u64", "i8", "i16", "i32", "i64"]
OPERATORS = ["=", "!=", ">", ">=", "<", "<=", "and", "or", "+", "-"]


def number(n):
    low = n & 127
    return bytes([low | 128]) + number(n >> 7) if n > 127 else bytes([low])


def text(t):
    t = t.encode()
    return number(len(t)) + t


def node(kind, metadata=b"", *children):
    return text(kind) + number(len(metadata)) + metadata + number(len(children)) + b"".join(children)


def type_bytes(t):
    """A type as in a request: `i32`, `utf8?`, {"list": .., "nullable": ..}."""
    if isinstance(t, dict) and "list" in t:
        return bytes([3, t["nullable"]]) + type_bytes(t["list"])
    if isinstance(t, dict):
        fields = b"".join(text(f["name"]) + type_bytes(f["type"]) for f in t["struct"])
        return bytes([4, t["nullable"]]) + number(len(t["struct"])) + fields
    null, name = t.endswith("?"), t.rstrip("?")
    if name in INTEGERS:
        return bytes([1, null, INTEGERS.index(name)])
    return bytes([{"bool": 0, "utf8": 2}[name], null])


def value_bytes(t, v):
    if v is None:
        return b"\0"
    if isinstance(t, dict) and "list" in t:
        return b"\1" + number(len(v)) + b"".join(value_bytes(t["list"], x) for x in v)
    if isinstance(t, dict):
        return b"\1" + b"".join(value_bytes(f["type"], v[f["name"]]) for f in t["struct"])
    name = t.rstrip("?")
    if name == "bool":
        return bytes([1, v])
    if name == "utf8":
        return b"\1" + text(v)
    return b"\1" + v.to_bytes(int(name[1:]) // 8, "little", signed=name[0] == "i")


ROOT = node("root")
TRUE = node("literal", type_bytes("bool") + value_bytes("bool", True))


def lit(t, v):
    return node("literal", type_bytes(t) + value_bytes(t, v))


def item(name, of=ROOT):
    return node("get_item", text(name), of)


def binary(left, operator, right):
    return node("binary", bytes([OPERATORS.index(operator)]), left, right)


def negated(of):
    return node("not", b"", of)


def cast(of, t):
    return node("cast", type_bytes(t), of)


def pack(*fields, nullable=False):
    names = b"".join(text(f) for f, _ in fields)
    return node("pack", bytes([nullable]) + number(len(fields)) + names, *(e for _, e in fields))


def select(of, *names, exclude=False):
    return node("select", bytes([exclude]) + number(len(names)) + b"".join(text(f) for f in names), of)


def merge(*of, nullable=False):
    return node("merge", bytes([nullable]), *of)


def null_test(of):
    return node("is_null", b"", of)


def like(of, pattern, is_negated=False, ignores_case=False):
    return node("like", bytes([is_negated, ignores_case]), of, lit("utf8", pattern) if isinstance(pattern, str) else pattern)


def between(of, lower, upper, lower_strict=False, upper_strict=False):
    return node("between", bytes([lower_strict, upper_strict]), of, lower, upper)


def contains(values, of):
    return node("list_contains", b"", values, of)


def many(t, nullable=False):
    return {"list": t, "nullable": nullable}


def struct(nullable=False, **fields):
    return {"struct": [{"name": f, "type": t} for f, t in fields.items()], "nullable": nullable}


def request(columns, blocks, filter_bytes, projection, stats=()):
    """Blocks are lists of columns' cells."""
    return {
        "columns": [{"name": f, "type": t} for f, t in columns],
        "blocks": [{"rows": len(b[0]) if b else 0, "values": b} for b in blocks],
        "stats": [{"path": p, "stat": s, "values": v} for p, s, v in stats],
        "filter": filter_bytes.hex(),
        "projection": projection.hex(),
    }


