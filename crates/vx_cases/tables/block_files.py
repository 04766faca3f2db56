"""The block files of the tables of requests, by the form in docs/FORMATS.md."""
from wire import number, text, type_bytes, value_bytes

MARK = b"VXBLK001"
KINDS = ["min", "max", "null_count"]


def counted(items):
    """How many items there are, and the bytes of each."""
    return number(len(items)) + b"".join(items)


def type_at(fields, path):
    """The type that a path leads to from fields, the first one of each name."""
    name, *rest = path
    found = next(field["type"] for field in fields if field["name"] == name)
    return type_at(found["struct"], rest) if rest else found


def statistic(columns, given):
    """A statistic: its path, the byte of its kind, and its value in each block. Null is spelled alike in each type."""
    told = "u64" if given["stat"] == "null_count" else type_at(columns, given["path"])
    values = b"".join(value_bytes(told, value) for value in given["values"])
    return counted([text(name) for name in given["path"]]) + bytes([KINDS.index(given["stat"])]) + values


def block_file(request):
    """The file of the table of a request, with the statistics that the request gives."""
    columns, blocks = request["columns"], request["blocks"]
    types = [column["type"] for column in columns]
    ranges = [[b"".join(value_bytes(t, value) for value in cells) for t, cells in zip(types, block["values"])] for block in blocks]
    header = type_bytes({"struct": columns, "nullable": False})
    header += counted([number(block["rows"]) for block in blocks])
    header += counted([statistic(columns, given) for given in request["stats"]])
    header += b"".join(number(len(one)) for block in ranges for one in block)
    return MARK + number(len(header)) + header + b"".join(one for block in ranges for one in block)


def answer(request):
    """What `file` answers: two hexadecimal digits for each byte."""
    return block_file(request).hex()
