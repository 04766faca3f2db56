"""What `top` answers where the filter means true at each row, by plain loops after docs/FORMATS.md: a stable sort, and a bound that goes from block to block."""


def in_order(rows, descending):
    """Rows, each a key and what is told of it, in the order of their keys: null behind all others, rows of one key in their own order."""
    known = sorted((row for row in rows if row[0] is not None), key=lambda row: row[0], reverse=descending)
    return known + [row for row in rows if row[0] is None]


def stands_before(descending, key, bound):
    return key is not None and (key > bound if descending else key < bound)


def answer(columns, key_column, told_column, blocks, descending, count):
    """The report of the first rows of blocks by a column: the columns of the table by name, the key among them and the one that is told of a row. The
    statistics are the bounds of the keys that aren't null."""
    found, skipped, reads, asked = [], [], 0, set()
    for number, block in enumerate(blocks):
        first = in_order(found, descending)[:count]
        bound = first[-1][0] if count and len(found) >= count else None
        keys = [key for key, _ in block if key is not None]
        best = (max(keys) if descending else min(keys)) if keys else None
        if count == 0 or (bound is not None and best is not None and not stands_before(descending, best, bound)):
            skipped.append(number)
            continue
        matching = [row for row in block if bound is None or stands_before(descending, row[0], bound)]
        read = {key_column, told_column} if matching else {key_column}
        reads, asked, found = reads + len(read), asked | read, found + matching
    rows = in_order(found, descending)[:count]
    # the first rows of the blocks that are kept are those of all
    assert rows == in_order([row for block in blocks for row in block], descending)[:count]
    lines = ["rows %d" % len(rows), *(told for _, told in rows)]
    lines.append("skipped %s" % (" ".join(str(n) for n in skipped) or "-"))
    lines.append("columns %s" % (" ".join('"%s"' % c for c in columns if c in asked) or "-"))
    lines.append("reads %d" % reads)
    return " / ".join(lines)


def generated(rows):
    """The rows of the generated table in its blocks, each the number v and the number id, and the statistics of both columns."""
    numbers = [(None if i % 10 == 9 else (37 * i + 11) % 100, i) for i in range(rows)]
    blocks = [numbers[start : start + 64] for start in range(0, rows, 64)]
    stats = []
    for place, name in ((1, "id"), (0, "v")):
        known = [[row[place] for row in block if row[place] is not None] for block in blocks]
        stats.append(([name], "min", [min(values) for values in known]))
        stats.append(([name], "max", [max(values) for values in known]))
    return blocks, stats
