"""What is told of a file that is read whole, and of one that is scanned."""
import json

from reader import DAMAGED, opened


def shown(value):
    return json.dumps(value, ensure_ascii=False, separators=(",", ":"))


def pairs_text(pairs):
    return "".join(" %d %s" % pair for pair in pairs)


def reads_text(reads, failed):
    """Reads that succeeded; the last one that failed and the first damaged one, where only damage fails."""
    return "reads%s / failed%s / damage%s" % (pairs_text(reads), pairs_text(failed[-1:]), pairs_text(failed[:1]))


def read_whole(given):
    """Each column of each block in order, and then the reads; or why the bytes are no file."""
    file = opened(given)
    if isinstance(file, str):
        return file + ", faults 0"
    names, _, _, blocks = file
    told, reads, failed = "", [], []
    for number, block in enumerate(blocks):
        for name, values in zip(names, block):
            (failed if values is DAMAGED else reads).append((number, name))
            told += "%d %s:%s / " % (number, name, " Failed" if values is DAMAGED else "".join(" " + shown(v) for v in values))
    return told + reads_text(reads, failed)


def scan(given, name, least, *projected):
    """The scan of a file for the rows whose number in a column is above another, and of these the one column, or a pack of more."""
    file = opened(given)
    if isinstance(file, str):
        return file + ", faults 0"
    names, _, stats, blocks = file
    greatest = next((values for path, stat, values in stats if (path, stat) == ([name], "max")), [None] * len(blocks))
    rows, skipped, reads = [], [], []
    for number, block in enumerate(blocks):
        if greatest[number] is not None and greatest[number] <= least:
            skipped.append(number)
            continue
        column = dict(zip(names, block))
        asked = [name]
        if column[name] is not DAMAGED:
            kept = [i for i, value in enumerate(column[name]) if value is not None and value > least]
            asked += [other for other in names if kept and other in projected and other != name]
        for other in asked:
            if column[other] is DAMAGED:
                return "StoreFault / " + reads_text(reads, [(number, other)])
            reads.append((number, other))
        for i in kept:
            row = {other: column[other][i] for other in projected}
            rows.append(row if projected[1:] else row[projected[0]])
    return "rows%s / skipped%s / %s" % ("".join(" " + shown(row) for row in rows), "".join(" %d" % n for n in skipped), reads_text(reads, []))
