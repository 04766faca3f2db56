"""What the scan of the generated table gives, by a plain loop over its rows after docs/FORMATS.md."""


def line(rows):
    """The line of `gen` for so many rows, without its line feed."""
    half = rows // 2
    blocks = skipped = answered = total = 0
    for start in range(0, rows, 64):
        ids = range(start, min(start + 64, rows))
        numbers = {i: None if i % 10 == 9 else (37 * i + 11) % 100 for i in ids}
        known = [v for v in numbers.values() if v is not None]
        blocks += 1
        if max(ids) < half or (known and min(known) >= 50):
            skipped += 1
        for i in ids:
            if i >= half and numbers[i] is not None and numbers[i] < 50:
                answered += 1
                total += i
    return "blocks %d skipped %d rows %d sum %d" % (blocks, skipped, answered, total)
