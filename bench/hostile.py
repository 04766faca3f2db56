#!/usr/bin/env python3
"""Runs the built program on inputs that are legal, under the limit of 16 MiB, and as deep, wide or long as that lets them be.

usage: bench/hostile.py [NAME ..]      (first build the program: cd crates/vx && rt run)

Each input is to end with its stated answer, in under 2 seconds of processor time and 500 MB, on a stack of 8 MiB. The seconds are those
of the machine of PERFORMANCE's figures: where a plain loop takes longer now than there, so may the program, in proportion, and the first
line says how much. It prints a line for each: what came, in how many seconds and how much memory. Those that are known to miss are marked
with what is missing; where one that isn't marked misses, or a marked one doesn't any more, the exit status is 1. Answers are worked out
here, not by the program.
"""
import json
import os
import resource
import subprocess
import sys
import tempfile
import threading
import time

import tables  # noqa: F401: brings wire into reach
from wire import ROOT, TRUE, binary, contains, item, like, lit, many, merge, negated, null_test, pack, request

HERE = os.path.dirname(os.path.dirname(os.path.abspath(__file__)))
PROGRAM = os.path.join(HERE, "crates", "vx", "out", "vx")
MOST_BYTES = 16_777_216
MOST_SECONDS, MOST_MEMORY, STACK, PATIENCE = 2.0, 500_000_000, 8 << 20, 30
ADDITIONS, LOOP_SECONDS = 5_000_000, 0.25
X = item("x")


def names(n):
    return ["c%d" % i for i in range(n)]


def report(rows, skipped, columns, reads):
    lines = ["rows %d" % len(rows), *rows, "skipped " + (" ".join(map(str, skipped)) or "-")]
    lines += ["columns " + (" ".join('"%s"' % c for c in columns) or "-"), "reads %d" % reads]
    return 0, "".join(line + "\n" for line in lines)


def row(value):
    return json.dumps(value, separators=(",", ":"), ensure_ascii=False)


def joined(operator, operands):
    """Joined in halves, so that the whole is as flat as can be."""
    if len(operands) == 1:
        return operands[0]
    half = len(operands) // 2
    return binary(joined(operator, operands[:half]), operator, joined(operator, operands[half:]))


def chained(operator, operands):
    """Joined to the left, so that the whole is as deep as can be."""
    left, *others = operands
    for other in others:
        left = binary(left, operator, other)
    return left


def long_membership(n):
    """Numbers from 0 to n - 1 as a list, over a block with one of them, and one that lies above all."""
    values = lit(many("i64"), list(range(n)))
    stats = [(["x"], "min", [5, 2 * n]), (["x"], "max", [2 * n, 3 * n])]
    return request([("x", "i64")], [[[5, 2 * n]], [[2 * n, 3 * n]]], contains(values, X), X, stats), report(["5"], [1], ["x"], 1)


def long_explanation(n):
    """What a scan of the same would do."""
    asked, _ = long_membership(n)
    held = "contains([%s], $.x)" % ", ".join("%di64" % i for i in range(n))
    outside = ["(($.x_max < %di64) or ($.x_min > %di64))" % (i, i) for i in range(n)]
    pruning = "(" * (n - 1) + outside[0] + "".join(" and %s)" % test for test in outside[1:])
    lines = ["filter " + held, "pruning " + pruning, 'required "x_min" "x_max"', "parts root: $.x.x_0 {x: pack(x_0: %s)}" % held]
    lines += ["projection $.x", "parts root: $.x.x_0 {x: pack(x_0: $.x)}"]
    return asked, (0, "".join(line + "\n" for line in lines))


def long_pattern(end, ignores_case):
    texts = [["a" * 5_000_000], ["%" + "a" * 2_500_000 + "b" + end]]
    matched = like(item("t"), item("p"), ignores_case=ignores_case)
    return request([("t", "utf8"), ("p", "utf8")], [texts], matched, item("t")), report([], [], ["t", "p"], 2)


def many_rows_in_a_long_list():
    values = lit(many("i8"), [i % 100 for i in range(1_800_000)])
    return request([("x", "i8")], [[[101] * 1_000_000]], contains(values, X), X), report([], [], ["x"], 1)


def blocks_without_rows():
    above = [binary(X, ">", lit("i64", n)) for n in range(800)]
    return request([("x", "i64")], [[[]]] * 400_000, joined("and", above), X), report([], [], ["x"], 400_000)


def tests_of_the_row():
    tests = [null_test(ROOT)] * 1_365
    columns = names(1_024)
    return request([(c, "i8") for c in columns], [[[1]] * 1_024], joined("or", tests), item("c0")), report([], [], columns, 1_024)


def packed_rows():
    columns = names(1_000)
    packed = pack(*((c, ROOT) for c in columns))
    whole = {c: 1 for c in columns}
    return request([(c, "i8") for c in columns], [[[1]] * 1_000], TRUE, packed), report([row({c: whole for c in columns})], [], columns, 1_000)


def statistic_a_field():
    fields = names(100_000)
    wide = {"struct": [{"name": f, "type": "u8"} for f in fields], "nullable": False}
    stats = [(["s", f], "min", []) for f in fields]
    return request([("s", wide)], [], TRUE, item("c0", item("s")), stats), report([], [], [], 0)


def short_names(n):
    """Names of at most four digits to the base 36."""
    digits = "0123456789abcdefghijklmnopqrstuvwxyz"
    places = ("%s%s%s%s" % (a, b, c, d) for a in digits for b in digits for c in digits for d in digits)
    return [name for name, _ in zip(places, range(n))]


def merged_names():
    fields = short_names(400_000)
    wide = {"struct": [{"name": f, "type": "u8?"} for f in fields], "nullable": True}
    null = lit(wide, None)
    return request([("x", "i8")], [[[1]]], TRUE, merge(null, null)), report([row({f: None for f in fields})], [], [], 0)


def many_narrow_blocks():
    columns = names(1_024)
    whole = row({c: 1 for c in columns})
    return request([(c, "i8") for c in columns], [[[1]] * 1_024] * 1_500, TRUE, ROOT), report([whole] * 1_500, [], columns, 1_500 * 1_024)


def objects_as_blocks():
    asked = {"columns": [], "blocks": [{"": 0}] * 1_500_000, "stats": [], "filter": "", "projection": ""}
    return asked, (3, "error: BadRequest blocks\n")


def nested_negations():
    """As deep as the wire form goes."""
    nested = TRUE
    for _ in range(254):
        nested = negated(nested)
    return request([("x", "i8")], [[[1]]], nested, X), report(["1"], [], ["x"], 1)


def long_filter():
    """Conjuncts to the left, as many as a text may hold."""
    above = [binary(X, ">", lit("i8", 0))] * 250
    return request([("x", "i8")], [[[1]]], chained("and", above), X), report(["1"], [], ["x"], 1)


def one_text():
    return request([("t", "utf8")], [[["a" * 15_000_000]]], like(item("t"), "b%"), item("t")), report([], [], ["t"], 1)


INPUTS = {
    "a list of 10,000 numbers, pruned": ("scan", lambda: long_membership(10_000), None),
    "a list of 500,000 numbers, pruned": ("scan", lambda: long_membership(500_000), None),
    "a list of 500,000 numbers, explained": ("explain", lambda: long_explanation(500_000), None),
    "a long text like a long pattern": ("scan", lambda: long_pattern("", False), None),
    "a long text with a long part": ("scan", lambda: long_pattern("%", False), None),
    "the same without regard to case": ("scan", lambda: long_pattern("%", True), None),
    "1,000,000 rows in a list of 1,800,000": ("scan", many_rows_in_a_long_list, None),
    "400,000 blocks without rows": ("scan", blocks_without_rows, "a request is read as a tree of values"),
    "1,365 tests of the row": ("scan", tests_of_the_row, "each reads each column as a part of its own"),
    "1,000 rows in a pack": ("scan", packed_rows, "each reads each column as a part of its own"),
    "100,000 fields with a statistic each": ("scan", statistic_a_field, None),
    "a merge of 400,000 names": ("scan", merged_names, None),
    "1,500 blocks of 1,024 columns": ("scan", many_narrow_blocks, "each block types its parts again"),
    "1,500,000 objects as blocks": ("scan", objects_as_blocks, "a request is read as a tree of values"),
    "254 nested negations": ("scan", nested_negations, None),
    "250 conjuncts": ("scan", long_filter, None),
    "one text of 15,000,000 bytes": ("scan", one_text, None),
}


def slowness():
    """How many times as long this machine takes now as the one of PERFORMANCE's figures, at least once."""
    begun, total = time.process_time(), 0
    for number in range(ADDITIONS):
        total += number
    return max(1.0, (time.process_time() - begun) / LOOP_SECONDS)


def limited():
    resource.setrlimit(resource.RLIMIT_STACK, (STACK, STACK))


def run(word, given):
    """The exit status (a signal's number below 0), what was printed, seconds of processor time, and the peak memory in bytes."""
    with tempfile.NamedTemporaryFile() as file, tempfile.TemporaryFile() as taken:
        file.write(given)
        file.flush()
        with open(file.name, "rb") as source:
            child = subprocess.Popen([PROGRAM, word], stdin=source, stdout=taken, preexec_fn=limited)
            timer = threading.Timer(PATIENCE, child.kill)
            timer.start()
            _, status, used = os.wait4(child.pid, 0)
            timer.cancel()
        child.returncode = os.waitstatus_to_exitcode(status)
        taken.seek(0)
        return child.returncode, taken.read().decode(), used.ru_utime + used.ru_stime, used.ru_maxrss * 1024


def main():
    if not os.path.exists(PROGRAM):
        sys.exit("the program isn't built: cd crates/vx && rt run")
    wrong, slower = 0, slowness()
    most_seconds = MOST_SECONDS * slower
    print(f"this machine takes {slower:.1f} times as long: each input has {most_seconds:.1f} s")
    for name in sys.argv[1:] or INPUTS:
        word, make, missing = INPUTS[name]
        asked, (want, text) = make()
        given = json.dumps(asked, separators=(",", ":")).encode()
        if len(given) > MOST_BYTES:
            sys.exit(f"{name}: {len(given)} bytes")
        status, printed, seconds, memory = run(word, given)
        right = status == want and printed == text
        met = right and seconds < most_seconds and memory < MOST_MEMORY
        came = "as stated" if right else f"signal {-status}" if status < 0 else f"exit status {status}, another answer"
        told = "" if met and not missing else " (missed)" if not met and not missing else f" (known: {missing})" if not met else " (isn't missed any more)"
        wrong += met == bool(missing)
        print(f"{name}, {len(given)} bytes: {came}, {seconds:.2f} s, {memory / 1e6:.0f} MB{told}", flush=True)
    sys.exit(1 if wrong else 0)


if __name__ == "__main__":
    main()
