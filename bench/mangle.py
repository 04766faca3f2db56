#!/usr/bin/env python3
"""Runs the built program on requests and words in which random bytes are changed.

usage: bench/mangle.py N SEED      (first build the program: cd crates/vx && rt run)

Each input is one of the tables of cases, of the examples or of the generators, with one to four changes: a byte changed, taken out, put
in or said twice, a run exchanged with another, a number made another one. No run may end by a signal, outside the stated exit statuses,
with another line than its status tells, or take more than ten seconds. It prints each that does, and how often each status came.
"""
import collections
import json
import os
import random
import subprocess
import sys
from concurrent.futures import ThreadPoolExecutor

import tables  # noqa: F401: brings the tables into reach

HERE = os.path.dirname(os.path.dirname(os.path.abspath(__file__)))
PROGRAM = os.path.join(HERE, "crates", "vx", "out", "vx")
DATA = os.path.join(HERE, "crates", "vx_cases", "data")
NAMES = {
    2: ["Usage"],
    3: ["InputTooLong", "BadJson", "BadRequest", "BadHex", "BadTable"],
    4: ["BadWire", "TooDeep", "TooManyNodes", "UnknownExpr", "BadMetadata", "WrongChildren", "NotStruct", "NullableSelect", "UnknownField",
        "DuplicateField", "TypeMismatch", "FilterNotBool", "TooLong", "BadToken", "TooManyTokens", "BadQuery", "BadValue", "NotSerializable"],
    5: ["Overflow", "BadCast"],
}


def requests():
    """The requests of the worked cases and of the examples, as bytes."""
    found = []
    for name in sorted(os.listdir(DATA)):
        with open(os.path.join(DATA, name), encoding="utf-8") as file:
            groups = json.load(file)
        for group in groups:
            if "cases" not in group:
                continue
            for case in group["cases"]:
                if "input" in case:
                    found.append(case["input"].encode())
                elif "filter" in case:
                    members = {m: group[m] for m in ("columns", "blocks", "stats")}
                    whole = {**members, "filter": case["filter"], "projection": case["projection"]}
                    found.append(json.dumps(whole, ensure_ascii=False).encode())
    examples = os.path.join(HERE, "examples")
    for name in sorted(os.listdir(examples)):
        if name.endswith(".json"):
            with open(os.path.join(examples, name), "rb") as file:
                found.append(file.read())
    return [r for r in found if len(r) < 20_000]


def mangled(given, chance):
    changed = bytearray(given)
    for _ in range(chance.randint(1, 4)):
        if not changed:
            break
        at = chance.randrange(len(changed))
        way = chance.randrange(7)
        if way == 0:
            changed[at] = chance.randrange(256)
        elif way == 1:
            del changed[at]
        elif way == 2:
            changed.insert(at, chance.choice(b'{}[],:"0123456789abcdef-+.eE\\ntfu \xc3\xff\x00'))
        elif way == 3:
            end = min(len(changed), at + chance.randint(1, 40))
            changed[at:at] = changed[at:end]
        elif way == 4:
            del changed[at : at + chance.randint(1, 20)]
        elif way == 5:
            changed[at : at + 1] = chance.choice([b"null", b"true", b"[]", b"{}", b"-1", b"255", b"256", b"18446744073709551616", b"1e3", b'""', b'"x"'])
        else:
            other = chance.randrange(len(changed))
            changed[at], changed[other] = changed[other], changed[at]
    return bytes(changed)


def word_of(given, chance):
    """A word of hexadecimal digits, or of a query, changed as bytes that can be an argument."""
    word = mangled(given, chance).replace(b"\0", b"")
    return word[:100_000]


def wrong(status, printed):
    if status < 0:
        return f"signal {-status}"
    if status == 0:
        return None
    line = printed.split(b"\n")[0].decode("utf-8", "replace")
    if status not in NAMES:
        return f"exit status {status}"
    parts = line.split(" ")
    if len(parts) < 2 or parts[0] != "error:" or parts[1] not in NAMES[status]:
        return f"exit status {status} with the line {line[:80]}"
    return None


def tried(asked):
    words, given = asked
    try:
        ran = subprocess.run([PROGRAM.encode(), *words], input=given, stdout=subprocess.PIPE, timeout=10)
    except subprocess.TimeoutExpired:
        return asked, None, "ten seconds"
    return asked, ran.returncode, wrong(ran.returncode, ran.stdout)


def asked_of(number, seed, whole):
    chance = random.Random(f"{seed}:{number}")
    way = chance.randrange(8)
    given = chance.choice(whole)
    if way < 5:
        return [b"scan"], mangled(given, chance)
    if way == 5:
        return [b"explain"], mangled(given, chance)
    if way == 6:
        start = given.find(b'"projection"')
        digits = given[start:].split(b'"')[3] if start >= 0 and given[start:].count(b'"') > 3 else b"04726f6f740000"
        kind = chance.choice([[], [b"tree"], [b"query"]])
        return [b"show", *kind, word_of(digits, chance)], b""
    query = chance.choice([b"x > 10i32 and not y", b"pack(a: x, b: $.y{c, d})", b"lit(list(i32?)?, [1, null, -2])", b"between_oc(x, 1, 2) or like(t, 'a%')"])
    return [b"text", word_of(query, chance)], b""


def main():
    if not os.path.exists(PROGRAM):
        sys.exit("the program isn't built: cd crates/vx && rt run")
    if len(sys.argv) != 3:
        sys.exit(__doc__.split("\n")[2])
    runs, seed = int(sys.argv[1]), sys.argv[2]
    whole = requests()
    counts, failed = collections.Counter(), 0
    with ThreadPoolExecutor(os.cpu_count()) as pool:
        for (words, given), status, told in pool.map(tried, (asked_of(n, seed, whole) for n in range(runs))):
            counts[status] += 1
            if told:
                failed += 1
                print(f"{told}: {words} {given[:2000]!r}", flush=True)
    print(", ".join(f"{counts[s]} times {s}" for s in sorted(counts, key=str)))
    print(f"{runs - failed} of {runs} end as stated")
    sys.exit(1 if failed else 0)


if __name__ == "__main__":
    main()
