#!/usr/bin/env python3
"""Runs the built program with each call that takes memory refused in turn, each read and write failing in turn, and all of them cut.

usage: bench/failing.py      (first build the program: cd crates/vx && rt run)

Over the first request, the catalog and its explanation. Where memory is refused the answer is NoMemory or the request's own, and the reads
of the store, which `vx_bench reads` prints (build it too: cd crates/vx_bench && rt run), are the first of the request's; where a read fails, ReadFault; where it is cut, the request's own; where a write fails, exit status 7 and a first part of the request's answer;
where it is cut, the request's own. The calls are refused by a small library that is loaded before the C library (bench/failing.c, built by cc).
It prints how many runs there were of each, and each that ended otherwise.
"""
import os
import subprocess
import sys
import tempfile

HERE = os.path.dirname(os.path.dirname(os.path.abspath(__file__)))
PROGRAM = os.path.join(HERE, "crates", "vx", "out", "vx")
BENCH = os.path.join(HERE, "crates", "vx_bench", "out", "vx_bench")
REQUESTS = [("scan", "first"), ("scan", "catalog"), ("explain", "catalog")]
NO_MEMORY = (8, b"error: NoMemory\n")


def refuse_in_turn(library, name):
    """Runs the scan of an example over a store that is kept, with each call that takes memory refused in turn: how many runs, and how many ended wrongly."""
    path = os.path.join(HERE, "examples", name + ".json")

    def reads(fail):
        ran = subprocess.run([BENCH, "reads", path], stdout=subprocess.PIPE, stderr=subprocess.DEVNULL,
                             env={"LD_PRELOAD": library, "FAIL": fail}, timeout=60)
        return ran.returncode, ran.stdout.decode().splitlines()

    own = reads("none 0")
    if own[0] != 0 or own[1][:1] != ["report"]:
        sys.exit(f"reads {name}: {own}")
    at = failed = 0
    while True:
        at += 1
        status, lines = reads(f"malloc {at}")
        if (status, lines) == own and all(reads(f"malloc {at + more}") == own for more in (1, 50, 1000)):
            return at - 1, failed
        # without memory before there is a store, and while the answer is printed, nothing more is printed
        told = lines[1:] if lines[:1] in (["NoMemory"], ["report"]) else []
        if lines[:1] not in ([], ["NoMemory"], ["report"]) or told != own[1][1:len(told) + 1]:
            failed += 1
            print(f"reads {name}, malloc {at}: exit status {status}, {lines}", flush=True)


def main():
    if not os.path.exists(BENCH):
        sys.exit("the program that prints the reads isn't built: cd crates/vx_bench && rt run")
    if not os.path.exists(PROGRAM):
        sys.exit("the program isn't built: cd crates/vx && rt run")
    failed = 0
    with tempfile.TemporaryDirectory() as folder:
        library = os.path.join(folder, "failing.so")
        subprocess.run(["cc", "-O1", "-shared", "-fPIC", "-o", library, os.path.join(HERE, "bench", "failing.c"), "-ldl"], check=True)
        for word, name in REQUESTS:
            with open(os.path.join(HERE, "examples", name + ".json"), "rb") as file:
                given = file.read()

            def run(fail):
                ran = subprocess.run([PROGRAM, word], input=given, stdout=subprocess.PIPE, stderr=subprocess.DEVNULL,
                                     env={"LD_PRELOAD": library, "FAIL": fail}, timeout=60)
                return ran.returncode, ran.stdout

            own = run("none 0")
            if own[0] != 0:
                sys.exit(f"{word} {name}: exit status {own[0]}")
            may = {
                "malloc": lambda a: a in (own, NO_MEMORY) or a == (8, b""),
                "read": lambda a: a == (6, b"error: ReadFault\n"),
                "cut-read": lambda a: a == own,
                "write": lambda a: a[0] == 7 and own[1].startswith(a[1]),
                "cut-write": lambda a: a == own,
            }
            for kind, is_right in may.items():
                at, refused, most = 1, 0, 64 if kind.startswith("cut") else 1_000_000
                while at <= most:
                    answer = run(f"{kind} {at}")
                    # a call of this number was never made: the answer is the request's own from here on
                    if answer == own and not kind.startswith("cut"):
                        if run(f"{kind} {at + 1}") == own and run(f"{kind} {at + 50}") == own and run(f"{kind} {at + 1000}") == own:
                            break
                    elif not is_right(answer):
                        failed += 1
                        print(f"{word} {name}, {kind} {at}: exit status {answer[0]}, {answer[1][:80]!r}", flush=True)
                    refused += 1
                    at += 1
                print(f"{word} {name}: {refused} runs of {kind}", flush=True)
        for name in ("first", "catalog"):
            runs, wrong = refuse_in_turn(library, name)
            failed += wrong
            print(f"reads {name}: {runs} runs of malloc", flush=True)
    sys.exit(1 if failed else 0)


if __name__ == "__main__":
    main()
