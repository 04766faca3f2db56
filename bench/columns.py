#!/usr/bin/env python3
"""Times the kernels of columns, and those of words of bits, over 1,000,000 rows beside plain C loops, and tells the bytes of a row.

usage: bench/columns.py         (first build the program: cd crates/vx_bench && rt run)

The loops are those of bench/columns.c, built by `cc -O2`, over the layout that columns aim at: numbers of i64 in eight bytes, truths in
two bits. Each kernel is called a hundred times in each of three runs, in turn with its loop; the least time of each counts. Where the
answers differ it ends. A constant, the taking of a field (of structs made of columns, and of structs that come in as values) and the
masking of structs have no loop over rows: beside theirs stands the time over 1,000 rows. The field of masked structs shares their
numbers, and has words of validity of its own.

The bytes of a row are those of the answer: how much the peak memory grows where more answers are kept, or more words made. At the end
it says how many of the aims are met.
"""
import os
import subprocess
import sys
import tempfile

HERE = os.path.dirname(os.path.dirname(os.path.abspath(__file__)))
PROGRAM = os.path.join(HERE, "crates", "vx_bench", "out", "vx_bench")
ROWS, TIMES, RUNS = 1_000_000, 100, 3
FEW_ROWS = 1_000
# Rows at which words take far more memory than the programs themselves, and the pairs of lists that are made of so many rows.
MANY_ROWS, PAIRS = 64_000_000, 3
LEAST_KEPT, MOST_KEPT = 32, 4096

# A kernel, beside what it is timed, the aim of the ratio and that of the bytes of a row, where there is one.
LOOP, FEW = "C", "1,000 rows"
KERNELS = [
    ("and_words", LOOP, 1.2, None),
    ("or_words", LOOP, None, None),
    ("not_words", LOOP, None, None),
    ("compare", LOOP, 1.2, 0.26),
    ("filter", LOOP, 2.0, 8.2),
    ("and_kleene", LOOP, None, 0.26),
    ("constant", FEW, 2.0, 0.01),
    ("field", FEW, 2.0, 0.01),
    ("values_field", FEW, 2.0, 0.01),
    ("mask", FEW, 2.0, 0.01),
    ("masked_field", FEW, None, 0.13),
    ("numbers", None, None, 8.2),
    ("truths", None, None, 0.26),
]


def ran(*command):
    """The lines that a command prints, each a name and a number, and its peak memory in bytes."""
    with tempfile.TemporaryFile() as taken:
        child = subprocess.Popen([str(word) for word in command], stdout=taken)
        _, status, used = os.wait4(child.pid, 0)
        child.returncode = os.waitstatus_to_exitcode(status)
        if child.returncode:
            sys.exit(f"{command[0]} ended with status {child.returncode}")
        taken.seek(0)
        lines = [line.split() for line in taken.read().decode().splitlines()]
    return [(name, int(number)) for name, number in lines], used.ru_maxrss * 1024


def least_and_answer(kernel, *command):
    """The least microseconds of a kernel's calls, and the number that tells its answer."""
    lines, _ = ran(*command)
    return min(number for name, number in lines if name == kernel) / 1e3, dict(lines)["answer"]


def timed(kernel, beside, loops):
    """The least microseconds of a kernel, and of what it is timed beside."""
    other = [PROGRAM, "kernel", f"{kernel} {FEW_ROWS} {TIMES}"] if beside == FEW else [loops, kernel, ROWS, TIMES]
    ours, theirs = [], []
    for _ in range(RUNS):
        least, answer = least_and_answer(kernel, PROGRAM, "kernel", f"{kernel} {ROWS} {TIMES}")
        other_least, other_answer = least_and_answer(kernel, *other)
        if beside == LOOP and answer != other_answer:
            sys.exit(f"{kernel}: the answers differ, {answer} and {other_answer}")
        ours.append(least)
        theirs.append(other_least)
    return min(ours), min(theirs)


def bytes_of_words(kernel):
    """The bytes of a row of truths as words, by the growth from so many rows to twice as many."""
    _, before = ran(PROGRAM, "kernel", f"{kernel} {MANY_ROWS} 1")
    _, after = ran(PROGRAM, "kernel", f"{kernel} {2 * MANY_ROWS} 1")
    return (after - before) / MANY_ROWS / PAIRS


def bytes_of_answers(kernel):
    """The bytes of a row of a kernel's answer, by the growth from so many kept answers to four times as many. A peak counts what is taken
    on the way too, and memory is taken in steps of some megabytes: so the kept answers are to take more than all else."""
    _, least = ran(PROGRAM, "keep", f"{kernel} {ROWS} 1")
    kept = LEAST_KEPT
    while True:
        few, before = ran(PROGRAM, "keep", f"{kernel} {ROWS} {kept}")
        if before > 2 * least or 4 * kept >= MOST_KEPT:
            break
        kept *= 4
    many, after = ran(PROGRAM, "keep", f"{kernel} {ROWS} {4 * kept}")
    return (after - before) / (sum(rows for _, rows in many) - sum(rows for _, rows in few))


def told(number, aim, form):
    """A number beside its aim, if there is one, and whether it is met."""
    if number is None:
        return "-"
    text = form % number
    if aim is None:
        return text
    return "%s (at most %s: %s)" % (text, aim, "met" if number <= aim else "missed")


def main():
    if not os.path.exists(PROGRAM):
        sys.exit("the program isn't built: cd crates/vx_bench && rt run")
    aims = met = 0
    print("%-12s%12s%22s  %-32s%s" % ("kernel", "us", "beside, us", "ratio", "bytes of a row"))
    with tempfile.TemporaryDirectory() as folder:
        loops = os.path.join(folder, "columns")
        subprocess.run(["cc", "-O2", "-o", loops, os.path.join(HERE, "bench", "columns.c")], check=True)
        for kernel, beside, ratio_aim, bytes_aim in KERNELS:
            ours, theirs = timed(kernel, beside, loops) if beside else (None, None)
            ratio = ours / theirs if beside else None
            size = bytes_of_words(kernel) if kernel.endswith("_words") else bytes_of_answers(kernel)
            reached = [number <= aim for number, aim in ((ratio, ratio_aim), (size, bytes_aim)) if aim is not None]
            aims, met = aims + len(reached), met + sum(reached)
            times = ("%.2f" % ours, "%s %.2f" % (beside, theirs)) if beside else ("-", "-")
            print("%-12s%12s%22s  %-32s%s" % (kernel, *times, told(ratio, ratio_aim, "%.2f"), told(size, bytes_aim, "%.3f")), flush=True)
    print("%d of %d aims are met" % (met, aims))


if __name__ == "__main__":
    main()
