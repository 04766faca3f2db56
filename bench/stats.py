#!/usr/bin/env python3
"""Times the building of the statistics of a table of 1,000,000 i64 in 1,000 blocks beside a plain C loop over one array.

usage: bench/stats.py           (first build the program: cd crates/vx_bench && rt run)

The loop is `build_stats` of bench/columns.c, built by `cc -O2`: the least and the greatest number of each block, and its count of nulls by
the words of validity. Each is called a hundred times in each of three runs, in turn; the least time of each counts. Where the answers, the
sums of the statistics, differ it ends. It prints the microseconds of both and their ratio, beside the aim.
"""
import os
import subprocess
import sys
import tempfile

from columns import HERE, LOOP, PROGRAM, timed, told

KERNEL, AIM = "build_stats", 1.5


def main():
    if not os.path.exists(PROGRAM):
        sys.exit("the program isn't built: cd crates/vx_bench && rt run")
    with tempfile.TemporaryDirectory() as folder:
        loops = os.path.join(folder, "columns")
        subprocess.run(["cc", "-O2", "-o", loops, os.path.join(HERE, "bench", "columns.c")], check=True)
        ours, theirs = timed(KERNEL, LOOP, loops)
    print("%s %.2f us, %s %.2f us, ratio %s" % (KERNEL, ours, LOOP, theirs, told(ours / theirs, AIM, "%.2f")))


if __name__ == "__main__":
    main()
