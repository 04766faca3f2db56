#!/usr/bin/env python3
"""Answers statements over a folder of block files by 1, 2 and 4 worker processes of a Dask cluster on this machine, and prints the times.

usage: bench/many.py [FILES [ROWS]]      (80 files of 1,000,000 rows unless given; first build the program: cd crates/vx && rt run, and install python3-distributed)

For each statement and number of workers: the seconds from the first call to the last row, how near that is to the time of one worker cut by their number, and
which share of it is none of the program's: the start of the processes, the transport of the rows and their writing. The start of the cluster is apart. Each
answer is held against that of the statement over each file by the program alone, in turn.
"""
import os
import subprocess
import sys
import tempfile
import time

if not sys.executable.startswith("/usr/bin/"):
    os.execv("/usr/bin/python3", ["/usr/bin/python3"] + sys.argv)

HERE = os.path.dirname(os.path.dirname(os.path.abspath(__file__)))
sys.path.insert(0, os.path.join(HERE, "python"))
import folders  # noqa: E402
import vx_dask  # noqa: E402

STATEMENTS = [
    "SELECT id, price FROM '%s' WHERE price = 77 AND sold",
    "SELECT id, city FROM '%s' WHERE small < 10",
    "SELECT id, amount FROM '%s' ORDER BY amount DESC LIMIT 100",
]


def alone(folder, statement):
    """The seconds that the program takes over each file in turn, and its rows."""
    begun, rows = time.monotonic(), 0
    for file in sorted(os.listdir(folder)):
        ran = subprocess.run([vx_dask.PROGRAM, "sql", statement % (folder + file)], stdin=subprocess.DEVNULL, stdout=subprocess.PIPE, check=True)
        rows += ran.stdout.count(b"\n")
    return time.monotonic() - begun, rows


def main():
    from distributed import Client, LocalCluster

    files, rows = [int(word) for word in (sys.argv[1:] + ["80", "1000000"][len(sys.argv) - 1 :])]
    with tempfile.TemporaryDirectory() as held:
        folder = os.path.join(held, "items/")
        folders.make(folder, files, rows)
        print("%d files of %d rows, %.1f GB" % (files, rows, sum(os.path.getsize(folder + file) for file in os.listdir(folder)) / 1e9))
        serial = [alone(folder, statement) for statement in STATEMENTS]
        first = {}
        for workers in (1, 2, 4):
            begun = time.monotonic()
            with LocalCluster(n_workers=workers, threads_per_worker=1, processes=True, dashboard_address=None) as local, Client(local) as client:
                print("%d workers: started in %.1f s" % (workers, time.monotonic() - begun))
                for statement, (taken, wanted) in zip(STATEMENTS, serial):
                    begun = time.monotonic()
                    found = sum(1 for line in vx_dask.rows(client, statement % folder))
                    seconds = time.monotonic() - begun
                    if found != wanted and "ORDER" not in statement:
                        sys.exit("another answer: %d rows of %d" % (found, wanted))
                    first.setdefault(statement, seconds)
                    print("  %s: %d rows, %.2f s, %.2f of the time of one worker (%.2f at best), the program alone %.2f s, other %.0f %%" % (
                        statement % "items/", found, seconds, seconds / first[statement], 1 / workers, taken, 100 * max(0, seconds * workers - taken) / (seconds * workers)))


if __name__ == "__main__":
    main()
