#!/usr/bin/env python3
"""Times how the built program keeps a text of CSV as a block file, beside Python's csv with the same conversion and sqlite3's .import, where that is installed.

usage: bench/csv_texts.py [ROWS] [SEED]       (first build the program: cd crates/vx && rt run; 350,000 rows and the seed 1 where none are named)

The text has six columns: `id i64`, `price i32`, `name utf8`, `city utf8?`, `flag bool` and `day i32`; one city in eight is null, and one name in ten stands
between quotes. An input of the program has at most 16,777,216 bytes, which are about 400,000 such rows. Python reads the text by csv.reader, converts each
cell by its column's type and keeps the columns as lists; sqlite3 imports it into a table of a new file. It prints seconds of processor time (the least of
three runs), the seconds that passed in that run, the peak memory, also beside what the columns take (8 bytes an i64, 4 an i32, a bit a bool, a text its bytes
and 4 more, and a bit a row where there is null), and each time of the program beside the others'. It ends where one of them fails.
"""
import os
import random
import shutil
import subprocess
import sys
import tempfile
import time

HERE = os.path.dirname(os.path.dirname(os.path.abspath(__file__)))
PROGRAM = os.path.join(HERE, "crates", "vx", "out", "vx")
MOST = 16_777_216
NAMES = ["id", "price", "name", "city", "flag", "day"]
TYPES = "id i64, price i32, name utf8, city utf8?, flag bool, day i32"
CITIES = ["Rome", "Oslo", "Lima", "Paris", "Accra", "Quito", "Kyoto", ""]
PEER = """
import csv, sys
columns = [[], [], [], [], [], []]
add = [column.append for column in columns]
truth = {"true": True, "false": False}
with open(sys.argv[1], newline="", encoding="utf-8") as source:
    rows = csv.reader(source)
    next(rows)
    for id, price, name, city, flag, day in rows:
        add[0](int(id))
        add[1](int(price))
        add[2](name)
        add[3](city or None)
        add[4](truth[flag])
        add[5](int(day))
"""
TABLE = "CREATE TABLE t (id INTEGER, price INTEGER, name TEXT, city TEXT, flag TEXT, day INTEGER)"


def write(path, rows, seed):
    """Writes the text row by row, so that this script stays small, and answers how many bytes its columns take."""
    chance = random.Random(seed)
    texts = 0
    with open(path, "w", newline="", encoding="utf-8") as out:
        out.write(",".join(NAMES) + "\n")
        for row in range(rows):
            name = "item %d" % chance.randrange(100_000)
            if chance.randrange(10) == 0:
                name += ", new"
            city = CITIES[chance.randrange(8)]
            texts += len(name) + len(city)
            told = '"%s"' % name if "," in name else name
            flag = "true" if chance.randrange(2) else "false"
            out.write("%d,%d,%s,%s,%s,%d\n" % (row, chance.randrange(-1000, 100_000), told, city, flag, chance.randrange(18_000, 20_000)))
    return rows * (8 + 4 + 4 + 4 + 4) + texts + rows // 4


def measure(command, source, target):
    """The least processor seconds of three runs, the seconds that passed in that run, and the peak memory in bytes. Each run makes its file anew."""
    best = None
    for _ in range(3):
        if os.path.exists(target):
            os.remove(target)
        with open(source, "rb") as given:
            begun = time.monotonic()
            child = subprocess.Popen(command, stdin=given, stdout=subprocess.DEVNULL)
            _, status, used = os.wait4(child.pid, 0)
            passed = time.monotonic() - begun
        child.returncode = os.waitstatus_to_exitcode(status)
        if child.returncode != 0:
            sys.exit("status %d of %s" % (child.returncode, " ".join(command)[:100]))
        best = min(best or (1e9,), (used.ru_utime + used.ru_stime, passed, used.ru_maxrss * 1024))
    return best


def commands(source, folder):
    """What is run, by name, and the file that it makes."""
    kept = os.path.join(folder, "t.vxb")
    yield "vx, types given", [PROGRAM, "write", kept, "csv", "--types", TYPES], kept
    yield "vx, types found", [PROGRAM, "write", kept, "csv"], kept
    yield "Python's csv", [sys.executable, "-c", PEER, source], kept
    if shutil.which("sqlite3"):
        kept = os.path.join(folder, "t.sqlite")
        yield "sqlite3 .import", ["sqlite3", kept, TABLE, ".mode csv", ".import --skip 1 %s t" % source], kept


def main():
    if not os.path.exists(PROGRAM):
        sys.exit("first build the program: (cd crates/vx && rt run)")
    rows = int(sys.argv[1]) if len(sys.argv) > 1 else 350_000
    seed = int(sys.argv[2]) if len(sys.argv) > 2 else 1
    with tempfile.TemporaryDirectory() as folder:
        source = os.path.join(folder, "t.csv")
        columns = write(source, rows, seed)
        size = os.path.getsize(source)
        print("%d rows, %d bytes, %d bytes of columns" % (rows, size, columns))
        if size > MOST:
            sys.exit("the program takes at most %d bytes" % MOST)
        found = {}
        for name, command, target in commands(source, folder):
            found[name] = measure(command, source, target)
            processor, passed, peak = found[name]
            print("%-16s %6.2f s, passed %6.2f s, %5.0f MiB, %4.1f times the columns" % (name, processor, passed, peak / 2**20, peak / columns))
        for name in ["vx, types given", "vx, types found"]:
            for peer in ["Python's csv", "sqlite3 .import"]:
                if peer in found:
                    print("%s: %.2f times the time of %s" % (name, found[name][0] / found[peer][0], peer))


main()
