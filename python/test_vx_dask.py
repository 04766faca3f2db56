#!/usr/bin/python3
"""Tests of vx_dask.py on a cluster of four worker processes of this machine: /usr/bin/python3 python/test_vx_dask.py

The program has to be built: (cd crates/vx && rt run). Answers over a folder of five files are held against those of `vx sql` over one file of the same blocks.
"""
import json
import os
import signal
import stat
import subprocess
import sys
import tempfile
import threading
import time
import unittest

sys.path.insert(0, os.path.dirname(os.path.abspath(__file__)))
import vx_dask  # noqa: E402
from vx_dask import PROGRAM, Refused, Statement, rows  # noqa: E402

COMMAND = ["/usr/bin/python3", os.path.join(os.path.dirname(os.path.abspath(__file__)), "vx_dask.py")]
FILES, BLOCKS, ROWS = 5, 4, 1000
COLUMNS = [{"name": "id", "type": "i64"}, {"name": "price", "type": "i32?"}, {"name": "city", "type": "utf8"}, {"name": "small", "type": "u8"}]
CITIES = ["Oslo", "Rome", 'a ","_key0": b', "Zürich"]


def block(number):
    """The cells of a block, column by column: prices fall and rise, and some are null; the third file's last block alone has smalls over 200."""
    ids = range(number * ROWS, (number + 1) * ROWS)
    prices = [None if i % 97 == 0 else (i * 7919) % 1009 - 500 for i in ids]
    smalls = [250 if number == 3 * BLOCKS - 1 and i % ROWS == 17 else i % 100 for i in ids]
    return {"rows": ROWS, "values": [list(ids), prices, [CITIES[i % 4] for i in ids], smalls]}


def write(path, blocks):
    table = json.dumps({"columns": COLUMNS, "blocks": blocks}).encode()
    subprocess.run([PROGRAM, "write", path], input=table, check=True)


def sql(statement):
    ran = subprocess.run([PROGRAM, "sql", statement], stdin=subprocess.DEVNULL, stdout=subprocess.PIPE, stderr=subprocess.PIPE)
    return ran.returncode, ran.stdout


def script(path, text):
    with open(path, "w") as out:
        out.write("#!/bin/sh\n" + text)
    os.chmod(path, os.stat(path).st_mode | stat.S_IXUSR)
    return path


class Clustered(unittest.TestCase):
    @classmethod
    def setUpClass(cls):
        from distributed import Client, LocalCluster

        cls.held = tempfile.TemporaryDirectory()
        cls.folder = os.path.join(cls.held.name, "items/")
        os.mkdir(cls.folder)
        cls.whole = os.path.join(cls.held.name, "whole.vxb")
        blocks = [block(number) for number in range(FILES * BLOCKS)]
        for file in range(FILES):
            write("%s%02d.vxb" % (cls.folder, file), blocks[file * BLOCKS : (file + 1) * BLOCKS])
        write(cls.whole, blocks)
        cls.cluster = LocalCluster(n_workers=4, threads_per_worker=1, processes=True, dashboard_address=None)
        cls.client = Client(cls.cluster)

    @classmethod
    def tearDownClass(cls):
        cls.client.close()
        cls.cluster.close()
        cls.held.cleanup()

    def over(self, text):
        return text % self.folder, text % self.whole

    def path(self, name):
        return os.path.join(self.held.name, name)


class Answers(Clustered):
    def test_answers_are_those_of_one_machine(self):
        for text in [
            "SELECT * FROM '%s'",
            "SELECT id, city FROM '%s' WHERE price > 10 AND city IN ('Rome', 'Oslo')",
            "SELECT id, price + 1 AS dearer -- FROM nowhere\n FROM '%s' WHERE id >= 7100 AND id < 12003",
            "SELECT id FROM '%s' WHERE price IS NULL",
            "SELECT id FROM '%s' WHERE id < 0",
            "SELECT id FROM '%s' LIMIT 1234",
            "SELECT id FROM '%s' LIMIT 0",
            "SELECT * FROM '%s' ORDER BY price DESC LIMIT 700",
            "SELECT id FROM '%s' ORDER BY price LIMIT 19990;",
            "SELECT price FROM '%s' WHERE id > 4000 ORDER BY city LIMIT 9000",
            "SELECT id, city FROM '%s' ORDER BY \"city\" DESC LIMIT 3000",
        ]:
            here, there = self.over(text)
            status, wanted = sql(there)
            self.assertEqual(0, status, text)
            for run_rows in (1, 2500, 10**6):
                self.assertEqual(wanted, b"".join(rows(self.client, here, run_rows=run_rows)), text)

    def test_skipped_blocks_are_no_runs(self):
        runs = vx_dask.planned(PROGRAM, Statement("SELECT id FROM '%s' WHERE id >= 7100 AND id < 12003" % self.folder), 1)
        self.assertEqual([("01.vxb", 3, 4)] + [("02.vxb", i, i + 1) for i in range(4)] + [("03.vxb", 0, 1)],
                         [(os.path.basename(run.file), run.first, run.last) for run in runs])

    def test_an_overflow_in_the_third_run_of_five(self):
        here, there = self.over("SELECT id, small + 10 AS more FROM '%s'")
        status, wanted = sql(there)
        self.assertEqual(5, status)
        found = []
        with self.assertRaises(Refused) as refused:
            for line in rows(self.client, here, run_rows=BLOCKS * ROWS):
                found.append(line)
        self.assertEqual(wanted, b"".join(found))
        self.assertEqual((5, self.folder + "02.vxb", 3), (refused.exception.status, refused.exception.file, refused.exception.block))

    def test_a_limit_that_ends_before_a_refusal(self):
        text = "SELECT id, small + 10 AS more FROM '%s' LIMIT 11000"
        here, there = self.over(text)
        status, wanted = sql(there)
        self.assertEqual(0, status)
        self.assertEqual(wanted, b"".join(rows(self.client, here, run_rows=BLOCKS * ROWS)))

    def test_refusals_of_the_statement(self):
        for text, status in [("SELECT cost FROM '%s'", 4), ("SELECT id FROM '%s' ORDER BY id", 4), ("SELECT DISTINCT id FROM '%s'", 4), ("SELECT 1", 4)]:
            with self.assertRaises(Refused) as refused:
                list(rows(self.client, text.replace("%s", self.folder)))
            self.assertEqual(status, refused.exception.status, text)

    def test_rows_are_handed_out_while_later_runs_work(self):
        going = self.path("going")
        slow = script(self.path("slow"), 'case "$*" in *04.vxb*--blocks*) while [ ! -e %s ]; do sleep 0.1; done ;; esac\nexec %s "$@"\n' % (going, PROGRAM))
        timer = threading.Timer(60, lambda: open(going, "w").close())
        timer.start()
        given = rows(self.client, "SELECT id FROM '%s'" % self.folder, vx=slow, run_rows=BLOCKS * ROWS)
        first = [json.loads(next(given))["id"] for _ in range(10_000)]
        self.assertFalse(os.path.exists(going))
        open(going, "w").close()
        timer.cancel()
        self.assertEqual(list(range(20_000)), first + [json.loads(line)["id"] for line in given])

    def test_a_worker_that_is_killed(self):
        slow = script(self.path("sleeping"), 'case "$*" in *--blocks*) sleep 1 ;; esac\nexec %s "$@"\n' % PROGRAM)
        given = rows(self.client, "SELECT id FROM '%s'" % self.folder, vx=slow, run_rows=ROWS)
        found = [next(given)]
        pids = self.client.run(os.getpid)
        os.kill(next(iter(pids.values())), signal.SIGKILL)
        found += given
        self.assertEqual(list(range(20_000)), [json.loads(line)["id"] for line in found])


class Faults(Clustered):
    def test_a_spoilt_file(self):
        folder = self.path("spoilt/")
        os.mkdir(folder)
        for name in os.listdir(self.folder):
            with open(self.folder + name, "rb") as file, open(folder + name, "wb") as out:
                held = file.read()
                # the last value of the third file is a u8 behind the byte 1 that says that it isn't null
                out.write(held[:-2] + b"\7" + held[-1:] if name == "02.vxb" else held)
        found = []
        with self.assertRaises(Refused) as refused:
            for line in rows(self.client, "SELECT id, small FROM '%s'" % folder, run_rows=BLOCKS * ROWS):
                found.append(json.loads(line)["id"])
        self.assertEqual(list(range(11_000)), found)
        self.assertEqual((3, folder + "02.vxb", 3), (refused.exception.status, refused.exception.file, refused.exception.block))

    def test_a_file_that_is_none(self):
        folder = self.path("texts/")
        os.mkdir(folder)
        write(folder + "a.vxb", [block(0)])
        with open(folder + "b.vxb", "w") as out:
            out.write("no block file")
        with self.assertRaises(Refused) as refused:
            list(rows(self.client, "SELECT id FROM '%s'" % folder))
        self.assertEqual((3, folder + "b.vxb"), (refused.exception.status, refused.exception.file))

    def test_an_empty_folder_and_none(self):
        os.mkdir(self.path("empty"))
        for name, status in [("empty/", 3), ("gone/", 6)]:
            with self.assertRaises(Refused) as refused:
                list(rows(self.client, "SELECT id FROM '%s'" % self.path(name)))
            self.assertEqual(status, refused.exception.status)


class Commands(Clustered):
    def test_the_command(self):
        here, there = self.over("SELECT id, price FROM '%s' WHERE id > 5990 ORDER BY price DESC LIMIT 5")
        ran = subprocess.run(COMMAND + [here, "--workers", "2"], stdout=subprocess.PIPE, timeout=120)
        self.assertEqual((0, sql(there)[1]), (ran.returncode, ran.stdout))

    def test_a_scheduler_of_a_cluster(self):
        here, there = self.over("SELECT id FROM '%s' WHERE id < 3500")
        ran = subprocess.run(COMMAND + [here, "--scheduler", self.cluster.scheduler_address], stdout=subprocess.PIPE, timeout=120)
        self.assertEqual((0, sql(there)[1]), (ran.returncode, ran.stdout))

    def test_a_scheduler_that_is_not_there(self):
        begun = time.monotonic()
        ran = subprocess.run(COMMAND + ["SELECT id FROM '%s'" % self.folder, "--scheduler", "tcp://127.0.0.1:9"], stdout=subprocess.PIPE, stderr=subprocess.PIPE, timeout=120)
        self.assertEqual((6, b""), (ran.returncode, ran.stdout))
        self.assertIn(b"error: the scheduler tcp://127.0.0.1:9 doesn't answer", ran.stderr)
        self.assertLess(time.monotonic() - begun, 60)

    def test_the_bar(self):
        ran = subprocess.run(COMMAND + ["SELECT id FROM '%s' LIMIT 1" % self.folder, "--workers", "1", "--progress"], stdout=subprocess.PIPE, stderr=subprocess.PIPE, timeout=120)
        self.assertEqual((0, b'{"id":0}\n'), (ran.returncode, ran.stdout))
        self.assertIn(b"% Completed", ran.stderr)


class Statements(unittest.TestCase):
    def test_the_table_and_the_key(self):
        statement = Statement("select a, 'FROM x' AS b /* FROM y */ from [it's] where c = 'ORDER BY d' order by \"e f\" desc limit 7 ;")
        self.assertEqual(("it's", '"e f"', True, 7), (statement.table.value(), statement.key.text, statement.descending, statement.limit))
        self.assertEqual("select a, 'FROM x' AS b, \"e f\" AS \"k\" /* FROM y */ from 'o''b/' where c = 'ORDER BY d' order by \"e f\" desc limit 7 ;", statement.over("o'b/", "k"))

    def test_paths(self):
        for name, path in [("items", "items.vxb"), ("'items.vxb'", "items.vxb"), ("'./items'", "./items"), ("`a/`", "a/")]:
            self.assertEqual(path, Statement("SELECT * FROM %s" % name).path())

    def test_keys_are_left_out(self):
        row, key = vx_dask.without_key(b'{"city":"a \\",\\"_key0\\": b","_key0":"\\"_key0\\":1"}', "_key0")
        self.assertEqual((b'{"city":"a \\",\\"_key0\\": b"}', '"_key0":1'), (row, key))

    def test_order(self):
        held = [(b"a", 3), (b"b", None), (b"c", 1), (b"d", 3), (b"e", None)]
        self.assertEqual([b"a", b"d", b"c", b"b", b"e"], [row for row, key in vx_dask.ordered(held, True)])
        self.assertEqual([b"c", b"a", b"d", b"b", b"e"], [row for row, key in vx_dask.ordered(held, False)])


if __name__ == "__main__":
    unittest.main()
