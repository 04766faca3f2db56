#!/usr/bin/python3
"""Tests of vx.py and of the library below it: /usr/bin/python3 python/test_vx.py

python/build has to have made the library. The tests over numpy are left out where it isn't there. Where the program is built too ((cd crates/vx && rt run)),
the answers are held against what it prints of the same tables; and against the same program as a call of the library, where the library has that.
"""
import array
import ctypes
import json
import os
import struct
import subprocess
import sys
import unittest

HERE = os.path.dirname(os.path.abspath(__file__))
sys.path.insert(0, HERE)
import vx  # noqa: E402
from vx import Filter, VxError  # noqa: E402

numpy = vx.numpy
PROGRAM = os.path.join(HERE, "..", "crates", "vx", "out", "vx")
EXAMPLES = os.path.join(HERE, "..", "examples")
# the row itself, `$`, as a projection
ROW = "04726f6f740000"


def ends(kind):
    """The least and the greatest number of an integer type."""
    bits = 8 * vx.INTEGERS[kind][1]
    return (0, 2**bits - 1) if kind[0] == "u" else (-(2 ** (bits - 1)), 2 ** (bits - 1) - 1)


def example(name):
    with open(os.path.join(EXAMPLES, name + ".json"), encoding="utf-8") as text:
        return json.load(text)


def cells(table, name):
    """The cells of a column in all blocks, one after another."""
    place = [column["name"] for column in table["columns"]].index(name)
    return [cell for block in table["blocks"] for cell in block["values"][place]]


def statistics(table):
    """The statistics that plain columns have in each block, as `rules_out` takes them."""
    told = {"min": {}, "max": {}, "null_count": {}}
    for place, column in enumerate(table["columns"]):
        if isinstance(column["type"], str):
            blocks = [[cell for cell in block["values"][place] if cell is not None] for block in table["blocks"]]
            order = str.encode if column["type"].startswith("utf8") else None
            told["min"][column["name"]] = [min(block, key=order) if block else None for block in blocks]
            told["max"][column["name"]] = [max(block, key=order) if block else None for block in blocks]
            told["null_count"][column["name"]] = [block["values"][place].count(None) for block in table["blocks"]]
    return told


def refusal(call, *parts, **named):
    """The status and the line of a call that is refused."""
    try:
        call(*parts, **named)
    except VxError as error:
        return error.number, error.text
    raise AssertionError("not refused")


def programs():
    """The ways in which the program is asked here: each takes its words and its input, and tells its status and what it writes."""
    ways = []
    if hasattr(vx.LIBRARY, "vx_run"):
        ways.append(vx.run)
    if os.access(PROGRAM, os.X_OK):

        def ask(words, input):
            ran = subprocess.run([PROGRAM] + words, input=input, stdout=subprocess.PIPE, stderr=subprocess.DEVNULL)
            return ran.returncode, ran.stdout

        ways.append(ask)
    return ways


class WorkedRows(unittest.TestCase):
    """Answers over the tables of examples/, whose rows are written out here, and are those that the program prints."""

    def scanned(self, table, chosen, words):
        """What each way of asking the program prints of a table: the rows, and the numbers of the blocks that it skips."""
        request = dict(table, filter=chosen.bytes.hex(), projection=ROW)
        request.setdefault("stats", [])
        for ask in programs():
            status, text = ask(words, json.dumps(request).encode())
            self.assertEqual(0, status)
            lines = text.decode().splitlines()
            count = int(lines[0].split()[1])
            skipped = lines[count + 1].split()[1:]
            yield lines[1 : count + 1], [int(number) for number in skipped if number != "-"]

    def hold(self, name, predicate, wanted_rows, wanted_blocks):
        table = example(name)
        chosen = Filter(predicate, table["columns"])
        found = chosen.rows({column: cells(table, column) for column in chosen.columns})
        self.assertEqual(wanted_rows, "".join("01"[truth] for truth in found), predicate)
        skipped = [block for block, out in enumerate(chosen.rules_out(**statistics(table))) if out]
        self.assertEqual(wanted_blocks, skipped, predicate)
        names = [column["name"] for column in table["columns"]]
        rows = [dict(zip(names, row)) for row in zip(*(cells(table, column) for column in names))]
        printed = [json.dumps(row, separators=(",", ":"), ensure_ascii=False) for row, truth in zip(rows, found) if truth]
        for lines, blocks in self.scanned(table, chosen, ["scan", "built"]):
            self.assertEqual((printed, skipped), (lines, blocks), predicate)

    def test_first(self):
        self.hold("first", "x > 10", "011", [])
        self.hold("first", "x > 12", "001", [0])
        self.hold("first", "x <= 12", "110", [1])
        self.hold("first", "x BETWEEN 13 AND 19", "000", [0, 1])

    def test_table(self):
        self.hold("table", "x IS NOT NULL", "101", [])
        self.hold("table", "x IS NULL", "010", [1])
        self.hold("table", "NOT (x = 3)", "100", [1])
        self.hold("table", "x = 3 OR x IS NULL", "011", [])

    def test_items(self):
        self.hold("items", "price > 10 AND city IN ('Rome', 'Oslo')", "10010", [])
        self.hold("items", "price > 20", "00010", [0])
        self.hold("items", "price IS NULL", "00100", [1])
        self.hold("items", "name LIKE '%e_s%'", "00100", [])
        self.hold("items", "city >= 'Oslo' AND name < 'cheese'", "11000", [1])
        self.hold("items", "price + 1 <> 13 AND TRUE", "01011", [])
        self.hold("items", "CAST(price AS u8) = 3", "00001", [])

    def test_catalog(self):
        self.hold("catalog", "price >= 100 AND name LIKE 'a%'", "0011010000011001", [0, 4])
        self.hold("catalog", "price < 20 AND active", "0000000010000000", [0, 1, 2, 3, 5, 6, 7])
        self.hold("catalog", "id = 18446744073709551615", "0" * 16, list(range(8)))

    def test_filters_of_the_requests(self):
        first = example("first")
        chosen = Filter.of_bytes(bytes.fromhex(first["filter"]), first["columns"])
        self.assertEqual(Filter("x > 10", first["columns"]).bytes, chosen.bytes)
        self.assertEqual([False, True, True], chosen.rows({"x": cells(first, "x")}))
        catalog = example("catalog")
        chosen = Filter.of_bytes(bytes.fromhex(catalog["filter"]), catalog["columns"])
        self.assertEqual(["name", "price", "address"], chosen.columns)
        self.assertEqual([(("price",), "max"), (("address", "city"), "min"), (("address", "city"), "max")], chosen.statistics)
        given = {stat["path"][0]: stat["values"] for stat in catalog["stats"]}
        found = [block for block, out in enumerate(chosen.rules_out(max=given)) if out]
        self.assertEqual([0, 4], found)
        for _, blocks in self.scanned(catalog, chosen, ["scan"]):
            self.assertEqual(found, blocks)
        cities = {("address", "city"): ["Oslo", "Bonn", "Oslo", "Oslo", "Oslo", "Rome", "Oslo", "Oslo"]}
        found = [block for block, out in enumerate(chosen.rules_out(min=cities, max=given)) if out]
        self.assertEqual([0, 4, 5], found)
        # a column of structs is no array
        self.assertEqual((10, "NoArray"), refusal(chosen.rows, {name: cells(catalog, name) for name in chosen.columns}))

    def test_the_program_as_a_call(self):
        if not hasattr(vx.LIBRARY, "vx_run"):
            self.skipTest("the library has no vx_run")
        with open(os.path.join(EXAMPLES, "first.json"), "rb") as text:
            first = text.read()
        self.assertEqual((0, b'rows 2\n12\n20\nskipped -\ncolumns "x"\nreads 2\n'), vx.run(["scan"], first))
        self.assertEqual((2, b"error: Usage\n"), vx.run(["scans"]))
        self.assertEqual((3, b"error: BadJson\n"), vx.run(["scan"], b"{"))
        self.assertEqual((0, b"blocks 4 skipped 1 rows 45 sum 6730\n"), vx.run(["gen", "200"]))


class Meaning(unittest.TestCase):
    def over(self, predicate, kinds, count=None, **columns):
        found = Filter(predicate, kinds).rows(columns, count)
        self.assertTrue(all(type(truth) is bool for truth in found))
        return "".join("01"[truth] for truth in found)

    def test_integers_at_both_ends(self):
        for kind in vx.INTEGERS:
            least, greatest = ends(kind)
            for mark in ("", "?"):
                column = [least, least + 1, greatest - 1, greatest]
                for predicate, wanted in [
                    ("x = %d" % least, "1000"),
                    ("x > %d" % least, "0111"),
                    ("x < %d" % greatest, "1110"),
                    ("x = %d" % greatest, "0001"),
                    ("x BETWEEN %d AND %d" % (least + 1, greatest - 1), "0110"),
                ]:
                    self.assertEqual(wanted, self.over(predicate, {"x": kind + mark}, x=column), (kind, predicate))

    def test_statistics_at_both_ends(self):
        for kind in vx.INTEGERS:
            least, greatest = ends(kind)
            chosen = Filter("x = %d" % greatest, {"x": kind})
            self.assertEqual([False, True, False], chosen.rules_out(max={"x": [greatest, greatest - 1, None]}))
            chosen = Filter("x = %d" % least, {"x": kind})
            self.assertEqual([False, True, False], chosen.rules_out(min={"x": [least, least + 1, None]}))

    def test_kleene(self):
        three = [True, False, None]
        columns = {"a": [a for a in three for _ in three], "b": three * 3}
        kinds = {"a": "bool?", "b": "bool?"}
        for predicate, wanted in [
            ("a AND b", "100000000"),
            ("a OR b", "111100100"),
            ("NOT a", "000111000"),
            ("NOT (a AND b)", "010111010"),
            ("NOT (a OR b)", "000010000"),
            ("a IS NULL", "000000111"),
            ("a = b", "100010000"),
            ("a <> b", "010100000"),
            ("a < b", "000100000"),
        ]:
            self.assertEqual(wanted, self.over(predicate, kinds, **columns), predicate)

    def test_nulls_of_each_kind(self):
        for kind, value, same in [("bool?", True, "x"), ("utf8?", "ab", "x = 'ab'")] + [(kind + "?", 7, "x = 7") for kind in vx.INTEGERS]:
            column = [None, value, None, None, value, value, None, value, None]
            self.assertEqual("010011010", self.over(same, {"x": kind}, x=column))
            self.assertEqual("101100101", self.over("x IS NULL", {"x": kind}, x=column))
            self.assertEqual("000000000", self.over("NOT (%s)" % same, {"x": kind}, x=column))
            self.assertEqual("11111", self.over("x IS NULL", {"x": kind}, x=[None] * 5))

    def test_texts(self):
        texts = ["", "a", "A", "ab", "Zürich", "zürich", "äpfel", "日本", "\0", 'a "b" \\', "x" * 70_000]
        for predicate, wanted in [
            ("t = ''", "10000000000"),
            ("t < 'a'", "10101000100"),
            ("t = 'Zürich'", "00001000000"),
            ("t LIKE '%ü%'", "00001100000"),
            ("t LIKE '__'", "00010001000"),
            ("t LIKE 'a%'", "01010000010"),
            ("t IN ('日本', 'ab')", "00010001000"),
            ("t > 'x'", "00000111001"),
        ]:
            self.assertEqual(wanted, self.over(predicate, {"t": "utf8"}, t=texts), predicate)
            self.assertEqual(wanted, self.over(predicate, {"t": "utf8?"}, t=[text.encode() for text in texts]), predicate)

    def test_names_of_columns(self):
        kinds = {'a "b"': "i8", "größe": "i8", "select": "i8"}
        chosen = Filter('"a ""b""" = 1 AND "größe" = 2 OR "select" = 3', kinds)
        self.assertEqual(list(kinds), chosen.columns)
        self.assertEqual([True, False, True], chosen.rows({'a "b"': [1, 1, 0], "größe": [2, 1, 0], "select": [0, 0, 3]}))

    def test_only_what_is_asked_is_read(self):
        chosen = Filter("b > 1 AND 2 > 1", {"a": {"list": "i8", "nullable": False}, "b": "i8", "c": "utf8"})
        self.assertEqual(["b"], chosen.columns)
        self.assertEqual([False, True], chosen.rows({"b": [1, 2]}))
        self.assertEqual([False, True], chosen.rows({"a": object(), "b": [1, 2], "c": [None]}))
        with self.assertRaisesRegex(ValueError, "the filter asks b"):
            chosen.rows({"c": ["x"]})

    def test_no_rows(self):
        for kind in ["bool", "utf8", "utf8?", "i64", "u8?"]:
            self.assertEqual("", self.over("x IS NULL", {"x": kind}, x=[]))
        self.assertEqual([], Filter("x > 1", {"x": "i8"}).rules_out(max={"x": []}))

    def test_no_columns(self):
        self.assertEqual("1" * 13, self.over("TRUE", {"x": "i8"}, 13))
        self.assertEqual("0" * 13, self.over("NULL", {"x": "i8"}, 13))
        self.assertEqual("1" * 3, self.over("1 < 2", {}, 3))
        with self.assertRaisesRegex(ValueError, "the number of rows"):
            Filter("TRUE", {"x": "i8"}).rows({"x": [1]})

    def test_sums_and_casts_without_a_value(self):
        kinds = {"a": "u8", "b": "i64?"}
        self.assertEqual("100", self.over("a + 10 > 200", kinds, a=[245, 3, 4]))
        with self.assertRaises(vx.Overflow) as refused:
            self.over("a + 10 > 200", kinds, a=[3, 246])
        self.assertEqual((5, "Overflow"), (refused.exception.number, refused.exception.text))
        with self.assertRaises(vx.Overflow):
            self.over("0 - b = 0", kinds, b=[1, None, -(2**63)])
        with self.assertRaises(vx.BadCast) as refused:
            self.over("CAST(b AS u8) = 1", kinds, b=[1, None, 256])
        self.assertEqual((11, "BadCast"), (refused.exception.number, refused.exception.text))
        self.assertEqual("100", self.over("CAST(b AS u8) = 1", kinds, b=[1, None, 255]))

    def test_a_million_rows(self):
        count = 1_000_000
        numbers = [None if i % 97 == 0 else i * 7919 % 1009 for i in range(count)]
        cities = ["Rome" if i % 3 == 0 else "Oslo" for i in range(count)]
        found = Filter("n < 500 AND city = 'Oslo'", {"n": "i32?", "city": "utf8"}).rows({"n": numbers, "city": cities})
        self.assertEqual([n is not None and n < 500 and city == "Oslo" for n, city in zip(numbers, cities)], found)
        found = Filter("n < 500", {"n": "u16"}).rules_out(min={"n": numbers})
        self.assertEqual([n is not None and n >= 500 for n in numbers], found)

    def test_runs(self):
        numbers = [i * 37 % 101 for i in range(1000)]
        chosen = Filter("n < 50", {"n": "i64?"})
        whole = chosen.rows({"n": numbers})
        self.assertEqual([n < 50 for n in numbers], whole)
        for run in (8, 16, 496, 1000, 1008):
            self.addCleanup(setattr, vx, "RUN", vx.RUN)
            vx.RUN = run
            self.assertEqual(whole, chosen.rows({"n": numbers}))
            self.assertEqual([n >= 50 for n in numbers], chosen.rules_out(min={"n": numbers}, rows=[5] * 1000))
            with self.assertRaises(vx.Overflow):
                Filter("m + 1 > 0", {"m": "i8"}).rows({"m": [100] * 999 + [127]})


class Forms(unittest.TestCase):
    """In which forms a column may be given."""

    def test_pairs(self):
        chosen = Filter("x > 1", {"x": "i8?"})
        for column in [[2, None, 1, 3], ([2, 3, 1, 3], [True, False, True, True]), ([2, None, 1, 3], [1, 1, 1, 1])]:
            self.assertEqual([True, False, False, True], chosen.rows({"x": column}))
        with self.assertRaises(ValueError):
            chosen.rows({"x": ([1, 2], [True])})

    def test_arrays_of_the_module(self):
        for kind, (sign, width) in vx.INTEGERS.items():
            least, greatest = ends(kind)
            column = array.array(sign, [least, 5, greatest])
            self.assertEqual([False, True, False], Filter("x = 5", {"x": kind}).rows({"x": column}))
            self.assertEqual([False, False, True], Filter("x = %d" % greatest, {"x": kind + "?"}).rows({"x": (column, [False, True, True])}))
        self.assertEqual([True, False], Filter("x = 5", {"x": "i64"}).rows({"x": array.array("b", [5, 6])}))

    def test_wrong_values(self):
        for kind, column in [("i8", [128]), ("i8", [1.0]), ("i8", ["1"]), ("i8", [True]), ("u64", [-1]), ("utf8", [1]), ("bool", [1]), ("utf8?", [None, 1])]:
            with self.assertRaises(ValueError):
                Filter("x IS NULL", {"x": kind}).rows({"x": column})
        with self.assertRaisesRegex(ValueError, "rows of 1 and 2"):
            Filter("x = y", {"x": "i8", "y": "i8"}).rows({"x": [1], "y": [1, 2]})
        with self.assertRaisesRegex(ValueError, "blocks of 1 and 2"):
            Filter("x = 1", {"x": "i8"}).rules_out(min={"x": [1]}, rows=[3, 4])
        with self.assertRaisesRegex(ValueError, "the schema has no field y"):
            Filter("x = 1", {"x": "i8"}).rules_out(min={"y": [1]})

    def test_schemas(self):
        for schema in [{"x": "i8", "y": "utf8?"}, [("x", "i8"), ("y", "utf8?")], [{"name": "x", "type": "i8"}, {"name": "y", "type": "utf8?"}]]:
            chosen = Filter("x = 1 OR y IS NULL", schema)
            self.assertEqual(["x", "y"], chosen.columns)
            self.assertEqual([(("x",), "min"), (("x",), "max"), (("y",), "null_count")], chosen.statistics)


@unittest.skipIf(numpy is None, "numpy isn't there")
class Numpy(unittest.TestCase):
    def test_integers(self):
        for kind in vx.INTEGERS:
            least, greatest = ends(kind)
            wide = "u8" if kind == "u64" else "i8"
            for form in [kind[0] + str(vx.INTEGERS[kind][1]), wide, ">" + wide]:
                column = numpy.array([least, 5, greatest], dtype=form)
                for values in (column, numpy.repeat(column, 2)[::2], column[::-1][::-1]):
                    found = Filter("x = 5", {"x": kind}).rows({"x": values})
                    self.assertIsInstance(found, numpy.ndarray)
                    self.assertEqual(([False, True, False], bool), (found.tolist(), found.dtype))
        for form, number in [("i8", 128), ("i8", -129), ("u8", 128), ("f8", 1.0), ("?", True)]:
            with self.assertRaises(ValueError):
                Filter("x = 5", {"x": "i8"}).rows({"x": numpy.array([number], dtype=form)})

    def test_nulls(self):
        chosen = Filter("x > 1", {"x": "i8?"})
        values, valid = numpy.array([2, 1000, 1, 3]), numpy.array([True, False, True, True])
        for column in [(values, valid), (values, valid.tolist()), numpy.ma.MaskedArray(values, ~valid), numpy.array([2, None, 1, 3], dtype=object)]:
            self.assertEqual([True, False, False, True], chosen.rows({"x": column}).tolist())

    def test_truths_and_texts(self):
        truths = numpy.arange(100) % 3 == 0
        self.assertEqual(truths.tolist(), Filter("x", {"x": "bool"}).rows({"x": truths}).tolist())
        self.assertEqual([True, False], Filter("x = 'é'", {"x": "utf8"}).rows({"x": numpy.array(["é", "ee"])}).tolist())
        self.assertEqual([True, False], Filter("x = 'é'", {"x": "utf8?"}).rows({"x": numpy.array(["é", None], dtype=object)}).tolist())

    def test_several_columns(self):
        numbers = numpy.arange(10_001, dtype="i8")
        chosen = Filter("a > 5000 AND b < 3 OR c", {"a": "i64", "b": "u8?", "c": "bool"})
        found = chosen.rows({"a": numbers, "b": numbers % 7, "c": [i == 9 for i in range(10_001)]})
        self.assertTrue((((numbers > 5000) & (numbers % 7 < 3)) | (numbers == 9) == found).all())

    def test_runs(self):
        self.addCleanup(setattr, vx, "RUN", vx.RUN)
        vx.RUN = 4096
        numbers = numpy.arange(100_003, dtype="i8") * 7919 % 1009
        self.assertTrue(((numbers < 500) == Filter("n < 500", {"n": "i64"}).rows({"n": numbers})).all())
        self.assertTrue(((numbers > 500) == Filter("n < 501", {"n": "i64"}).rules_out(min={"n": numbers})).all())

    def test_one_array_is_not_copied(self):
        arrays = vx._Arrays()
        column = numpy.arange(1000, dtype="i8")
        vx._Column("x", "i64", column).put(arrays, 8, 1000)
        self.assertEqual((column[8:].ctypes.data, [0, 0, 0, 992 * 8]), (arrays.body().ctypes.data, arrays.buffers))


class Pruning(unittest.TestCase):
    def test_what_is_needed(self):
        kinds = {"a": "i32?", "s": {"struct": [{"name": "b", "type": "utf8"}], "nullable": False}}
        for predicate, wanted in [
            ("a < 5", [(("a",), "min")]),
            ("a > 5", [(("a",), "max")]),
            ("a = 5", [(("a",), "min"), (("a",), "max")]),
            ("a IS NULL", [(("a",), "null_count")]),
            ("a IS NOT NULL", []),
            ("s.b = 'x' AND a > 5", [(("a",), "max"), (("s", "b"), "min"), (("s", "b"), "max")]),
            ("a + 1 > 5", []),
        ]:
            self.assertEqual(wanted, Filter(predicate, kinds).statistics, predicate)

    def test_what_is_known_counts(self):
        chosen = Filter("a > 5 AND b < 3", {"a": "i32", "b": "i32"})
        bounds = {"max": {"a": [9, 5, None, 6]}, "min": {"b": [3, 0, 3, 2]}}
        self.assertEqual([True, True, True, False], chosen.rules_out(**bounds))
        self.assertEqual([False, True, False, False], chosen.rules_out(max=bounds["max"]))
        self.assertEqual([False, False, False, False], chosen.rules_out(min={"a": [9, 5, 9, 9]}))
        self.assertEqual([False, False], chosen.rules_out(rows=[1, 2]))
        with self.assertRaises(ValueError):
            chosen.rules_out()

    def test_no_block_that_is_ruled_out_has_a_row(self):
        rows, size = 3000, 7
        table = {"a": [None if i % 11 == 0 else i * 7919 % 401 // 4 for i in range(rows)], "t": ["%03d" % (i // 3 * 31 % 997) for i in range(rows)]}
        table["a"] = sorted(table["a"], key=lambda a: -1 if a is None else a)
        blocks = [{"rows": size, "values": [column[i : i + size] for column in table.values()]} for i in range(0, rows, size)]
        kinds = {"a": "i16?", "t": "utf8"}
        told = statistics({"columns": [{"name": name, "type": kind} for name, kind in kinds.items()], "blocks": blocks})
        for predicate in ["a < 20", "a = 7", "a IS NULL", "NOT (a < 90)", "t < '100' OR a IN (1, 9)", "a <> 5 AND t BETWEEN '400' AND '500'"]:
            chosen = Filter(predicate, kinds)
            out, truths = chosen.rules_out(**told), chosen.rows(table)
            self.assertTrue(any(out), predicate)
            for block in range(len(blocks)):
                self.assertFalse(out[block] and any(truths[block * size : (block + 1) * size]), (predicate, block))


SCHEMA = b'{"columns":[{"name":"x","type":"i64"},{"name":"t","type":"utf8?"}],"blocks":[]}'


class Refusals(unittest.TestCase):
    """Each refusal by its status and its line, of the calls over bytes."""

    def test_schemas(self):
        for schema, line in [
            (b"{", "BadJson"),
            (b"[]", "BadRequest top"),
            (b'{"columns":[]}', "BadRequest top"),
            (b'{"columns":[{"name":"x"}],"blocks":[]}', "BadRequest columns"),
            (b'{"columns":[{"name":"x","type":"i63"}],"blocks":[]}', "BadRequest columns"),
            (b'{"columns":[],"blocks":[1]}', "BadRequest blocks"),
            (b'{"columns":[{"name":"x","type":"i8"},{"name":"x","type":"i8"}],"blocks":[]}', "BadTable DuplicateName"),
            (b" " * 16_777_217, "InputTooLong"),
            (b"", "BadJson"),
        ]:
            self.assertEqual((3, line), refusal(vx.filter_bytes, schema, b"x > 1"), schema[:40])
            self.assertEqual((3, line), refusal(vx.filter_columns, schema, b""), schema[:40])
            self.assertEqual((3, line), refusal(vx.filter_statistics, schema, b""), schema[:40])
            self.assertEqual((3, line), refusal(vx.rules_out, schema, b"", [], b"", []), schema[:40])
            self.assertEqual((3, line), refusal(vx.rows, schema, b"", 0, b"", []), schema[:40])

    def test_predicates(self):
        for predicate, line in [
            (b"y > 1", "WHERE: no column y; the columns are x, t"),
            (b"x > 1 ORDER BY x", "Ordered"),
            (b"x > 1 LIMIT 3", "Limited"),
            (b"x > 1 ORDER BY x LIMIT 3", "Ordered"),
            (b"x > '\xff'", "NotUtf8"),
            (b"x", "WHERE: x is i64, no boolean"),
            (b"x > 'a'", "WHERE: x is i64, 'a' is a text"),
            (b"x > 1 GROUP BY x", "GROUP BY is not taken"),
            (b"x = 9223372036854775808", "WHERE: 9223372036854775808 is no i64"),
        ]:
            self.assertEqual((4, line), refusal(vx.filter_bytes, SCHEMA, predicate))
        for predicate in [b"x >", b"", b"x > 1; SELECT 1", b"x > 1)", b"x > 1 UNION SELECT * FROM t", b"(" * 400 + b"x > 1" + b")" * 400, b"x > 1\0"]:
            self.assertEqual(4, refusal(vx.filter_bytes, SCHEMA, predicate)[0], predicate)

    def test_filters(self):
        named = vx.filter_bytes(SCHEMA, b"x > 1")
        other = b'{"columns":[{"name":"x","type":"utf8"}],"blocks":[]}'
        for schema, filter, line in [
            (SCHEMA, b"", "BadWire"),
            (SCHEMA, named[:-1], "BadWire"),
            (SCHEMA, named + b"\0", "BadWire"),
            (SCHEMA, named.replace(b"\1x", b"\1y"), "UnknownField"),
            (SCHEMA, named.replace(b"binary", b"bynary"), "UnknownExpr"),
            (SCHEMA, bytes.fromhex(ROW), "FilterNotBool"),
            (other, named, "TypeMismatch"),
        ]:
            for call in [vx.filter_columns, vx.filter_statistics]:
                self.assertEqual((4, line), refusal(call, schema, filter))
            self.assertEqual((4, line), refusal(vx.rules_out, schema, filter, [1], b"", []))
            self.assertEqual((4, line), refusal(vx.rows, schema, filter, 1, b"", []))

    def test_arrays(self):
        one = b'{"columns":[{"name":"x","type":"i64"}],"blocks":[]}'
        named = vx.filter_bytes(one, b"x > 1")
        body = struct.pack("<3q", 1, 2, 3) + b"\7"
        self.assertEqual(b"\6", vx.rows(one, named, 3, body, [0, 0, 0, 24]))
        self.assertEqual(b"\6", vx.rows(one, named, 3, body, [24, 1, 0, 25]))
        self.assertEqual(b"\2", vx.rows(one, named, 2, body, [25, 0, 0, 24]))
        for count, buffers in [
            (3, []), (3, [0]), (3, [0, 0]), (3, [0, 0, 0]), (3, [0, 0, 0, 24, 0]), (3, [0, 0, 0, 24, 0, 0]), (4, [0, 0, 0, 24]), (3, [0, 0, 0, 26]),
            (3, [0, 0, 2, 24]), (3, [26, 0, 0, 24]), (3, [0, 0, 2**64 - 8, 24]), (3, [0, 0, 8, 2**64 - 1]), (9, [24, 1, 0, 25]), (2**64 - 1, [0, 0, 0, 24]),
            (2**61, [0, 0, 0, 24]),
        ]:
            self.assertEqual((10, "WrongBuffers"), refusal(vx.rows, one, named, count, body, buffers), (count, buffers))
        self.assertEqual((10, "NullCell"), refusal(vx.rows, one, named, 3, b"\5" + body, [0, 1, 1, 24]))

    def test_texts(self):
        one = b'{"columns":[{"name":"t","type":"utf8?"}],"blocks":[]}'
        named = vx.filter_bytes(one, b"t = 'ab'")

        def ask(offsets, texts, validity=b"", count=3):
            body = struct.pack("<%dI" % len(offsets), *offsets) + texts + validity
            first = 4 * len(offsets)
            return vx.rows(one, named, count, body, [first + len(texts), len(validity), 0, first, first, len(texts)])

        self.assertEqual(b"\5", ask([0, 2, 2, 4], b"abab"))
        self.assertEqual(b"\1", ask([0, 2, 2, 4], b"ab\xff\xff", b"\3"))
        self.assertEqual(b"", ask([], b"", count=0))
        for offsets, texts in [([0, 2, 1, 4], b"abab"), ([0, 2, 2, 5], b"abab"), ([0, 2, 2], b"ab"), ([5, 5, 5, 5], b"abab"), ([2**32 - 1] * 4, b"")]:
            for validity in (b"", b"\0"):
                self.assertEqual((10, "WrongBuffers"), refusal(ask, offsets, texts, validity))
        for text in [b"\xff", b"\xc0\x80", b"\xed\xa0\x80", b"\xf4\x90\x80\x80", "é".encode()[:1]]:
            self.assertEqual((10, "BadText"), refusal(ask, [0, 0, 0, len(text)], text))
        # a boundary of two texts within a character
        self.assertEqual((10, "BadText"), refusal(ask, [0, 1, 2, 2], "é".encode()))

    def test_null_in_a_column_without_null(self):
        for kind, values in [("bool", [True, None]), ("utf8", ["", None]), ("i8", [None, 1])]:
            self.assertEqual((10, "NullCell"), refusal(Filter("x IS NULL", {"x": kind}).rows, {"x": values}))

    def test_statistics(self):
        named = vx.filter_bytes(SCHEMA, b"x > 1")
        self.assertEqual(b'[{"path":["x"],"stat":"max"}]', vx.filter_statistics(SCHEMA, named))
        self.assertEqual(b'["x"]', vx.filter_columns(SCHEMA, named))
        body = struct.pack("<2q", 1, 2)
        self.assertEqual(b"\1", vx.rules_out(SCHEMA, named, [5, 5], body, [0, 0, 0, 16]))
        self.assertEqual((10, "WrongBuffers"), refusal(vx.rules_out, SCHEMA, named, [5, 5, 5], body, [0, 0, 0, 16]))
        self.assertEqual((10, "WrongBuffers"), refusal(vx.rules_out, SCHEMA, named, [5, 5], body, []))


class Buffers(unittest.TestCase):
    """What a call writes: its bytes at the front where they have room, else nothing; how many there are in any case."""

    def ask(self, schema, predicate, room):
        out = ctypes.create_string_buffer(b"\xaa" * (room + 1), room + 1)
        written = ctypes.c_size_t(77)
        slices = [number for part in (schema, predicate) for number in vx._slice(part)[:2]]
        status = vx.LIBRARY.vx_filter(*slices, ctypes.addressof(out), room, ctypes.byref(written))
        return status, written.value, out.raw

    def test_an_answer(self):
        wanted = vx.filter_bytes(SCHEMA, b"x > 1")
        count = len(wanted)
        self.assertEqual((0, count, wanted + b"\xaa" * 21), self.ask(SCHEMA, b"x > 1", count + 20))
        self.assertEqual((0, count, wanted + b"\xaa"), self.ask(SCHEMA, b"x > 1", count))
        for room in (count - 1, 1, 0):
            self.assertEqual((9, count, b"\xaa" * (room + 1)), self.ask(SCHEMA, b"x > 1", room))

    def test_a_refusal(self):
        self.assertEqual((3, 7, b"BadJson\xaa"), self.ask(b"{", b"x > 1", 7))
        self.assertEqual((9, 7, b"\xaa" * 7), self.ask(b"{", b"x > 1", 6))

    def test_long_answers(self):
        names = ["column %d %s" % (i, "x" * 300) for i in range(100)]
        chosen = Filter(" OR ".join('"%s" > 1' % name for name in names), {name: "i8" for name in names})
        self.assertEqual(names, chosen.columns)
        line = refusal(vx.filter_bytes, json.dumps({"columns": [{"name": name, "type": "i8"} for name in names], "blocks": []}).encode(), b"y > 1")[1]
        self.assertEqual("WHERE: no column y; the columns are " + ", ".join(names), line)


if __name__ == "__main__":
    if not programs():
        print("test_vx.py: the program isn't built, so that answers aren't held against what it prints")
    if numpy is None:
        print("test_vx.py: numpy isn't there, so that its arrays aren't tried")
    unittest.main()
