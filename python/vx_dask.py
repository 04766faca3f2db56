#!/usr/bin/python3
"""Answers a statement of SQL over a folder of block files by many workers of a Dask cluster, each of which runs the program `vx` over some blocks.

usage: python/vx_dask.py STATEMENT [--scheduler ADDRESS] [--workers N] [--rows N] [--vx PATH] [--progress]

STATEMENT names a folder, as `FROM 'items/'`, or one block file; the workers have to reach it under the same path. Rows go to standard output, as `vx sql`
writes them and in the same order; a refusal goes to standard error with the file and the block, and its status is that of `vx sql`.

--scheduler ADDRESS   the scheduler of a cluster, as tcp://10.0.0.1:8786; without it a cluster of this machine is started, and ended
--workers N           how many worker processes that cluster has; without it one a processor
--rows N              about how many rows a run has, 1,048,576 unless given; a block is never cut
--vx PATH             the program on the workers; without it the one that was built beside this script
--progress            a bar on standard error, which tells how many runs have ended
"""
import argparse
import contextlib
import json
import os
import re
import subprocess
import sys
from collections import deque
from concurrent.futures import ThreadPoolExecutor
from typing import NamedTuple

HERE = os.path.dirname(os.path.dirname(os.path.abspath(__file__)))
PROGRAM = os.path.join(HERE, "crates", "vx", "out", "vx")
ROWS = 1_048_576
# how many runs are asked for each thread of the cluster before the first of them is handed out: so many answers are held at most
AHEAD = 2
# the statuses of `vx sql` that this script answers itself
USAGE, NO_TABLE, UNTAKEN, UNREAD, UNWRITTEN = 2, 3, 4, 6, 7


class Refused(Exception):
    """Why there are no more rows: the status of `vx sql`, the line that it told, and the file and the block, where it is of one."""

    def __init__(self, status, line, file=None, block=None):
        self.status, self.line, self.file, self.block = status, line, file, block
        place = "" if file is None else "%s: " % file if block is None else "%s, block %d: " % (file, block)
        super().__init__("error: %s%s" % (place, line))


# ---- statements

TOKENS = re.compile(
    r"""(?P<space>\s+|--[^\n]*|/\*.*?\*/)|(?P<text>'(?:[^']|'')*')|(?P<name>"(?:[^"]|"")*"|`(?:[^`]|``)*`|\[[^\]]*\])"""
    r"""|(?P<word>[^\W\d][\w$]*)|(?P<number>\d+)|(?P<sign>.)""",
    re.DOTALL,
)


class Token(NamedTuple):
    kind: str
    text: str
    start: int
    end: int

    def is_word(self, word):
        return self.kind == "word" and self.text.upper() == word

    def value(self):
        """The name that it is, or the text."""
        if self.kind == "word":
            return self.text
        inner, quote = self.text[1:-1], self.text[0]
        return inner if quote == "[" else inner.replace(quote * 2, quote)


def quoted(value, quote):
    return quote + value.replace(quote, quote * 2) + quote


class Statement:
    """A statement, of which the table's name, the column that rows are ordered by and the number of rows are known. What it says else is left to `vx`."""

    def __init__(self, text):
        self.text = text
        self.tokens = [Token(found.lastgroup, found.group(), found.start(), found.end()) for found in TOKENS.finditer(text) if found.lastgroup != "space"]
        place = self.place_of("FROM")
        if place is None or place == 0 or place + 1 == len(self.tokens) or self.tokens[place + 1].kind not in ("word", "name", "text"):
            raise Refused(UNTAKEN, "the statement names no table")
        self.select_end = self.tokens[place - 1].end
        self.table = self.tokens[place + 1]
        self.key, self.descending = self.order()
        self.limit = self.count()

    def place_of(self, word):
        """The place of the first token that is this word, outside of parentheses."""
        depth = 0
        for place, token in enumerate(self.tokens):
            depth += (token.text == "(") - (token.text == ")")
            if depth == 0 and token.is_word(word):
                return place
        return None

    def order(self):
        """The token of the column that ORDER BY names, and whether the greatest come first."""
        place = self.place_of("ORDER")
        if place is None or place + 2 >= len(self.tokens):
            return None, False
        behind = self.tokens[place + 3 : place + 4]
        return self.tokens[place + 2], bool(behind) and behind[0].is_word("DESC")

    def count(self):
        place = self.place_of("LIMIT")
        if place is None or place + 1 >= len(self.tokens) or self.tokens[place + 1].kind != "number":
            return None
        return int(self.tokens[place + 1].text)

    def path(self):
        """The path that the table's name means, as docs/SHELL.md says."""
        name = self.table.value()
        if name == "stdin":
            raise Refused(USAGE, "stdin is no table that workers reach")
        return name if "." in name or "/" in name else name + ".vxb"

    def over(self, path, key_name=None):
        """The statement over another table, with the key as a last column of this name, where one is given."""
        key = "" if key_name is None else ", %s AS %s" % (self.key.text, quoted(key_name, '"'))
        between = self.text[self.select_end : self.table.start]
        return self.text[: self.select_end] + key + between + quoted(path, "'") + self.text[self.table.end :]


# ---- what the program tells


def call(vx, *words):
    return subprocess.run([vx, *words], stdin=subprocess.DEVNULL, stdout=subprocess.PIPE, stderr=subprocess.PIPE)


def line_of(told):
    line = told.decode("utf-8", "replace").strip()
    return line[len("error: ") :] if line.startswith("error: ") else line or "there was no answer"


def told_by(vx, file, *words):
    """What the program writes to these words about a file; else its refusal."""
    ran = call(vx, *words)
    if ran.returncode != 0:
        raise Refused(ran.returncode, line_of(ran.stderr), file)
    return ran.stdout


class Run(NamedTuple):
    """Some blocks of a file, one behind another, from one on up to another one and without it."""

    file: str
    first: int
    last: int

    def words(self, statement):
        return ["sql", statement, "--blocks", "%d..%d" % (self.first, self.last)]


def answer(vx, run, statement):
    """What the program answers to a statement over a run: its status, its rows, what it told, and the block that it was refused at, where it was."""
    ran = call(vx, *run.words(statement))
    block = None if ran.returncode == 0 else refused_block(vx, run, statement)
    return ran.returncode, ran.stdout, line_of(ran.stderr), block


def refused_block(vx, run, statement):
    """The first block of a run at which the program refuses a statement; none where it takes each by itself, or refuses what isn't of a block."""
    for block in range(run.first, run.last):
        ran = call(vx, *Run(run.file, block, block + 1).words(statement))
        if ran.returncode in (NO_TABLE, 5, UNREAD):
            return block
        if ran.returncode != 0:
            return None
    return None


# ---- files, blocks and runs


def files_of(path):
    """The block files of a folder, in the order of their names' bytes; or the one file of another path."""
    if not path.endswith("/"):
        return [path]
    try:
        names = sorted(name for name in os.listdir(os.fsencode(path)) if name.endswith(b".vxb"))
    except OSError as error:
        raise Refused(UNREAD, "the folder can't be listed: %s" % error.strerror, path)
    if not names:
        raise Refused(NO_TABLE, "there is no block file in the folder", path)
    return [path + os.fsdecode(name) for name in names]


def columns_of(vx, file):
    return json.loads(told_by(vx, file, "blocks", file).split(b"\n", 1)[0])["columns"]


def kept_blocks(vx, file, statement):
    """The blocks of a file that statistics don't rule out: the number of each, and its rows."""
    told = json.loads(told_by(vx, file, "explain", "sql", statement.over(file), "--json"))
    return [(each["block"], each["rows"]) for each in told["each"] if not each["skipped"]]


def runs_of(file, kept, rows):
    """Runs of the blocks that are kept, each of so many rows or a little more, but the last."""
    runs, first, held = [], None, 0
    for block, length in kept:
        first, held = (block if first is None else first), held + length
        if held >= rows:
            runs.append(Run(file, first, block + 1))
            first, held = None, 0
    if first is not None:
        runs.append(Run(file, first, kept[-1][0] + 1))
    return runs


def planned(vx, statement, rows):
    """The runs of a statement over the files that it names, in the order of the table. Of each file the header is read, of some files at a time."""
    runs, columns = [], None
    with ThreadPoolExecutor() as pool:
        files = files_of(statement.path())
        for file, found, kept in pool.map(lambda file: (file, columns_of(vx, file), kept_blocks(vx, file, statement)), files):
            columns = found if columns is None else columns
            if found != columns:
                raise Refused(NO_TABLE, "its columns aren't those of the first file", file)
            runs += runs_of(file, kept, rows)
    return runs


# ---- rows by a key


def key_name_for(columns, statement):
    """A name that no column has, and that doesn't stand in the statement."""
    names, number = {column["name"] for column in columns}, 0
    while "_key%d" % number in names or "_key%d" % number in statement.text:
        number += 1
    return "_key%d" % number


def without_key(line, key_name):
    """A row without the key, which is its last member, and the key. Within a text a quote is escaped, so the name with its quotes stands there alone."""
    member = '"%s":' % key_name
    place = line.rindex(member.encode())
    row = line[:place].rstrip(b",") + b"}"
    return row, json.loads(line[place + len(member) : -1])


def ordered(rows, descending):
    """Rows with their keys in order: null last, texts by their bytes, rows of one key as they stood."""
    known = [row for row in rows if row[1] is not None]
    known.sort(key=lambda row: row[1].encode("utf-8", "surrogatepass") if isinstance(row[1], str) else row[1], reverse=descending)
    return known + [row for row in rows if row[1] is None]


# ---- the cluster


def bar_of(total):
    """Draws Dask's own bar for a number of runs: a call tells how many have ended."""
    from distributed.diagnostics.progressbar import TextProgressBar

    class Bar(TextProgressBar):
        def __init__(self):
            from time import time

            self.width, self._begun, self._time = 40, time(), time

        @property
        def elapsed(self):
            return self._time() - self._begun

    bar = Bar()

    def draw(ended):
        with contextlib.redirect_stdout(sys.stderr):
            bar._draw_bar(remaining=total - ended, all=total)

    return draw


def answers(client, vx, runs, statement_of, draw):
    """The answers to runs in their order, each as soon as it is there. A run whose worker dies goes to another one, as Dask does it."""
    most = AHEAD * max(1, sum(client.ncores().values()))
    waiting, left, ended = deque(), iter(runs), 0
    try:
        while True:
            while len(waiting) < most and (run := next(left, None)) is not None:
                waiting.append((run, client.submit(answer, vx, run, statement_of(run.file), pure=False)))
            if not waiting:
                return
            run, future = waiting.popleft()
            status, rows, told, block = future.result()
            future.release()
            ended += 1
            draw(ended)
            yield run, status, rows, told, block
    finally:
        for run, future in waiting:
            future.cancel()


def lines_of(answered):
    """The rows of answers, a line each; the first refusal behind the rows before it."""
    for run, status, rows, told, block in answered:
        yield from rows.splitlines(keepends=True)
        if status != 0:
            raise Refused(status, told, run.file, block)


def rows(client, statement, vx=PROGRAM, run_rows=ROWS, progress=False):
    """The rows of a statement, each as a line of JSON in bytes, in the order in which `vx sql` writes them."""
    statement = Statement(statement)
    with contextlib.suppress(AttributeError):
        client.upload_file(os.path.abspath(__file__))
    runs = planned(vx, statement, run_rows)
    draw = bar_of(len(runs)) if progress else lambda ended: None
    if statement.key is not None:
        yield from first_rows(client, vx, statement, runs, draw)
        return
    if statement.limit == 0:
        return
    # behind the last row that is asked no refusal is met: a run over the whole table ends there
    for given, line in enumerate(lines_of(answers(client, vx, runs, statement.over, draw)), 1):
        yield line
        if given == statement.limit:
            return


def first_rows(client, vx, statement, runs, draw):
    """The first rows by a key: those of each run with their keys, put together in the order of the table. No more are held than are asked."""
    if statement.limit is None:
        raise Refused(UNTAKEN, "ORDER BY needs a LIMIT")
    key_name = key_name_for(columns_of(vx, files_of(statement.path())[0]), statement)
    best = []
    for run, status, told_rows, told, block in answers(client, vx, runs, lambda file: statement.over(file, key_name), draw):
        if status != 0:
            raise Refused(status, told, run.file, block)
        found = [without_key(line, key_name) for line in told_rows.splitlines()]
        best = ordered(best + found, statement.descending)[: statement.limit]
    for row, key in best:
        yield row + b"\n"


# ---- the command


@contextlib.contextmanager
def cluster(scheduler, workers):
    """A client of a cluster: of the scheduler that is named, or of one on this machine."""
    from distributed import Client, LocalCluster

    if scheduler is not None:
        try:
            client = Client(scheduler, timeout=10)
        except OSError as error:
            raise Refused(UNREAD, "the scheduler %s doesn't answer: %s" % (scheduler, error))
        with client:
            yield client
        return
    with LocalCluster(n_workers=workers, threads_per_worker=1, processes=True, dashboard_address=None) as local, Client(local) as client:
        yield client


def words():
    parser = argparse.ArgumentParser(description=__doc__, formatter_class=argparse.RawDescriptionHelpFormatter)
    parser.add_argument("statement")
    parser.add_argument("--scheduler")
    parser.add_argument("--workers", type=int, default=os.cpu_count())
    parser.add_argument("--rows", type=int, default=ROWS)
    parser.add_argument("--vx", default=PROGRAM)
    parser.add_argument("--progress", action="store_true")
    return parser.parse_args()


def main():
    asked = words()
    try:
        Statement(asked.statement)
        with cluster(asked.scheduler, asked.workers) as client:
            for line in rows(client, asked.statement, asked.vx, asked.rows, asked.progress):
                sys.stdout.buffer.write(line)
            sys.stdout.buffer.flush()
    except Refused as refused:
        with contextlib.suppress(BrokenPipeError):
            sys.stdout.buffer.flush()
        print(refused, file=sys.stderr)
        return refused.status
    except BrokenPipeError:
        os.dup2(os.open(os.devnull, os.O_WRONLY), sys.stdout.fileno())
        return UNWRITTEN
    return 0


if __name__ == "__main__":
    # what is sent to workers is named by its module, which `rows` uploads to them
    import vx_dask

    sys.exit(vx_dask.main())
