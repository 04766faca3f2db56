"""Makes folders of block files of a table of six columns, by a rule, for the scripts beside this one.

Row i has the id i; its other cells are those of one of 16 blocks of 65,536 rows, in turn: a price from 0 to 10,006, an amount from 0 to 999,982, a small from
0 to 99, whether it is sold, and one of four cities. Each block has the least and the greatest value of each column and no nulls.
"""
import os
import sys
from array import array

import tables  # noqa: F401: brings wire and block_files into reach
from block_files import MARK, counted
from wire import number, text, type_bytes, value_bytes

BLOCK = 65_536
COLUMNS = [("id", "i64"), ("price", "i32"), ("amount", "i64"), ("small", "u8"), ("sold", "bool"), ("city", "utf8")]
CITIES = ["Bern", "Oslo", "Riga", "Rome"]
WIDTHS = {"i64": ("q", 8), "i32": ("i", 4), "u8": ("B", 1), "bool": ("B", 1)}


def cells_of(variant, rows):
    """The cells of a block but its ids, column by column."""
    each = range(variant * BLOCK, variant * BLOCK + rows)
    return [
        [i * 7919 % 10_007 for i in each],
        [i * 104_729 % 999_983 for i in each],
        [i % 100 for i in each],
        [i * 31 % 7 == 0 for i in each],
        [CITIES[i * 13 % 4] for i in each],
    ]


def range_bytes(dtype, cells):
    """The bytes of a column: each cell behind a byte that says that it isn't null."""
    if dtype == "utf8":
        return b"".join(b"\1" + text(cell) for cell in cells)
    code, width = WIDTHS[dtype]
    words = array(code, cells)
    if sys.byteorder == "big":
        words.byteswap()
    whole = bytearray((1 + width) * len(cells))
    whole[0 :: 1 + width] = b"\1" * len(cells)
    plain = words.tobytes()
    for i in range(width):
        whole[1 + i :: 1 + width] = plain[i::width]
    return bytes(whole)


def bounds_of(cells):
    return min(cells, key=lambda cell: cell.encode() if isinstance(cell, str) else cell), max(cells, key=lambda cell: cell.encode() if isinstance(cell, str) else cell)


class Maker:
    """Makes the blocks of files; those of equal cells are made once."""

    def __init__(self):
        self.made = {}

    def others(self, variant, rows):
        """The bytes and the bounds of the columns but the first."""
        if (variant, rows) not in self.made:
            cells = cells_of(variant, rows)
            types = [dtype for name, dtype in COLUMNS[1:]]
            self.made[variant, rows] = [range_bytes(dtype, column) for dtype, column in zip(types, cells)], [bounds_of(column) for column in cells]
        return self.made[variant, rows]

    def block(self, first, rows):
        """The bytes and the bounds of each column of a block from a row on."""
        ids = list(range(first, first + rows))
        others, bounds = self.others(first // BLOCK % 16, rows)
        return [range_bytes("i64", ids)] + others, [(ids[0], ids[-1])] + bounds

    def file(self, path, first, rows):
        """Writes the file of so many rows from one on."""
        lengths = [min(BLOCK, rows - at) for at in range(0, rows, BLOCK)]
        blocks = [self.block(first + at, length) for at, length in zip(range(0, rows, BLOCK), lengths)]
        stats = []
        for place, (name, dtype) in enumerate(COLUMNS):
            for kind in range(3):
                values = [(*bounds[place], 0)[kind] for ranges, bounds in blocks]
                stats.append(counted([text(name)]) + bytes([kind]) + b"".join(value_bytes("u64" if kind == 2 else dtype, value) for value in values))
        header = type_bytes({"struct": [{"name": name, "type": dtype} for name, dtype in COLUMNS], "nullable": False})
        header += counted([number(length) for length in lengths]) + counted(stats)
        header += b"".join(number(len(one)) for ranges, bounds in blocks for one in ranges)
        with open(path, "wb") as out:
            out.write(MARK + number(len(header)) + header)
            for ranges, bounds in blocks:
                out.write(b"".join(ranges))


def make(folder, files, rows):
    """Makes a folder of so many files of so many rows each."""
    os.makedirs(folder, exist_ok=True)
    maker = Maker()
    for file in range(files):
        maker.file(os.path.join(folder, "%06d.vxb" % file), file * rows, rows)
