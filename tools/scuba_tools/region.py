"""Reads the directory of a region by its format (docs/FORMATS.md): tables, blocks, and the places of columns.

Nothing is changed, and no lock is taken.
"""

import collections
import os

HEAD = 16

Column = collections.namedtuple("Column", "name place length")
Block = collections.namedtuple("Block", "rows columns")
# The first `cut` rows of the first block are none of the table's, nor are rows with a time below the horizon.
Table = collections.namedtuple("Table", "name horizon writes cut blocks")


class NoImage(Exception):
    """The region is no image. The text is what a start prints behind `disk`, such as `nohead` or `closed 0`."""


class Region:
    """The directory of an image, of which the file stays open. A path that is not there has no head."""

    def __init__(self, path):
        try:
            self.file = os.open(path, os.O_RDONLY)
        except FileNotFoundError:
            raise NoImage("nohead")
        self.opened = self.identity()
        try:
            self.log_end, self.tables = self.directory()
        except NoImage:
            self.close()
            raise

    def __enter__(self):
        return self

    def __exit__(self, *_):
        self.close()

    def close(self):
        os.close(self.file)

    def identity(self):
        """What changes where the file is written."""
        told = os.fstat(self.file)
        return told.st_size, told.st_mtime_ns, os.pread(self.file, HEAD, 0)

    def has_changed(self):
        """Whether somebody wrote to the file since it was opened."""
        return self.identity() != self.opened

    def directory(self):
        head = os.pread(self.file, HEAD, 0)
        if len(head) < HEAD:
            raise NoImage("nohead")
        if head[0] != 1:
            raise NoImage("closed {}".format(head[0]))
        version, place = int.from_bytes(head[4:8], "little"), int.from_bytes(head[8:], "little")
        if version not in (2, 3):
            raise NoImage("version {}".format(version))
        size = os.fstat(self.file).st_size
        need(head[1:4] == b"SCB" and HEAD <= place <= size)
        reader = Reader(read_all(self.file, place, size - place))
        log_end, tables = reader.number(8), [reader.table() for _ in range(reader.number(1))]
        places = [column for table in tables for block in table.blocks for column in block.columns]
        end = HEAD
        for column in places:
            need(column.place == end)
            end += column.length
        need(end == place and reader.is_over())
        return log_end, tables


def read_all(file, place, length):
    """So many bytes from a place on."""
    pieces = []
    while length:
        piece = os.pread(file, min(length, 1 << 30), place)
        need(piece)
        pieces.append(piece)
        place, length = place + len(piece), length - len(piece)
    return pieces[0] if len(pieces) == 1 else b"".join(pieces)


def need(holds):
    if not holds:
        raise NoImage("noimage")


class Reader:
    """Reads numbers and names from some bytes, one behind another."""

    def __init__(self, data, at=0):
        self.data, self.at = data, at

    def is_over(self):
        return self.at == len(self.data)

    def piece(self, length):
        self.at += length
        need(self.at <= len(self.data))
        return self.data[self.at - length : self.at]

    def number(self, length):
        return int.from_bytes(self.piece(length), "little")

    def name(self):
        return decoded(self.piece(self.number(1)))

    def table(self):
        name, horizon, writes, cut = self.name(), self.number(8), self.number(8), self.number(4)
        return Table(name, horizon, writes, cut, [self.block() for _ in range(self.number(4))])

    def block(self):
        rows, count = self.number(4), self.number(4)
        need(count >= 1)
        columns = [Column(self.name(), self.number(8), self.number(8)) for _ in range(count)]
        need(columns[0].name == "time")
        return Block(rows, columns)


def decoded(piece):
    try:
        return piece.decode()
    except UnicodeDecodeError:
        raise NoImage("noimage")
