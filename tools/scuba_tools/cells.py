"""Reads the cells of a region's columns by their format (docs/FORMATS.md)."""

import array
import itertools
import sys

from .region import NoImage, Reader, decoded, need, read_all

LEAST, MOST = -(1 << 63), (1 << 63) - 1
INTEGERS, TEXTS = 1, 2


def cells_of(region, column):
    """The cells of a column that the directory names."""
    return Cells(read_all(region.file, column.place, column.length))


def live_places(table, number, times):
    """The places in block `number` of a table of the rows that queries see, given the block's times."""
    begin = table.cut if number == 0 else 0
    if not begin and (not times or min(times) >= table.horizon):
        return range(len(times))
    return [place for place in range(begin, len(times)) if times[place] >= table.horizon]


class Cells:
    """The cells of a column: `kind`, how many there are, and their values."""

    def __init__(self, data):
        need(len(data) >= 40)
        self.kind, form, width, has_gaps = data[:4]
        self.count = int.from_bytes(data[4:8], "little")
        gaps_at, codes_at, extra_at, length = integers("Q", data[8:40])
        need((self.kind, form) in ((1, 1), (1, 2), (2, 1), (3, 1)) and width <= 64 and length == len(data))
        need(gaps_at == 40 and codes_at == gaps_at + (has_gaps * self.count + 7) // 8)
        need(extra_at == codes_at + (width * self.count + 7) // 8)
        self.is_there = unpacked(data[gaps_at:codes_at], self.count, 1) if has_gaps else None
        self.codes, extra = unpacked(data[codes_at:extra_at], self.count, width), Reader(data, extra_at)
        # Of integers `codes` are the cells; of texts and sets they are places in `choices`.
        self.choices = None
        if self.kind == INTEGERS:
            self.codes = offsets(self.codes, extra) if form == 1 else differences(self.codes, extra)
        else:
            self.choices = texts(extra) if self.kind == TEXTS else sets(extra)
        need(extra.is_over())

    def mapped(self, make, missing=None):
        """A list with `make` of each cell, and `missing` for a missing one. Of equal texts or sets it is made once."""
        if self.choices is None:
            if self.is_there is None:
                return list(map(make, self.codes))
            return [make(code) if is_there else missing for code, is_there in zip(self.codes, self.is_there)]
        made = [make(choice) for choice in self.choices]
        try:
            if self.is_there is None:
                return [made[code] for code in self.codes]
            return [made[code] if is_there else missing for code, is_there in zip(self.codes, self.is_there)]
        except IndexError:
            raise NoImage("noimage")

    def values(self):
        """An int, a str or a list of str for each cell, and None where there is none."""
        return self.mapped(lambda value: value)


def bit_table(width):
    """The codes of this width in each byte."""
    return [tuple(byte >> place & (1 << width) - 1 for place in range(0, 8, width)) for byte in range(256)]


BIT_TABLES = {width: bit_table(width) for width in (1, 2, 4)}
WHOLE_BYTES = {8: "B", 16: "H", 32: "I", 64: "Q"}


def unpacked(piece, count, width):
    """So many codes of this width from a bit string."""
    if width == 0:
        return [0] * count
    if width in WHOLE_BYTES:
        return integers(WHOLE_BYTES[width], piece)
    if width in BIT_TABLES:
        return list(itertools.chain.from_iterable(map(BIT_TABLES[width].__getitem__, piece)))[:count]
    # Eight codes stand in `width` bytes.
    mask, shifts, codes = (1 << width) - 1, [width * place for place in range(8)], []
    for at in range(0, len(piece), width):
        eight = int.from_bytes(piece[at : at + width], "little")
        codes += [eight >> shift & mask for shift in shifts]
    return codes[:count]


def offsets(codes, extra):
    base = int.from_bytes(extra.piece(8), "little", signed=True)
    return [base + code for code in codes]


def differences(codes, extra):
    anchors = integers("q", extra.piece((len(codes) + 63) // 64 * 8))
    steps, values = [code >> 1 ^ -(code & 1) for code in codes], []
    for anchor, at in zip(anchors, range(0, len(codes), 64)):
        steps[at] = anchor
        values += itertools.accumulate(steps[at : at + 64])
    if values and not LEAST <= min(values) <= max(values) <= MOST:
        values = [(value - LEAST) % (1 << 64) + LEAST for value in values]
    return values


def texts(extra):
    ends = numbers(extra, extra.number(4))
    data = extra.piece(ends[-1] if ends else 0)
    return [decoded(data[begin:end]) for begin, end in zip([0] + ends, ends)]


def sets(extra):
    choices, ends = texts(extra), numbers(extra, extra.number(4))
    members = numbers(extra, ends[-1] if ends else 0)
    need(not members or max(members) < len(choices))
    return [[choices[member] for member in members[begin:end]] for begin, end in zip([0] + ends, ends)]


def integers(code, piece):
    """The numbers of an array with this type code, little endian."""
    found = array.array(code)
    found.frombytes(piece)
    if sys.byteorder == "big":
        found.byteswap()
    return found.tolist()


def numbers(reader, count):
    """So many numbers of 32 bits."""
    return integers("I", reader.piece(4 * count))
