"""Reads what a leaf's two files mean, as docs/FORMATS.md and docs/OPERATIONS.md have it: which tables a start opens from a region and a log, what it says, and what it leaves of
both files. It was written from these pages alone, and shares nothing with the program. `tests/damage` compares the program with it."""

import json

WORD, HALF = 1 << 64, 1 << 63


class NoBytes(Exception):
    """The bytes mean no value of the format."""


def need(holds):
    if not holds:
        raise NoBytes


class Bytes:
    """Reads numbers, texts and pieces from some bytes, one behind another."""

    def __init__(self, data, at=0):
        self.data, self.at = data, at

    def piece(self, length):
        need(self.at + length <= len(self.data))
        piece = self.data[self.at : self.at + length]
        self.at += length
        return piece

    def number(self, length):
        return int.from_bytes(self.piece(length), "little")

    def signed(self):
        return int.from_bytes(self.piece(8), "little", signed=True)

    def text(self, width):
        return as_text(self.piece(self.number(width)))

    def is_over(self):
        return self.at == len(self.data)


def as_text(piece):
    """Texts are kept as their bytes, by which they are ordered."""
    try:
        piece.decode()
    except UnicodeDecodeError:
        raise NoBytes from None
    return piece


def ascends(texts):
    return all(one < next_one for one, next_one in zip(texts, texts[1:]))


def is_set(texts):
    return len(texts) <= 1024 and ascends(texts) and sum(map(len, texts)) <= 65535


class Table:
    """Rows are pairs of a time and cells by name; a cell is an int, bytes for a text, or a tuple of bytes for a set."""

    def __init__(self, horizon=0, writes=0, rows=()):
        self.horizon, self.writes, self.rows = horizon, writes, list(rows)

    def write(self, kind, value):
        self.writes += 1
        if kind == 1:
            self.rows += [row for row in value if row[0] >= self.horizon]
        elif kind == 2:
            self.horizon = max(self.horizon, value)
            self.rows = [row for row in self.rows if row[0] >= self.horizon]
        else:
            self.rows = self.rows[max(0, len(self.rows) - value) :]


class Start:
    """What a start says behind `start L`; where the leaf is up, the tables by name and where its log ends; and both files behind it (None: not there)."""

    def __init__(self, says, region, disk, tables=None, end=None):
        self.says, self.region, self.disk, self.tables, self.end = says, region, disk, tables, end


class Reader:
    """The methods with one short rule each are those that a wrong reader has otherwise (`tests/damage`)."""

    def start(self, region, disk, names):
        why, region, end, found = self.look(region, names)
        if found is None:
            return Start(why, region, disk)
        if why == b"memory":
            return Start(why, region, disk, {name: found.get(name, Table()) for name in names}, end)
        tables = {name: Table() for name in names}
        try:
            stranger, end = self.replay(disk or b"", tables)
        except NoBytes:
            return Start(b"fault damaged", region, disk)
        if stranger is not None:
            return Start(b"fault stranger " + stranger, region, disk)
        return Start(why, region, self.begun(disk), tables, end)

    # ---- the region

    def look(self, region, names):
        """What a start says for the region, what is left of it, where its log ends, and the tables: None where it is refused, and none where the log is to be read."""
        if region is None or len(region) < 16:
            return b"disk nohead", region, 0, {}
        if not self.is_open_flag(region[0]):
            return b"disk closed %d" % region[0], region, 0, {}
        closed = self.closed(region)
        version, place = int.from_bytes(region[4:8], "little"), int.from_bytes(region[8:16], "little")
        if not self.is_version(version):
            return b"disk version %d" % version, closed, 0, {}
        try:
            need(self.are_letters(region[1:4]))
            end, directory = self.directory(region, place)
        except NoBytes:
            return b"disk noimage", closed, 0, {}
        for name, *_ in directory:
            if not self.is_known(name, names):
                return b"fault stranger " + name, closed, 0, None
        why, left, tables = self.take(closed, version, directory)
        return why, left, end, tables

    def take(self, region, version, directory):
        """The columns from the last to the first, each of which is cut off when it was read; then blocks and tables of them."""
        cells = {}
        columns = [(place, length, rows) for *_, blocks in directory for rows, listed in blocks for _, place, length in listed]
        for place, length, rows in reversed(columns):
            try:
                kind, values = self.column(region[place : place + length])
                need(len(values) == rows)
                need(kind != 3 or self.may_have_sets(version))
            except NoBytes:
                return b"disk noimage", self.cut_at(region, place, length), {}
            cells[place] = kind, values
        left, tables = region[:16], {}
        try:
            for name, horizon, writes, skip, blocks in directory:
                rows = [row for _, listed in blocks for row in self.rows(listed, cells)][skip:]
                tables[name] = Table(horizon, writes, (row for row in rows if self.is_live(row[0], horizon)))
        except NoBytes:
            return b"disk noimage", left, {}
        return b"memory", left, tables

    def directory(self, region, place):
        """Where the log ends; and tables with blocks with columns: names, numbers and places."""
        need(16 <= place <= len(region))
        reader, end, tables = Bytes(region, place), 16, []
        log_end, count = reader.number(8), reader.number(1)
        need(log_end < HALF)
        need(count <= 16)
        for _ in range(count):
            name, horizon, writes = reader.text(1), reader.number(8), reader.number(8)
            need(horizon < HALF and writes < HALF)
            skip, blocks = reader.number(4), []
            for _ in range(reader.number(4)):
                rows, columns = reader.number(4), []
                need(1 <= rows <= 65536)
                wide = reader.number(4)
                need(wide >= 1)
                for _ in range(wide):
                    column, at, length = reader.text(1), reader.number(8), reader.number(8)
                    need(at == end)
                    end += length
                    columns.append((column, at, length))
                need(columns[0][0] == b"time")
                others = [column for column, *_ in columns[1:]]
                need(all(column not in (b"", b"time") for column in others))
                need(all(one <= next_one for one, next_one in zip(others, others[1:])))
                blocks.append((rows, columns))
            need(self.is_skip(skip, blocks))
            tables.append((name, horizon, writes, skip, blocks))
        need(end == place and self.is_directory_end(reader))
        need(len({name for name, *_ in tables}) == len(tables))
        return log_end, tables

    def rows(self, listed, cells):
        """The rows of a block."""
        kind, times = cells[listed[0][1]]
        need(kind == 1 and all(time is not None and self.is_time(time) for time in times))
        columns = [(name, *cells[place]) for name, place, _ in listed[1:]]
        order = [(name, kind) for name, kind, _ in columns]
        need(all(one < next_one for one, next_one in zip(order, order[1:])))
        rows = [(time, {}) for time in times]
        for name, _, values in columns:
            for (_, row), value in zip(rows, values):
                if value is not None:
                    need(name not in row)
                    row[name] = value
        need(all(len(row) <= 1024 for _, row in rows))
        return rows

    # ---- columns

    def column(self, data):
        """Its kind and its cells, None where one is missing."""
        reader = Bytes(data)
        kind, form, width, presence, count = (reader.number(length) for length in (1, 1, 1, 1, 4))
        need((kind, form) in ((1, 1), (1, 2), (2, 1), (3, 1)) and width <= 64 and presence <= 1 and 1 <= count <= 65536)
        at, codes_at, extra_at, length = (reader.number(8) for _ in range(4))
        presence_bytes, code_bytes = presence * ((count + 7) // 8), (count * width + 7) // 8
        need(at == 40 and codes_at == 40 + presence_bytes and extra_at == codes_at + code_bytes and length == len(data))
        there = self.bits(reader.piece(presence_bytes), count, 1) if presence else [1] * count
        codes = self.bits(reader.piece(code_bytes), count, width)
        if kind == 1:
            values = self.offsets(reader, codes, there) if form == 1 else self.differences(reader, codes, there)
        else:
            values = self.pick(self.texts(reader) if kind == 2 else self.sets(reader), codes, there)
        need(reader.is_over())
        return kind, values

    def bits(self, piece, count, width):
        number = int.from_bytes(piece, "little")
        need(self.are_spare_bits(number >> count * width))
        return [number >> place * width & (1 << width) - 1 for place in range(count)]

    def offsets(self, reader, codes, there):
        base = reader.signed()
        values = [base + code if is_there else None for code, is_there in zip(codes, there)]
        need(all(value is None or self.is_integer(value) for value in values))
        return values

    def differences(self, reader, codes, there):
        anchors, values = [reader.signed() for _ in range((len(codes) + 63) // 64)], []
        for place, code in enumerate(codes):
            difference = code // 2 if code % 2 == 0 else -(code + 1) // 2
            value = anchors[place // 64] if place % 64 == 0 else values[-1] + difference
            values.append((value + HALF) % WORD - HALF)
        return [value if is_there else None for value, is_there in zip(values, there)]

    def texts(self, reader):
        ends = [reader.number(4) for _ in range(self.counted(reader, 4))]
        data, begin, texts = reader.piece(ends[-1] if ends else 0), 0, []
        for end in ends:
            need(begin <= end and end - begin <= 65535)
            texts.append(as_text(data[begin:end]))
            begin = end
        return texts

    def sets(self, reader):
        texts = self.texts(reader)
        ends = [reader.number(4) for _ in range(self.counted(reader, 4))]
        members = []
        need(all(one <= next_one for one, next_one in zip(ends, ends[1:])))
        for _ in range(ends[-1] if ends else 0):
            member = reader.number(4)
            need(member < len(texts))
            members.append(texts[member])
        sets = [tuple(members[begin:end]) for begin, end in zip([0] + ends, ends)]
        need(all(self.is_set(one) for one in sets))
        return sets

    def counted(self, reader, length):
        """A count of so many bytes each, for which there is room."""
        count = reader.number(4)
        need(reader.at + count * length <= len(reader.data))
        return count

    def pick(self, values, codes, there):
        need(all(code < len(values) for code, is_there in zip(codes, there) if is_there))
        return [values[code] if is_there else None for code, is_there in zip(codes, there)]

    # ---- the log

    def replay(self, disk, tables):
        """Applies the records of a log. Gives the first table of a record that is none of these, or None; and where the log ends."""
        reader = Bytes(disk)
        if len(disk) < 2:
            return None, 0
        while not reader.is_over() and self.is_open_gate(reader.number(1)):
            name, writes = self.record(Bytes(reader.piece(reader.number(8))))
            need(self.has_gate(reader))
            if name not in tables:
                return name, 0
            for kind, value in writes:
                tables[name].write(kind, value)
        return None, reader.at - 1

    def record(self, reader):
        kind, name, count, writes = reader.number(1), reader.text(1), reader.number(8), []
        need(kind in (1, 2) and count >= 1)
        while len(writes) < count:
            write = reader.number(1)
            need(1 <= write <= 3)
            if write == 1:
                rows = reader.number(4)
                need(rows <= 100000)
                writes.append((1, [self.row(reader, kind) for _ in range(rows)]))
            else:
                value = reader.number(8)
                need(write == 3 or value < HALF)
                writes.append((write, value))
        need(reader.is_over())
        return name, writes

    def row(self, reader, kind):
        time, count, names, cells = reader.number(8), reader.number(2), [], []
        need(time < HALF and count <= 1024)
        for _ in range(count):
            names.append(reader.text(1))
            need(names[-1] not in (b"", b"time"))
            cells.append(self.cell(reader, kind))
        need(ascends(names))
        return time, dict(zip(names, cells))

    def cell(self, reader, kind):
        sort = reader.number(1)
        if sort == 1:
            return reader.signed()
        if sort == 2:
            return reader.text(2)
        need(sort == 3 and self.record_may_have_sets(kind))
        texts = [reader.text(2) for _ in range(reader.number(2))]
        need(self.is_set(texts))
        return tuple(texts)

    # ---- rules that a wrong reader has otherwise

    def is_open_flag(self, flag):
        return flag == 1

    def closed(self, region):
        return b"\0" + region[1:]

    def is_version(self, version):
        return version in (2, 3)

    def are_letters(self, letters):
        return letters == b"SCB"

    def is_known(self, name, names):
        return name in names

    def may_have_sets(self, version):
        return version == 3

    def cut_at(self, region, place, length):
        return region[: place + length]

    def is_live(self, time, horizon):
        return time >= horizon

    def is_skip(self, skip, blocks):
        return skip < blocks[0][0] if blocks else skip == 0

    def is_directory_end(self, reader):
        return reader.is_over()

    def is_time(self, time):
        return 0 <= time

    def are_spare_bits(self, bits):
        return bits == 0

    def is_integer(self, value):
        return -HALF <= value < HALF

    def is_set(self, texts):
        return is_set(texts)

    def is_open_gate(self, gate):
        return gate == 1

    def has_gate(self, reader):
        return not reader.is_over()

    def record_may_have_sets(self, kind):
        return kind == 2

    def begun(self, disk):
        return b"\0" if disk is None or len(disk) < 2 else disk


def key_order(value):
    if value is None:
        return 0, 0
    if isinstance(value, int):
        return 1, value
    return (2, value) if isinstance(value, bytes) else (3, value)


def key_text(value):
    if value is None:
        return b"-"
    if isinstance(value, int):
        return b"%d" % value
    if isinstance(value, bytes):
        return json.dumps(value.decode(), ensure_ascii=False).encode()
    return b"[" + b",".join(key_text(text) for text in value) + b"]"


def answer_lines(rows, names):
    """The lines of a query that selects the time, these names and COUNT(*), and groups by them."""
    groups = {}
    for time, cells in rows:
        key = (time, *(cells.get(name) for name in names))
        groups[key] = groups.get(key, 0) + 1
    ordered = sorted(groups, key=lambda key: [key_order(value) for value in key])
    return [b" ".join(map(key_text, key)) + b" %d" % groups[key] for key in ordered]
