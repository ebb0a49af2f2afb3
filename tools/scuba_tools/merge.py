"""The rows of a table as JSON lines, ascending in time over all its blocks, in memory that does not grow with the rows.

The blocks are taken in the order of their first times. Each is made a run: its rows ascending in time, cut in chunks.
Runs whose times overlap are merged. Chunks that have no room in memory wait in a temporary file.
"""

import array
import bisect
import collections
import itertools
import json
import operator
import os
import tempfile

from .cells import INTEGERS, MOST, TEXTS, cells_of, live_places
from .program import Fault
from .region import NoImage, read_all

CHUNK, MEMORY = 512, 32 << 20
# What an object of a line and one of its time take beside the line's bytes.
OVERHEAD = 100
CHANGED = "leaf {}: its region changed while it was read; wait until nobody writes to it"
NO_ROOM = "the times of blocks overlap, and {} has no room to sort their rows: {}; TMPDIR may name another folder"
as_json = json.encoder.encode_basestring


class Part:
    """A block of a table at a leaf. `first` is the least time of the rows that queries see, or None without one."""

    def __init__(self, leaf, region, table, number):
        self.leaf, self.region, self.number, self.table = leaf, region, number, table
        self.block = table.blocks[number]
        self.first = min(map(self.times().__getitem__, self.live(self.times())), default=None)

    def times(self):
        return self.cells(self.block.columns[0]).values()

    def live(self, times):
        return live_places(self.table, self.number, times)

    def cells(self, column):
        try:
            return cells_of(self.region, column)
        except NoImage:
            raise Fault("leaf {}: the column at {} of its region means no cells".format(self.leaf, column.place))

    def chunks(self):
        """Times and lines of some rows each, ascending in time."""
        times = self.times()
        places = sorted(self.live(times), key=times.__getitem__)
        columns = [['{{"time":{}'.format(time) for time in times]]
        columns += [self.members(column) for column in self.block.columns[1:]]
        if self.region.has_changed():
            raise Fault(CHANGED.format(self.leaf))
        for begin in range(0, len(places), CHUNK):
            some = places[begin : begin + CHUNK]
            members = [pick(column, some) for column in columns]
            lines = ["".join(line).encode() for line in zip(*members, itertools.repeat("}\n"))]
            yield pick(times, some), lines

    def members(self, column):
        """For each row the member of its object, with the comma before it; nothing where the cell is missing."""
        begin, cells = ",{}:".format(as_json(column.name)), self.cells(column)
        if cells.kind == INTEGERS:
            return cells.mapped(lambda value: begin + str(value), "")
        if cells.kind == TEXTS:
            return cells.mapped(lambda value: begin + as_json(value), "")
        return cells.mapped(lambda value: "{}[{}]".format(begin, ",".join(map(as_json, value))), "")


def pick(values, places):
    return operator.itemgetter(*places)(values) if len(places) > 1 else [values[places[0]]]


# A chunk that is kept in memory, and one that is kept in the file: there the times stand before the lines.
Held = collections.namedtuple("Held", "size times lines")
Spilled = collections.namedtuple("Spilled", "place rows size")


class Store:
    """Keeps chunks: in memory as long as there is room, and else in a file without a name."""

    def __init__(self):
        self.used, self.end, self.file = 0, 0, None

    def put(self, times, lines):
        size = sum(map(len, lines)) + OVERHEAD * len(lines)
        if self.used + size > MEMORY:
            return self.spill(times, lines)
        self.used += size
        return Held(size, times, lines)

    def spill(self, times, lines):
        data = array.array("q", times).tobytes() + b"".join(lines)
        try:
            self.file = self.file or tempfile.TemporaryFile(prefix="scuba-dump.", buffering=0)
            written = 0
            while written < len(data):
                written += os.pwrite(self.file.fileno(), data[written:], self.end + written)
        except OSError as error:
            raise Fault(NO_ROOM.format(tempfile.gettempdir(), error.strerror))
        self.end += len(data)
        return Spilled(self.end - len(data), len(times), len(data) - 8 * len(times))

    def get(self, chunk):
        """Times and lines of a chunk, which is not kept any longer."""
        if isinstance(chunk, Held):
            self.used -= chunk.size
            return chunk.times, chunk.lines
        data = read_all(self.file.fileno(), chunk.place, 8 * chunk.rows + chunk.size)
        # An end of a line stands in no text: JSON escapes it.
        return array.array("q", data[: 8 * chunk.rows]).tolist(), data[8 * chunk.rows :].splitlines(True)


class Run:
    """The rows of a part that were not taken yet, of which one chunk is at hand."""

    def __init__(self, part, store):
        self.store = store
        self.chunks = collections.deque(store.put(*chunk) for chunk in part.chunks())
        self.refill()

    def refill(self):
        (self.times, self.lines), self.at = self.store.get(self.chunks.popleft()), 0

    def take(self, bound):
        """Times and lines of the rows at hand up to a time."""
        begin, self.at = self.at, bisect.bisect_right(self.times, bound, self.at)
        return self.times[begin : self.at], self.lines[begin : self.at]

    def goes_on(self):
        """Whether there are rows left. Then some are at hand."""
        if self.at == len(self.times) and self.chunks:
            self.refill()
        return self.at < len(self.times)


def merged(parts):
    """The lines of all rows, some at a time, ascending by the rows' times."""
    store, runs = Store(), []
    waiting = collections.deque(sorted((part for part in parts if part.first is not None), key=lambda part: part.first))
    while waiting or runs:
        if not runs:
            runs.append(Run(waiting.popleft(), store))
        # All rows that are not at hand have this time or a later one.
        bounds = [run.times[-1] for run in runs if run.chunks] + [part.first for part in itertools.islice(waiting, 1)]
        bound = min(bounds, default=MOST)
        yield in_order([run.take(bound) for run in runs])
        runs = [run for run in runs if run.goes_on()]
        while waiting and waiting[0].first <= bound:
            runs.append(Run(waiting.popleft(), store))


def in_order(taken):
    """The lines of some ascending lists, ascending."""
    taken = [(times, lines) for times, lines in taken if times]
    if len(taken) == 1:
        return taken[0][1]
    times = list(itertools.chain.from_iterable(times for times, _ in taken))
    lines = list(itertools.chain.from_iterable(lines for _, lines in taken))
    return [lines[place] for place in sorted(range(len(times)), key=times.__getitem__)]
