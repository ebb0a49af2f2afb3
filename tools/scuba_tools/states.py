"""What stands in the files of each leaf of a folder, what its next start will say, and what is wrong with them.

Nothing is changed, and no lock is taken.
"""

import os
import re

from .cells import cells_of, live_places
from .folder import process_name
from .log import Damaged, Log
from .program import Fault, run
from .region import NoImage, Region

TABLE_LINE = re.compile(r"([a-z][a-z0-9_]*) rows (\d+) writes (\d+) horizon (\d+) blocks (\d+)")
BLOCK_LINE = re.compile(r"[a-z][a-z0-9_]* block \d+ rows \d+ from (\d+) to (\d+) columns \d+ bytes (\d+)")

LINK = "{} is a link to {}, which is not there: mount or make that folder before a start"
DAMAGED = "the log is damaged behind the gate at {}: docs/OPERATIONS.md, `A log that is damaged`, says what to do"
NO_LOG = "there is a region and no log: a start has no rows; bring back both files of a copy, or the log alone"
OLDER_LOG = (
    "the region is of a log that ended at {end}, and {log}: THE LOG WAS LOST OR REPLACED. Do not start this leaf, since"
    " what it writes from then on cannot be read back. Bring back the log that fits, or take the rows out with"
    " `tools/dump --leaf {leaf} {folder} TABLE` and load them into a new folder"
)
OLDER_REGION = (
    "the region is of a log that ended at {end}, and {log}: THE REGION IS OLDER THAN THE LOG. Do not start this leaf,"
    " since it would lose what was flushed later. Move leaf-{leaf}.region away: a start then reads the log, which has"
    " all rows"
)


class TableState:
    """A table of a region: the rows that queries see, their least and greatest time (None without rows), its blocks."""

    def __init__(self, name, rows=0, writes=0, horizon=0):
        self.name, self.rows, self.writes, self.horizon = name, rows, writes, horizon
        self.blocks, self.bytes, self.first, self.last = 0, 0, None, None

    def cover(self, first, last):
        self.first = first if self.first is None else min(self.first, first)
        self.last = last if self.last is None else max(self.last, last)

    def join(self, other):
        """Takes in what another leaf has of the table."""
        for name in ("rows", "writes", "blocks", "bytes"):
            setattr(self, name, getattr(self, name) + getattr(other, name))
        self.horizon = max(self.horizon, other.horizon)
        if other.first is not None:
            self.cover(other.first, other.last)


def live_spans(region, table):
    """The least and the greatest time of the rows of each block that queries see."""
    for number, block in enumerate(table.blocks):
        times = cells_of(region, block.columns[0]).values()
        live = [times[place] for place in live_places(table, number, times)]
        if live:
            yield min(live), max(live)


class FileState:
    """Size and last write of a file, None if it is not there. `link` is where its link leads, if that is not there."""

    def __init__(self, path):
        self.path, self.link = path, None
        try:
            told = os.stat(path)
            self.bytes, self.written = told.st_size, told.st_mtime
        except FileNotFoundError:
            self.bytes, self.written = None, None
            if os.path.islink(path):
                self.link = os.readlink(path)

    @property
    def is_there(self):
        return self.bytes is not None


class LogState(FileState):
    """A log: its records and their tables, where it ends, and whether it is damaged there."""

    def __init__(self, path):
        super().__init__(path)
        self.records, self.tables, self.is_damaged = 0, [], False
        with Log(path) as log:
            try:
                for record in log.records():
                    self.records += 1
                    if record.table not in self.tables:
                        self.tables.append(record.table)
            except Damaged:
                self.is_damaged = True
            self.end = log.end


class LeafState:
    """A leaf. Its next start says `next` (memory, disk or fault) and `why`; the process `served_by` has it up."""

    def __init__(self, program, folder, leaf, tables, served_by):
        self.leaf, self.served_by, self.tables = leaf, served_by, []
        try:
            self.region, self.log = FileState(folder.region(leaf)), LogState(folder.disk(leaf))
        except OSError as error:
            raise Fault("leaf {} cannot be read: {}".format(leaf, error.strerror))
        self.word, self.region_end = self.inspected(program, folder)
        self.next, self.why = self.start(tables)
        self.warnings = list(self.file_warnings()) + (self.time_warnings(folder) if served_by is None else [])

    @property
    def is_new(self):
        """Whether there are no files. A leaf of a fleet that never had rows has none; so has one that lost both."""
        return not (self.region.is_there or self.log.is_there or self.warnings)

    @property
    def is_well(self):
        return self.is_new or (self.next == "memory" and not self.warnings)

    # ---- the region

    def inspected(self, program, folder):
        """What `inspect` says of the region, and where the log ended when it was drained (None if it is no image)."""
        ran = run(program, [folder.path, "inspect", str(self.leaf)])
        lines = ran.printed.decode(errors="replace").split("\n")
        found = re.fullmatch(r"region {} (.*)".format(self.leaf), lines[0])
        if ran.status or not found:
            why = ran.why or lines[0] or "nothing"
            raise Fault("`inspect {}` ended with status {} and said: {}".format(self.leaf, ran.status, why))
        image = re.fullmatch(r"image \d+ tables \d+ log (\d+)", found.group(1))
        if not image:
            return found.group(1), None
        for line in lines[1:]:
            self.take(line)
        self.look_at_cuts()
        return "image", int(image.group(1))

    def take(self, line):
        table, block = TABLE_LINE.fullmatch(line), BLOCK_LINE.fullmatch(line)
        if table:
            self.tables.append(TableState(table.group(1), *map(int, table.groups()[1:4])))
        elif block:
            first, last, size = map(int, block.groups())
            state = self.tables[-1]
            state.blocks, state.bytes = state.blocks + 1, state.bytes + size
            state.cover(first, last)

    def look_at_cuts(self):
        """Reads the times of tables with rows that were taken away, since `inspect` tells blocks with these rows."""
        try:
            with Region(self.region.path) as region:
                for state, table in zip(self.tables, region.tables):
                    if table.cut or (state.first is not None and state.first < table.horizon):
                        state.first, state.last = None, None
                        for first, last in live_spans(region, table):
                            state.cover(first, last)
        except NoImage:
            # A program took the region meanwhile.
            pass

    # ---- the next start

    def start(self, tables):
        """What the next start says. `tables` are those of the fleet, or None if no fleet is known."""
        if self.served_by is not None:
            return "fault", "{} serves the leaf".format(process_name(self.served_by))
        if self.word.startswith("fault"):
            return "fault", self.word.split(" ", 1)[1]
        named = [table.name for table in self.tables] if self.word == "image" else self.log.tables
        strangers = [name for name in named if tables is not None and name not in tables]
        if strangers:
            return "fault", "stranger {}".format(strangers[0])
        if self.word == "image":
            return "memory", ""
        return ("fault", "damaged") if self.log.is_damaged else ("disk", self.word)

    # ---- what is wrong

    def file_warnings(self):
        for file in (self.region, self.log):
            if file.link is not None:
                yield LINK.format(os.path.basename(file.path), file.link)
        if self.log.is_damaged:
            yield DAMAGED.format(self.log.end)

    def time_warnings(self, folder):
        """Whether region and log are of one time: the region says where the log ended when it was drained."""
        log, end = self.log, self.region_end
        if end is None and not log.is_there:
            return [NO_LOG] if self.region.is_there else []
        if end is None or log.end == end or (log.end < end and log.is_damaged):
            return []
        what = "the log ends at {}".format(log.end) if log.is_there else "the log is not there"
        form = OLDER_LOG if log.end < end else OLDER_REGION
        return [form.format(end=end, log=what, leaf=self.leaf, folder=folder.name)]
