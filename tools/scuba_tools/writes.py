"""Counts the writes of a table in the log of a leaf (docs/FORMATS.md), and finds the record that has one of them."""

import collections
import os

from .log import Damaged, Log
from .program import Fault
from .region import NoImage, Region

# A record's table and writes, and the rows of its first write where that is an add.
Written = collections.namedtuple("Written", "table writes rows")
# Kind and name of a record, its number of writes, and the kind and the rows of its first write.
FRONT = 2 + 255 + 8 + 5


def written(log):
    """The records of a log."""
    try:
        for record in log.records():
            front = os.pread(log.file, min(FRONT, record.length), record.place + 9)
            rest = front[2 + front[1] :]
            rows = int.from_bytes(rest[9:13], "little") if rest[8:9] == b"\1" else None
            yield Written(record.table, int.from_bytes(rest[:8], "little"), rows)
    except Damaged:
        raise Fault("its log is damaged at byte {}: docs/OPERATIONS.md has what to do".format(log.end))


def find_write(path, table, number):
    """The record that has the write of a table with this number, from 0; and how many writes of the table precede it.

    None where the log has fewer writes.
    """
    before = 0
    with Log(path) as log:
        for record in written(log):
            if record.table == table:
                if number < before + record.writes:
                    return record, before
                before += record.writes
    return None


def count_writes(folder, leaf, fleet, table):
    """How many writes of a table a leaf's log has.

    A table that neither the fleet names nor is this one is a fault. So is a region that was drained when the log ended
    elsewhere: a run would go on at a wrong place of the log.
    """
    writes = collections.Counter()
    try:
        with Log(folder.disk(leaf)) as log:
            for record in written(log):
                writes[record.table] += record.writes
        log_end, tables = region_of(folder.region(leaf), log.end)
    except OSError as error:
        raise Fault("its files cannot be read: {}".format(error.strerror))
    for name in sorted({*writes, *tables} - {*fleet.tables, table}):
        raise Fault(
            "it has a table {}, which the file `fleet` does not name: the folder is of another fleet".format(name)
        )
    if log_end != log.end:
        raise Fault(
            "its region was drained when the log ended at byte {}, and the log ends at {}: "
            "one of the files is of another time".format(log_end, log.end)
        )
    return writes[table]


def region_of(path, end):
    """Where the log ended when a region was drained, and its tables. Of one that no start reads `end`, and none."""
    try:
        with Region(path) as region:
            return region.log_end, [table.name for table in region.tables]
    except NoImage:
        return end, []
