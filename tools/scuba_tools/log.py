"""Reads a leaf's log by its format (docs/FORMATS.md): its records, their tables, and where it ends.

Nothing is changed, and no lock is taken.
"""

import collections
import os

from .region import read_all

# The place of the open gate before a record, the length of the record, and its table.
Record = collections.namedtuple("Record", "place length table")
# A gate, the length of a record, its kind, and a name of at most 255 bytes with its length.
RECORD_HEAD = 1 + 8 + 1 + 1 + 255


class Damaged(Exception):
    """An open gate has no record and gate behind it."""


class Log:
    """A log, of which the file stays open. A path that is not there is an empty log."""

    def __init__(self, path):
        try:
            self.file = os.open(path, os.O_RDONLY)
        except FileNotFoundError:
            self.file = None
        self.is_there = self.file is not None
        self.size = os.fstat(self.file).st_size if self.is_there else 0
        # Where the log ends, as far as `records` went.
        self.end = 0

    def __enter__(self):
        return self

    def __exit__(self, *_):
        if self.is_there:
            os.close(self.file)

    def records(self):
        """The records up to the log's end, by gates and lengths. What else a record holds is not looked at."""
        while self.size > 1:
            head = os.pread(self.file, RECORD_HEAD, self.end)
            if head[:1] != b"\1":
                return
            length = int.from_bytes(head[1:9], "little")
            if len(head) < 11 or self.end + 9 + length >= self.size:
                raise Damaged
            yield Record(self.end, length, head[11 : 11 + head[10]].decode(errors="replace"))
            self.end += 9 + length

    def bytes_of(self, record):
        return read_all(self.file, record.place + 9, record.length)

    def may_end_at(self, place):
        """Whether the log ends at this place, as far as two of its bytes tell. `records` tells it exactly."""
        if self.size <= 1:
            return place == 0
        first, there = os.pread(self.file, 1, 0), os.pread(self.file, 1, place)
        return there not in (b"", b"\1") and (place == 0 or first == b"\1")
