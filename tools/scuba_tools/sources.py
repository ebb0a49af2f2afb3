"""What a start of a leaf would take its tables from, and copies of just these files in memory."""

import os

from .copies import Copies
from .folder import identity, process_name
from .log import Damaged, Log
from .program import Fault
from .region import NoImage, Region


class Source:
    """The files that a start of a leaf reads: a region that is an image, and else the log.

    `with_log` says that the log is read in any case. `fits` says whether the region was drained where the log ends, as
    far as a short look tells.
    """

    def __init__(self, folder, leaf, with_log):
        self.leaf, self.region, self.disk = leaf, folder.region(leaf), folder.disk(leaf)
        self.tables, self.is_image, self.with_log, self.fits = [], False, with_log, True
        try:
            self.look()
        except OSError as error:
            raise Fault("leaf {} cannot be read: {}".format(leaf, error.strerror))

    def look(self):
        with Log(self.disk) as log:
            try:
                with Region(self.region) as region:
                    self.is_image, self.tables = True, [table.name for table in region.tables]
                    self.fits = log.may_end_at(region.log_end)
            except NoImage:
                self.with_log = True
            if self.with_log:
                self.tables += log_tables(log)

    def files(self):
        """The names of the files that a start reads, and their paths."""
        names = (("region", self.region, self.is_image), ("disk", self.disk, self.with_log))
        return [("leaf-{}.{}".format(self.leaf, end), path) for end, path, is_read in names if is_read]


def log_tables(log):
    """The tables of a log's records, up to its end or its first damage."""
    names = {}
    try:
        for record in log.records():
            names[record.table] = True
    except Damaged:
        pass
    return list(names)


def refuse_served(folder):
    """Refuses a folder of which a running program serves a leaf: its rows are in the program's memory."""
    serving = folder.serving()
    if serving:
        leaf, pid = min(serving.items())
        what = "{} serves leaf {} of {}, whose rows are in its memory".format(process_name(pid), leaf, folder.name)
        raise Fault("{}; wait until it has ended".format(what))


def copied(folder, leaves, with_logs=()):
    """Copies of what starts of these leaves read, with the sources. Of leaves `with_logs` that is the log too."""
    for _ in range(2):
        refuse_served(folder)
        sources = [Source(folder, leaf, leaf in with_logs) for leaf in leaves]
        copies = Copies()
        try:
            changed = copy_into(copies, [file for source in sources for file in source.files()])
        except BaseException:
            copies.close()
            raise
        if changed is None:
            return copies, sources
        copies.close()
    refuse_served(folder)
    raise Fault("{} changed twice while it was copied; wait until nobody writes to {}".format(changed, folder.name))


def copy_into(copies, files):
    """Copies files, of which some may not be there. Gives the path of one that changed meanwhile, or None."""
    before, opened = {path: identity(path) for _, path in files}, []
    try:
        for name, path in files:
            if before[path] is not None:
                opened.append((name, os.open(path, os.O_RDONLY)))
        copies.fill(opened)
    except FileNotFoundError as error:
        return error.filename
    finally:
        for _, file in opened:
            os.close(file)
    return next((path for path in before if identity(path) != before[path]), None)
