"""A folder of leaves: its files, its fleet, its lock, and the programs that serve its leaves."""

import fcntl
import os
import re

from .program import Fault

MOST_LEAVES, MOST_TABLES = 256, 16
LOCKS = "/proc/locks"
LEAF_FILE = re.compile(r"leaf-(0|[1-9][0-9]{0,2})\.(?:region|disk)")
TABLE_NAME = re.compile(r"[a-z][a-z0-9_]{0,63}")
# A line of /proc/locks: the process, the device's two numbers in hexadecimal, and the inode.
LOCK_LINE = re.compile(r"\d+: FLOCK .* (\d+) ([0-9a-f]+):([0-9a-f]+):(\d+) ")


class Fleet:
    """Machines, leaves of each machine, and tables: the words of a script's first command."""

    def __init__(self, machines, each, tables):
        self.machines, self.each, self.tables = machines, each, tuple(tables)

    @property
    def leaves(self):
        """How many leaves the fleet has; their numbers begin at 0."""
        return self.machines * self.each

    def line(self):
        return "fleet {} {} {}".format(self.machines, self.each, " ".join(self.tables))

    def __eq__(self, other):
        return isinstance(other, Fleet) and self.line() == other.line()


def read_fleet(line):
    """The fleet that a script's first line tells, or None where it tells none."""
    words = line.split()
    if len(words) < 4 or words[0] != "fleet" or not all(re.fullmatch("[0-9]{1,20}", word) for word in words[1:3]):
        return None
    fleet, tables = Fleet(int(words[1]), int(words[2]), words[3:]), words[3:]
    is_fleet = 1 <= fleet.leaves <= MOST_LEAVES and len(tables) <= MOST_TABLES and len(set(tables)) == len(tables)
    return fleet if is_fleet and all(TABLE_NAME.fullmatch(table) for table in tables) else None


class Folder:
    """An existing folder. `path` is its real path; `name` is what the user called it."""

    def __init__(self, path):
        self.name, self.path = str(path), os.path.realpath(path)
        if not os.path.isdir(self.path):
            raise Fault("{} is no folder".format(path))

    def region(self, leaf):
        return os.path.join(self.path, "leaf-{}.region".format(leaf))

    def disk(self, leaf):
        return os.path.join(self.path, "leaf-{}.disk".format(leaf))

    def leaves(self):
        """The numbers of the leaves that have a file, ascending."""
        try:
            names = os.listdir(self.path)
        except OSError as error:
            raise Fault("{} cannot be read: {}".format(self.name, error.strerror))
        found = {int(match.group(1)) for match in map(LEAF_FILE.fullmatch, names) if match}
        return sorted(leaf for leaf in found if leaf < MOST_LEAVES)

    def fleet(self):
        """The fleet that the file `fleet` of the folder tells, or None where that file is not there."""
        try:
            with open(os.path.join(self.path, "fleet"), encoding="utf-8", errors="replace") as kept:
                text = kept.read(1 << 16)
        except FileNotFoundError:
            return None
        except OSError as error:
            raise Fault("{}/fleet cannot be read: {}".format(self.name, error.strerror))
        fleet = read_fleet(text) if text.count("\n") <= 1 else None
        if fleet is None:
            raise Fault("{}/fleet tells no fleet: it must have one line, `fleet M P TABLE..`".format(self.name))
        return fleet

    def write_fleet(self, fleet):
        """Writes the file `fleet`: a crash leaves the file as it was, or as it is to be."""
        path = os.path.join(self.path, "fleet")
        try:
            with open(path + ".new", "w", encoding="utf-8") as kept:
                kept.write(fleet.line() + "\n")
                kept.flush()
                os.fsync(kept.fileno())
            os.rename(path + ".new", path)
            self.sync()
        except OSError as error:
            raise Fault("{}/fleet cannot be written: {}".format(self.name, error.strerror))

    def sync(self):
        """Syncs the folder's own entries."""
        folder = os.open(self.path, os.O_RDONLY | os.O_DIRECTORY)
        try:
            os.fsync(folder)
        finally:
            os.close(folder)

    def lock(self, exclusive, wait):
        """Locks the folder itself, and gives the descriptor that has the lock. The program does not look at it."""
        try:
            folder = os.open(self.path, os.O_RDONLY | os.O_DIRECTORY)
        except OSError as error:
            raise Fault("{} cannot be read: {}".format(self.name, error.strerror))
        try:
            fcntl.flock(folder, (fcntl.LOCK_EX if exclusive else fcntl.LOCK_SH) | (0 if wait else fcntl.LOCK_NB))
        except OSError as error:
            os.close(folder)
            if isinstance(error, BlockingIOError):
                raise Fault("another tool works in {}".format(self.name))
            raise Fault("{} cannot be locked: {}".format(self.name, error.strerror))
        return folder

    def serving(self):
        """The leaves whose files a program has locked, each with its process. No lock is taken for that."""
        held, found = locks(), {}
        for leaf in self.leaves() if held else ():
            for path in (self.region(leaf), self.disk(leaf)):
                pid = holder_of(path, held)
                if pid is not None:
                    found.setdefault(leaf, pid)
        return found


def locks():
    """The locks by `flock` on the machine: for each inode the device's two numbers and the process."""
    held = {}
    try:
        with open(LOCKS, encoding="ascii", errors="replace") as lines:
            for found in filter(None, map(LOCK_LINE.match, lines)):
                device = int(found.group(2), 16), int(found.group(3), 16)
                held.setdefault(int(found.group(4)), []).append((device, int(found.group(1))))
    except OSError:
        # Without /proc nothing is known of locks.
        pass
    return held


def holder_of(path, held):
    """The process that has locked a file, or None."""
    try:
        told = os.stat(path)
    except OSError:
        return None
    for device, pid in held.get(told.st_ino, ()):
        # Btrfs tells another device there than here. So a process that has the file open is taken too.
        if device == (os.major(told.st_dev), os.minor(told.st_dev)) or has_open(pid, told):
            return pid
    return None


def has_open(pid, told):
    """Whether a process has a file open, as far as this user may know."""
    files = "/proc/{}/fd".format(pid)
    try:
        paths = [os.path.join(files, name) for name in os.listdir(files)]
    except OSError:
        return False
    for path in paths:
        try:
            if os.path.samestat(os.stat(path), told):
                return True
        except OSError:
            continue
    return False


def identity(path):
    """Inode, size, times and first 16 bytes of a file: they tell that it was written or replaced. None without it."""
    try:
        file = os.open(path, os.O_RDONLY)
    except FileNotFoundError:
        return None
    except OSError as error:
        raise Fault("{} cannot be read: {}".format(path, error.strerror))
    try:
        told = os.fstat(file)
        return told.st_ino, told.st_size, told.st_mtime_ns, told.st_ctime_ns, os.pread(file, 16, 0)
    finally:
        os.close(file)


def process_name(pid):
    """A process as its user knows it: its number and its words."""
    try:
        with open("/proc/{}/cmdline".format(pid), "rb") as kept:
            words = kept.read(4096).replace(b"\0", b" ").decode(errors="replace").strip()
    except OSError:
        words = ""
    return "process {} ({})".format(pid, words) if words else "process {}".format(pid)
