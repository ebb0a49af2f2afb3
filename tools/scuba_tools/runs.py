"""Runs of the program, each of which starts one leaf of a folder alone, adds rows and drains."""

import os
import re
import signal

from .pieces import BLOCK, DRAIN, HEAD, anonymous, blocks_of, put
from .program import Fault

OPENED = re.compile(r"^0 (\w+) #\d+ opened (\d+)$", re.M)
ADDED = re.compile(r"^0 (\w+) #\d+ added (\d+) late (\d+)$", re.M)
NOT_DONE = re.compile(r"^(?:start 0 fault .*|drain 0 (?:fault|not).*|0 \w+ (?:#\d+ )?refused .*)$", re.M)
CAUSES = (
    ("fault damaged", "docs/OPERATIONS.md has what to do with a log that is damaged"),
    ("fault stranger", "the file `fleet` of the folder does not name this table"),
    ("memory", "the program found no memory"),
    ("full", "a table has at most 2^40 rows"),
    ("drain", "a write failed"),
    ("start", "the leaf's files cannot be both read and written"),
)


class Leaves:
    """The leaves of a folder. Each has at most one run at a time.

    `writes` has how many writes of the table each leaf has. `lock` locks the folder, and each run holds it as well: so
    a run that outlives its loader keeps other loaders away.
    """

    def __init__(self, folder, lock, fleet, table, program, writes):
        self.folder, self.lock, self.table, self.program = folder, lock, table, program
        self.tables, self.writes = " ".join(fleet.tables), writes
        self.idle, self.unsynced = set(writes), set(writes)
        os.set_inheritable(lock, True)

    def take(self):
        """The idle leaf with the shortest log, which is idle no more."""
        leaf = min(self.idle, key=lambda leaf: (self.log_size(leaf), leaf))
        self.idle.remove(leaf)
        return leaf

    def log_size(self, leaf):
        try:
            return os.stat(self.folder.disk(leaf)).st_size
        except FileNotFoundError:
            return 0

    def alone(self, leaf):
        """A folder in which a leaf is the leaf 0."""
        folder = os.path.join(self.folder.path, ".leaf-{}".format(leaf))
        os.makedirs(folder, exist_ok=True)
        for kind in ("region", "disk"):
            link, target = os.path.join(folder, "leaf-0." + kind), "../leaf-{}.{}".format(leaf, kind)
            if not os.path.lexists(link):
                os.symlink(target, link)
            elif not os.path.islink(link) or os.readlink(link) != target:
                raise Fault("{} is no link to {}, as the loader makes it: take it away".format(link, target))
        return folder

    def tidy(self):
        """Takes the folders away in which leaves were alone."""
        for leaf in self.writes:
            folder = os.path.join(self.folder.path, ".leaf-{}".format(leaf))
            try:
                for kind in ("region", "disk"):
                    os.unlink(os.path.join(folder, "leaf-0." + kind))
                os.rmdir(folder)
            except OSError:
                pass

    def run(self, leaf, part, told):
        """Begins a run that adds the rows of a part and prints to the file `told`. Gives its process and script."""
        script = self.script(part)
        child = os.posix_spawn(
            self.program,
            [self.program, self.alone(leaf), "play"],
            os.environ,
            file_actions=[(os.POSIX_SPAWN_DUP2, file, to) for file, to in ((script, 0), (told, 1), (told, 2))],
            # An interrupt from the terminal is for the loader, which lets its runs end.
            setsigmask=[signal.SIGINT],
            setsigdef=[signal.SIGPIPE],
        )
        return child, script

    def script(self, part):
        """The file of a run's script."""
        words = "fleet 1 1 {}\nadd 0 {} {}\n".format(self.tables, self.table, part.rows).encode()
        script, at = part.file, HEAD
        if not part.is_alone:
            script = anonymous()
            for data in blocks_of(part.file, part.at, part.bytes):
                put(script, data, at)
                at += len(data)
        put(script, b"#".ljust(HEAD - len(words) - 1) + b"\n" + words, 0)
        put(script, DRAIN, HEAD + part.bytes)
        # The process that wrote the rows has left the file's place at its end.
        os.lseek(script, 0, os.SEEK_SET)
        return script

    def added(self, leaf, rows, printed):
        """How many rows of a run came below the table's horizon. None where the run did not do all of its script."""
        found = [(int(kept), int(late)) for table, kept, late in ADDED.findall(printed) if table == self.table]
        if not printed.endswith("\ndrain 0 done\n") or len(found) != 1 or sum(found[0]) != rows:
            return None
        if leaf in self.unsynced:
            # The program syncs the folder in which the leaf is alone, and not this one.
            self.folder.sync()
            self.unsynced.remove(leaf)
        self.writes[leaf] = int(dict(OPENED.findall(printed))[self.table]) + 1
        return found[0][1]

    def why_not(self, leaf, printed, status):
        """Why a run did not do all of its script."""
        lines = NOT_DONE.findall(printed)
        if not lines:
            last = printed.strip().split("\n")[-1]
            told = ": " + last if last.startswith("scuba: ") else ""
            return "leaf {}: the run ended with {}{}".format(leaf, ending(status), told)
        why = next((why for word, why in CAUSES if word in lines[0]), "the program refused it")
        if re.search("fault (disk|region)", lines[0]):
            space, serving = os.statvfs(self.folder.path), self.folder.serving()
            if leaf in serving:
                why = "the process {} has the leaf's files open".format(serving[leaf])
            elif space.f_bavail * space.f_frsize < BLOCK:
                why = "the disk is full"
        return "`{}`: {}".format(re.sub(r"^(start |drain |)0", r"\g<1>{}".format(leaf), lines[0]), why)


def ending(status):
    if os.WIFSIGNALED(status):
        return "signal {}".format(os.WTERMSIG(status))
    return "status {}".format(os.WEXITSTATUS(status))
