"""What tools/ask and tools/dump refuse: queries and words at fault, and folders that cannot be read as a whole."""

import fcntl
import json
import os
import re
import resource

from scuba_tools import copies, folder, merge, sources
from scuba_tools.region import Region

from .trial import COUNT_EVENTS, EVERY, in_process, spoil, state_of

IN_RANGE = "SELECT COUNT(*) FROM events WHERE time >= 0 AND time <= 9 "
# A query, what stands in it from its fault on (None: no place is known), and the cause.
FAULTS = [
    ("SELECT host COUNT(*) FROM events", "COUNT", "the query is at fault at byte 12"),
    (IN_RANGE + "LIMIT 100001", "100001", "the query has an integer out of its range at byte 64"),
    (IN_RANGE + "AND host = 'a\nb'", "\nb'", "a query has no end of a line in its quotes"),
    ("SELECT COUNT(*) FROM no_such " + EVERY, None, "there is no such table; the tables are events, perf"),
    ("SELECT COUNT(*) FROM events WHERE time >= 0", None, "the query has no range"),
]
# The fault is at its end. Of the 60 bytes before it two signs have three bytes and two places each.
WIDE = IN_RANGE + "AND host = '日本' AND"
BUSY = r"^{}: process {} \(.* play\) serves leaf 0 of .*DIR, whose rows are in its memory; wait until it has ended$"
LOOKS = (("ask", [COUNT_EVENTS]), ("dump", ["events"]))


def refusals(t):
    """Queries at fault, words at fault, and folders, programs and fleets that are none."""
    before = state_of(t.whole)
    for text, part, cause in FAULTS:
        ran = t.tool("ask", t.whole, COUNT_EVENTS, text)
        lines = ran.err.split("\n")[:-1]
        want = (2, "", "ask: " + cause, 2 if part is None else 3)
        got = (ran.status, ran.out, lines[-1][: len("ask: " + cause)], len(lines))
        t.expect("a query at fault: " + text, want, got)
        if part is not None:
            t.expect("its caret: " + text, " " * (2 + min(60, text.index(part))) + "^", lines[1])
    t.expect("a caret behind wide signs", " " * 60 + "^", t.tool("ask", t.whole, WIDE).err.split("\n")[1])
    t.refused("no query", 2, "^usage: ask", t.tool("ask", t.whole))
    t.refused("two forms", 2, "not allowed with", t.tool("ask", "--csv", "--json", t.whole, COUNT_EVENTS))
    t.refused("a unit that is none", 2, "--date", t.tool("ask", "--date", "time=h", t.whole, COUNT_EVENTS))
    t.expect("the folder after refusals", before, state_of(t.whole))
    (t.work / "empty").mkdir()
    for name, words in LOOKS + (("folder", []),):
        status = 2 if name == "folder" else 1
        places = (t.work / "none", "none is no folder"), (t.work / "empty", "empty has no ")
        for at, cause in places:
            ran, cause = t.tool(name, at, *words), "^{}: .*/{}".format(name, cause)
            t.refused("{} of {}".format(name, at.name), status, cause, ran)
        ran = t.tool(name, t.whole, *words, program=t.work / "none")
        cause = "^{}: --scuba names .*/none, which is no program$".format(name)
        t.refused(name + " without a program", status, cause, ran)
        ran = t.tool(name, t.whole, *words, program="/bin/true")
        t.refused(name + " with another program", status, "^{}: ".format(name), ran)
    with t.copy_of(t.whole) as at:
        lacks = "DIR/fleet has 2 leaves, and there are files of leaf 2: answers would lack its rows$"
        for line, cause in (("fleet 1 2 events perf", lacks), ("fleet 1 x", "DIR/fleet tells no fleet")):
            (at / "fleet").write_text(line + "\n")
            t.refused("the fleet `{}`".format(line), 1, cause, t.tool("ask", at, COUNT_EVENTS))


def busy(t):
    """A folder over which a program runs, or in which another tool works."""
    with t.copy_of(t.whole) as at:
        with t.running(at) as pid:
            for name, words in LOOKS:
                t.refused(name + " beside a program", 1, BUSY.format(name, pid), t.tool(name, at, *words))
            ran = t.tool("folder", at)
            warning = r"^WARNING leaf \d: process {} .*; its rows are in that program's memory$".format(pid)
            found = ran.out.count(" served by process {} ".format(pid)), len(re.findall(warning, ran.out, re.M))
            t.expect("folder beside a program", (1, 3, 3), (ran.status, *found))
            leaves = json.loads(t.tool("folder", "--json", at).out)["leaves"]
            found = [(leaf["next"], leaf["served_by"]) for leaf in leaves]
            t.expect("folder --json beside a program", [("fault", pid)] * 3, found)
        t.expect("ask after that program was killed", 0, t.tool("ask", at, COUNT_EVENTS).status)
    lock = os.open(t.whole, os.O_RDONLY)
    fcntl.flock(lock, fcntl.LOCK_EX)
    for name, words in LOOKS:
        cause = "^{}: another tool works in ".format(name)
        t.refused(name + " beside a loader", 1, cause, t.tool(name, t.whole, *words))
    os.close(lock)
    other_device(t)


def other_device(t):
    """A lock of which the system tells another device than of the file, as it does on Btrfs."""
    told = (t.whole / "leaf-1.region").stat()
    file, known = open(str(t.whole / "leaf-1.region")), folder.LOCKS
    folder.LOCKS = str(t.work / "locks")
    mine = os.getpid()
    for what, pid, want in (("a process that has the file open", mine, {1: mine}), ("another process", 1, {})):
        line = "1: FLOCK  ADVISORY  WRITE {} ff:ff:{} 0 EOF\n".format(pid, told.st_ino)
        (t.work / "locks").write_text("1: POSIX  ADVISORY  READ 7 00:01:1 0 EOF\n" + line)
        t.expect("a lock on another device, " + what, want, folder.Folder(str(t.whole)).serving())
    folder.LOCKS = known
    file.close()


def changes(t):
    """A region that changes while it is read, once and each time. And no room for a copy in memory, or in a file."""
    with t.copy_of(t.whole) as at:
        its, fill, left = folder.Folder(str(at)), copies.Copies.fill, [1]

        def fill_beside(self, files):
            fill(self, files)
            if left[0]:
                left[0] -= 1
                spoil(at / "leaf-0.region", 30)

        def copied():
            made, _ = sources.copied(its, [0, 1, 2])
            made.close()
            return "copied"

        copies.Copies.fill = fill_beside
        try:
            t.expect("a region that changes once", "copied", in_process(copied))
            left[0] = 2
            cause = re.compile("^Fault: .*leaf-0.region changed twice while it was copied; ")
            t.expect("a region that changes each time", cause, in_process(copied))
        finally:
            copies.Copies.fill = fill
        with Region(str(at / "leaf-1.region")) as region:
            parts = [merge.Part(1, region, region.tables[0], number) for number in range(2)]
            os.utime(at / "leaf-1.region", ns=(5, 5))
            dumped = in_process(lambda: list(merge.merged(parts)))
        t.expect("a region that changes in a dump", "Fault: " + merge.CHANGED.format(1), dumped)
    cause = re.compile("^Fault: a copy takes 1152921504607 MB of memory, and the machine has [0-9]+ MB$")
    t.expect("a copy for which there is no memory", cause, in_process(lambda: copies.need_memory(1 << 60)))

    def short_files():
        resource.setrlimit(resource.RLIMIT_FSIZE, (1000, 1000))

    ran = t.tool("ask", t.whole, COUNT_EVENTS, preexec_fn=short_files)
    t.refused("a copy that may not be so long", 1, "^ask: the copy in memory failed: File too large$", ran)
