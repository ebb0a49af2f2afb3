"""tools/dump: all rows, of leaves that were drained and that were not, and the way back into a folder."""

import os
import re
import subprocess

from scuba_tools import merge, output
from scuba_tools.region import Region

from .trial import FLEET, PERF, TOOLS, add, bag, bag_of, environment, spoil, state_of


def dumps(t):
    """The rows are all there, in order of time; and what cannot be written."""
    before, want = state_of(t.whole), bag(t.rows.all())
    ran = t.tool("dump", t.whole, "events")
    t.expect("dump", (0, want, ""), (ran.status, bag_of(ran.out), ran.err))
    t.expect("the folder after it", before, state_of(t.whole))
    for leaf in range(3):
        got = bag_of(t.tool("dump", "--leaf", leaf, t.whole, "events").out)
        t.expect("dump --leaf {}".format(leaf), bag(t.rows.leaf(leaf)), got)
    t.expect("another table", bag(PERF), bag_of(t.tool("dump", t.whole, "perf").out))
    lacks = "^dump: .* has no table no_such; its tables are events, perf$"
    t.refused("a table that is not there", 1, lacks, t.tool("dump", t.whole, "no_such"))
    ran = t.tool("dump", "--leaf", "3", t.whole, "events")
    t.refused("a leaf that is not there", 1, "^dump: .* has no file of leaf 3$", ran)
    for variables in ({}, {"PYTHONUNBUFFERED": "1"}):
        with open("/dev/full", "wb") as full:
            ran = t.tool("dump", t.whole, "events", stdout=full, env=environment(**variables))
        t.refused("a full output", 1, "^dump: the rows could not be written: No space left on device$", ran)
    short_writes(t)
    in_pieces(t)
    loads_again(t, t.tool("dump", t.whole, "events").out)


def logs(t):
    """Leaves that were not drained are read from their logs."""
    with t.copy_of(t.whole) as at:
        flushed, lost = ([{"time": time}] for time in (150, 151))
        t.play(at, FLEET, *add(1, "events", flushed), "flush 1 events", *add(1, "events", lost), "drain 2")
        before, ran = state_of(at), t.tool("dump", at, "events")
        want = (0, bag(t.rows.all() + flushed), "")
        t.expect("dump of leaves that were not drained", want, (ran.status, bag_of(ran.out), ran.err))
        t.expect("the folder after it", before, state_of(at))
        spoil(at / "leaf-0.disk", 3)
        cause = "^dump: leaf 0: its rows stand in its log alone, and a start from that says: start 0 fault damaged"
        t.refused("dump of a damaged log", 1, cause, t.tool("dump", at, "events"))
        (at / "leaf-0.disk").unlink()
        ran = t.tool("dump", at, "events")
        want = (0, bag(t.rows.leaf(1) + t.rows.leaf(2) + flushed))
        t.expect("dump of a leaf without region and log", want, (ran.status, bag_of(ran.out)))
        cause = re.compile(r"^dump: leaf 0: its region is no image \(closed 0\), and it has no log: it has no rows$")
        t.expect("its warning", cause, ran.err)


def short_writes(t):
    """A system that writes some bytes at a time."""
    got, write = [], os.write
    os.write = lambda _, data: got.append(bytes(data[:7])) or len(got[-1])
    try:
        output.write_all([b"some bytes, ", b"and some more\n"])
    finally:
        os.write = write
    t.expect("writes of a part", b"some bytes, and some more\n", b"".join(got))


def in_pieces(t):
    """Chunks of one row, and of some, with no memory for them and with little: the rows ascend and are all there."""
    regions = [Region(str(t.whole / "leaf-{}.region".format(leaf))) for leaf in range(3)]
    kept = merge.CHUNK, merge.MEMORY
    for chunk, memory in ((1, 0), (7, 0), (7, 3000), (512, 1 << 20)):
        merge.CHUNK, merge.MEMORY = chunk, memory
        tables = [(leaf, region, region.tables[0]) for leaf, region in enumerate(regions)]
        parts = [merge.Part(*table, number) for table in tables for number in range(2)]
        out = b"".join(line for some in merge.merged(parts) for line in some).decode()
        t.expect("a dump in chunks of {}, {} bytes".format(chunk, memory), bag(t.rows.all()), bag_of(out))
    merge.CHUNK, merge.MEMORY = kept
    for region in regions:
        region.close()


def loads_again(t, out):
    """The dumped rows, given to the program as they are, and to tools/load."""
    lines, want, again = out.split("\n")[:-1], bag(t.rows.all()), t.work / "again"
    again.mkdir()
    head = "add 0 events {}".format(len(lines))
    printed = t.play(again, "fleet 1 1 events", head, *lines, "drain 0")
    t.expect("rows that the program takes", True, "0 events #2 added {} late 0".format(len(lines)) in printed)
    t.expect("rows that it took", want, bag_of(t.tool("dump", again, "events").out))
    if not (TOOLS / "load").exists():
        print("tests: tools/load is not there, and no dump was loaded by it")
        return
    words = t.words("load", t.work / "loaded", "events")
    ran = subprocess.run(words, input=out.encode(), stdout=subprocess.PIPE, stderr=subprocess.PIPE)
    t.expect("tools/load of a dump", 0, ran.returncode)
    t.expect("rows that it took", want, bag_of(t.tool("dump", t.work / "loaded", "events").out))
    t.expect("the folder that it made", 0, t.tool("folder", t.work / "loaded").status)
