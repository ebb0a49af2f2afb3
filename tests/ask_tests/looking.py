"""tools/folder: what it tells of tables, and what it says of starts and of files that are not of one time."""

import json
import re
import shutil

from .trial import COUNT_EVENTS, DRAINS, FLEET, add, bag, bag_of, log_end, spoil, state_of

LOST = "^the region is of a log that ended at {}, and {}: THE LOG WAS LOST OR REPLACED"
OLDER = "^the region is of a log that ended at {}, and the log ends at {}: THE REGION IS OLDER THAN THE LOG"


def told(t, name, at, status, starts, *causes):
    """What folder tells a monitor and people: its status, what the next starts say, and its warnings."""
    before, ran = state_of(at), t.tool("folder", "--json", at)
    found = json.loads(ran.out)
    says = ["{} {}".format(leaf["next"], leaf["why"]).strip() for leaf in found["leaves"]]
    new = [leaf["region"]["bytes"] is None and leaf["log"]["bytes"] is None for leaf in found["leaves"]]
    warnings = [it for leaf in found["leaves"] for it in leaf["warnings"]] + found["warnings"]
    t.expect("folder: " + name, (status, starts, len(causes)), (ran.status, says, len(warnings)))
    for cause, warning in zip(causes, warnings):
        t.expect("folder: {}: its warning".format(name), re.compile(cause), warning)
    text = t.tool("folder", at)
    hidden = [it for it, is_new in zip(says, new) if not is_new and it not in text.out]
    hidden += [it for it in warnings if it not in text.out]
    t.expect("folder: {}: to people".format(name), (status, [], found["well"]), (text.status, hidden, status == 0))
    t.expect("folder: {}: the files after it".format(name), before, state_of(at))


def tables(t):
    """Rows and times are those that queries see, also where a horizon or a keep took some away."""
    told(t, "a folder that is whole", t.whole, 0, ["memory"] * 3)
    found = json.loads(t.tool("folder", "--json", t.whole).out)
    sizes = [(leaf["region"]["bytes"], leaf["log"]["bytes"], leaf["region"]["written"]) for leaf in found["leaves"]]
    files = [[(t.whole / "leaf-{}.{}".format(leaf, end)).stat() for end in ("region", "disk")] for leaf in range(3)]
    want = [(region.st_size, log.st_size, region.st_mtime) for region, log in files]
    t.expect("sizes and times of files", want, sizes)
    events = [next(table for table in leaf["tables"] if table["table"] == "events") for leaf in found["leaves"]]
    times = [[row["time"] for row in t.rows.leaf(leaf)] for leaf in range(3)]
    want = [(len(some), min(some), max(some), 2) for some in times]
    got = [tuple(table[it] for it in ("rows", "from", "to", "blocks")) for table in events]
    t.expect("rows, times and blocks", want, got)
    t.expect("writes, horizons", [(2, 0), (3, 100), (3, 0)], [(table["writes"], table["horizon"]) for table in events])
    whole, perf = (next(table for table in found["tables"] if table["table"] == name) for name in ("events", "perf"))
    every = sum(times, [])
    want = (len(every), min(every), max(every), 6, 8)
    t.expect("all leaves together", want, tuple(whole[it] for it in ("rows", "from", "to", "blocks", "writes")))
    t.expect("another table", (30, 0, 29), (perf["rows"], perf["from"], perf["to"]))
    line = re.search(r"^perf +0 +30 +(.*?)  +(.*?)  ", t.tool("folder", "--unit", "s", t.whole).out, re.M)
    t.expect("dates", ("1970-01-01 00:00:00", "1970-01-01 00:00:29"), line and line.groups())


def starts(t):
    """What the next start will say, compared with what a start over a copy says."""

    def compare(name, at, status, *causes):
        with t.copy_of(at) as copy:
            lines = [line.split(" ", 2)[2] for line in t.play(copy, FLEET) if line.startswith("start ")]
        told(t, name, at, status, lines, *causes)

    ends = [("flushed, and killed", ["flush 0 events"], 1), ("neither flushed nor drained", [], 1)]
    for name, script, status in ends + [("drained", DRAINS, 0)]:
        with t.copy_of(t.whole) as at:
            t.play(at, FLEET, *add(0, "events", [{"time": 5}]), *script)
            compare(name, at, status)
    with t.copy_of(t.whole) as at:
        (at / "leaf-1.region").unlink()
        spoil(at / "leaf-0.region", 5)
        (at / "leaf-2.region").unlink()
        spoil(at / "leaf-2.disk", 0)
        compare("a version, no region, an empty log", at, 1)
        (at / "leaf-2.region").symlink_to("/nowhere/leaf-2.region")
        (at / "leaf-1.disk").write_bytes((at / "leaf-1.disk").read_bytes()[:-1])
        links = "^leaf-2.region is a link to /nowhere/leaf-2.region, which is not there: "
        compare("a damaged log, a link", at, 1, "^the log is damaged behind the gate at [0-9]+: ", links)
    with t.copy_of(t.whole) as at:
        (at / "fleet").write_text("fleet 2 2 perf\n")
        says = ["fault stranger events"] * 3 + ["disk nohead"]
        told(t, "a fleet of another table and more leaves", at, 1, says)
        for fleet, new, name in (("2 2", 1, "leaf 3"), ("1 7", 4, "the leaves 3 to 6")):
            (at / "fleet").write_text("fleet {} events perf\n".format(fleet))
            told(t, "a fleet with leaves that are new", at, 0, ["memory"] * 3 + ["disk nohead"] * new)
            note = "^NOTE there are no files of {}: ".format(name)
            t.expect("folder: its note", re.compile(note, re.M), t.tool("folder", at).out)
        (at / "fleet").write_text("fleet 1 2 events perf\n")
        left_out = "DIR/fleet has 2 leaves, and leaves out the rows of leaf 2$"
        told(t, "a fleet that leaves a leaf out", at, 1, ["memory"] * 3, left_out)


def times(t):
    """A region and a log that are not of one time: what folder warns of, what ask says, and which rows dump writes."""
    more = [{"time": 2000 + place} for place in range(5)]
    drained = add(0, "events", more) + DRAINS
    with t.copy_of(t.whole) as at:
        end = log_end(at)
        (at / "leaf-0.disk").unlink()
        older_log(t, at, end, "the log is not there", t.rows.leaf(0))
        t.play(at, FLEET, *drained)
        older_log(t, at, log_end(at), "the log ends at 0", t.rows.leaf(0) + more)
    with t.copy_of(t.whole) as at:
        end = log_end(at)
        t.play(at, FLEET, *drained)
        newer = log_end(at)
        shutil.copy(t.whole / "leaf-0.region", at)
        told(t, "an older region", at, 1, ["memory"] * 3, OLDER.format(end, newer))
        ran = t.tool("ask", "--csv", at, COUNT_EVENTS)
        why = "ask: leaf 0: its region and its log are not of one time; tools/folder says more\n"
        t.expect("ask of an older region", (1, why), (ran.status, ran.err))
        ran = t.tool("dump", "--leaf", "0", at, "events")
        t.expect("dump of an older region", (0, bag(t.rows.leaf(0) + more)), (ran.status, bag_of(ran.out)))
        why = "^dump: leaf 0: the region is of a log that ended at {}, and the log goes on; ".format(end)
        t.expect("dump of an older region: its warning", re.compile(why), ran.err)
    with t.copy_of(t.whole) as at:
        t.play(at, FLEET, *drained)
        shutil.copy(t.whole / "leaf-0.disk", at)
        older_log(t, at, log_end(at), "the log ends at {}".format(end), t.rows.leaf(0) + more)


def older_log(t, at, end, what, rows):
    """A leaf 0 whose log was lost, or is older than its region."""
    told(t, what, at, 1, ["memory"] * 3, LOST.format(end, what))
    t.expect("ask: " + what, 1, t.tool("ask", at, COUNT_EVENTS).status)
    ran = t.tool("dump", "--leaf", "0", at, "events")
    t.expect("dump: " + what, (0, bag(rows)), (ran.status, bag_of(ran.out)))
    why = "^dump: leaf 0: the log ends at [0-9]+, and the region is of a log that ended at {}; ".format(end)
    t.expect("dump: {}: its warning".format(what), re.compile(why), ran.err)
