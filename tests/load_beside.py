"""Loads beside other loads and programs: the same input again, another one, two loaders, a folder that is served."""

import os
import pty
import re
import signal
import subprocess

from load_cases import ROWS, lines_of
from load_runs import Place, bag, begin, expect, journal_of, load, new, play, refused, sums, sums_of, until, wrapper

# ---- batches, and a load that is not the one that was ended


def section_batches():
    words, folder, data = "--leaves 2 --piece 25 --jobs 1".split(), new("again"), lines_of(ROWS)
    expect("a first load", 0, load(data, *words, folder, "t").status)
    ended = load(data, *words, folder, "t")
    expect("the same again", (0, True), (ended.status, "was loaded before" in ended.err))
    expect("the same again: rows", sums_of(ROWS), sums(folder))
    ended = load(data, *words, "--booleans", "int", folder, "t")
    expect("other options", 2, ended.status)
    expect("other options", re.compile("was begun with --booleans text, and not with --booleans int"), ended.err)
    grown = ROWS + [{"time": 5, "id": 1000 + i} for i in range(30)]
    ended = load(lines_of(grown), *words, folder, "t")
    told = re.search(r"the first 120 lines of the input are those of the batch (\w+): `--batch \1` goes on", ended.err)
    expect("an input that has grown", (2, True), (ended.status, told is not None))
    expect("it goes on", 0, load(lines_of(grown), *words, "--batch", told.group(1), folder, "t").status)
    expect("it goes on: rows", sums_of(grown), sums(folder))
    long = [{"time": i, "id": 5000 + i, "x": "x" * 80} for i in range(1000)]
    for count, last in ((800, "rows 800 "), (1000, "rows 1000 "), (1000, "rows 1000 ")):
        ended = load(lines_of(long[:count]), *words[:2], folder, "t")
        expect("a longer input that grows", (0, last), (ended.status, ended.out[: len(last)]))
    grown += long
    expect("it has grown: rows", sums_of(grown), sums(folder))
    expect("another batch", 0, load(data, *words, "--batch", "more", folder, "t").status)
    expect("another batch: rows", sums_of(grown + ROWS), sums(folder))
    expect("another table", 0, load(data, *words, folder, "u").status)
    expect("another table: its rows", len(ROWS), sum(bag(folder, ["id"], "u").values()))
    expect("another table: the first one's rows", sums_of(grown + ROWS), sums(folder))


def stopped(name, words):
    """A folder with another table, of which a load ended at its third run, which it had begun."""
    folder = new(name)
    load(lines_of(ROWS[:50]), *words, folder, "u")
    ended = load(lines_of(ROWS), *words, folder, "t", program=wrapper(folder, "[ $n -ne 3 ] || exit 9"))
    expect("a run that fails: status", 3, ended.status)
    expect("a run that fails", re.compile("lines 51 to 75: leaf 0: the run ended with status 9; the same"), ended.err)
    return folder


def section_others():
    """What may happen between a load that was ended and its next beginning."""
    words = "--leaves 2 --piece 25 --jobs 1 --batch b".split()
    folder, other = stopped("input", words), [*ROWS[:60], {"time": 7, "id": 7}, *ROWS[61:]]
    for rows in (ROWS[1:], ROWS[:30], other):
        ended = load(lines_of(rows), *words, folder, "t")
        expect("another input: status", 2, ended.status)
        expect("another input", re.compile("of the input are not those that the batch b has there"), ended.err)
    ended = load(lines_of(ROWS), *words, "--decimals", "2", folder, "t")
    expect("other options: status", 2, ended.status)
    expect("other options", re.compile("batch b was begun with no --decimals, and not with --decimals 2"), ended.err)
    expect("another batch beside it", 0, load(lines_of(ROWS[:40]), *words[:-1], "c", folder, "t").status)
    # What a load wrote last, before it could say so.
    (folder / "t.b.refused").write_text("121\tno JSON object\t1\n122\tno JS")
    with open(folder / "t.b.loaded", "ab") as journal:
        journal.write(b'{"end":')
    for again in ("it goes on", "it went on"):
        ended = load(lines_of(ROWS) + b"1\n2\n", *words, "--jobs", "2", folder, "t")
        expect(again + ": status", 1, ended.status)
        expect(again + ": put aside", [(121, "1"), (122, "2")], [it[::2] for it in refused(folder)])
    expect("it went on: rows", sums_of(ROWS + ROWS[:40]), sums(folder))
    with open(folder / "t.b.loaded", "ab") as journal:
        journal.write(b"{}\n")
    ended = load(lines_of(ROWS), *words, folder, "t")
    expect("a damaged journal", re.compile(r"t\.b\.loaded is damaged at line \d+\n$"), ended.err)

    folder = stopped("foreign", words)
    play(folder, "add 0 t 1", '{"time":1,"id":5}', "drain 0", "drain 1")
    ended = load(lines_of(ROWS), *words, folder, "t")
    expect("another writer: status", 2, ended.status)
    expect("another writer", re.compile("leaf 0: something else wrote to t after the batch b was"), ended.err)
    expect("another writer: rows", sums_of(ROWS[:50] + [{"id": 5}]), sums(folder))


def section_together():
    """Two loaders over one folder; a program that serves it; a run that is still going when its loader was killed."""
    folder, words, path = new("together"), "--leaves 3 --piece 20".split(), Place.work / "together.rows"
    path.write_bytes(lines_of(ROWS[:70]))
    first = begin(path, *words, folder, "t", program=wrapper(folder, "sleep 0.3"))
    until((folder.parent / "calls").exists)
    ended = load(lines_of(ROWS[70:]), *words, folder, "t")
    expect("two loaders", (0, 0), (first.wait(), ended.status))
    expect("two loaders: one waits", "load: another tool works in {}; waits for its end\n".format(folder), ended.err)
    expect("two loaders: rows", sums_of(ROWS), sums(folder))

    # It prints more than a pipe holds, so it waits with its leaves up.
    script = (folder / "fleet").read_bytes() + b"keep 0 t 1000000\n" * 4000
    server = subprocess.Popen([str(Place.program), str(folder), "play"], stdin=subprocess.PIPE, stdout=subprocess.PIPE)
    server.stdin.write(script)
    server.stdin.close()
    for _ in range(6):
        server.stdout.readline()
    ended = load(lines_of(ROWS), "--batch", "x", folder, "t")
    expect("a folder that is served: status", 2, ended.status)
    expect("a folder that is served", re.compile("the process {} serves leaf 0: load".format(server.pid)), ended.err)
    server.stdout.read()
    server.wait()
    expect("it is served no more", 0, load(lines_of(ROWS), "--batch", "x", folder, "t").status)

    folder = new("orphan")
    path.write_bytes(lines_of(ROWS))
    go = folder.parent / "go"
    waits = wrapper(folder, "while [ ! -e {} ]; do sleep 0.01; done".format(go))
    first = begin(path, *words, folder, "t", program=waits)
    until((folder.parent / "calls").exists)
    first.kill()
    first.wait()
    ended = begin(path, *words, folder, "t", err=subprocess.PIPE)
    told = ended.stderr.readline().decode()
    expect("a run outlives its loader: the next waits", re.compile("another tool works in .*; waits for its end"), told)
    expect("a run outlives its loader: the next does nothing yet", None, ended.poll())
    go.touch()
    expect("a run outlives its loader: the next goes on", (0, b""), (ended.wait(), ended.stderr.read()))
    expect("a run outlives its loader: rows", sums_of(ROWS), sums(folder))


def section_signals():
    words, folder, path = "--leaves 3 --piece 10 --jobs 2".split(), new("signals"), Place.work / "signals.rows"
    path.write_bytes(lines_of(ROWS))
    for number, status in ((signal.SIGINT, 130), (signal.SIGTERM, 143)):
        run = begin(path, *words, folder, "t", program=wrapper(folder, "sleep 0.1"))
        until((folder.parent / "calls").exists)
        run.send_signal(number)
        expect("a signal: status", status, run.wait())
        (folder.parent / "calls").unlink()
        told = journal_of(folder)
        expect("a signal: each run was let end", told.count('"begin"'), told.count('"end"'))
    master, slave = pty.openpty()
    slow, shown = wrapper(folder, "sleep 0.3"), b""
    run = begin(path, *words, folder, "t", program=slow, err=slave, out=subprocess.PIPE)
    os.close(slave)
    try:
        while True:
            shown += os.read(master, 4096)
    except OSError:
        pass
    bar = re.compile(r"\[#+\.*\] +\d+ %  \d+ rows, 0 MB, \d+ rows/s, \d+:\d\d left")
    expect("a terminal: the bar", bar, shown.decode())
    out = run.stdout.read().decode()
    expect("a terminal: the last line", re.compile(r"^rows 120 refused 0 late 0 blocks 12 bytes \d+ seconds "), out)
    expect("a terminal: status", 0, run.wait())
    expect("signals: rows", sums_of(ROWS), sums(folder))
