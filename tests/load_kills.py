"""Loads that end in their middle: by SIGKILL at each step and at random moments, and by a full disk."""

import concurrent.futures
import itertools
import os
import random
import re
import subprocess
import time

from load_cases import MIXED_NAMES, compact, lines_of, mixed
from load_runs import ALL_TIMES, COUNTS, GUARD, Place, ask, bag, bag_of, begin, expect, journal_of, kill, load
from load_runs import new, refused, sums, sums_of, until, wrapper

WHY_FULL = re.compile(
    "^load: [^\n]*(the disk is full|cannot be written: (No space left on device|it could not be written whole)).*\n$"
)

# ---- kills

# What a program does that stands before the real one.
KILLED = {
    "the loader, before the run": "kill -KILL $PPID; sleep 0.05",
    "the loader, in the run": "(sleep 0.004; kill -KILL $PPID) &",
    "the loader, after the run": '{p} "$@"; s=$?; kill -KILL $PPID; exit $s',
    "the run, before it begins": "kill -KILL $$",
    "the run, in its middle": "p=$$; (sleep 0.004; kill -KILL $p) &",
    "the run, at its end": '{p} "$@"; kill -KILL $$',
    "both, before the run": "kill -KILL $PPID $$",
    "both, in the run": "p=$$; (sleep 0.004; kill -KILL $PPID $p) &",
    "both, after the run": '{p} "$@"; kill -KILL $PPID $$',
}


def killed_once(case):
    what, at = case
    folder, (data, rows, bad) = new("steps"), mixed()
    words = [*"--leaves 2 --piece 20 --jobs 1 --script 5120".split(), folder, "t"]
    text = "if [ $n -eq {} ]; then {}; fi".format(at, KILLED[what].replace("{p}", str(Place.program)))
    first = load(data, *words, program=wrapper(folder, text))
    last = load(data, *words)
    with GUARD:
        COUNTS["kills"] += first.status in (3, -9)
    name = "kill of {}, run {}".format(what, at)
    expect(name + ": status", True, first.status in (3, -9, 1) and last.status == 1)
    three = re.findall(r'"read":1,"rows":\[\d+,\d+,\d+\]', journal_of(folder))
    expect(name + ": parts of the second piece", 1, len(three))
    expect(name + ": rows", bag_of(rows, MIXED_NAMES), bag(folder, MIXED_NAMES))
    expect(name + ": put aside", bad, refused(folder))


def section_steps():
    with concurrent.futures.ThreadPoolExecutor(2) as pool:
        list(pool.map(killed_once, itertools.product(KILLED, (1, 2, 4, 5))))
    folder, name = new("beside"), "kill while a piece is read and its leaf has another run: "
    rows = [{"time": i, "id": i} for i in range(7999)]
    data = b"none\n" + lines_of(rows)
    words = [*"--leaves 1 --piece 4000 --jobs 2".split(), folder, "t"]
    first = load(data, *words, program=wrapper(folder, "[ $n -ne 2 ] || { kill -KILL $PPID; sleep 0.05; }"))
    expect(name + "status", (-9, 1), (first.status, load(data, *words).status))
    expect(name + "rows", sums_of(rows), sums(folder))
    expect(name + "put aside", [(1, "none")], [it[::2] for it in refused(folder)])


def section_kills():
    """Loads that are killed at random moments: the loader, a process of it, or all. Each is begun until it ends."""
    for seed in range(3):
        chance, folder, path = random.Random(seed), new("random"), Place.work / "random.{}".format(seed)
        rows = [{"time": i, "id": i, "h": "h{}".format(i % 9)} for i in range(800)]
        lines = [compact({**row, "f": 0.5} if seed and i % 90 == 3 else row) for i, row in enumerate(rows)]
        lines[100:100] = ["none"] * seed
        path.write_text("\n".join(lines))
        words = "--leaves 3 --piece 10 --jobs 3 --script 5120".split()
        began = time.monotonic()
        load(path, *words, new("whole"), "t")
        took, name = time.monotonic() - began, "random kills, seed {}: ".format(seed)
        kill_until_whole(path, [*words, folder, "t"], folder, chance, took)
        expect(name + "rows", sums_of(rows), sums(folder))
        halves = ask(folder, "SELECT COUNT(*) FROM t WHERE {} AND f = '0.5'".format(ALL_TIMES))[0]
        expect(name + "fractions", [(sum('"f"' in line for line in lines),)] if seed else [], halves)
        expect(name + "put aside", [(101 + i, "none") for i in range(seed)], [it[::2] for it in refused(folder)])


def kill_until_whole(path, words, folder, chance, took):
    kills, status = 0, None
    while status not in (0, 1):
        size = journal_size(folder)
        run = begin(path, *words)
        if kills < 30:
            # Each load does something before it is killed.
            until(lambda: journal_size(folder) > size or run.poll() is not None)
            time.sleep(chance.random() * took / 20)
            kills += kill(run, chance)
        status = run.wait()
    with GUARD:
        COUNTS["kills"] += kills


def journal_size(folder):
    return sum(path.stat().st_size for path in folder.glob("*.loaded"))


# ---- a full disk


def section_disk():
    point = Place.work / "disk"
    point.mkdir()
    mount = ["mount", "-t", "tmpfs", "-o", "size=64k", "tmpfs", str(point)]
    if os.geteuid() != 0 or subprocess.run(mount, stderr=subprocess.DEVNULL).returncode:
        print("tests: no small file system can be mounted, and no full disk was tried")
        return
    try:
        fill(point)
    finally:
        subprocess.run(["umount", "-l", str(point)])


def fill(point):
    """Loads again and again while the file system grows little by little."""
    rows = [{"time": i, "id": i, "x": "{:04}".format(i) * 30} for i in range(1200)]
    lines = [compact({**row, "f": 0.5} if i % 300 == 3 else row) for i, row in enumerate(rows)]
    lines[500:500] = ["none " + "y" * 3000] * 10
    folder, ends, size = point / "folder", [], 0
    while (not ends or ends[-1] not in (0, 1)) and size < 4000:
        size += 48
        subprocess.run(["mount", "-o", "remount,size={}k".format(size), str(point)], check=True)
        ended = load("\n".join(lines).encode(), *"--leaves 2 --piece 60 --jobs 2".split(), folder, "t")
        ends.append(ended.status)
        if ended.status not in (0, 1):
            expect("a full disk: why", WHY_FULL, ended.err)
    expect("a full disk: the last end", 1, ends[-1])
    expect("a full disk: how often", True, ends.count(3) >= 3)
    expect("a full disk: rows", sums_of(rows), sums(folder))
    expect("a full disk: put aside", list(range(501, 511)), [line for line, _, _ in refused(folder)])
    subprocess.run(["mount", "-o", "remount,ro", str(point)], check=True)
    why = re.compile("^load: [^\n]*: Read-only file system[^\n]*\n$")
    for words, status in (([folder, "t"], 3), ([folder, "u"], 2), ([point / "new", "t"], 2)):
        ended = load(b'{"time":1}\n', "--batch", "ro", *words)
        expect("a folder that cannot be written: status", status, ended.status)
        expect("a folder that cannot be written", why, ended.err)
