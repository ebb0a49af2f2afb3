"""What `tests/loads` does with loads: begins them, ends them, asks what they left, and counts what is as it must be."""

import collections
import json
import os
import pathlib
import re
import shutil
import signal
import subprocess
import sys
import tempfile
import threading
import time

TOOLS = pathlib.Path(__file__).resolve().parent.parent / "tools"
MOST = (1 << 63) - 1
ALL_TIMES = "time >= 0 AND time <= {}".format(MOST)
COUNTS = {"passed": 0, "failed": 0, "kills": 0}
GUARD = threading.Lock()


class Place:
    """The program, and the folder in which cases run."""

    program, work = None, None


def expect(name, want, got):
    """Counts a case. What is wanted is a value, or a pattern that a text must have."""
    is_so = want.search(got) is not None if isinstance(want, re.Pattern) else want == got
    with GUARD:
        COUNTS["passed" if is_so else "failed"] += 1
        if not is_so:
            want = want.pattern if isinstance(want, re.Pattern) else want
            print("tests: {}: not\n  {}\nbut\n  {}".format(name, str(want)[:1500], str(got)[:1500]))


def new(name):
    """A folder that is not there yet, in an empty one."""
    return pathlib.Path(tempfile.mkdtemp(prefix=name + ".", dir=Place.work)) / "folder"


# ---- loads


class Ended:
    def __init__(self, status, out, err):
        self.status, self.out, self.err = status, out, err


def command(*words, program=None):
    return [sys.executable, str(TOOLS / "load"), "--scuba", str(program or Place.program), *map(str, words)]


def load(data, *words, program=None):
    """Loads bytes, or what a file has."""
    source = {"input": data} if isinstance(data, bytes) else {"stdin": open(data, "rb")}
    ran = subprocess.run(command(*words, program=program), stdout=subprocess.PIPE, stderr=subprocess.PIPE, **source)
    return Ended(ran.returncode, ran.stdout.decode(), ran.stderr.decode(errors="replace"))


def begin(path, *words, program=None, err=subprocess.DEVNULL, out=subprocess.DEVNULL):
    """Begins to load a file, in a session of its own."""
    with open(path, "rb") as source:
        return subprocess.Popen(
            command(*words, program=program), stdin=source, stdout=out, stderr=err, start_new_session=True
        )


def wrapper(folder, text):
    """A program that stands before the real one, and does this first. It counts its calls, as n."""
    path, calls = folder.parent / "wrapper", folder.parent / "calls"
    lines = ["#!/bin/bash", "n=$(($(cat {0} 2>/dev/null) + 1)); echo $n >{0}".format(calls), text]
    path.write_text("\n".join([*lines, 'exec {} "$@"\n'.format(Place.program)]))
    path.chmod(0o755)
    return path


def until(holds):
    """Waits until something holds, or for long."""
    for _ in range(12000):
        if holds():
            return
        time.sleep(0.005)


def children_of(process):
    try:
        return [int(it) for it in pathlib.Path("/proc/{0}/task/{0}/children".format(process)).read_text().split()]
    except OSError:
        return []


def kill(run, chance):
    """Kills the loader, one of its processes, or all of them. Gives how many kills found something."""
    whom, below = chance.randrange(3), children_of(run.pid)
    try:
        if whom == 0:
            os.kill(run.pid, signal.SIGKILL)
        elif whom == 1:
            os.killpg(run.pid, signal.SIGKILL)
        elif below:
            os.kill(chance.choice(below), signal.SIGKILL)
        return int(whom < 2 or bool(below))
    except ProcessLookupError:
        return 0


# ---- how much memory a load takes


def highest(process):
    """The most memory in kB that a loader has had so far, or a process that it forked. None where it is gone."""
    most = 0
    for one in [process, *children_of(process)]:
        try:
            status = pathlib.Path("/proc/{}/status".format(one)).read_text()
        except OSError:
            continue
        told = re.search(r"^Name:\s+python.*?^VmHWM:\s+(\d+) kB", status, re.M | re.S)
        most = max(most, int(told.group(1))) if told else most
    return most


def fed(blocks, *words):
    """Loads what blocks make together, through a pipe; and tells how much memory the loader had at most."""
    run = subprocess.Popen(command(*words), stdin=subprocess.PIPE, stdout=subprocess.PIPE, stderr=subprocess.PIPE)
    most = [0]

    def look():
        while run.poll() is None:
            most[0] = max(most[0], highest(run.pid))
            time.sleep(0.01)

    looker = threading.Thread(target=look)
    looker.start()
    with run.stdin:
        for block in blocks:
            run.stdin.write(block)
    out, err = run.stdout.read().decode(), run.stderr.read().decode()
    looker.join()
    return Ended(run.returncode, out, err), most[0]


# ---- what is there afterwards


def value_at(line, at):
    """The value of an answer's line that begins at a place, and where it ends."""
    if line[at] in '"[':
        value, end = json.JSONDecoder().raw_decode(line, at)
        return tuple(value) if isinstance(value, list) else value, end
    end = (line + " ").index(" ", at)
    word = line[at:end]
    return None if word == "-" else tuple(map(int, word.split("/"))) if "/" in word else int(word), end


def values(line):
    found, at = [], 0
    while at < len(line):
        value, at = value_at(line, at)
        found.append(value)
        at += 1
    return tuple(found)


def play(folder, *commands):
    """What the program prints for these commands over a folder."""
    script = "\n".join([(folder / "fleet").read_text().strip(), *commands, ""]).encode()
    words = [str(Place.program), str(folder), "play"]
    return subprocess.run(words, input=script, stdout=subprocess.PIPE).stdout.decode()


def ask(folder, *queries):
    """The lines of each answer. All leaves must have answered."""
    lines, found = iter(play(folder, *("query " + query for query in queries)).split("\n")), []
    for line in lines:
        told = re.fullmatch(r"answer named (\d+) of (\d+) lines (\d+)", line)
        if told and told.group(1) == told.group(2):
            found.append([values(next(lines)) for _ in range(int(told.group(3)))])
    return found


def quoted(name):
    return '"' + name.replace('"', '""') + '"'


def bag(folder, names, table="t"):
    """The rows of a table: how often there is each tuple of a time and these cells."""
    keys = ", ".join(["time", *map(quoted, names)])
    found = ask(folder, "SELECT {k}, COUNT(*) FROM {t} WHERE {a} GROUP BY {k}".format(k=keys, t=table, a=ALL_TIMES))
    return collections.Counter({line[:-1]: line[-1] for line in found[0]}) if found else None


def bag_of(rows, names):
    """The same of rows as they were meant: dicts with `time`. A set is a tuple."""
    return collections.Counter(tuple(row.get(name) for name in ["time", *names]) for row in rows)


def sums(folder):
    """The number of the rows of `t`, and the sum, the least and the greatest of their ids."""
    return ask(folder, "SELECT COUNT(*), SUM(id), MIN(id), MAX(id) FROM t WHERE " + ALL_TIMES)[0]


def sums_of(rows):
    ids = [row["id"] for row in rows]
    return [(len(ids), sum(ids), min(ids), max(ids))]


def refused(folder):
    """What was put aside: line, cause and text, in the order of the lines."""
    paths = folder.glob("*.refused")
    found = [line.split("\t", 2) for path in paths for line in path.read_text(errors="replace").split("\n")[:-1]]
    return sorted((int(line), cause, text) for line, cause, text in found)


def journal_of(folder):
    """The text of the journal of the one load of a folder."""
    (path,) = folder.glob("*.loaded")
    return path.read_text()


def files_of(folder):
    paths = sorted(folder.rglob("*")) if folder.is_dir() else []
    return {str(path.relative_to(folder)): path.read_bytes() for path in paths if path.is_file()}


def copied(folder, name):
    shutil.copytree(folder, folder.parent / name)
    return folder.parent / name
