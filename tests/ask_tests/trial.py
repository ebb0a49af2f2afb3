"""What the sections of `tests/asks` share: the folder `whole` and its rows, copies of it, and how tools are run."""

import collections
import contextlib
import hashlib
import json
import os
import pathlib
import re
import shutil
import subprocess
import sys
import tempfile

from scuba_tools.program import Fault
from scuba_tools.region import Region

from .questions import MOST, Rows

TESTS = pathlib.Path(__file__).resolve().parent.parent
TOOLS = TESTS.parent / "tools"
FLEET, DRAINS = "fleet 1 3 events perf", ["drain 0", "drain 1", "drain 2"]
EVERY = "WHERE time >= 0 AND time <= {}".format(MOST)
COUNT_EVENTS = "SELECT COUNT(*) FROM events " + EVERY
PERF = [{"time": time, "ms": time * time} for time in range(30)]

Ended = collections.namedtuple("Ended", "status out err")


def add(leaf, table, rows):
    head = "add {} {} {}".format(leaf, table, len(rows))
    return [head] + [json.dumps(row, ensure_ascii=False) for row in rows]


def state_of(at):
    """All that a look at a folder could change."""
    found = {}
    for path in sorted(at.iterdir()):
        told, content = path.lstat(), path.read_bytes() if path.exists() else b""
        found[path.name] = hashlib.sha256(content).hexdigest(), told.st_mtime_ns, told.st_mode
    return found


def spoil(path, place):
    """Changes a byte of a file."""
    with open(path, "r+b") as file:
        file.seek(place)
        byte = file.read(1)
        file.seek(place)
        file.write(bytes([byte[0] ^ 0xFF]))


def log_end(at):
    """The place where the log of leaf 0 ended when its region was drained."""
    with Region(str(at / "leaf-0.region")) as region:
        return region.log_end


def bag(rows):
    """Rows without their order."""
    return collections.Counter(json.dumps(row, sort_keys=True) for row in rows)


def bag_of(out):
    """The rows of a dump, which must ascend in time."""
    found = [json.loads(line) for line in out.split("\n")[:-1]]
    times = [row["time"] for row in found]
    return bag(found) if times == sorted(times) else "the times do not ascend"


def in_process(work):
    """What a part of a tool says that is called here, since only here its calls can be made to fail."""
    try:
        return work()
    except Fault as fault:
        return "Fault: {}".format(fault)


class Trial:
    """A program, a folder to work in, and in it the folder `whole`: three leaves that were drained twice."""

    def __init__(self, program, work):
        self.program, self.work, self.rows = program, pathlib.Path(work), Rows(61)
        self.passed, self.failed = 0, 0
        self.whole = self.work / "whole"
        self.whole.mkdir()
        first, second = (
            [line for leaf in range(3) for line in add(leaf, "events", part[leaf])]
            for part in (self.rows.first, self.rows.second)
        )
        self.play(self.whole, FLEET, *first, *add(0, "perf", PERF), *DRAINS)
        self.play(self.whole, FLEET, *second, "expire 1 events 100", "keep 2 events 75", *DRAINS)

    def expect(self, name, want, got):
        is_so = want.search(got) is not None if isinstance(want, re.Pattern) else want == got
        self.passed, self.failed = self.passed + is_so, self.failed + (not is_so)
        if not is_so:
            want = want.pattern if isinstance(want, re.Pattern) else want
            print("tests: {}: not\n  {}\nbut\n  {}".format(name, str(want)[:1500], str(got)[:1500]))

    # ---- folders

    def play(self, at, *lines):
        """The lines that the program prints."""
        script, pipe = "".join(line + "\n" for line in lines).encode(), subprocess.PIPE
        ran = subprocess.run([self.program, str(at), "play"], input=script, stdout=pipe, stderr=pipe)
        if ran.returncode:
            raise AssertionError(ran.stderr.decode())
        return ran.stdout.decode().split("\n")[:-1]

    @contextlib.contextmanager
    def copy_of(self, at):
        """A copy of a folder, to be spoilt. It is always called DIR."""
        with tempfile.TemporaryDirectory(dir=self.work) as place:
            shutil.copytree(at, pathlib.Path(place) / "DIR", symlinks=True)
            yield pathlib.Path(place) / "DIR"

    @contextlib.contextmanager
    def running(self, at):
        """A program that has the leaves up, and waits at a pipe that nobody reads."""
        script = [FLEET] + ["keep 0 events 1000000"] * 5000
        words = [self.program, str(at), "play"]
        process = subprocess.Popen(words, stdin=subprocess.PIPE, stdout=subprocess.PIPE)
        try:
            process.stdin.write("".join(line + "\n" for line in script).encode())
            process.stdin.close()
            process.stdout.read(1)
            yield process.pid
        finally:
            process.kill()
            process.stdout.close()
            process.wait()

    # ---- tools

    def words(self, name, *words, program=None):
        own = [] if name == "whole_records" else ["--scuba", str(program or self.program)]
        # Without the modules of the site, which a tool does not need.
        return [sys.executable, "-S", str(TOOLS / name)] + own + [str(word) for word in words]

    def tool(self, name, *words, program=None, **options):
        options.setdefault("stdout", subprocess.PIPE)
        words = self.words(name, *words, program=program)
        ran = subprocess.run(words, stdin=subprocess.DEVNULL, stderr=subprocess.PIPE, **options)
        return Ended(ran.returncode, (ran.stdout or b"").decode(), ran.stderr.decode())

    def refused(self, name, status, cause, ran):
        """A refusal has its status, its cause, and no answer."""
        self.expect(name, (status, ""), (ran.status, ran.out))
        self.expect(name + ": the cause", re.compile(cause), ran.err)


def environment(**more):
    """The variables of a tool, without those that change how Python writes."""
    kept = {name: value for name, value in os.environ.items() if name != "PYTHONUNBUFFERED"}
    return {**kept, "PYTHONUTF8": "1", **more}
