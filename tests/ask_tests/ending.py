"""Tools that are ended in their middle, and the tools' own text."""

import contextlib
import os
import pathlib
import shutil
import signal
import subprocess
import time

from .trial import COUNT_EVENTS, TESTS, TOOLS, state_of

MINE = ("ask", "folder", "dump", "whole_records")
MODULES = ("__init__", "answers", "cells", "copies", "folder", "forms", "log", "merge", "output", "program", "region")
MODULES += ("sources", "states")


def ends(t):
    """An ask that is ended while the program runs: no copy of a row stays behind, and no program."""
    sleeper, places, pid_at = t.work / "sleeper", t.work / "places", t.work / "pid"
    sleeper.write_text("#!/bin/sh\necho $$ >{0}.new && mv {0}.new {0}\nexec sleep 60\n".format(pid_at))
    sleeper.chmod(0o755)
    statuses = {signal.SIGTERM: 143, signal.SIGINT: 130, signal.SIGHUP: 129, signal.SIGKILL: -signal.SIGKILL}
    for number, status in statuses.items():
        shutil.rmtree(places, ignore_errors=True)
        places.mkdir()
        before, pipe = state_of(t.whole), subprocess.PIPE
        words = t.words("ask", t.whole, COUNT_EVENTS, program=sleeper)
        ask = subprocess.Popen(words, stdout=pipe, stderr=pipe, env={**os.environ, "TMPDIR": str(places)})
        pid = pid_of(pid_at)
        os.kill(ask.pid, number)
        if number == signal.SIGKILL:
            os.kill(pid, number)
        name = "ask after " + number.name
        t.expect(name, ((b"", b""), status), (ask.communicate(), ask.returncode))
        left = [path for path in places.rglob("*") if not (number == signal.SIGKILL and is_empty(path))]
        t.expect(name + ": what it left", [], left)
        t.expect(name + ": the program", True, is_gone(pid))
        t.expect(name + ": the folder", before, state_of(t.whole))


def is_empty(path):
    """Whether this is a folder, or a link that leads nowhere."""
    return path.is_dir() or (path.is_symlink() and not path.exists())


def pid_of(at):
    """The process that a file names, once it is there."""
    for _ in range(600):
        with contextlib.suppress(FileNotFoundError):
            pid = int(at.read_text())
            at.unlink()
            return pid
        time.sleep(0.05)
    raise AssertionError("the program of a tool was not started")


def is_gone(pid):
    """Whether a process ends within some seconds."""
    for _ in range(200):
        try:
            state = pathlib.Path("/proc/{}/stat".format(pid)).read_text().rsplit(")", 1)[1].split()[0]
        except FileNotFoundError:
            return True
        if state == "Z":
            return True
        time.sleep(0.05)
    return False


def texts(t):
    """The tools compile, a linter finds nothing, and each has a help. And the words of whole_records."""
    files = [TOOLS / name for name in MINE] + [TOOLS / "scuba_tools" / (name + ".py") for name in MODULES]
    for file in files:
        compile(file.read_text(encoding="utf-8"), str(file), "exec")
    if shutil.which("pyflakes3"):
        words = ["pyflakes3", *files, TESTS / "asks", *(TESTS / "ask_tests").glob("*.py")]
        ran = subprocess.run(words, stdout=subprocess.PIPE, stderr=subprocess.STDOUT)
        t.expect("pyflakes3", (0, b""), (ran.returncode, ran.stdout))
    else:
        print("tests: pyflakes3 is not here, and the tools were not linted")
    for name in MINE:
        ran = t.tool(name, "--help")
        t.expect(name + " --help", (0, "", True), (ran.status, ran.err, len(ran.out.split("\n")) > 4))
    ran = t.tool("whole_records", t.whole / "leaf-0.disk")
    lines = [line.split(" ", 1)[1] for line in ran.out.split("\n")[:-1]]
    events = "events writes 1 rows 40"
    t.expect("whole_records", (0, [events, "perf writes 1 rows 30", events, "the log ends"]), (ran.status, lines))
    t.refused("whole_records of no file", 2, "is no file$", t.tool("whole_records", t.work / "none"))
    t.refused("whole_records of nothing", 2, "give the file of one log$", t.tool("whole_records"))
