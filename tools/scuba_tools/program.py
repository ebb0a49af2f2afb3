"""Finds the program, and runs it."""

import os
import subprocess

TREE = os.path.dirname(os.path.dirname(os.path.dirname(os.path.realpath(__file__))))


class Fault(Exception):
    """Why a tool cannot go on: one line for its user."""


def find_program(given=None):
    """The path of the program.

    It is the one that `given` names, else the variable SCUBA, else that of the tree beside the tools, else `scuba` on
    the PATH.
    """
    for source, name in (("--scuba", given), ("the variable SCUBA", os.environ.get("SCUBA"))):
        if name:
            found = runnable(name)
            if not found:
                raise Fault("{} names {}, which is no program".format(source, name))
            return found
    found = built_program() or runnable("scuba")
    if not found:
        raise Fault("there is no program: name it with --scuba or the variable SCUBA, or put `scuba` on the PATH")
    return found


def runnable(name):
    """The path of a program: of a name without a slash the first on the PATH. None if there is none."""
    folders = [""] if os.sep in name else os.get_exec_path()
    for path in (os.path.join(folder, name) for folder in folders):
        if os.path.isfile(path) and os.access(path, os.X_OK):
            return os.path.abspath(path)
    return None


def built_program():
    """The program of the tree, which its launcher builds if it is missing or older than its sources. It may be None."""
    launcher, crate = os.path.join(TREE, "scuba"), os.path.join(TREE, "crates", "scuba_cli")
    if not os.access(launcher, os.X_OK) or not os.path.isdir(crate):
        return None
    # An empty script makes the launcher look at the whole program, and plays nothing. The launcher says on standard
    # error what it builds, and why it cannot.
    ran = subprocess.run([launcher, "mem", "play"], stdin=subprocess.DEVNULL, stdout=subprocess.DEVNULL)
    built = os.path.join(crate, "out", "scuba_cli")
    return built if ran.returncode == 0 and os.access(built, os.X_OK) else None


def add_option(parser):
    """The option that names the program."""
    what = "the program; else the variable SCUBA, the program of this tree, or `scuba` on the PATH"
    parser.add_argument("--scuba", metavar="PROGRAM", help=what)


class Ran:
    """What a run of the program left: its status, the bytes that it printed, and what it said on standard error."""

    def __init__(self, status, printed, why):
        self.status, self.printed, self.why = status, printed, why


def run(program, words, script=b"", pass_fds=()):
    """Runs the program with these words and this input."""
    pipe = subprocess.PIPE
    try:
        ran = subprocess.run([program, *words], input=script, stdout=pipe, stderr=pipe, pass_fds=pass_fds)
    except OSError as error:
        raise Fault("{} cannot be run: {}".format(program, error.strerror))
    return Ran(ran.returncode, ran.stdout, ran.stderr.decode(errors="replace").strip())
