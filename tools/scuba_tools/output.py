"""Standard output for a tool that writes bytes to it."""

import contextlib
import os
import signal

from .program import Fault


class Output:
    """Standard output. It is taken before any other file is opened, so that none has its number.

    It has no buffer: one that could not be written would be told of again as Python ends. And `sys.stdout` may write a
    part of what it is given where PYTHONUNBUFFERED is set.
    """

    def __init__(self):
        try:
            os.fstat(1)
        except OSError:
            raise Fault("there is no output")

    @contextlib.contextmanager
    def writing(self, what):
        """Gives a call that writes lines. Nothing may be left to remove: a reader that goes away ends this process."""
        signal.signal(signal.SIGPIPE, signal.SIG_DFL)
        try:
            yield write_all
        except OSError as error:
            raise Fault("{} could not be written: {}".format(what, error.strerror))


def write_all(lines):
    data = memoryview(b"".join(lines))
    while data:
        data = data[os.write(1, data) :]


def end_by_signals():
    """Has the signals that ask for the end unwind the tool, so that it removes what it made."""

    def end(number, _):
        raise SystemExit(128 + number)

    for number in (signal.SIGTERM, signal.SIGHUP):
        signal.signal(number, end)
