"""Loads the pieces of an input into the leaves of a folder, each exactly once.

For each piece a run of the program starts one leaf alone, adds the rows and drains. A drain writes one record of the
log, so the rows of a run are at its leaf whole or not at all. The journal has, before each run, how many writes the
leaf's log has. After a load that was ended, the log tells whether it has the run that was begun last.
"""

import collections
import functools
import json
import os
import signal
import traceback

from .journal import Stopped
from .pieces import BLOCK, HEAD, anonymous, blocks_of, put
from .program import Fault
from .rows import read_piece
from .runs import ending
from .writes import Written, find_write

READ_AT_ONCE = 4 << 20

# Rows of a piece that one run adds: the number of the part; the file, and whether it has these rows alone; where they
# stand in it, and their bytes and number.
Part = collections.namedtuple("Part", "piece number file is_alone at bytes rows")


class Interrupted(Exception):
    """A signal asked for an end."""


def settle(folder, table, journal):
    """Finds out of each part that was begun whether its leaf has it."""
    for number, step in journal.open_parts():
        found = find_write(folder.disk(step["leaf"]), table, step["before"])
        told = {"part": step["part"]}
        if found is None:
            journal.note({"gone": number, **told})
        elif found == (Written(table, 1, step["rows"]), step["before"]):
            folder.sync()
            journal.note({"end": number, **told, "late": 0})
        else:
            raise Fault(
                "{}: leaf {}: something else wrote to {} after the batch {} was interrupted, so nobody can tell "
                "whether {} are there".format(
                    folder.name, step["leaf"], table, journal.batch, journal.pieces[number].told()
                )
            )


class Load:
    """One load: `cutter` has the input, and `journal` what is done of it.

    A piece of the input goes to the program as it came. Where the program refuses it, or the rules make other rows of
    it, a process of its own reads it row by row. At most `jobs` processes run at a time, and a run adds at most
    `most_rows` rows of `most` bytes.
    """

    def __init__(self, leaves, names, rules, journal, cutter, jobs, most_rows, most):
        self.leaves, self.names, self.rules, self.journal, self.cutter = leaves, names, rules, journal, cutter
        self.jobs, self.most_rows, self.most = jobs, most_rows, most
        # How many bytes of input make one script, as the last piece that was read tells.
        self.room = min(most, READ_AT_ONCE) if rules.needs_reading() else most
        # By its process what is done at its end; the pieces that are to be read; and the parts that are to be loaded.
        self.running, self.to_read, self.to_load = {}, collections.deque(), collections.deque()
        self.fault, self.is_interrupted, self.is_over = None, False, False
        self.tell = lambda: None
        cutter.idle = self.idle

    def all(self):
        """Loads the input to its end. After a fault or an interrupt it begins nothing more, and waits for what runs."""
        signal.pthread_sigmask(signal.SIG_BLOCK, {signal.SIGCHLD})
        while True:
            try:
                while not self.is_stopping() and len(self.running) < self.jobs and self.begin_one():
                    pass
            except (Fault, OSError) as fault:
                self.fault = self.fault or fault
            if not self.running:
                break
            signal.sigtimedwait({signal.SIGCHLD}, 0.5)
            self.reap()
            self.tell()
        self.end()
        if not self.journal.is_whole:
            self.journal.note({"all": self.journal.rows}, is_synced=True)

    def is_stopping(self):
        return self.fault is not None or self.is_interrupted

    def end(self):
        """Raises why the load ends before the input does, if it does."""
        if self.fault:
            raise self.fault
        if self.is_interrupted:
            raise Interrupted

    def idle(self):
        """What is done while the input is read, which may have nothing for long."""
        self.reap()
        self.tell()
        if not self.running:
            self.end()

    def reap(self):
        """Sees to each process that has ended."""
        while self.running:
            child, status = os.waitpid(-1, os.WNOHANG)
            if child == 0:
                return
            ended = self.running.pop(child, lambda status: None)
            try:
                ended(status)
            except (Fault, OSError) as fault:
                self.fault = self.fault or fault

    def begin_one(self):
        """Begins a process, or makes something ready for one. False where nothing can be begun now."""
        if self.to_load and self.leaves.idle:
            return self.begin_run(self.to_load.popleft())
        if self.to_read:
            return self.begin_reading(self.to_read.popleft())
        if self.to_load:
            # More input would wait in memory.
            return False
        piece = None if self.is_over else self.next_piece()
        if piece is None:
            self.is_over = True
        elif piece.is_long:
            self.put_long_line_aside(piece)
        elif self.rules.needs_reading() or self.journal.pieces[piece.number].is_read:
            self.to_read.append(piece)
        else:
            self.to_load.append(Part(piece, 0, piece.file, True, HEAD, piece.bytes, piece.lines))
        return piece is not None

    # ---- pieces

    def next_piece(self):
        """The next piece that is not loaded. None at the input's end."""
        while self.cutter.number < len(self.journal.pieces):
            kept = self.journal.pieces[self.cutter.number]
            piece = self.cutter.again(kept.bytes, not kept.is_done())
            if (piece.bytes, piece.sum.hexdigest()) != (kept.bytes, kept.sum):
                raise Fault(
                    "{} of the input are not those that the batch {} has there: --batch NEWNAME loads another "
                    "input".format(kept.told(), self.journal.batch)
                )
            if not kept.is_done():
                return piece
        piece = self.cutter.piece(self.most_rows, self.room)
        if piece is not None and not piece.is_long:
            self.journal.note(step_of(piece))
        return piece

    def put_long_line_aside(self, piece):
        """Puts a line aside that is too long for a run."""
        cause = "a record of more than {} bytes".format(self.cutter.most_record)
        cause += ", or a quote that is not closed" if self.rules.is_csv else ""

        def write(file):
            file.write("{}\t{}\t".format(piece.line, cause).encode())
            self.cutter.long_line(piece, file.write)

        # What other processes read is put aside behind the whole line.
        self.cutter.idle = self.tell
        size = self.journal.put_aside(write)
        self.cutter.idle = self.idle
        told = {"read": piece.number, "rows": [], "refused": 1, "aside": size}
        self.journal.note(step_of(piece), told, is_synced=True)

    # ---- reading row by row

    def begin_reading(self, piece):
        """Reads a piece row by row, in a process of its own."""
        good, bad, told = anonymous(), anonymous(), anonymous()
        parent = os.getpid()
        child = os.fork()
        if child == 0:
            status = 1
            try:
                self.read(piece, good, bad, told, parent)
                status = 0
            except BaseException:
                traceback.print_exc()
            finally:
                os._exit(status)
        self.running[child] = functools.partial(self.reading_ended, piece, good, bad, told)
        return True

    def read(self, piece, good, bad, told, parent):
        signal.signal(signal.SIGINT, signal.SIG_IGN)
        signal.signal(signal.SIGTERM, signal.SIG_DFL)
        # This process does nothing to the folder: it neither locks it nor outlives the loader.
        os.close(self.leaves.lock)

        def tick():
            if os.getppid() != parent:
                os._exit(1)

        found = read_piece(piece.file, piece.line, self.names, self.rules, good, bad, self.most, tick)
        put(told, json.dumps(found).encode(), 0)

    def reading_ended(self, piece, good, bad, told, status):
        if status != 0:
            raise Stopped(
                "the process that read the rows from line {} on ended with {}".format(piece.line, ending(status))
            )
        parts, refused = json.loads(os.pread(told, BLOCK, 0).decode())
        kept, rows = self.journal.pieces[piece.number], [rows for *_, rows in parts]
        is_new = not kept.is_read
        if is_new:
            self.note_reading(piece, rows, refused, bad)
        elif kept.rows != rows:
            raise Fault(
                "{} make other rows than when the load was interrupted: the loader or Python has another "
                "version".format(kept.told())
            )
        made = sum(size for _, size, _ in parts)
        self.room = self.most
        if made > piece.bytes:
            self.room = max(self.most // 8, int(self.most * 0.95 * piece.bytes / made))
        for file in (bad, told, *(() if rows else (good,))):
            os.close(file)
        piece.close()
        for number, (at, size, count) in enumerate(parts):
            if number not in kept.loaded:
                self.to_load.append(Part(piece, number, good, len(parts) == 1, at, size, count))
        if is_new and refused and not parts and piece.number == 0 and self.cutter.has_text():
            raise Stopped(self.no_rows(piece))

    def note_reading(self, piece, rows, refused, bad):
        """Puts the refused rows aside, and notes what was found."""

        def write(file):
            for data in blocks_of(bad, 0, os.fstat(bad).st_size):
                file.write(data)

        size = self.journal.put_aside(write) if refused else self.journal.aside
        self.journal.note({"read": piece.number, "rows": rows, "refused": refused, "aside": size})

    def no_rows(self, piece):
        with open(self.journal.refused_path, "rb") as file:
            line, cause = file.readline(BLOCK).decode(errors="replace").split("\t")[:2]
        return "none of the first {} lines is a row: of line {} the cause is `{}`, and {} has the others".format(
            piece.lines, line, cause, self.journal.refused_name
        )

    # ---- runs

    def begin_run(self, part):
        leaf, told = self.leaves.take(), anonymous()
        before = self.leaves.writes[leaf]
        step = {"begin": part.piece.number, "part": part.number, "leaf": leaf, "before": before, "rows": part.rows}
        self.journal.note(step, is_synced=True)
        child, script = self.leaves.run(leaf, part, told)
        self.running[child] = functools.partial(self.run_ended, part, leaf, script, told)
        return True

    def run_ended(self, part, leaf, script, told, status):
        printed = os.pread(told, BLOCK, 0).decode(errors="replace")
        os.close(told)
        if script != part.file:
            os.close(script)
        piece, kept = part.piece, self.journal.pieces[part.piece.number]
        if os.WIFEXITED(status) and os.WEXITSTATUS(status) == 3 and not kept.is_read:
            # The program plays nothing of a script in which it refuses a row. That is noted before the leaf has another
            # run, which would else be taken for this one after a kill.
            self.journal.note({"gone": piece.number, "part": part.number})
            self.leaves.idle.add(leaf)
            os.ftruncate(piece.file, HEAD + piece.bytes)
            self.to_read.append(piece)
            return
        late = self.leaves.added(leaf, part.rows, printed) if status == 0 else None
        if late is None:
            why = self.leaves.why_not(leaf, printed, status)
            raise Stopped("{}: {}: {}".format(self.leaves.folder.name, kept.told(), why))
        self.journal.note({"end": piece.number, "part": part.number, "late": late})
        self.leaves.idle.add(leaf)
        if kept.is_done():
            os.close(part.file)


def step_of(piece):
    told = {"piece": piece.number, "line": piece.line, "lines": piece.lines, "bytes": piece.bytes}
    return {**told, "sum": piece.sum.hexdigest()}
