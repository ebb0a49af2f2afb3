"""What a load has begun and done: the file DIR/TABLE.BATCH.loaded, to which each step adds a line.

A load that was ended goes on by it.
"""

import json
import os
import re

from .pieces import new_sum
from .program import Fault

FORMAT = 1
BATCH = re.compile(r"[A-Za-z0-9_][A-Za-z0-9_.-]{0,63}")


class Stopped(Fault):
    """Why a load ended in its middle. The same command goes on."""


class Kept:
    """What is known of a piece: where it stands in the input, the rows of its parts, and which were begun and loaded.

    As it came a piece is one part. Read row by row it may be more, or none.
    """

    def __init__(self, step):
        self.line, self.lines, self.bytes, self.sum = step["line"], step["lines"], step["bytes"], step["sum"]
        self.rows, self.is_read = None, False
        self.begun, self.loaded = {}, set()

    def is_done(self):
        return self.rows is not None and len(self.loaded) == len(self.rows)

    def told(self):
        """Its lines, in words."""
        return "lines {} to {}".format(self.line, self.line + max(self.lines, 1) - 1)


class Journal:
    """The steps of one batch, and what they mean together. `note` adds steps."""

    def __init__(self, folder, table, batch):
        self.folder, self.batch = folder, batch
        loaded, refused = ("{}.{}.{}".format(table, batch, end) for end in ("loaded", "refused"))
        self.path, self.name = os.path.join(folder.path, loaded), os.path.join(folder.name, loaded)
        self.refused_path, self.refused_name = os.path.join(folder.path, refused), os.path.join(folder.name, refused)
        self.file, self.size = None, 0
        # The first step; the pieces; and whether the input was loaded to its end.
        self.head, self.pieces, self.is_whole = None, [], False
        # How much is done. `aside` is the length of the file of the rows that were put aside.
        self.rows = self.late = self.refused = self.blocks = self.bytes = self.aside = 0
        self.replay()

    # ---- what the steps mean

    def replay(self):
        """Takes in the steps of the file. A last line without an end was not written whole, and is none."""
        try:
            with open(self.path, "rb") as kept:
                data = kept.read()
        except FileNotFoundError:
            return
        except OSError as error:
            raise Fault("{} cannot be read: {}".format(self.name, error.strerror))
        self.size = data.rfind(b"\n") + 1
        for number, line in enumerate(data[: self.size].split(b"\n")[:-1], 1):
            try:
                self.mean(json.loads(line.decode()))
            except (ValueError, KeyError, IndexError, TypeError):
                raise Fault("{} is damaged at line {}".format(self.name, number))

    def mean(self, step):
        if "load" in step:
            self.head = step
            if step["load"] != FORMAT:
                raise Fault("{} was written by a loader of another version".format(self.name))
        elif "piece" in step:
            self.is_whole = False
            self.pieces.append(Kept(step))
        elif "read" in step:
            self.mean_read(self.pieces[step["read"]], step)
        elif "begin" in step:
            piece = self.pieces[step["begin"]]
            if not piece.is_read:
                piece.rows = [step["rows"]]
            piece.begun[step["part"]] = step
        elif "end" in step:
            self.mean_end(self.pieces[step["end"]], step)
        elif "gone" in step:
            del self.pieces[step["gone"]].begun[step["part"]]
        elif "all" in step:
            self.is_whole = True
        else:
            raise ValueError("no step")

    def mean_read(self, piece, step):
        """The piece was read row by row. A run that was begun with it as it came was refused."""
        piece.rows, piece.is_read, piece.begun, piece.loaded = step["rows"], True, {}, set()
        self.refused += step["refused"]
        self.aside = step["aside"]
        self.bytes += piece.bytes if piece.is_done() else 0

    def mean_end(self, piece, step):
        del piece.begun[step["part"]]
        piece.loaded.add(step["part"])
        self.rows += piece.rows[step["part"]] - step["late"]
        self.late += step["late"]
        self.blocks += 1
        self.bytes += piece.bytes if piece.is_done() else 0

    def open_parts(self):
        """The parts that were begun and whose end nobody saw: the number of the piece, and the step."""
        return [(number, step) for number, piece in enumerate(self.pieces) for step in piece.begun.values()]

    # ---- writing

    def note(self, *steps, is_synced=False):
        """Adds steps to the file. Where that fails the file is as it was."""
        data = "".join(json.dumps(step, separators=(",", ":")) + "\n" for step in steps).encode()
        try:
            if self.file is None:
                self.file = os.open(self.path, os.O_WRONLY | os.O_CREAT, 0o666)
                os.ftruncate(self.file, self.size)
            if os.pwrite(self.file, data, self.size) < len(data):
                raise OSError(0, "it could not be written whole")
            if is_synced:
                os.fsync(self.file)
        except OSError as error:
            if self.file is not None:
                os.ftruncate(self.file, self.size)
            raise Stopped("{} cannot be written: {}".format(self.name, error.strerror))
        self.size += len(data)
        for step in steps:
            self.mean(step)

    def put_aside(self, write):
        """Has `write` add to the file of the rows that were put aside, and gives its new length, which is to be noted.

        What stands there and was never noted is written over.
        """
        is_new = not os.path.exists(self.refused_path)
        try:
            with open(self.refused_path, "w+b" if is_new else "r+b") as file:
                file.truncate(min(self.aside, file.seek(0, os.SEEK_END)))
                file.seek(0, os.SEEK_END)
                write(file)
                file.flush()
                os.fsync(file.fileno())
                if is_new:
                    self.folder.sync()
                return file.tell()
        except OSError as error:
            raise Stopped("{} cannot be written: {}".format(self.refused_name, error.strerror))


def journals(folder, table):
    """The journals of a table."""
    pattern = re.compile(re.escape(table) + r"\.(.+)\.loaded")
    matches = map(pattern.fullmatch, sorted(os.listdir(folder.path)))
    return [Journal(folder, table, match.group(1)) for match in matches if match and BATCH.fullmatch(match.group(1))]


def sum_of(data):
    found = new_sum()
    found.update(data)
    return found.hexdigest()


def batch_of(found, front):
    """The batch of an input that begins with these bytes, where none was named: their sum.

    `found` are the journals of the table. A batch whose whole input was shorter, and stands at the front of this one,
    is a fault: nobody can tell whether the same rows are meant.
    """
    own = sum_of(front)[:12]
    for journal in found:
        if journal.head is None or journal.batch == own:
            continue
        size, told = journal.head["front"]
        if size < len(front) and sum_of(front[:size]) == told:
            raise Fault(
                "the first {} lines of the input are those of the batch {b}: `--batch {b}` goes on after them, and "
                "`--batch NEWNAME` loads all lines".format(front.count(b"\n", 0, size), b=journal.batch)
            )
    return own
