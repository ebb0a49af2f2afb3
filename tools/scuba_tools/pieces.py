"""Cuts an input of any length into pieces that fit a script.

In memory stands no more of the input than a block and the record that is not over.
"""

import hashlib
import os
import select
import tempfile

from .program import Fault

BLOCK = 1 << 20
# A script has so many bytes at most. Its rows stand from HEAD on, behind its first lines, and a drain follows them.
MOST_SCRIPT, HEAD, DRAIN = 16 << 20, 2048, b"drain 0\n"
BYTE_ORDER_MARK = b"\xef\xbb\xbf"
STRANGE = (
    (b"\x1f\x8b", "it is packed by gzip: give what `zcat` prints"),
    (b"\x28\xb5\x2f\xfd", "it is packed by zstd: give what `zstdcat` prints"),
    (b"\xff\xfe", "it is UTF-16: give what `iconv -f UTF-16 -t UTF-8` prints"),
    (b"\xfe\xff", "it is UTF-16: give what `iconv -f UTF-16 -t UTF-8` prints"),
)


def anonymous():
    """A new file without a name. It stands in memory where the system can do that."""
    if hasattr(os, "memfd_create"):
        return os.memfd_create("scuba-load")
    with tempfile.TemporaryFile() as file:
        return os.dup(file.fileno())


def put(file, data, at):
    """Writes all of it."""
    rest = memoryview(data)
    while rest:
        count = os.pwrite(file, rest, at)
        rest, at = rest[count:], at + count


def blocks_of(file, at, length):
    """So many bytes of a file from a place on, a block at a time."""
    while length:
        data = os.pread(file, min(BLOCK, length), at)
        yield data
        at, length = at + len(data), length - len(data)


def new_sum():
    return hashlib.blake2b(digest_size=16)


def stays_open(data, at, end, is_open):
    """Whether a quoted field of CSV is open at the end of a line, and so goes on in the next one.

    A quote opens a field only where the field begins, and a doubled quote does not close it.
    """
    begins = at
    while True:
        if is_open:
            at = data.find(b'"', at, end)
            if at < 0:
                return True
            if data[at + 1 : at + 2] == b'"':
                at += 2
            else:
                at, is_open = at + 1, False
        elif at == begins and data[at : at + 1] == b'"':
            at, is_open = at + 1, True
        else:
            at = data.find(b',"', at, end)
            if at < 0:
                return False
            at, is_open = at + 2, True


def fit_lines(data, rows, most):
    """The most lines at the front of some bytes, up to so many lines and bytes: where they end, and how many."""
    end = data.rfind(b"\n", 0, max(most, 0)) + 1
    found = data.count(b"\n", 0, end)
    if found > rows:
        return len(data) - len(data.split(b"\n", rows)[rows]), rows
    return end, found


def fit_records(data, rows, most):
    """The same of the records of CSV, in which a line end may stand between quotes."""
    if b'"' not in data:
        return fit_lines(data, rows, most)
    at = whole = found = 0
    is_open = False
    while found < rows:
        end = data.find(b"\n", at) + 1
        if not 0 < end <= most:
            break
        is_open = stays_open(data, at, end, is_open)
        at = end
        if not is_open:
            whole, found = end, found + 1
    return whole, found


class Piece:
    """A run of whole records of the input: its number, its first line, and how many records, lines and bytes it has.

    Where it is kept its bytes stand in `file`, from HEAD on.
    """

    def __init__(self, number, line, is_kept):
        self.number, self.line = number, line
        self.records = self.lines = self.bytes = 0
        # Whether its first record is too long for any run; then it has none yet.
        self.is_long = False
        self.file = anonymous() if is_kept else None
        self.sum = new_sum()

    def add(self, data):
        if self.file is not None:
            put(self.file, data, HEAD + self.bytes)
        self.sum.update(data)
        self.bytes += len(data)
        self.lines += data.count(b"\n")

    def close(self):
        if self.file is not None:
            os.close(self.file)
            self.file = None


class Cutter:
    """Takes pieces off the front of an input. A record may have `most_record` bytes.

    `idle` is called before each read, and while it waits for the input.
    """

    def __init__(self, source, is_csv, most_record):
        self.source, self.most_record = source, most_record
        self.fit = fit_records if is_csv else fit_lines
        self.idle = lambda: None
        # What was read and not taken, the last byte that was read, and whether the input is over.
        self.rest, self.last, self.is_over = b"", b"\n", False
        # How many bytes were read, and which line and piece come next.
        self.read, self.line, self.number = 0, 1, 0

    def begin(self):
        """Reads the first block, and drops a byte order mark. An input without rows, or no text, is a fault."""
        self.more()
        for mark, why in STRANGE:
            if self.rest.startswith(mark):
                raise Fault("the input has no lines of text: " + why)
        if self.rest.startswith(BYTE_ORDER_MARK):
            self.rest = self.rest[len(BYTE_ORDER_MARK) :]
        if not self.has_text():
            raise Fault("the input is empty")

    def has_text(self):
        """Whether something stands in what was read and not taken, or may stand behind it."""
        return bool(self.rest.strip()) or not self.is_over

    def more(self):
        """Reads a block more. A last line that has no end is given one. False where nothing was left."""
        blocks, size = [self.rest], 0
        while size < BLOCK and not self.is_over:
            data = self.some(BLOCK - size)
            if not data:
                self.is_over = True
                data = b"" if self.last == b"\n" else b"\n"
            self.last = data[-1:] or self.last
            blocks.append(data)
            size += len(data)
        self.rest = b"".join(blocks)
        return size > 0

    def some(self, size):
        """Reads once. The input may have nothing for long."""
        self.idle()
        while True:
            try:
                if select.select([self.source], [], [], 0.5)[0]:
                    data = os.read(self.source, size)
                    self.read += len(data)
                    return data
            except BlockingIOError:
                pass
            except OSError as error:
                raise Fault("the input could not be read: {}".format(error.strerror))
            self.idle()

    def take(self, piece, at):
        """Moves bytes from the front of the input to the end of a piece."""
        data, self.rest = self.rest[:at], self.rest[at:]
        piece.add(data)
        return data

    def taken(self, piece):
        self.line, self.number = piece.line + piece.lines, piece.number + 1
        return piece

    def head(self):
        """The first record, which has the names of the columns."""
        while True:
            at, found = self.fit(self.rest, 1, BLOCK)
            if found:
                head, self.rest = self.rest[:at], self.rest[at:]
                self.line += head.count(b"\n")
                return head
            if len(self.rest) > BLOCK or not self.more():
                raise Fault("the head has more than {} bytes, or a quote that is not closed".format(BLOCK))

    def piece(self, rows, most):
        """The next piece, of at most so many records and bytes but of at least one record. None at the input's end.

        Of one that `is_long` the first line is still to be taken.
        """
        piece = Piece(self.number, self.line, True)
        while piece.records < rows:
            room = most - piece.bytes if piece.records else self.most_record
            at, found = self.fit(self.rest, rows - piece.records, most - piece.bytes)
            if not found and not piece.records:
                at, found = self.fit(self.rest, 1, room)
            if found:
                self.take(piece, at)
                piece.records += found
            elif len(self.rest) > room or not self.more():
                break
        if piece.records:
            return self.taken(piece)
        piece.close()
        piece.is_long = bool(self.rest)
        return piece if self.rest else None

    def long_line(self, piece, write):
        """Takes a line of any length, and hands it to `write` a block at a time."""
        while not piece.lines and (self.rest or self.more()):
            write(self.take(piece, self.rest.find(b"\n") + 1 or len(self.rest)))
        return self.taken(piece)

    def again(self, size, is_kept):
        """A piece of so many bytes, or of fewer where the input ends before."""
        piece = Piece(self.number, self.line, is_kept)
        while piece.bytes < size and (self.rest or self.more()):
            self.take(piece, min(size - piece.bytes, len(self.rest)))
        return self.taken(piece)
