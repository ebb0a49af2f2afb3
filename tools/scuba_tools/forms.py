"""The forms in which answers are written: a table, bars, CSV and JSON.

Each takes columns and rows, and gives lines without their ends.
"""

import json
import re

from .answers import Average
from .program import Fault

UNITS = {"s": 1, "ms": 10**3, "us": 10**6, "ns": 10**9}
# What a text may not look like where it is shown without quotes.
AMBIGUOUS = re.compile(r'-|-?[0-9]+|["\[ ].*|.* ')
BLOCK, EIGHTHS = "█", ("", "▏", "▎", "▍", "▌", "▋", "▊", "▉")
LEAST_BAR, MOST_STEPS = 10, 100000


def quotient(value):
    """An average as a number; None where there is no integer."""
    return value.sum / value.count if value.count else None


# ---- tables


class Table:
    """A table for people. `dates` has the unit of each name whose integers are times."""

    def __init__(self, dates):
        self.dates = dates

    def cell(self, column, value):
        if isinstance(value, Average):
            return "{:.3f}".format(quotient(value)) if value.count else "-"
        if isinstance(value, int):
            return self.number(column, value)
        if isinstance(value, str):
            return quoted(value) if not value or not value.isprintable() or AMBIGUOUS.fullmatch(value) else value
        return "-" if value is None else "[{}]".format(",".join(map(quoted, value)))

    def number(self, column, value):
        is_time = column.name in self.dates and column.aggregate in (None, "MIN", "MAX")
        return date(value, self.dates[column.name]) if is_time else str(value)

    def lines(self, columns, rows):
        return [line.rstrip(" ") for line in self.padded_lines(columns, rows)]

    def padded_lines(self, columns, rows):
        """A head, a rule, and a line for each row. Columns of numbers stand to the right."""
        head = [it if it.isprintable() else quoted(it) for it in (column.label for column in columns)]
        cells = [[self.cell(column, value) for column, value in zip(columns, row)] for row in rows]
        is_right = [not any(isinstance(row[place], (str, list)) for row in rows) for place in range(len(columns))]
        return aligned(head, cells, is_right)


def aligned(head, cells, is_right):
    """A head, a rule, and a line for each row of texts, as wide as its column needs."""
    widths = [max(map(wide, column)) for column in zip(head, *cells)]
    lines = [head, ["-" * width for width in widths]] + cells
    return ["  ".join(map(padded, line, widths, is_right)) for line in lines]


class Bars(Table):
    """A table whose last column stands as bars behind it too, as far as the terminal is wide."""

    def __init__(self, dates, width, every, has_blocks):
        super().__init__(dates)
        self.width, self.every, self.has_blocks = width, every, has_blocks

    def padded_lines(self, columns, rows):
        if self.every:
            rows = filled(columns, rows, self.every)
        lines = super().padded_lines(columns, rows)
        room = max(LEAST_BAR, self.width - max(map(wide, lines)) - 2)
        values = [quotient(row[-1]) if isinstance(row[-1], Average) else row[-1] for row in rows]
        scale = Scale([value for value in values if value is not None], room, self.has_blocks)
        return lines[:2] + ["{}  {}".format(line, scale.bar(value)) for line, value in zip(lines[2:], values)]


class Scale:
    """From the least value, or 0, to the greatest, or 0, over so many places."""

    def __init__(self, values, places, has_blocks):
        self.low, high = min(values + [0]), max(values + [0])
        self.each = places / (high - self.low) if high > self.low else 0
        self.zero, self.has_blocks = round(-self.low * self.each), has_blocks

    def bar(self, value):
        """A value other than 0 is never without a mark."""
        if not value:
            return ""
        length = abs(value) * self.each
        if value > 0 and self.has_blocks:
            whole, rest = divmod(max(1, round(length * 8)), 8)
            return " " * self.zero + BLOCK * whole + EIGHTHS[rest]
        marks = max(1, round(length))
        before = self.zero - marks if value < 0 else self.zero
        return " " * before + (BLOCK if self.has_blocks else "#") * marks


def filled(columns, rows, every):
    """The rows, and between two of them one for each step of `every` that has none: its counts and sums are 0.

    That is so where one column of integers is the key, and ascends. Other rows stay as they are.
    """
    keyed = [row for row in rows if row[0] is not None]
    keys = [row[0] for row in keyed]
    is_one_key = columns[0].aggregate is None and columns[1].aggregate is not None
    if not keys or not is_one_key or not all(isinstance(key, int) for key in keys) or keys != sorted(keys):
        return rows
    if (keys[-1] - keys[0]) // every > MOST_STEPS:
        raise Fault("there are more than {} steps of {} from {} to {}".format(MOST_STEPS, every, keys[0], keys[-1]))
    empty = [0 if column.aggregate in ("COUNT", "SUM") else None for column in columns[1:]]
    found = [row for row in rows if row[0] is None]
    for row, next_key in zip(keyed, keys[1:] + keys[-1:]):
        found += [row] + [[key] + empty for key in range(row[0] + every, next_key, every)]
    return found


def date(value, unit):
    """A time as a date of UTC, where the calendar has one."""
    import datetime

    seconds, rest = divmod(value, UNITS[unit])
    try:
        moment = datetime.datetime(1970, 1, 1) + datetime.timedelta(seconds=seconds)
    except OverflowError:
        return str(value)
    fraction = ".{:0{}d}".format(rest, len(str(UNITS[unit])) - 1) if rest else ""
    return moment.isoformat(" ") + fraction


def quoted(text):
    """A text as a JSON string, in which each character is one that a terminal shows."""
    return "".join(it if it.isprintable() else json.dumps(it)[1:-1] for it in json.dumps(text, ensure_ascii=False))


def wide(text):
    """How many places a text takes in a terminal."""
    if text.isascii():
        return len(text)
    import unicodedata

    return sum(0 if unicodedata.combining(it) else 2 if unicodedata.east_asian_width(it) in "WF" else 1 for it in text)


def padded(text, width, is_right):
    space = " " * (width - wide(text))
    return space + text if is_right else text + space


# ---- for other programs


class Csv:
    """A head and a line for each row. A missing cell is empty, and the empty text is a pair of quotes."""

    def lines(self, columns, rows):
        yield ",".join(csv_cell(column.label) for column in columns)
        for row in rows:
            # A line of one missing cell would be empty, and be skipped by readers.
            yield ",".join(map(csv_cell, row)) or '""'


def csv_cell(value):
    if value is None:
        return ""
    if isinstance(value, Average):
        return repr(quotient(value)) if value.count else ""
    if isinstance(value, list):
        value = json.dumps(value, ensure_ascii=False, separators=(",", ":"))
    if isinstance(value, str) and (not value or re.search('[",\r\n]', value)):
        return '"{}"'.format(value.replace('"', '""'))
    return str(value)


class Json:
    """An object for each row. A missing cell is null."""

    def lines(self, columns, rows):
        labels = [column.label for column in columns]
        for row in rows:
            values = [quotient(value) if isinstance(value, Average) else value for value in row]
            yield json.dumps(dict(zip(labels, values)), ensure_ascii=False, separators=(",", ":"))
