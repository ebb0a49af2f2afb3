"""Makes rows that the program takes of records that it would refuse, and says of each other record why it is none."""

import array
import csv
import datetime
import functools
import json
import re

from .pieces import HEAD, stays_open
from .program import Fault

LEAST, MOST = -(1 << 63), (1 << 63) - 1
MOST_TEXT, MOST_NAME, MOST_CELLS, MOST_TEXTS = 65535, 255, 1024, 1024
# A longer record is not read here: what Python makes of it may take fifty times as much memory.
MOST_RECORD = 1 << 20
UNITS = {"s": 0, "ms": 3, "us": 6, "ns": 9}
CLOCK = r"(\d\d):(\d\d)(?::(\d\d)(?:[.,](\d+))?)? ?(Z|z|[+-]\d\d(?::?\d\d)?)?"
DATE = re.compile(r"(\d{4}-\d\d-\d\d)(?:[Tt ]" + CLOCK + ")?", re.ASCII)
NUMBER = re.compile(r"(-?)(\d+)(?:\.(\d+))?(?:[eE]([+-]?\d{1,5}))?", re.ASCII)
# Fields of CSV that become integers: one with a plus, or with zeros in front, stays a text.
INTEGER = re.compile(r"0|-?[1-9]\d{0,18}", re.ASCII)
FRACTION = re.compile(r"-?\d+\.\d+(?:[eE][+-]?\d{1,5})?", re.ASCII)


class Refused(Exception):
    """Why a record is no row."""


class Literal(str):
    """A number with a fraction or an exponent, as it was written."""


# ---- JSON


def no_number(text):
    raise Refused("{} is no number of JSON".format(text))


def integer(text):
    """An integer, or its digits where it has more than 64 bits anyway, since Python takes long to read many digits."""
    return int(text) if len(text) <= 20 else text


QUICK = json.JSONDecoder(parse_float=Literal, parse_constant=no_number).decode
CAREFUL = json.JSONDecoder(parse_float=Literal, parse_constant=no_number, parse_int=integer).decode
ENCODE = json.JSONEncoder(ensure_ascii=False, separators=(",", ":"), check_circular=False).encode


def json_text(value):
    """The JSON text of a value, in which numbers stay as they were written."""
    if isinstance(value, Literal):
        return str(value)
    if isinstance(value, dict):
        return "{" + ",".join(ENCODE(name) + ":" + json_text(inner) for name, inner in value.items()) + "}"
    if isinstance(value, list):
        return "[" + ",".join(map(json_text, value)) + "]"
    return ENCODE(value)


def shown(value):
    """A value in a cause: on one line, and short."""
    text = json_text(value) if isinstance(value, (Literal, dict, list)) else json.dumps(value)
    return text if len(text) <= 60 else text[:57] + ".."


def encoded(text):
    try:
        return text.encode()
    except UnicodeEncodeError:
        raise Refused("a text has half of a surrogate pair, which is no character")


# ---- numbers and times


def shifted(text, power, is_rounded):
    """The number that a text is, times 10 to this power: rounded, a half away from 0, or else cut off.

    None where it has more than 64 bits.
    """
    sign, whole, fraction, exponent = NUMBER.fullmatch(text).groups()
    digits = whole + (fraction or "")
    shift = int(exponent or 0) + power - len(fraction or "")
    up = False
    if shift < 0:
        lost = digits[shift:].rjust(-shift, "0")
        up = is_rounded and lost[0] >= "5"
        digits, shift = digits[:shift], 0
    digits = digits.lstrip("0")
    if len(digits) + shift > 19:
        return None
    value = int(digits or 0) * 10**shift + up
    value = -value if sign else value
    return value if LEAST <= value <= MOST else None


@functools.lru_cache(4096)
def days(text):
    """The days from 1970 on to a date."""
    return datetime.date(int(text[:4]), int(text[5:7]), int(text[8:])).toordinal() - 719163


@functools.lru_cache(1024)
def zone_seconds(text):
    """How far a zone is ahead of UTC."""
    if text is None or text in "Zz":
        return 0
    hours, minutes = int(text[1:3]), int(text[3:].lstrip(":") or 0)
    if hours > 23 or minutes > 59:
        raise ValueError("no zone")
    return (hours * 3600 + minutes * 60) * (1 if text[0] == "+" else -1)


def date(text, places):
    """The moment of a date, in units of so many places of a second; what is finer is cut off.

    A date without a zone is one of UTC.
    """
    parts = DATE.fullmatch(text)
    if not parts:
        raise Refused("the time {} is no number and no date".format(shown(text)))
    day, hour, minute, second, fraction, zone = parts.groups()
    hour, minute, second = int(hour or 0), int(minute or 0), int(second or 0)
    try:
        # (a second 60 is a leap second)
        if hour > 23 or minute > 59 or second > 60:
            raise ValueError("no time of a day")
        at = days(day) * 86400 + hour * 3600 + minute * 60 + second - zone_seconds(zone)
    except ValueError:
        raise Refused("the time {} is no date of the calendar".format(shown(text)))
    return at * 10**places + int((fraction or "")[:places].ljust(places, "0") or 0)


# ---- what the options say


def option_pair(option, text):
    """The name and the number of `NAME=NUMBER`."""
    name, _, number = text.rpartition("=")
    if not re.fullmatch("[0-9]{1,18}", number):
        raise Fault("{} {}: it has the form NAME=NUMBER".format(option, text))
    if not 1 <= len(name.encode(errors="replace")) <= MOST_NAME or name == "time":
        raise Fault("{} {}: no cell may have this name".format(option, text))
    return name, int(number)


def option_units(text):
    """The places of a second of the unit that times are read in, and of the one that they are kept in."""
    read, colon, kept = text.partition(":")
    kept = kept if colon else read
    if read not in UNITS or kept not in UNITS:
        raise Fault("--unit {}: a unit is s, ms, us or ns, and the option is UNIT or READ:KEPT".format(text))
    return UNITS[read], UNITS[kept]


def option_powers(decimals):
    """The power for each cell that has one, and as None that of all others, where there is one."""
    powers = dict(option_pair("--decimals", one) if "=" in one else (None, one) for one in decimals)
    for power in powers.values():
        if not re.fullmatch("[0-9]{1,2}", str(power)) or int(power) > 18:
            raise Fault("--decimals: a power is a number from 0 to 18, and not {}".format(power))
    return {name: int(power) for name, power in powers.items()}


class Rules:
    """How a record becomes a row, as the options say."""

    def __init__(self, is_csv, time, unit, decimals, booleans, nested, buckets):
        self.is_csv, self.time = is_csv, time
        read, self.places = option_units(unit)
        self.shift = self.places - read
        self.powers = option_powers(decimals)
        self.power = self.powers.pop(None, None)
        self.are_integers, self.is_flat = booleans == "int", nested == "flatten"
        self.buckets = dict(option_pair("--bucket", one) for one in buckets)
        if 0 in self.buckets.values():
            raise Fault("--bucket: a width is at least 1")
        # Names that a cell may have.
        self.fit_names = set()

    def needs_reading(self):
        """Whether a record that the program takes may be another row by these rules."""
        return bool(self.is_csv or self.time != "time" or self.shift or self.powers or self.buckets)

    def row(self, record):
        """The cells of a record by name, and its time as `time`."""
        cells = {"time": self.moment(self.time_of(record))}
        for name, width in self.buckets.items():
            cells[name] = cells["time"] // width * width
        for name, value in record.items():
            if value is not None and name != self.time:
                self.put(cells, name, value)
        if len(cells) > MOST_CELLS + 1:
            raise Refused("the row has more than {} cells".format(MOST_CELLS))
        return cells

    def time_of(self, record):
        """The value of the member that has the time. It may be one of an object: `a.b`."""
        if self.time in record:
            return record[self.time]
        inner = record
        for name in self.time.split(".") if self.is_flat else ():
            inner = inner.get(name) if type(inner) is dict else None
        if inner is None or inner is record:
            raise Refused("the row has no member {}".format(shown(self.time)))
        return inner

    def moment(self, value):
        kind = type(value)
        if kind is int:
            at = value * 10**self.shift if self.shift >= 0 else value // 10**-self.shift
        elif kind in (str, Literal) and NUMBER.fullmatch(value):
            at = shifted(value, self.shift, False)
        elif kind is str:
            at = date(value, self.places)
        else:
            raise Refused("the time {} is no number and no date".format(shown(value)))
        if at is None or not 0 <= at <= MOST:
            raise Refused("the time {} is not from 0 to {}".format(shown(value), MOST))
        return at

    def put(self, cells, name, value):
        """Adds the cell of a member, or the cells of an object's members."""
        kind = type(value)
        if kind is dict and self.is_flat:
            for inner, it in value.items():
                if it is not None and name + "." + inner != self.time:
                    self.put(cells, name + "." + inner, it)
            return
        if kind is int:
            value = self.whole(name, value)
        elif kind is not str or self.is_csv:
            value = self.other(kind, name, value)
            if value is None:
                return
        if type(value) is str and len(value) * 4 > MOST_TEXT and len(encoded(value)) > MOST_TEXT:
            raise Refused("the text of {} has more than {} bytes".format(shown(name), MOST_TEXT))
        if name not in self.fit_names:
            self.look(name)
        if name in cells:
            raise Refused("the row has two cells {}".format(shown(name)))
        cells[name] = value

    def other(self, kind, name, value):
        """The cell of a value that is no text and no integer, or of a field of CSV. None where it is missing."""
        if kind is str:
            return self.field(name, value)
        if kind is Literal:
            return self.fraction(name, value)
        if kind is bool:
            return int(value) if self.are_integers else "true" if value else "false"
        return texts(name, value) if kind is list else json_text(value)

    def look(self, name):
        """Refuses a name that no cell may have."""
        if not name or len(encoded(name)) > MOST_NAME:
            raise Refused("a cell's name has 1 to {} bytes, and not {}".format(MOST_NAME, shown(name)))
        if name == "time":
            raise Refused('the row has a member "time" beside {}'.format(shown(self.time)))
        if len(self.fit_names) < 10000:
            self.fit_names.add(name)

    def whole(self, name, value):
        if name in self.powers:
            value *= 10 ** self.powers[name]
        return value if LEAST <= value <= MOST else str(value)

    def fraction(self, name, text):
        power = self.powers.get(name, self.power)
        value = None
        if power is not None and NUMBER.fullmatch(text):
            value = shifted(text, power, True)
        return str(text) if value is None else value

    def field(self, name, text):
        """The cell of a field of CSV. An empty one is missing."""
        if not text:
            return None
        is_number = name in self.powers and NUMBER.fullmatch(text)
        if is_number or self.power is not None and FRACTION.fullmatch(text):
            return self.fraction(name, text)
        if INTEGER.fullmatch(text):
            value = int(text)
            return value if LEAST <= value <= MOST else text
        return text


def texts(name, items):
    """The set that an array of texts is; of any other array its JSON text."""
    if any(type(item) is not str for item in items):
        return json_text(items)
    if len(items) > MOST_TEXTS:
        items = list(dict.fromkeys(items))
    if len(items) > MOST_TEXTS or len(encoded("".join(set(items)))) > MOST_TEXT:
        raise Refused("the set {} has more than {} texts or {} bytes".format(shown(name), MOST_TEXTS, MOST_TEXT))
    return items


# ---- records


def column_names(head, time):
    """The names of the columns, from the first record of CSV. One must have the time."""
    try:
        names = next(csv.reader([head.decode()]))
    except (UnicodeDecodeError, csv.Error, StopIteration) as error:
        raise Fault("the input's first line has no names of columns: {}".format(error))
    twice = {name for name in names if name and names.count(name) > 1}
    if twice:
        raise Fault("the head has two columns {}".format(shown(min(twice))))
    if time not in names:
        raise Fault("the head has no column {}: --time names the one that has the time".format(shown(time)))
    if "time" in names and time != "time":
        raise Fault('the head has a column "time" beside {}, which --time names'.format(shown(time)))
    return names


def read_csv(raw, names):
    """The members of a record of CSV, which has more than one line where line ends stand between quotes."""
    try:
        fields = next(csv.reader([raw.decode()]))
    except csv.Error as error:
        raise Refused("no CSV: {}".format(error))
    if len(fields) != len(names):
        raise Refused("{} fields, and the head has {}".format(len(fields), len(names)))
    return dict(zip(names, fields))


def read_json(raw):
    try:
        # Only a long line can have so many digits that an integer takes long to read.
        record = (QUICK if len(raw) <= 4000 else CAREFUL)(raw.decode())
    except json.JSONDecodeError as error:
        raise Refused("no JSON: {} at character {}".format(error.msg, error.pos + 1))
    if type(record) is not dict:
        raise Refused("no JSON object")
    return record


def make_row(raw, names, rules):
    """The row of a record as the program takes it. Refused says why there is none."""
    if len(raw) > MOST_RECORD:
        raise Refused("a row of more than {} bytes is taken only where it needs no repair".format(MOST_RECORD))
    try:
        record = read_json(raw) if names is None else read_csv(raw, names)
        return encoded(ENCODE(rules.row(record))) + b"\n"
    except UnicodeDecodeError as error:
        raise Refused("no UTF-8 at byte {}".format(error.start + 1))
    except RecursionError:
        raise Refused("objects or arrays are nested too deep")


def records(file, line, is_csv):
    """The records of a file from where it stands: the number of the first line of each, and its bytes.

    Lines that are blank are none.
    """
    if not is_csv:
        yield from ((number, raw) for number, raw in enumerate(file, line) if not raw.isspace())
        return
    held, is_open = [], False
    for raw in file:
        is_open = stays_open(raw, 0, len(raw), is_open)
        held.append(raw)
        if not is_open:
            if len(held) > 1 or not raw.isspace():
                yield line, b"".join(held)
            line, held = line + len(held), []


def parts_of(lengths, most):
    """Cuts rows of these lengths into few parts of about one size that fit a script: their places, bytes and rows."""
    total = sum(lengths)
    if not lengths:
        return []
    fair = most if total <= most else min(most, total // -(-total // most) + max(lengths))
    parts = [[HEAD, 0, 0]]
    for length in lengths:
        if parts[-1][1] + length > fair:
            parts.append([sum(parts[-1][:2]), 0, 0])
        parts[-1][1] += length
        parts[-1][2] += 1
    return parts


def read_piece(source, line, names, rules, good, bad, most, tick):
    """Reads the records of a file from HEAD on, of which the first stands in this line of the input.

    Writes their rows to the file `good`, from HEAD on, and those that are none to the file `bad`: line, cause and text.
    Gives the parts that the rows are to be cut into, and how many records were refused. `tick` is called now and then.
    """
    csv.field_size_limit(MOST_RECORD)
    lengths, refused = array.array("L"), 0
    file = open(source, "rb", closefd=False)
    with open(good, "wb", closefd=False) as rows, open(bad, "wb", closefd=False) as aside:
        file.seek(HEAD)
        rows.seek(HEAD)
        for number, raw in records(file, line, names is not None):
            try:
                row = make_row(raw, names, rules)
            except Refused as cause:
                refused += 1
                aside.write("{}\t{}\t".format(number, cause).encode(errors="replace") + raw.rstrip(b"\r\n") + b"\n")
                continue
            lengths.append(len(row))
            rows.write(row)
            if len(lengths) % 4096 == 0:
                tick()
    return parts_of(lengths, most), refused
