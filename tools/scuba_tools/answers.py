"""Reads what the program prints: answers, how each leaf started, and the lines that tell of something not done."""

import collections
import itertools
import json
import re

from .program import Fault

# A line that says that a command was not done, or not whole. The last two are those of a standing query and of a tail.
TROUBLE = re.compile(
    rb"start \d+ (?:fault |not down)"
    rb"|(?:flush|drain|kill) \d+ (?:fault |not up|stopped|worn)"
    rb"|\d+ [a-z][a-z0-9_]* (?:#\d+ )?refused"
    rb"|standing \d+ (?:shut|worn|memory)"
    rb"|tail refused"
)
ANSWER = re.compile(rb"(?:answer named (\d+) of (\d+)|standing \d+ at #\d+) lines (\d+)")
START = re.compile(rb"start (\d+) (.*)")
TEXT = r'"[^"\\]*(?:\\.[^"\\]*)*"'
VALUE = re.compile(r"{0}|\[(?:{0},?)*\]|[^ ]+".format(TEXT))
TOKEN = re.compile(r'[ \t]*(?:([A-Za-z_][A-Za-z0-9_]*)|"((?:[^"]|"")*)"|([(),*]))')
AGGREGATES = ("COUNT", "SUM", "MIN", "MAX", "AVG")

# An AVG, exactly: the sum of the integers, and how many there are.
Average = collections.namedtuple("Average", "sum count")


class Answer:
    """How many leaves answered of how many, and the lines of the answer as bytes. A standing query has one leaf."""

    def __init__(self, named, of, lines):
        self.named, self.of, self.lines = named, of, lines

    def rows(self):
        """The values of each line: an int, a str, a list of str for a set, an Average, or None for a missing one."""
        return [values(line.decode()) for line in self.lines]


class Printed:
    """What a run printed.

    `answers` stand in the order of the queries; `starts` has for each leaf what its start said (`memory`,
    `disk closed 0`, `fault region`); `troubles` are the lines that tell of something not done.
    """

    def __init__(self, printed):
        self.answers, self.starts, self.troubles = [], {}, []
        # Lines end at the byte 10 alone: texts hold other ends of lines as they are.
        lines = iter(printed.split(b"\n"))
        for line in lines:
            self.take(line, lines)

    def take(self, line, lines):
        answer, start = ANSWER.fullmatch(line), START.fullmatch(line)
        if answer:
            named, of, count = (int(it or 1) for it in answer.groups())
            self.answers.append(Answer(named, of, list(itertools.islice(lines, count))))
            if len(self.answers[-1].lines) < count:
                raise Fault("the program printed a part of an answer")
        if start:
            self.starts[int(start.group(1))] = start.group(2).decode()
        if TROUBLE.match(line):
            self.troubles.append(line.decode())


def values(line):
    """The values of an answer's line."""
    return [value(word) for word in VALUE.findall(line)]


def value(word):
    if word[0] in '"[':
        return json.loads(word)
    if word == "-":
        return None
    if "/" in word:
        return Average(*map(int, word.split("/")))
    return int(word)


Column = collections.namedtuple("Column", "label name aggregate")


def columns(query):
    """The columns of a query that the program took.

    Each has a label, the name of the cell that it reads (None of COUNT(*)), and its aggregate (None of a key).
    """
    tokens, found = TOKEN.finditer(query), []
    next(tokens)
    while True:
        word, quoted, _ = next(tokens).groups()
        if word in AGGREGATES:
            next(tokens)
            name, text = name_of(next(tokens))
            next(tokens)
            found.append(Column("{}({})".format(word, text), None if text == "*" else name, word))
        else:
            name = word if quoted is None else quoted.replace('""', '"')
            # A name with a parenthesis stays in quotes, so that no key is called as an aggregate is.
            found.append(Column('"{}"'.format(quoted) if "(" in name else name, name, None))
        if next(tokens).group(3) != ",":
            return found


def name_of(token):
    """The name that stands between an aggregate's parentheses, and its text."""
    word, quoted, sign = token.groups()
    if quoted is None:
        return word, word or sign
    return quoted.replace('""', '"'), '"{}"'.format(quoted)
