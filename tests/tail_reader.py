"""Tells which leaves a tail has to ask and which one takes its rows, as docs/SCRIPT.md has it, and reads what a script of tails printed. It was written from that page and from PCG's
reference steps alone, and shares nothing with the program. `tests/tails` compares the program with it."""

import collections
import json
import re


# ---- the rule


def random_words(state, stream):
    """The outputs of PCG XSH RR 64/32, seeded as its reference does."""
    step = stream << 1 | 1
    state = (step + state) * 6364136223846793005 + step
    while True:
        state %= 1 << 64
        word, turn = (state >> 18 ^ state) >> 27 & 0xFFFFFFFF, state >> 59
        yield (word >> turn | word << (32 - turn)) & 0xFFFFFFFF
        state = state * 6364136223846793005 + step


class Rule:
    """What a tail does with the words of its key, and with what it is told."""

    tries, stream = 16, 1

    def words(self, key):
        words = random_words(key, self.stream)
        return collections.deque(next(words) for _ in range(2 * self.tries))

    def drawn(self, words, leaves):
        return words.popleft() % leaves, words.popleft() % leaves

    def pick(self, live):
        """Of leaves with how many rows each holds, in the order in which they were asked."""
        return min(live, key=lambda told: told[1])[0]


# ---- what was printed


class NotSo(Exception):
    """A line is not what it has to be."""


Called = collections.namedtuple("Called", "leaf number said")
Pick = collections.namedtuple("Pick", "table live leaf")
Answer = collections.namedtuple("Answer", "query named lines")
Query = re.compile(r"SELECT (?P<key>\w+), COUNT\(\*\), SUM\((?P<sum>\w+)\) FROM (?P<table>\w+) WHERE time >= (?P<first>\d+) AND time <= (?P<last>\d+) GROUP BY (?P=key)")


class Reader:
    """Reads what a script printed, and ends with NotSo where a line cannot be by the rule. The numbers of the lines tell which rows a leaf held when it was asked; so who has to take
    the rows of a tail is judged at the end, and so are the answers."""

    def __init__(self, rule, script, printed):
        self.rule, self.script, self.printed, self.at = rule, iter(script), printed, 0
        self.entries = collections.defaultdict(dict)
        self.picks, self.answers = [], []
        for line in self.script:
            if line and line[0] != "#":
                self.item(line)
        if self.at != len(printed):
            raise NotSo(f"{len(printed)} lines are printed, and not {self.at}")
        self.held = {at: rows_held(at, entries) for at, entries in self.entries.items()}
        for pick in self.picks:
            self.judge_pick(pick)
        for answer in self.answers:
            self.judge_answer(answer)

    # -- lines

    def next(self):
        self.at += 1
        return self.printed[self.at - 1] if self.at <= len(self.printed) else "(no line more)"

    def must(self, line):
        found = self.next()
        if found != line:
            raise NotSo(f"line {self.at}: {found}, and not {line}")

    def entry(self, what=None):
        """The next line, which is one of an entry: an add of rows, or a keep of so many, where that is named."""
        found = re.fullmatch(r"(\d+) (\w+) #(\d+) (.+)", self.next())
        if not found:
            raise NotSo(f"line {self.at} is no entry")
        leaf, table, number, said = int(found[1]), found[2], int(found[3]), found[4].split()
        if number in self.entries[leaf, table]:
            raise NotSo(f"line {self.at}: the number is told twice")
        self.entries[leaf, table][number] = said, what
        return table, Called(leaf, number, said)

    def call(self, leaves, table, said, what=None):
        """The next line, which is that of a call at one of these leaves."""
        of, called = self.entry(what)
        if of != table or called.leaf not in leaves or called.said not in (said.split(), ["refused", "shut"]):
            raise NotSo(f"line {self.at} has to say {said}, of table {table} at one of the leaves {leaves}")
        return called

    def until(self, begun):
        """The lines of entries, and of the leaves of a rollover, up to a line that begins so."""
        while not (line := self.next()).startswith(begun):
            if self.at > len(self.printed):
                raise NotSo(f"no line begins with {begun}")
            if not re.match("wave|drain|start", line):
                self.at -= 1
                self.entry()

    # -- commands

    def item(self, line):
        verb, *words = line.split()
        if verb in ("flush", "drain", "kill", "start"):
            self.until(f"{verb} {words[0]} ")
        else:
            getattr(self, verb)(*words)

    def fleet(self, machines, per_machine, *tables):
        self.leaves = range(int(machines) * int(per_machine))
        for leaf in self.leaves:
            for table in tables:
                self.call([leaf], table, "opened 0")
            self.must(f"start {leaf} disk nohead")

    def burst(self):
        self.lanes = 0

    def lane(self):
        self.must(f"lane {self.lanes}")
        self.lanes += 1

    def end(self):
        pass

    def rows(self, count):
        return [json.loads(next(self.script)) for _ in range(int(count))]

    def add(self, leaf, table, count):
        self.call([int(leaf)], table, f"added {count} late 0", self.rows(count))

    def keep(self, leaf, table, count):
        of, removed = self.entry(int(count))
        if (of, removed.leaf) != (table, int(leaf)) or removed.said[0] not in ("removed", "refused"):
            raise NotSo(f"line {self.at} is no reply to a keep of table {table} of leaf {leaf}")

    def rollover(self, percent):
        self.until("rollover done ")
        self.until("watch ")

    def tail(self, key, table, count):
        words, rows = self.rule.words(int(key)), self.rows(count)
        for _ in range(self.rule.tries):
            drawn = dict.fromkeys(self.rule.drawn(words, len(self.leaves)))
            live = [told for told in [self.call([leaf], table, "asked") for leaf in drawn] if told.said == ["asked"]]
            if not live:
                continue
            added = self.call([told.leaf for told in live], table, f"added {count} late 0", rows)
            self.picks.append(Pick(table, live, added.leaf))
            if added.said[0] == "added":
                self.must(f"tail sent {added.leaf}")
                return
        self.must("tail refused")

    def query(self, *words):
        query = Query.fullmatch(" ".join(words))
        named = [told for told in [self.call([leaf], query["table"], "asked") for leaf in self.leaves] if told.said == ["asked"]]
        head = re.fullmatch(f"answer named {len(named)} of {len(self.leaves)} lines (\\d+)", self.next())
        if not head:
            raise NotSo(f"line {self.at} is no answer of {len(named)} leaves")
        self.answers.append(Answer(query, named, [self.next() for _ in range(int(head[1]))]))

    # -- what can be told at the end

    def judge_pick(self, pick):
        live = [(told.leaf, len(self.held[told.leaf, pick.table][told.number])) for told in pick.live]
        if self.rule.pick(live) != pick.leaf:
            raise NotSo(f"the rows of a tail went to leaf {pick.leaf}; leaves with their rows were {live}")

    def judge_answer(self, answer):
        query, groups = answer.query, collections.defaultdict(list)
        for told in answer.named:
            for row in self.held[told.leaf, query["table"]][told.number]:
                if int(query["first"]) <= row["time"] <= int(query["last"]):
                    groups[json.dumps(row[query["key"]])].append(row[query["sum"]])
        lines = [f"{shown} {len(values)} {sum(values)}" for shown, values in groups.items()]
        if sorted(answer.lines) != sorted(lines):
            raise NotSo(f"an answer has the lines {answer.lines}, and not {lines}")


def rows_held(at, entries):
    """The rows that a table held at each entry that asked it: what its adds and keeps before left, in the order of the numbers."""
    held, writes, is_open = {}, [], False
    for number in range(1, len(entries) + 1):
        if number not in entries:
            raise NotSo(f"the table {at} has no entry {number}")
        said, what = entries[number]
        needs_open, needs_shut = said[0] in ("asked", "added", "removed", "closed"), said[0] == "opened" or said == ["refused", "shut"]
        if needs_open and not is_open or needs_shut and is_open or said[0] == "opened" and int(said[1]) > len(writes):
            raise NotSo(f"the table {at} says at entry {number}: {said}")
        if said[0] == "opened":
            writes, is_open = writes[: int(said[1])], True
        elif said[0] == "closed":
            is_open = False
        elif said[0] == "asked":
            held[number] = rows_left(writes)
        elif said[0] in ("added", "removed"):
            before, writes = rows_left(writes), writes + [what]
            if said[0] == "removed" and int(said[1]) != len(before) - len(rows_left(writes)):
                raise NotSo(f"the table {at} removed other rows at entry {number}")
    return held


def rows_left(writes):
    """What adds, which are lists of rows, and keeps, which are numbers, leave."""
    rows = []
    for write in writes:
        rows = rows[max(len(rows) - write, 0) :] if isinstance(write, int) else rows + write
    return rows
