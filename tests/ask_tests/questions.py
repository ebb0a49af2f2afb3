"""Rows of all kinds, and ten questions about them: each as the program takes it, and as sqlite3 does."""

import collections
import random
import re
import sqlite3

MOST = (1 << 63) - 1

# Texts that are like what tools and program write, that have ends of lines and signs that a terminal does not show, and
# that stand in another order by their bytes than by their letters.
TEXTS = ["web1", "web2", "Web", "", "-", "a b", " a", "a ", 'q"q', "it's", "line\nend", "cr\rlf\r\n", "tab\t", "a,b"]
TEXTS += ["\u2028", "x\u0085", "answer named 3 of 3 lines 1", "0 events #3 asked", "start 0 fault disk", "null", "[]"]
TEXTS += ["é", "日本", "😀", "\ufffd", "\x7f", "\x1b[1m", '["a"]', "5", "-7", "7/2", "\\", "\\n", "n" * 300]
NUMBERS = [0, 1, -1, 7, 200, 404, 500, 1 << 40, -(1 << 40)]
NAMES = ["host", "code", "tags", "owner.user", 'q"n', "SUM", "COUNT(*)", "päth"]


def make_row(draw):
    """A row with some of the cells. Mostly `code` is an integer and `tags` a set; any other cell is of any kind."""
    row = {"time": draw.choice([draw.randrange(1000), draw.randrange(1000), MOST - draw.randrange(3)])}
    for name in draw.sample(NAMES, draw.randrange(len(NAMES))):
        kind = {"code": 0, "tags": 2}.get(name, draw.randrange(3))
        a_set = sorted(set(draw.choices(TEXTS, k=draw.randrange(4))), key=str.encode)
        row[name] = [draw.choice(NUMBERS), draw.choice(TEXTS), a_set][kind]
    return row


class Rows:
    """The rows of the table `events` by leaf: two adds of each leaf.

    Of leaf 1 a horizon of 100 takes rows away, and of leaf 2 a keep of 75.
    """

    def __init__(self, seed):
        draw = random.Random(seed)
        self.first, self.second = (
            [[make_row(draw) for _ in range(40 + 10 * leaf)] for leaf in range(3)] for _ in range(2)
        )
        # The keep takes the least time of leaf 2 away, and the horizon that of leaf 1.
        for row in self.first[2] + self.second[2]:
            row["time"] = max(row["time"], 1)
        self.first[1][0]["time"] = self.first[2][0]["time"] = 0

    def leaf(self, leaf):
        rows = self.first[leaf] + self.second[leaf]
        if leaf == 1:
            rows = [row for row in rows if row["time"] >= 100]
        return rows[-75:] if leaf == 2 else rows

    def all(self):
        return [row for leaf in range(3) for row in self.leaf(leaf)]


Query = collections.namedtuple("Query", "keys aggregates conditions order limit")
COUNT = ("COUNT", None)
QUERIES = [
    Query([], [COUNT, ("MIN", "time"), ("MAX", "time")], [], None, None),
    Query(["host"], [COUNT], [], None, None),
    Query(["host"], [COUNT, ("SUM", "code"), ("AVG", "code")], [("code", ">", 0)], None, None),
    Query(["tags"], [COUNT, ("MAX", "code")], [], ("MAX", "code"), None),
    Query(["host", "tags"], [COUNT], [], COUNT, 7),
    Query(["owner.user", "code"], [("MIN", "time"), COUNT], [("host", "!=", "web1")], None, None),
    Query(["COUNT(*)", 'q"n'], [COUNT, ("SUM", "SUM")], [], None, 20),
    Query(["päth"], [("AVG", "time"), COUNT], [("tags", "HAS", "a,b")], None, None),
    Query(["code"], [COUNT], [("code", ">=", -1), ("host", "<=", "日本")], COUNT, None),
    Query([], [COUNT], [("host", "=", "no such host")], None, None),
]


# ---- as the program takes them


def scuba_name(name):
    return name if re.fullmatch("[a-z]+", name) else '"{}"'.format(name.replace('"', '""'))


def scuba_aggregate(it):
    return "{}({})".format(it[0], "*" if it[1] is None else scuba_name(it[1]))


def scuba_condition(name, operator, value):
    value = value if isinstance(value, int) else "'{}'".format(value.replace("'", "''"))
    return " AND {} {} {}".format(scuba_name(name), operator, value)


def scuba_text(query):
    keys = list(map(scuba_name, query.keys))
    selected = ", ".join(keys + list(map(scuba_aggregate, query.aggregates)))
    text = "SELECT {} FROM events WHERE time >= 0 AND time <= {}".format(selected, MOST)
    text += "".join(scuba_condition(*it) for it in query.conditions)
    text += " GROUP BY " + ", ".join(keys) if keys else ""
    text += " ORDER BY " + scuba_aggregate(query.order) if query.order else ""
    return text + (" LIMIT {}".format(query.limit) if query.limit is not None else "")


def labels(query):
    """What the columns of an answer are called."""
    keys = ['"{}"'.format(name) if "(" in name else name for name in query.keys]
    return keys + list(map(scuba_aggregate, query.aggregates))


# ---- as sqlite3 takes them: it puts NULL, integers, texts and blobs in the order of missing cells, integers, texts and
# sets


def sql_name(name):
    return '"{}"'.format(name.replace('"', '""'))


def sql_integers(name):
    return "CASE WHEN typeof({0}) = 'integer' THEN {0} END".format(sql_name(name))


def sql_aggregate(it):
    """An aggregate; in place of an average its sum and its number."""
    kind, name = it
    if kind == "AVG":
        return "EXACT_SUM({0}), COUNT({0})".format(sql_integers(name))
    if kind == "COUNT":
        return "COUNT(*)"
    return "{}({})".format("EXACT_SUM" if kind == "SUM" else kind, sql_integers(name))


def sql_condition(name, operator, value):
    if operator == "HAS":
        return " AND HAS({}, ?)".format(sql_name(name))
    kind = "integer" if isinstance(value, int) else "text"
    return " AND typeof({0}) = '{1}' AND {0} {2} ?".format(sql_name(name), kind, operator)


def sql_text(query):
    keys = list(map(sql_name, query.keys))
    text = "SELECT {} FROM events WHERE 1".format(", ".join(keys + list(map(sql_aggregate, query.aggregates))))
    text += "".join(sql_condition(*it) for it in query.conditions)
    # Without keys a group of no rows is none.
    text += " GROUP BY " + ", ".join(keys) if keys else " HAVING COUNT(*) > 0"
    order = ([sql_aggregate(query.order) + " DESC"] if query.order else []) + keys
    text += " ORDER BY " + ", ".join(order) if order else ""
    return text + (" LIMIT {}".format(query.limit) if query.limit is not None else "")


def as_blob(texts):
    """A set as bytes that sort as its list of texts does. None of the texts has a byte 0."""
    return b"".join(b"\1" + text.encode() + b"\0" for text in texts)


def from_sql(value):
    if not isinstance(value, bytes):
        return value
    return [text.decode() for text in value[1:-1].split(b"\0\1")] if value else []


class ExactSum:
    """A sum as a text, since one of sqlite3 has 64 bits. It is 0 of no integers."""

    def __init__(self):
        self.sum = 0

    def step(self, value):
        self.sum += value or 0

    def finalize(self):
        return str(self.sum)


def sqlite_of(rows):
    base = sqlite3.connect(":memory:")
    base.create_aggregate("EXACT_SUM", 1, ExactSum)
    base.create_function("HAS", 2, lambda texts, text: isinstance(texts, bytes) and text in from_sql(texts))
    names = ["time"] + NAMES
    base.execute("CREATE TABLE events({})".format(", ".join(map(sql_name, names))))
    cells = ([as_blob(it) if isinstance(it, list) else it for it in map(row.get, names)] for row in rows)
    base.executemany("INSERT INTO events VALUES({})".format(", ".join("?" * len(names))), cells)
    return base


def wanted(base, query):
    """The rows of an answer; an average is a pair of its sum and its number."""
    found = []
    for row in base.execute(sql_text(query), [value for _, _, value in query.conditions]):
        cells = list(map(from_sql, row))
        values, rest = cells[: len(query.keys)], iter(cells[len(query.keys) :])
        for kind, _ in query.aggregates:
            it = next(rest)
            values.append((int(it), next(rest)) if kind == "AVG" else int(it) if kind == "SUM" else it)
        found.append(values)
    return found
