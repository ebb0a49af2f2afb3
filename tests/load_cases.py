"""What `tests/loads` loads: records that are made together with their rows, and cases that were worked out by hand."""

import datetime
import json
import re

MOST = (1 << 63) - 1
LONG = "a record of more than 16775160 bytes"
DEEP = '{"x":' * 1500 + "1" + "}" * 1500


def compact(value):
    return json.dumps(value, ensure_ascii=False, separators=(",", ":"))


def lines_of(rows):
    return "".join(compact(row) + "\n" for row in rows).encode()


ROWS = [{"time": i, "id": i, "h": "h{}".format(i % 9)} for i in range(120)]


# ---- records from a seed


def moment(chance, at):
    """A time in milliseconds as a record may have it."""
    zone = datetime.timezone(datetime.timedelta(minutes=chance.choice([0, 60, -300, 330])))
    date = datetime.datetime.fromtimestamp(at / 1000, datetime.timezone.utc).astimezone(zone)
    return chance.choice([at, str(at), date.isoformat(), date.isoformat(sep=" ", timespec="milliseconds")])


def record(chance):
    """The text of a record, and its row under `--time at --unit ms --decimals 2 --bucket hour=3600000`."""
    at = 1700000000000 + chance.randrange(86400000)
    cents, big = chance.randrange(-5000, 5000), chance.randrange(1 << 63, 1 << 70)
    pool = [chance.choice(["a", "b", "ä\n", '"', "\U0001f600", "", "z" * 300]) for _ in range(chance.randrange(4))]
    # Of each member its value, and that of the cell.
    kinds = {
        "host": ("web{}".format(chance.randrange(7)),) * 2,
        "code": (chance.choice([200, 404, 500, -1]),) * 2,
        "edge": (chance.choice([MOST, -MOST - 1, 0]),) * 2,
        "big": (big, str(big)),
        "ms": ("{:.2f}".format(cents / 100), cents),
        "ok": (cents > 0, "true" if cents > 0 else "false"),
        "tags": (pool, tuple(sorted(set(pool), key=str.encode))),
        "list": ([1, "x", cents], compact([1, "x", cents])),
        "none": (None, None),
        "text": (chance.choice(["", " ", "ü", "a\tb\\", "1.5", "\u2028"]),) * 2,
    }
    chosen = {name: kinds[name] for name in kinds if chance.random() < 0.8}
    user = {"name": chance.choice(["ann", "bob"]), "of": {"id": chance.randrange(3)}}
    given = {"at": moment(chance, at), **{name: pair[0] for name, pair in chosen.items()}, "user": user}
    row = {"time": at, "hour": at // 3600000 * 3600000, **{name: pair[1] for name, pair in chosen.items()}}
    row.update({"user.name": user["name"], "user.of.id": user["of"]["id"]})
    text = json.dumps(given, ensure_ascii=chance.random() < 0.5)
    if "ms" in chosen:
        # A fraction stands without quotes.
        text = text.replace('"ms": "{}"'.format(chosen["ms"][0]), '"ms": {}'.format(chosen["ms"][0]))
    return text, {name: value for name, value in row.items() if value is not None}


NAMES = ["hour", "host", "code", "edge", "big", "ms", "ok", "tags", "list", "none", "text", "user.name", "user.of.id"]


def plain_row(chance, number):
    """A row that the program takes as it is."""
    texts = ["", "a", "é", "\\", '"', "\t", "\U0001f600", "x" * 1000]
    row = {"time": chance.choice([0, MOST, number]), "i": chance.choice([0, -1, MOST, -MOST - 1, number])}
    row.update({"s": chance.choice(texts), "q" * 255: number % 3})
    row["set"] = sorted({chance.choice(texts) for _ in range(chance.randrange(5))}, key=str.encode)
    return {name: row[name] for name in row if name == "time" or chance.random() < 0.7}


LONG_NAME = "k" * 90
MIXED_NAMES = ["id", *("{}.{}".format(LONG_NAME, end) for end in "abcd")]


def mixed():
    """An input of three pieces of 20 lines; its rows; and the lines that are none.

    The first piece is taken as it is. The rows of the second make three scripts of 5,120 bytes. The third has lines
    that are no rows.
    """
    lines, rows, bad = [], [], []
    for i in range(60):
        row = {"time": i, "id": i}
        inner = {"a": i, "b": 2, "c": 3, "d": 4} if 20 <= i < 40 else {}
        if i in (44, 45):
            bad.append((len(lines) + 1, "no JSON object", str(i)))
            lines.append(str(i))
        lines.append(compact({**row, LONG_NAME: inner} if inner else row))
        rows.append({**row, **{"{}.{}".format(LONG_NAME, name): value for name, value in inner.items()}})
    return "\n".join(lines).encode(), rows, bad


# ---- each repair by itself: options, a record, and its cells, or its time alone, or why it was put aside


def times(cases):
    return [("--time ts " + options, '{"ts":' + text + "}", want) for options, text, want in cases]


def no_times(cases):
    return [("", '{"time":' + text + "}", "the time " + why) for text, why in cases]


NO_DATE, NO_DAY = "{} is no number and no date", "{} is no date of the calendar"
RANGE = "{} is not from 0 to 9223372036854775807"
REPAIRS = [
    ("", '{"time":1,"a":1.50,"b":1e3,"c":-0,"d":-0.0}', {"a": "1.50", "b": "1e3", "c": 0, "d": "-0.0"}),
    ("--decimals 2", '{"time":1,"a":1.005,"b":-1.005,"c":1e2}', {"a": 101, "b": -101, "c": 10000}),
    ("--decimals 2", '{"time":1,"d":0.004,"e":12345e-7,"f":3,"g":0.005}', {"d": 0, "e": 0, "f": 3, "g": 1}),
    ("--decimals 1", '{"time":1,"a":1e400,"b":922337203685477580.74}', {"a": "1e400", "b": MOST}),
    ("--decimals 1", '{"time":1,"a":922337203685477580.75}', {"a": "922337203685477580.75"}),
    ("--decimals 1", '{"time":1,"c":1e999999999,"d":1e-99999}', {"c": "1e999999999", "d": 0}),
    ("--decimals a=2", '{"time":1,"a":3,"b":1.5}', {"a": 300, "b": "1.5"}),
    ("--decimals a=2 --decimals 0", '{"time":1,"a":3.999,"b":1.5}', {"a": 400, "b": 2}),
    ("--booleans int", '{"time":1,"a":true,"b":false}', {"a": 1, "b": 0}),
    ("", '{"time":1,"a":true,"b":{},"c":[]}', {"a": "true", "c": ()}),
    ("--nested text", '{"time":1,"a":{"b":1.50,"c":["x",null]}}', {"a": '{"b":1.50,"c":["x",null]}'}),
    ("", '{"time":1,"a":{"b":{"c":1}},"d":[1.50,{"e":true}]}', {"a.b.c": 1, "d": '[1.50,{"e":true}]'}),
    ("", '{"time":1,"a":["b","a","b"],"x":1.5}', {"a": ("a", "b"), "x": "1.5"}),
    ("", compact({"time": 1, "a": ["x", "y"] * 600}), {"a": ("x", "y")}),
    ("", '{"time":1,"a":9223372036854775808,"b":-9223372036854775808}', {"a": str(MOST + 1), "b": -MOST - 1}),
    ("", '{"time":1,"a":' + "7" * 5000 + "}", {"a": "7" * 5000}),
    *times(
        [
            ("--unit ns", '"2024-02-29T12:30:15.123456789012+01:00"', 1709206215123456789),
            ("--unit us", '"2024-02-29 12:30:15,5"', 1709209815500000),
            ("", '"2024-02-29"', 1709164800),
            ("", '"2016-12-31T23:59:60Z"', 1483228800),
            ("", '"2024-01-01T00:00:00 -0530"', 1704087000),
            ("--unit s:ms", "1700000000.1239", 1700000000123),
            ("--unit s:ms", '"1700000000"', 1700000000000),
            ("--unit ns:s", "1700000000999999999", 1700000000),
            ("", "1.7e9", 1700000000),
        ]
    ),
    ("--unit ms", '{"time":1700000000000.9}', 1700000000000),
    ("--time meta.ts", '{"meta":{"ts":5,"x":1}}', {"time": 5, "meta.x": 1}),
    ("--bucket m=60 --bucket h=3600", '{"time":7325}', {"time": 7325, "m": 7320, "h": 7200}),
    ("--time ts", '{"time":1,"ts":2}', 'the row has a member "time" beside "ts"'),
    ("--bucket a=60", '{"time":1,"a":2}', 'the row has two cells "a"'),
    ("", '{"time":1,"a.b":1,"a":{"b":2}}', 'the row has two cells "a.b"'),
    ("", '{"a":1}', 'the row has no member "time"'),
    *no_times(
        [
            ("null", NO_DATE.format("null")),
            ("true", NO_DATE.format("true")),
            ("[1]", NO_DATE.format("[1]")),
            ('"01/02/2024"', NO_DATE.format('"01/02/2024"')),
            ('"2023-02-29"', NO_DAY.format('"2023-02-29"')),
            ('"2023-01-01T24:00:00"', NO_DAY.format('"2023-01-01T24:00:00"')),
            ('"2023-01-01T00:00:00+24:00"', NO_DAY.format('"2023-01-01T00:00:00+24:00"')),
            ('"1969-12-31"', RANGE.format('"1969-12-31"')),
            ("-1", RANGE.format("-1")),
            ("9223372036854775808", RANGE.format("9223372036854775808")),
        ]
    ),
    ("", "[1,2]", "no JSON object"),
    ("", '{"time":1', re.compile("^no JSON: ")),
    ("", '{"time":1}{"time":2}', re.compile("^no JSON: Extra data at character 11$")),
    ("", '{"time":1,"a":NaN}', "NaN is no number of JSON"),
    ("", '{"time":1,"a":"\\ud800"}', "a text has half of a surrogate pair, which is no character"),
    ("", '{"time":1,"a":"\udcff"}', "no UTF-8 at byte 16"),
    ("", '{"time":1,"a":"' + "x" * 65536 + '"}', 'the text of "a" has more than 65535 bytes'),
    ("", '{"time":1,"a":"' + "x" * 65535 + '","b":1.5}', {"a": "x" * 65535, "b": "1.5"}),
    ("", '{"time":1,"a":"' + "ü" * 32768 + '"}', 'the text of "a" has more than 65535 bytes'),
    ("", '{"time":1,"":1}', 'a cell\'s name has 1 to 255 bytes, and not ""'),
    ("", '{"time":1,"' + "n" * 256 + '":1}', re.compile("^a cell's name has 1 to 255 bytes, and not \"nnn")),
    ("", compact({"time": 1, **{"c{}".format(i): 1 for i in range(1025)}}), "the row has more than 1024 cells"),
    ("", compact({"time": 1, **{"c{}".format(i): 1 for i in range(1023)}, "o": {"x": 1.5}}), {"c5": 1, "o.x": "1.5"}),
    ("", compact({"time": 1, "a": [str(i) for i in range(1025)]}), re.compile('^the set "a" has more than 1024 texts')),
    ("", compact({"time": 1, "a": ["x" * 40000, "y" * 40000]}), re.compile("texts or 65535 bytes$")),
    ("", '{"time":1,"a":' + DEEP + "}", re.compile("nested too deep$|^a cell's name has 1 to 255 bytes")),
    ("", '{"time":1,"a":1.5,"b":"' + '","b":"'.join(["x" * 60000] * 20) + '"}', re.compile("^a row of more than 1048")),
]


# ---- CSV: options, the input, its rows as pairs of time and `a`, and line and cause of what is put aside

NO_QUOTE = LONG + ", or a quote that is not closed"
CSV = [
    ("", "time,a\n1,x\n2,y\n", [(1, "x"), (2, "y")], []),
    ("", '\ufefftime,a\r\n1,x\r\n2,"y\r\n"\r\n', [(1, "x"), (2, "y\r\n")], []),
    ("", "time,a\n1,x", [(1, "x")], []),
    ("", 'time,a\n1,"x, ""y"""\n2,"""\n,"""\n', [(1, 'x, "y"'), (2, '"\n,"')], []),
    ("", 'time,a\n1,a"b\n2,"a"b\n3, "c"\n', [(1, 'a"b'), (2, "ab"), (3, ' "c"')], []),
    ("", "a,time\n007,1\n-7,2\n+7,3\n-0,4\n0,5\n", [(1, "007"), (2, -7), (3, "+7"), (4, "-0"), (5, 0)], []),
    ("", 'a,time\n1.5,6\n,7\n" ",8\n"",9\n', [(6, "1.5"), (7, None), (8, " "), (9, None)], []),
    ("", "time,a\n1,{}\n2,{}\n".format(MOST, -MOST - 1), [(1, MOST), (2, -MOST - 1)], []),
    ("", "time,a\n1,{}\n2,{}\n".format(MOST + 1, "9" * 30), [(1, str(MOST + 1)), (2, "9" * 30)], []),
    ("", "time,a\n\n1,x\n  \n2,y\n\n", [(1, "x"), (2, "y")], []),
    ("", "time,a\n1\n1,x\n", [(1, "x")], [(2, "1 fields, and the head has 2")]),
    ("", "time,a\n1,2,3\n1,x\n", [(1, "x")], [(2, "3 fields, and the head has 2")]),
    ("", "time,a\n1,x\n,x\n", [(1, "x")], [(3, 'the time "" is no number and no date')]),
    ("", 'time,a\n1,"x\ny"\n2,"z\n3,x\n', [(1, "x\ny"), (3, "x")], [(4, NO_QUOTE)]),
    ("--decimals 1", "time,a\n1,1.25\n2,1\n3,12e5\n", [(1, 13), (2, 1), (3, "12e5")], []),
    ("--decimals 1", "time,a\n4,1.5e1\n5,x1.5\n", [(4, 150), (5, "x1.5")], []),
    ("--decimals a=1", "time,a\n1,1.25\n2,1\n3,1e2\n", [(1, 13), (2, 10), (3, 1000)], []),
    ("--time at --unit ms", '"at","a"\n"2024-01-01T00:00:00Z",x\n5,y\n', [(1704067200000, "x"), (5, "y")], []),
    ("", "time,a,\n1,x,\n2,y,z\n", [(1, "x")], [(3, 'a cell\'s name has 1 to 255 bytes, and not ""')]),
    (
        "--bucket b=10 --script 4096 --piece 3",
        "time,a\n" + "".join('{},"{}"\n'.format(i, "x\n," * 300) for i in range(20)),
        [(i, "x\n," * 300) for i in range(20)],
        [],
    ),
]
