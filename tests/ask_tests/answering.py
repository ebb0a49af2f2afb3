"""tools/ask: ten questions in each form, the forms by examples, and what it does beside answering."""

import csv
import io
import json
import os
import shutil
import subprocess

from scuba_tools.region import Region

from .questions import QUERIES, labels, scuba_text, sqlite_of, wanted
from .trial import COUNT_EVENTS, DRAINS, EVERY, FLEET, TOOLS, add, environment, spoil, state_of

TABLE = r"""
host      COUNT(*)  AVG(code)
--------  --------  ---------
-                1          -
7                2      5.000
""               1          -
" a"             1          -
"-"              1      1.000
"[]"             1          -
a,b "c"          2      1.500
"l\nm"           1          -
"\u2028"         1          -
日本             1          -
"""[1:]
CSV = '''
host,COUNT(*),AVG(code)
,1,
7,2,5.0
"",1,
 a,1,
-,1,1.0
[],1,
"a,b ""c""",2,1.5
"l
m",1,
\u2028,1,
日本,1,
'''[1:]
JSON = '{"hour":0,"MAX(up)":-1}\n{"hour":60,"MAX(up)":2}\n{"hour":240,"MAX(up)":1}\n'
BARS = """
hour  COUNT(*)
----  --------
   0         1  ███▍
  60         3  ██████████
 240         1  ███▍
"""[1:]
EVERY_HOUR = BARS.replace(" 240", " 120         0\n 180         0\n 240")
DATES = """
               hour  MAX(up)
-------------------  -------
1970-01-01 00:00:00       -1  ███
1970-01-01 00:01:00        2     ██████▋
1970-01-01 00:04:00        1     ███▍
"""[1:]


def values_of(line):
    """The values of a line that the program printed; an average is a pair of its sum and its number."""
    at, found = 0, []
    while at < len(line):
        if line[at] in '"[':
            value, at = json.JSONDecoder().raw_decode(line, at)
        else:
            end = (line + " ").index(" ", at)
            word, at = line[at:end], end
            value = None if word == "-" else tuple(map(int, word.split("/"))) if "/" in word else int(word)
        found.append(value)
        at += 1
    return found


def split_answers(out):
    """The heads of the answers that `--lines` writes, and the rows of each."""
    heads, answers, lines = [], [], iter(out.split("\n")[:-1])
    for head in lines:
        heads.append(head)
        answers.append([values_of(next(lines)) for _ in range(int(head.split()[-1]))])
    return heads, answers


def between_empty(lines):
    """The answers, between which stands an empty line."""
    found = [[]]
    for line in lines:
        if line:
            found[-1].append(line)
        else:
            found.append([])
    return found


def number(value):
    return (value[0] / value[1] if value[1] else None) if isinstance(value, tuple) else value


def csv_text(value):
    if isinstance(value, list):
        return json.dumps(value, ensure_ascii=False, separators=(",", ":"))
    return "" if value is None else repr(value) if isinstance(value, float) else str(value)


def forms(t):
    """Ten questions in each form."""
    base, before, texts = sqlite_of(t.rows.all()), state_of(t.whole), [scuba_text(query) for query in QUERIES]
    want = [wanted(base, query) for query in QUERIES]
    base.close()
    t.expect("the questions have answers", (True, 1), (sum(map(len, want)) > 100, want.count([])))
    ran = t.tool("ask", "--lines", t.whole, *texts)
    heads, answers = split_answers(ran.out)
    t.expect("--lines", (0, "", 10), (ran.status, ran.err, len(answers)))
    for text, head, answer, rows in zip(texts, heads, answers, want):
        t.expect("--lines: " + text, ("answer named 3 of 3 lines {}".format(len(rows)), rows), (head, answer))
    shown = [[list(map(number, row)) for row in rows] for rows in want]
    objects = [[dict(zip(labels(query), row)) for row in rows] for query, rows in zip(QUERIES, shown)]
    ran = t.tool("ask", t.whole, *texts, "--json")
    got = between_empty(json.loads(line) if line else None for line in ran.out.split("\n")[:-1])
    t.expect("--json", (0, objects, ""), (ran.status, got, ran.err))
    lines = [[labels(query)] + [list(map(csv_text, row)) for row in rows] for query, rows in zip(QUERIES, shown)]
    ran = t.tool("ask", "--csv", t.whole, *texts)
    got = between_empty(csv.reader(io.StringIO(ran.out, newline="")))
    t.expect("--csv", (0, lines, ""), (ran.status, got, ran.err))
    tables, bars = t.tool("ask", t.whole, *texts), t.tool("ask", "--bars", t.whole, *texts)
    sizes = [len(part.strip("\n").split("\n")) for part in tables.out.split("\n\n")]
    t.expect("tables", (0, [2 + len(rows) for rows in want], ""), (tables.status, sizes, tables.err))
    others = [bar for line, bar in zip(tables.out.split("\n"), bars.out.split("\n")) if not bar.startswith(line)]
    t.expect("tables with bars", (0, [], tables.out.count("\n")), (bars.status, others, bars.out.count("\n")))
    t.expect("the folder after all questions", before, state_of(t.whole))


def looks(t):
    """The forms by examples that were written by hand."""
    at = t.work / "looks"
    at.mkdir()
    hosts = [None, 7, 7, "", "-", 'a,b "c"', 'a,b "c"', "l\nm", "日本", "\u2028", " a", "[]"]
    codes = [None, 4, 6, None, 1, 1, 2, "text", None, None, None, None]
    pairs = ({"host": host, "code": code} for host, code in zip(hosts, codes))
    rows = [{"time": 5, **{name: it for name, it in pair.items() if it is not None}} for pair in pairs]
    ups = [(0, -1), (60, 2), (61, 0), (119, 0), (240, 1)]
    series = [{"time": time, "hour": time // 60 * 60, "up": up} for time, up in ups]
    far = [{"time": 0, "hour": -4000000}, {"time": 1, "hour": 5}, {"time": 2}]
    t.play(at, "fleet 1 1 t s far", *add(0, "t", rows), *add(0, "s", series), *add(0, "far", far), "drain 0")

    def ask(*words, **variables):
        return t.tool("ask", *words, env=environment(**variables)).out

    by_host = "SELECT host, COUNT(*), AVG(code) FROM t {} GROUP BY host".format(EVERY)
    by_hour = "SELECT hour, COUNT(*) FROM s {} GROUP BY hour".format(EVERY)
    up = by_hour.replace("COUNT(*)", "MAX(up)")
    t.expect("a table", TABLE, ask(at, by_host))
    t.expect("CSV", CSV, ask("--csv", at, by_host))
    t.expect("CSV of one missing cell", 'MAX(no)\n""\n', ask("--csv", at, "SELECT MAX(no) FROM t " + EVERY))
    t.expect("JSON", JSON, ask("--json", at, up))
    t.expect("bars", BARS, ask("--bars", at, by_hour, COLUMNS="26"))
    ascii_bars = BARS.replace("█", "#").replace("▍", "")
    t.expect("bars in ASCII", ascii_bars, ask("--bars", at, by_hour, COLUMNS="26", PYTHONIOENCODING="ascii"))
    t.expect("bars for each hour", EVERY_HOUR, ask("--bars", "--every", "60", at, by_hour, COLUMNS="26"))
    t.expect("bars on both sides of 0, and dates", DATES, ask("--bars", "--date", "hour=s", at, up, COLUMNS="40"))
    first = "SELECT MIN(time) FROM t " + EVERY
    t.expect("a date with a fraction", "1970-01-01 00:00:00.005", ask("--date", "time=ms", at, first).split("\n")[2])
    on_lines = "SELECT COUNT(*)\n  FROM s\r\n" + EVERY + "\n"
    t.expect("a query on some lines", "COUNT(*)\n5\n", ask("--csv", at, on_lines))
    ran = t.tool("ask", "--bars", "--every", "1", at, by_hour.replace(" s ", " far "))
    t.refused("too many steps", 1, "^ask: there are more than 100000 steps of 1 from -4000000 to 5$", ran)


def beside(t):
    """Ten at once, a user who may only read, regions that are no images, a leaf that does not answer, a lost reader."""
    before, want = state_of(t.whole), "COUNT(*)\n{}\n".format(len(t.rows.all()))
    words, pipe = t.words("ask", "--csv", t.whole, COUNT_EVENTS), subprocess.PIPE
    asks = [subprocess.Popen(words, stdout=pipe, stderr=pipe) for _ in range(10)]
    got = [tuple(text.decode() for text in ask.communicate()) for ask in asks]
    t.expect("ten asks at once", [(want, "")] * 10, got)
    t.expect("the folder after them", before, state_of(t.whole))
    with t.copy_of(t.whole) as at:
        (at / "fleet").write_text("fleet 1 3 perf\n")
        t.expect("a fleet that lacks a table", want, t.tool("ask", "--csv", at, COUNT_EVENTS).out)
    bad_regions(t, want)
    with t.copy_of(t.whole) as at:
        one = [{"time": 1}]
        t.play(at, FLEET, *add(0, "events", one * 7), "flush 0 events", *add(0, "events", one), *DRAINS[1:])
        flushed = "COUNT(*)\n{}\n".format(len(t.rows.all()) + 7)
        t.expect("a leaf that was not drained", flushed, t.tool("ask", "--csv", at, COUNT_EVENTS).out)
    words = " ".join(t.words("ask", "--csv", t.whole, "'{}'".format(COUNT_EVENTS)))
    ran = subprocess.run(words + " | head -n 1", shell=True, stdout=pipe, stderr=pipe)
    t.expect("a reader that goes away", (b"COUNT(*)\n", b""), (ran.stdout, ran.stderr))
    reads_only(t, want)


def bad_regions(t, want):
    """A region of which one column means no cells, and a leaf that has a damaged log alone."""
    with t.copy_of(t.whole) as at:
        with Region(str(at / "leaf-1.region")) as region:
            column = region.tables[0].blocks[1].columns[1]
        spoil(at / "leaf-1.region", column.place)
        before = state_of(at)
        t.expect("a column that means no cells", (0, want, ""), tuple(t.tool("ask", "--csv", at, COUNT_EVENTS)))
        t.expect("the folder after it", before, state_of(at))
        (at / "leaf-1.region").unlink()
        spoil(at / "leaf-1.disk", 3)
        ran = t.tool("ask", "--csv", at, COUNT_EVENTS)
        others = len(t.rows.all()) - len(t.rows.leaf(1))
        t.expect("a leaf that does not answer", (1, "COUNT(*)\n{}\n".format(others)), (ran.status, ran.out))
        why = "ask: leaf 1: start 1 fault damaged\nask: answer 1 lacks 1 of 3 leaves\n"
        t.expect("a leaf that does not answer: why", why, ran.err)


def reads_only(t, want):
    """ask and folder by a user who may read the folder, and not write it."""
    python = "/usr/bin/python3"
    if os.geteuid() or not shutil.which("setpriv") or not os.path.exists(python):
        print("tests: no user without rights can be had, and no ask by one was tried")
        return
    place = t.work / "open"
    place.mkdir()
    shutil.copytree(TOOLS, place / "tools")
    shutil.copytree(t.whole, place / "DIR")
    shutil.copy(t.program, place / "scuba")
    for path in [t.work, place, *place.rglob("*")]:
        path.chmod(0o755 if path.is_dir() or path == place / "scuba" else 0o444)
    nobody = ["setpriv", "--reuid=65534", "--regid=65534", "--clear-groups", python, "-B"]

    def by_nobody(name, *words):
        words = nobody + [place / "tools" / name, "--scuba", place / "scuba", *words]
        ran = subprocess.run(words, cwd=place, stdout=subprocess.PIPE, stderr=subprocess.PIPE)
        return ran.returncode, ran.stdout.decode(), ran.stderr.decode()

    t.expect("ask by a user who may only read", (0, want, ""), by_nobody("ask", "--csv", place / "DIR", COUNT_EVENTS))
    status, found, why = by_nobody("folder", "--json", place / "DIR")
    leaves = [leaf["next"] for leaf in json.loads(found)["leaves"]] if found else []
    t.expect("folder by a user who may only read", (0, ["memory"] * 3, ""), (status, leaves, why))
