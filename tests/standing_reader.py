"""Reads what a script with standing queries printed, and knows no more than the rules: what makes a state stale, and that a `tell` says up to which entry it holds.

usage: standing_reader.py make SEED      prints a script
       standing_reader.py read SCRIPT OUTPUT [WRONG]   ends with status 0 where the output is what a run of the script may print, else says why not

Behind each `tell S` of a script stands a query with the same text, which asks both leaves; a table has rows at the standing query's leaf alone, so both have the same answer. WRONG
names a rule that is turned, for which an output of the program must be refused: asks (each tell asks), keeps (no keep makes a state stale), opens (no start does), lanes (the entries of a
burst's second lane are not followed), numbers (a tell holds up to the entry before)."""
import random
import sys

TEXTS = [
    "SELECT COUNT(*) FROM {} WHERE time >= 0 AND time <= 99",
    "SELECT host, COUNT(*), MIN(time), MAX(ms) FROM {} WHERE time >= 5 AND time <= 80 GROUP BY host",
    "SELECT time, SUM(ms), AVG(ms) FROM {} WHERE time >= 0 AND time <= 99 AND ms >= 3 GROUP BY time ORDER BY SUM(ms) LIMIT 3",
    "SELECT host, ms, COUNT(*) FROM {} WHERE time >= 0 AND time <= 60 AND host != 'a' GROUP BY host, ms ORDER BY COUNT(*)",
    "SELECT MIN(ms), MAX(ms), SUM(time) FROM {} WHERE time >= 20 AND time <= 90",
    "SELECT tags, COUNT(*) FROM {} WHERE time >= 0 AND time <= 99 GROUP BY tags",
]
TABLES = {"a": 0, "b": 1, "c": 0}


def row(pick):
    cells = [f'"time":{pick.randrange(100)}']
    if pick.random() < 0.9:
        cells.append(f'"host":"{pick.choice("abcd")}"')
    if pick.random() < 0.8:
        cells.append(f'"ms":{pick.randrange(-5, 12)}')
    if pick.random() < 0.3:
        cells.append('"tags":["%s","%s"]' % (pick.choice("xy"), pick.choice("yz")))
    return "{" + ",".join(cells) + "}"


def change(pick, table):
    """The lines of a command of callers that may change the table."""
    leaf, kind = TABLES[table], pick.random()
    if kind < 0.6:
        count = pick.randrange(4)
        return [f"add {leaf} {table} {count}", *(row(pick) for _ in range(count))]
    if kind < 0.8:
        return [f"expire {leaf} {table} {pick.randrange(60)}"]
    return [f"keep {leaf} {table} {pick.choice((0, 2, 5, 1000, 1000))}"]


def lane(pick, tables):
    lines = ["lane"]
    for _ in range(pick.randrange(4)):
        lines += change(pick, pick.choice(tables))
    return lines


def make(seed):
    pick = random.Random(seed)
    print("fleet 2 1 a b c")
    told = []
    for _ in range(120):
        kind = pick.random()
        if kind < 0.08 and len(told) < 16:
            table = pick.choice(list(TABLES))
            told.append(pick.choice(TEXTS).format(table))
            print(f"standing {TABLES[table]} {told[-1]}")
        elif kind < 0.45 and told:
            number = pick.randrange(len(told))
            print(f"tell {number}\nquery {told[number]}")
        elif kind < 0.75:
            print("\n".join(change(pick, pick.choice(list(TABLES)))))
        elif kind < 0.85:
            lines = ["burst", *lane(pick, ["a"]), *lane(pick, ["b", "c"])]
            print("\n".join([*lines, "end"]))
        elif kind < 0.9:
            table = pick.choice(list(TABLES))
            print(f"flush {TABLES[table]} {table}")
        elif kind < 0.93:
            # (a tail of a table's own leaf would need a key: of one leaf the keys below draw it alone in their first try)
            print(f"query {pick.choice(TEXTS).format('a')}")
        elif kind < 0.96:
            leaf = pick.randrange(2)
            print(pick.choice((f"kill {leaf}\nstart {leaf}", f"drain {leaf}\nstart {leaf}", f"drain {leaf}", f"start {leaf}", f"kill {leaf}")))
        elif kind < 0.97:
            print("rollover 50")
        else:
            print("start 0\nstart 1")


class Wrong(Exception):
    pass


def commands(lines):
    """The commands of a script, each as its words and the number of its lane: rows are passed over."""
    at, number = 0, None
    while at < len(lines):
        words = lines[at].split(" ")
        at += 1
        if words[0] == "burst":
            number = -1
        elif words[0] == "lane":
            number += 1
        elif words[0] == "end":
            number = None
        else:
            if words[0] == "add":
                at += int(words[3])
            yield words, number


def read(script, output, wrong):
    printed = output.split("\n")[:-1]
    standing, last = [], {}
    lane_now, at = 0, 0
    in_burst = False

    def entry(line):
        """Follows the line of an entry."""
        leaf, table, number = int(line[0]), line[1], int(line[2][1:])
        last[leaf, table] = number
        kind = line[3:]
        for state in standing:
            if state["place"] != (leaf, table):
                continue
            if wrong == "lanes" and in_burst and lane_now == 1:
                continue
            state["upto"] = number
            opens = kind[0] in ("opened", "closed")
            if kind[0] == "removed" and kind[1] != "0" and state["keeps"](line):
                state["fresh"] = wrong == "keeps" and state["fresh"]
            elif opens:
                state["fresh"] = wrong == "opens" and state["fresh"]

    todo = list(commands(script.split("\n")[:-1]))
    # Which removals are of keeps: the calls of a table stand in its lines in the order of their lane.
    order = []
    for words, number in todo:
        if words[0] in ("add", "expire", "keep"):
            order.append((words[0], (int(words[1]), words[2])))
        elif words[0] == "query":
            table = words[words.index("FROM") + 1]
            order += [("query", (0, table)), ("query", (1, table))]
        elif words[0] == "tell":
            order.append(("tell", None))
    calls = {}
    tells = {}
    index = 0
    for kind, place in order:
        if kind != "tell":
            calls.setdefault(place, []).append((index, kind))
        index += 1
    used = {place: 0 for place in calls}

    def keeps(line):
        place = (int(line[0]), line[1])
        return calls[place][used[place] - 1][1] == "keep"

    answer = None
    while at < len(printed):
        line = printed[at].split(" ")
        at += 1
        if line[0] == "lane":
            in_burst, lane_now = True, int(line[1])
            continue
        if len(line) > 3 and line[2].startswith("#"):
            place = (int(line[0]), line[1])
            is_call = line[3] in ("added", "removed", "refused", "asked")
            if is_call and not asks_for_tell(standing, printed, at, line):
                if place not in calls or used[place] >= len(calls[place]):
                    raise Wrong(f"line {at}: a call that the script does not have")
                used[place] += 1
            entry(line)
            continue
        if line[0] == "standing":
            number = int(line[1])
            if len(line) == 2:
                if number != len(standing):
                    raise Wrong(f"line {at}: another number")
                words = [words for words, _ in todo if words[0] == "standing"][number]
                table = words[words.index("FROM") + 1]
                place = (int(words[1]), table)
                standing.append({"place": place, "fresh": False, "upto": 0, "keeps": keeps})
                continue
            state = standing[number]
            asked = at >= 2 and asks_for_tell(standing, printed, at - 1, printed[at - 2].split(" "))
            fresh = state["fresh"] and wrong != "asks"
            if asked == fresh:
                raise Wrong(f"line {at}: {'a fresh state asked' if asked else 'a stale state did not ask'}")
            if line[2] == "at":
                upto = last[state["place"]] - (1 if wrong == "numbers" else 0)
                if int(line[3][1:]) != upto:
                    raise Wrong(f"line {at}: it does not hold up to the last entry")
                rows = printed[at : at + int(line[5])]
                at += int(line[5])
                state["fresh"] = True
                answer = rows
            else:
                if line[2] != "shut" or not asked:
                    raise Wrong(f"line {at}: untold for no reason")
                answer = None
            continue
        if line[0] == "answer":
            rows = printed[at : at + int(line[6])]
            at += int(line[6])
            if answer is not None and rows != answer:
                raise Wrong(f"line {at}: the standing query and the query beside it differ")
            answer = None
            in_burst = False
            continue
        in_burst = in_burst and line[0] not in ("flush", "drain", "kill", "start", "wave", "rollover")
    if any(used[place] != len(calls[place]) for place in calls):
        raise Wrong("not each call has its line")
    return sum(1 for line in printed if line.startswith("standing ") and " at #" in line), sum(1 for line in printed if line.startswith("standing ") and len(line.split(" ")) > 2)


def asks_for_tell(standing, printed, at, line):
    """Whether this line, behind which the others from that place on stand, is the ask of a tell: the line of what it tells follows at once, and it is of that table."""
    if len(line) < 4 or line[3] not in ("asked", "refused") or at >= len(printed):
        return False
    following = printed[at].split(" ")
    return following[0] == "standing" and len(following) > 2 and standing[int(following[1])]["place"] == (int(line[0]), line[1])


if __name__ == "__main__":
    if sys.argv[1] == "make":
        make(int(sys.argv[2]))
    else:
        with open(sys.argv[2], encoding="utf-8") as script, open(sys.argv[3], encoding="utf-8") as output:
            try:
                print(*read(script.read(), output.read(), sys.argv[4] if len(sys.argv) > 4 else None))
            except Wrong as why:
                print(f"tests: {why}")
                sys.exit(1)
