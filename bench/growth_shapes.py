"""Scripts that are made to be dear, each of about a given number of bytes. `bench/growth` measures how what they cost grows with that number."""

ONE = "fleet 1 1 t\n"
SHORT = "FROM t WHERE time >= 0 AND time <= 9"
ALL = "FROM t WHERE time >= 0 AND time <= 9223372036854775807"
TAIL = 65_535  # rows of a tail: one less than a block


def fill(head, unit, size, tail=""):
    """The head, the unit as often as there is room for it, and the tail."""
    return head + unit * max(1, (size - len(head) - len(tail)) // len(unit)) + tail


def add(rows):
    """Adds of these rows at leaf 0."""
    parts = [rows[i : i + 100_000] for i in range(0, len(rows), 100_000)]
    return "".join(f"add 0 t {len(part)}\n" + "".join(f"{row}\n" for row in part) for part in parts)


def times(numbers):
    return [f'{{"time":{number}}}' for number in numbers]


def counted(head, form, size, first=1):
    """The head, and lines with the numbers from the first on as long as there is room."""
    lines, room, number = [head], size - len(head), first
    while True:
        line = form.format(number)
        if len(line) > room:
            return "".join(lines)
        lines.append(line)
        room, number = room - len(line), number + 1


def rounds(size, part):
    """A table, and as many parts as there is room for; part(i) is the text of round i."""
    text, i = ONE, 0
    while len(text) + len(part(i)) <= size or i == 0:
        text, i = text + part(i), i + 1
    return text


def lanes(leaves, command, size):
    """16 lanes, each with its command as often as there is room for it."""
    room = (size - 200) // 16
    return f"fleet 1 {leaves} t\nburst\n" + "".join("lane\n" + command(lane) * (room // len(command(lane))) for lane in range(16)) + "end\n"


def steps_over_a_tail(i):
    """Each expiry takes the first row of a tail."""
    base = i * (TAIL + 1)
    return add(times(range(base + 1, base + TAIL + 1))) + "".join(f"expire 0 t {base + k}\n" for k in range(2, TAIL + 2))


def keeps_over_a_tail(i):
    """Each keep takes the first row of a tail."""
    return add(times([9] * TAIL)) + "".join(f"keep 0 t {TAIL - k}\n" for k in range(1, TAIL))


def many_sums(size, head=ONE):
    return fill(head + "query SELECT ", "SUM(a),", size, f"COUNT(*) {SHORT}\n")


def set_row(first):
    return '{"time":1,"tags":[' + ",".join(f'"{number:x}"' for number in [first, *range(100_001, 101_024)]) + "]}"


def shuffled(rows, count):
    return [f'{{"time":{i * 7919 % rows}}}' for i in range(count)]


SHAPES = {
    "expiries-over-a-tail": lambda size: fill(ONE + add(times([9] * TAIL)), "expire 0 t 1\n", size),
    "steps-over-a-tail": lambda size: rounds(size, steps_over_a_tail),
    "keeps-over-a-tail": lambda size: rounds(size, keeps_over_a_tail),
    "keeps-over-a-horizon": lambda size: fill(ONE + add(shuffled(65_536, 65_536)) + "expire 0 t 2\n", "keep 0 t 65531\n", size),
    "expiries-of-shuffled-blocks": lambda size: counted(ONE + add(shuffled(65_536, 65_536)), "expire 0 t {}\n", size),
    "expiries-of-a-cut-block": lambda size: counted(ONE + add(shuffled(65_536, 65_536)) + "keep 0 t 65535\n", "expire 0 t {}\n", size),
    "shuffled-steps-over-a-tail": lambda size: counted(ONE + add(shuffled(TAIL, TAIL)), "expire 0 t {}\n", size),
    "counts-of-all-rows": lambda size: fill(ONE + add(['{"time":1}'] * (size // 24)), f"query SELECT COUNT(*) {ALL}\n", size),
    "tiny-blocks": lambda size: fill(ONE, 'add 0 t 1\n{"time":9}\ndrain 0\nstart 0\n', size),
    "queries-over-many-leaves": lambda size: fill("fleet 1 256 t\n", f"query SELECT COUNT(*) {SHORT}\n", size),
    "long-query-over-many-leaves": lambda size: many_sums(size, "fleet 1 256 t\n"),
    "long-conditions-over-many-leaves": lambda size: fill(f"fleet 1 256 t\nquery SELECT COUNT(*) {SHORT}", " AND a = 1", size, "\n"),
    "queries-over-rows": lambda size: fill(ONE + add(['{"time":1,"a":1}'] * (size // 34)), f"query SELECT SUM(a) {SHORT}\n", size),
    "tells": lambda size: fill(f"{ONE}standing 0 SELECT COUNT(*) {ALL}\n" + add(times(range(50_000))) + "tell 0\n", "tell 0\n", size),
    "adds-and-tells": lambda size: fill(f"{ONE}standing 0 SELECT COUNT(*) {ALL}\n" + add(times(range(50_000))) + "tell 0\n", 'add 0 t 1\n{"time":9}\ntell 0\n', size),
    "standing-adds": lambda size: counted(ONE + f"standing 0 SELECT COUNT(*) {ALL}\n" * 16 + "".join(f"tell {i}\n" for i in range(16)), 'add 0 t 1\n{{"time":{}}}\n', size),
    "tails-of-dead-leaves": lambda size: fill("fleet 1 256 t\n" + "".join(f"kill {i}\n" for i in range(256)), "tail 7 t 0\n", size),
    "tails-in-lanes": lambda size: lanes(256, lambda lane: f'tail {lane} t 1\n{{"time":1}}\n', size),
    "adds-at-one-table": lambda size: lanes(1, lambda lane: "add 0 t 0\n", size),
    "queries-at-one-table": lambda size: lanes(1, lambda lane: f"query SELECT COUNT(*) {SHORT}\n", size),
    "adds-and-queries-in-lanes": lambda size: lanes(16, lambda lane: f'add {lane} t 1\n{{"time":1}}\nquery SELECT COUNT(*) {SHORT}\n', size),
    "distinct-sets": lambda size: ONE + add([set_row(i) for i in range(size // len(set_row(99_999)))]) + f"query SELECT tags, COUNT(*) {SHORT} GROUP BY tags\n",
    "conditions-over-rows": lambda size: fill(ONE + add(['{"time":1,"a":1}'] * (size // 34)) + f"query SELECT COUNT(*) {SHORT}", " AND a = 1", size, "\n"),
    "aggregates-over-rows": lambda size: many_sums(size, ONE + add(['{"time":1,"a":1}'] * (size // 34))),
    "orders-of-many-groups": lambda size: fill(ONE + add([f'{{"time":{i % 10},"a":{i * 7919 % 20_000}}}' for i in range(size // 40)]), f"query SELECT a, COUNT(*) {SHORT} GROUP BY a ORDER BY COUNT(*) LIMIT 1\n", size),
    "tiny-records": lambda size: fill(ONE, 'add 0 t 1\n{"time":9}\nflush 0 t\n', size, "kill 0\nstart 0\n"),
    "restarts-over-a-log": lambda size: fill(fill(ONE, 'add 0 t 1\n{"time":9}\nflush 0 t\n', size // 2), "kill 0\nstart 0\n", size),
    "drains-of-rows": lambda size: fill(ONE + add([f'{{"time":{i * 7919 % 100_003},"a":{i * 104_729 % 1_000_003}}}' for i in range(size // 51)]), "drain 0\nstart 0\n", size),
    "names-that-fall": lambda size: ONE + add(['{"time":1' + "".join(f',"k{i:04}":1' for i in range(1023, -1, -1)) + "}"] * (size // 10_250)),
    "long-keys": lambda size: ONE + add(['{"time":1,"a":"' + "x" * 65_500 + f'{i:06}"}}' for i in range(size // 65_540)]) + f"query SELECT a, COUNT(*) {SHORT} GROUP BY a LIMIT 1\n" * 100,
    "escapes": lambda size: ONE + add(['{"time":1,"a":"' + "\\u0041" * 10_000 + '"}'] * max(1, size // 60_020)),
}
