"""Plans written in one line, as `in; unit; set 1 k0; last 5 0; merge 4 2 out`, and random plans and readings, for the tests."""
OPERATORS = {
    "in": 0, "nil": 0, "unit": 0, "time": 1, "set": 1, "plus": 1, "neg": 1, "add": 2, "sub": 2, "mul": 2, "div": 2, "rem": 2,
    "lt": 2, "le": 2, "eq": 2, "keep": 2, "merge": 2, "last": 2, "delay": 2, "sadd": 2, "ssub": 2, "smul": 2, "sdiv": 2,
    "srem": 2, "slt": 2, "sle": 2, "seq": 2, "wsum": 1, "wmin": 1, "wmax": 1,
}
WINDOWS = ["wsum", "wmin", "wmax"]


def short(text):
    """The rows (op, a, b, k, out) of a plan in one line."""
    rows = []
    for part in text.split(";"):
        words = part.split()
        arguments = [int(word) for word in words[1:] if word.isdigit()] + [0, 0]
        k = [int(word[1:]) for word in words[1:] if word[0] == "k"] + [0]
        rows.append((words[0], arguments[0], arguments[1], k[0], "out" in words))
    return rows


def text_of(rows):
    return "plan=1\nstreams=%d\n" % len(rows) + "".join("op=%s\na=%d\nb=%d\nk=%d\nout=%d\n" % row for row in rows)


def spelled(rows, s):
    """The plan with stream s, a signal form, written as the operation on what two lasts and two merges behind the plan say."""
    op, a, b, k, out = rows[s]
    n = len(rows)
    four = [("last", a, b, 0, False), ("merge", a, n, 0, False), ("last", b, a, 0, False), ("merge", b, n + 2, 0, False)]
    return rows[:s] + [(op[1:], n + 1, n + 3, k, out)] + rows[s + 1:] + four


def random_count(draw, least, above):
    """How many streams a plan is to have: at least `least` and below `above`; of one in sixteen 33 to 64, which only the longer state
    takes."""
    return draw.randrange(33, 65) if draw.random() < 1 / 16 else draw.randrange(least, above)


def random_plan(draw, count):
    """A plan that load takes: undelayed arguments are earlier streams in a hidden order, delayed ones any. One in ten has as many
    windows as there is room for."""
    many = draw.random() < 0.1
    names = list(range(count))
    draw.shuffle(names)
    rows = [None] * count
    for place, s in enumerate(names):
        op = draw.choice(["in"] * 3 + ["unit"] * 2 + list(OPERATORS)) if place else draw.choice(["in", "unit"])
        op = draw.choice(WINDOWS) if place and many else op
        if op in WINDOWS and sum(row is not None and row[0] in WINDOWS for row in rows) == 8:
            op = "neg"
        a = b = k = 0
        if OPERATORS[op] >= 1:
            a = names[draw.randrange(count if op in ("last", "delay") else place)]
        if OPERATORS[op] == 2:
            b = names[draw.randrange(place)]
        if op in ("set", "plus"):
            k = draw.choice([0, 1, 1, 2, 3, 7, 60, -1, -5, 2**63 - 1, -2**63])
        if op in WINDOWS:
            k = draw.choice([1, 2, 2, 3, 3, 5, 10, 64])
        rows[s] = (op, a, b, k, op != "in" and draw.random() < 0.4)
    return rows


def random_readings(draw, plan, shared):
    """Readings of a plan's inputs; if not `shared`, no two inputs have a common stamp, nor one at 0."""
    free = list(range(0 if shared else 1, 40))
    readings = {}
    for s, row in enumerate(plan):
        if row[0] == "in":
            stamps = sorted(draw.sample(free, min(len(free), draw.randrange(7))))
            values = [0, 1, 2, 3, 5, -1, -4, draw.randrange(-100, 100)]
            # so that sums leave the range
            values += [2**63 - 1, -2**63] if draw.random() < 0.2 else []
            readings[s] = {t: draw.choice(values) for t in stamps}
            if not shared:
                free = [t for t in free if t not in stamps]
    return readings
