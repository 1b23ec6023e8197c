"""The definition, from document 01's operator table, the rules under it, and document 02's signal forms, rule of division and
windows: a plan and the readings of its inputs give to every stream its events. Plain and in one go, stamp by stamp; it knows nothing
of calls, bounds or held events."""
import heapq

LAST_STAMP = 4294967295


def within(x):
    """"A result outside the value range [..] gives no event"."""
    return x if -2**63 <= x < 2**63 else None


def quotient(x, y):
    """"a quotient goes down to the next whole number", as Python's own does."""
    return x // y


CALCULATE = {
    "add": lambda x, y: within(x + y),
    "sub": lambda x, y: within(x - y),
    "mul": lambda x, y: within(x * y),
    "div": lambda x, y: None if y == 0 else within(quotient(x, y)),
    "rem": lambda x, y: None if y == 0 else x - y * quotient(x, y),  # "the remainder has the divisor's sign"
    "lt": lambda x, y: int(x < y),
    "le": lambda x, y: int(x <= y),
    "eq": lambda x, y: int(x == y),
    "keep": lambda x, y: x if y != 0 else None,
}
# to each signal form what it works out of the latest values
SIGNALS = {"s" + op: CALCULATE[op] for op in ("add", "sub", "mul", "div", "rem", "lt", "le", "eq")}
# to each window what it works out of the latest k values, "or of all so far while fewer"
WINDOWS = {"wsum": lambda values: within(sum(values)), "wmin": min, "wmax": max}


def in_order(plan):
    """The streams so that each comes after those it reads at the same stamp; the cycle rule makes that possible."""
    order, placed = [], set()

    def place(s):
        if s in placed:
            return
        placed.add(s)
        op, a, b = plan[s][:3]
        if op not in ("in", "nil", "unit", "last", "delay"):
            place(a)
        if op not in ("in", "nil", "unit", "time", "set", "plus", "neg", *WINDOWS):
            place(b)
        order.append(s)

    for s in range(len(plan)):
        place(s)
    return order


def meaning(plan, readings, until, most=None):
    """To each stream its events below `until`, a dict from stamp to value by rising stamp; None if more than `most` stamps
    would have to be looked at. A plan is a list of (op, a, b, k, out), or of none; `readings` has a dict for each input.

    Something can happen at 0 (unit), at the stamps of readings, and at p + v for an event of a delay's first argument at p
    with value v: where the delay is set at p to ring at p + v, unless its second argument has an event in between."""
    order = in_order(plan)
    events = [{} for _ in plan]
    latest = [None] * len(plan)  # of each stream, the value of its latest event strictly before the present stamp
    due = [None] * len(plan)     # of each delay, the stamp at which it rings next
    stamps = list({0}.union(*[readings.get(s, {}) for s, row in enumerate(plan) if row[0] == "in"]))
    heapq.heapify(stamps)
    before, looked = -1, 0
    while stamps:
        t = heapq.heappop(stamps)
        if t == before:
            continue
        if t >= until:
            break
        before, looked = t, looked + 1
        if most is not None and looked > most:
            return None
        now = [None] * len(plan)
        for s in order:
            op, a, b, k = plan[s][:4]
            if op == "in":
                now[s] = readings.get(s, {}).get(t)
            elif op == "unit":
                now[s] = 0 if t == 0 else None
            elif op == "delay":
                now[s] = 0 if due[s] == t else None
            elif op == "last":
                now[s] = latest[a] if now[b] is not None else None
            elif op == "merge":
                now[s] = now[a] if now[a] is not None else now[b]
            elif op in SIGNALS:
                x, y = (now[i] if now[i] is not None else latest[i] for i in (a, b))
                either = now[a] is not None or now[b] is not None
                now[s] = SIGNALS[op](x, y) if either and x is not None and y is not None else None
            elif op == "nil" or now[a] is None:
                now[s] = None
            elif op == "time":
                now[s] = t
            elif op == "set":
                now[s] = k
            elif op == "plus":
                now[s] = within(now[a] + k)
            elif op == "neg":
                now[s] = within(-now[a])
            elif op in WINDOWS:
                now[s] = WINDOWS[op]([*events[a].values(), now[a]][-k:])
            else:
                now[s] = CALCULATE[op](now[a], now[b]) if now[b] is not None else None
        for s, value in enumerate(now):
            if value is not None:
                events[s][t] = value
                latest[s] = value
        for s, (op, a, b, _, _) in enumerate(plan):
            # a set point: what was set before is off, by an event of b, or has rung
            if op == "delay" and (now[b] is not None or now[s] is not None):
                due[s] = None
                if now[a] is not None and now[a] > 0 and t + now[a] <= LAST_STAMP:
                    due[s] = t + now[a]
                    heapq.heappush(stamps, due[s])
    return events
