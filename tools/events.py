"""Where the streams of a plan may have events, worked out from the plan alone: at stamp 0, later, with which value, and at
whose stamps."""
from collections import namedtuple

from plans import CALCULATIONS, GREATEST, LAST_STAMP, LEAST, NO_ARGUMENT, ONE_ARGUMENT, SIGNALS, WINDOWS

# What a stream may have at stamp 0 (`first`) and after it (`later`): NONE, one value only, or ANY value.
NONE, ANY = "none", "any"
May = namedtuple("May", "first later")
NEVER = May(NONE, NONE)


def either(x, y):
    """Of two possibilities, both."""
    if NONE in (x, y):
        return y if x == NONE else x
    return x if x == y else ANY


def within(x):
    return x if LEAST <= x <= GREATEST else NONE


def calculated(op, x, y):
    """Of two values that are known. Python's // goes down to the next whole number, and its % has the divisor's sign."""
    if op in ("div", "rem") and y == 0:
        return NONE
    return within({
        "add": lambda: x + y,
        "sub": lambda: x - y,
        "mul": lambda: x * y,
        "div": lambda: x // y,
        "rem": lambda: x % y,
        "lt": lambda: int(x < y),
        "le": lambda: int(x <= y),
        "eq": lambda: int(x == y),
    }[op]())


def both(op, x, y):
    """At one stamp, of an operator that wants an event of both."""
    if NONE in (x, y):
        return NONE
    if op == "keep":
        return NONE if y == 0 else x
    if op in ("div", "rem") and y == 0:
        return NONE
    return ANY if ANY in (x, y) else calculated(op, x, y)


def signal(op, a, b):
    """Of a signal form: at stamp 0 both have an event there; after it one of them has, and the other has had one, then or
    before."""
    later = NONE
    for x, y in (a.later, b.later), (a.later, b.first), (a.first, b.later):
        later = either(later, both(op, x, y))
    return May(both(op, a.first, b.first), later)


def one(stream, x):
    """At one stamp, of an operator with one argument other than time."""
    if x == NONE:
        return NONE
    if stream.op == "set":
        return stream.k
    if x == ANY:
        return ANY
    return within(x + stream.k if stream.op == "plus" else -x)


def window(stream, a):
    """Of a window: at stamp 0 there is one value to look at; after it there may be that one too, and others before."""
    if stream.k == 1 or a.later == NONE:
        return a
    known = {a.first, a.later} - {NONE}
    if ANY in known:
        return May(a.first, ANY)
    if stream.op == "wsum":
        # one value again and again, or two: how many of each is not known
        return May(a.first, 0 if known == {0} else ANY)
    best = min(known) if stream.op == "wmin" else max(known)
    return May(a.first, either(a.later, best))


def sets(x):
    """Whether a timer may be set to it: to a whole number of stamps that does not lead past the last one for sure."""
    return x == ANY or (x != NONE and 1 <= x <= LAST_STAMP)


def row(stream, may):
    """What a stream may have, from what the streams may have so far."""
    if stream.op == "in":
        return May(ANY, ANY)
    if stream.op == "nil":
        return NEVER
    if stream.op == "unit":
        return May(0, NONE)
    a = may[stream.a]
    if stream.op == "time":
        return May(NONE if a.first == NONE else 0, NONE if a.later == NONE else ANY)
    if stream.op in WINDOWS:
        return window(stream, a)
    if stream.op in ONE_ARGUMENT:
        return May(one(stream, a.first), one(stream, a.later))
    b = may[stream.b]
    if stream.op == "merge":
        return May(either(a.first, b.first), either(a.later, b.later))
    if stream.op == "last":
        # strictly before: nothing at stamp 0
        return May(NONE, NONE if b.later == NONE else either(a.first, a.later))
    if stream.op == "delay":
        # the first time it is set where b has an event
        at_first = b.first != NONE and sets(a.first)
        at_later = b.later != NONE and sets(a.later)
        return May(NONE, 0 if at_first or at_later else NONE)
    if stream.op in SIGNALS:
        return signal(SIGNALS[stream.op], a, b)
    return May(both(stream.op, a.first, b.first), both(stream.op, a.later, b.later))


def possible(plan, given=()):
    """What each stream may have: the least answer that the rows agree with. Every event comes from events at its stamp or
    before it, so that what the least answer leaves out can never be. Streams in `given` may have anything, as if read."""
    may = [May(ANY, ANY) if s in given else NEVER for s in range(len(plan))]
    while True:
        more = []
        for s, stream in enumerate(plan):
            found = row(stream, may)
            more.append(May(either(may[s].first, found.first), either(may[s].later, found.later)))
        if more == may:
            return may
        may = more


def clocks(plan, may):
    """To each stream the sources at whose stamps it has events: inputs, timers, and "0" for stamp 0. Where no two sources
    have a common stamp but 0, it has events at no other stamps."""
    found = [set() for _ in plan]
    while True:
        more = [clock(plan, may, found, s) for s in range(len(plan))]
        if more == found:
            return found
        found = more


def clock(plan, may, found, s):
    op, a, b = plan[s].op, plan[s].a, plan[s].b
    if may[s] == NEVER:
        return set()
    if op in NO_ARGUMENT:
        return {"0"} if op == "unit" else {s}
    if op == "delay":
        return {s}
    if op in ONE_ARGUMENT:
        return set(found[a])
    if op == "merge":
        return found[a] | found[b]
    if op == "last":
        return found[b] - {"0"}
    if op in SIGNALS:
        # at stamp 0 only where both have an event there
        return (found[a] | found[b]) - {"0"} | (found[a] & found[b])
    assert op in CALCULATIONS + ["keep"]
    return found[a] & found[b]
