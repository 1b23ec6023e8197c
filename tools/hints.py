"""Warnings about a plan that load takes: what it does is settled, but hardly what was meant. And what a logger has to have for it."""
from events import ANY, NEVER, NONE, clocks, possible, row, sets
from plans import CALCULATIONS, FEWER_STREAMS, LAST_STAMP, ONE_ARGUMENT, SIGNALS, inputs, reached, readers, reads, sources, windows
from words import joined

# a timer that rings no more often than this has an end in sight
MANY = 1000


def named(plan, s):
    return "stream %d (%s)" % (s, plan[s].op)


# ---- streams that can never have an event

def without_base(plan, may, s):
    """Whether stream s, a last or a delay, has no event only because it looks at its own past, which has no beginning."""
    a = plan[s].a
    if plan[s].op not in ("last", "delay") or may[a] != NEVER or (a != s and s not in sources(plan, a)):
        return False
    begun = possible(plan, given={a})
    return row(plan[s], begun) != NEVER and row(plan[a], begun) != NEVER


def base_wanted(plan, s):
    """What to do about that."""
    a = plan[s].a
    past = "its own past"
    if a != s:
        past = "the past of %s, which is worked out from stream %d itself" % (named(plan, a), s)
    if plan[s].op == "last":
        return (
            "a recursion without a base: it looks at %s, so there is never a first value. Add a unit and a merge of stream %d "
            "with it, and let a of stream %d be that merge" % (past, a, s))
    return (
        "a timer that sets itself without a beginning: it is set from %s. Add a unit, a set of it with the first time to wait, "
        "and a merge of stream %d with that set, and let a of stream %d be that merge" % (past, a, s))


def silent_argument(plan, may, s):
    """An argument of stream s that can never have an event, so that s has none; rather one that is not worked out from s."""
    silent = [x for x in reads(plan[s]) if may[x] == NEVER]
    return min(silent, key=lambda x: x == s or s in sources(plan, x), default=None)


def reason(plan, may, s):
    """Why stream s can never have an event, where none of its arguments is to blame alone."""
    stream = plan[s]
    a, b = stream.a, stream.b
    if stream.op == "nil":
        return "that is what nil means; leave it out if you do not want that"
    if stream.op == "last":
        return "stream %d has its only event at stamp 0, and nothing lies strictly before stamp 0" % b
    if stream.op == "delay":
        if sets(may[a].first) or sets(may[a].later):
            return "stream %d, the time to wait, has no event where stream %d has one, so the timer is never set" % (a, b)
        return "stream %d, the time to wait, is always 0 or less, or leads past the last stamp" % a
    if stream.op not in ONE_ARGUMENT and stream.op not in SIGNALS and not meet(may[a], may[b]):
        early, late = (a, b) if may[a].later == NONE else (b, a)
        what = "stream %d has an event only at stamp 0, and stream %d only after it: they never meet" % (early, late)
        return what + (". Use " + signal_form(stream.op) if stream.op in CALCULATIONS else "")
    if stream.op == "keep":
        return "stream %d is always 0 there; keep wants an event of it that is not 0" % b
    if SIGNALS.get(stream.op, stream.op) in ("div", "rem") and 0 in may[b]:
        return "stream %d is always 0 there, and a division by 0 gives no event" % b
    return "its result is always out of range"


def signal_form(op):
    """What to use in place of a calculation where events hardly meet."""
    return "op=s%s: it works on the last known values" % op


def meet(x, y):
    return (x.first != NONE and y.first != NONE) or (x.later != NONE and y.later != NONE)


def nevers(plan, may):
    """The streams that can never have an event: those with a reason of their own first."""
    own, following = [], []
    for s in range(len(plan)):
        if may[s] != NEVER:
            continue
        silent = silent_argument(plan, may, s)
        if without_base(plan, may, s):
            own.append((s, "can never have an event: " + base_wanted(plan, s)))
        elif silent is not None:
            following.append((s, "can never have an event because %s never has one" % named(plan, silent)))
        else:
            own.append((s, "can never have an event: " + reason(plan, may, s)))
    return own + following


# ---- timers that nothing holds back

def grown(plan, row):
    """The least set of streams that has each s with row(s, set)."""
    found = set()
    while True:
        more = {s for s in range(len(plan)) if s in found or row(s, found)}
        if more == found:
            return found
        found = more


def waiting(plan, may):
    """The streams that are known only as far as some input is."""
    def row(s, found):
        stream = plan[s]
        if stream.op not in ("last", "delay"):
            return stream.op == "in" or any(x in found for x in reads(stream))
        later = may[stream.b].later != NONE or (stream.op == "delay" and may[s].later != NONE)
        return stream.b in found or (later and stream.a in found)
    return grown(plan, row)


def held_back(plan, may):
    """The streams that have to wait, 16 events ahead, for a stream that waits for an input."""
    after = readers(plan)
    wait = waiting(plan, may)
    return grown(plan, lambda s, found: any(x in wait or (x in found and may[x].later != NONE) for x in after[s]))


def again(plan, may):
    """The timers that may set themselves again and again, each with the least number of stamps from ring to ring."""
    found = {}
    for s, stream in enumerate(plan):
        period = may[stream.a].later
        if stream.op == "delay" and may[s] != NEVER and s in sources(plan, s) and sets(period):
            found[s] = 1 if period == ANY else period
    return found


def ticks(plan, may):
    """Those of them that wait for no input, that no reader holds back, and that have no end in sight."""
    free = set(range(len(plan))) - waiting(plan, may) - held_back(plan, may)
    return [s for s, period in again(plan, may).items() if s in free and LAST_STAMP // period > MANY]


def endless(plan, may):
    """Outputs that tick without an input, and ticks that go nowhere."""
    said = {}
    after = readers(plan)
    wait = waiting(plan, may)
    for d in ticks(plan, may):
        ahead = reached(plan, d, lambda x: after[x]) | {d}
        outputs = [s for s in sorted(ahead) if plan[s].out and may[s].later != NONE and s not in wait]
        for s in outputs:
            said.setdefault(s, (
                "an output that ticks without an input: %s can set itself again up to the last stamp and no reading holds it "
                "back, so that a replay may print for hours. Let a stream that also reads an input read the ticks, and make that "
                "the output"
                % ("it" if s == d else named(plan, d))))
        if not outputs:
            said[d] = (
                "a tick that nothing %s: it is worked out up to the last stamp all the same, and the first run may take hours. "
                "Leave it out, or let a stream that also reads an input read it"
                % ("reads" if ahead <= sources(plan, d) else "holds back"))
    return list(said.items())


# ---- events that hardly meet

def where(plan, s, clock):
    """At whose stamps stream s has events, in words."""
    words = ["input %d reports" % x if plan[x].op == "in" else "timer %d rings" % x for x in sorted(clock[s] - {"0"})]
    return "where " + " or ".join(words)


def each(plan, clock, stream):
    a, b = stream.a, stream.b
    return "stream %d has events %s, stream %d %s" % (a, where(plan, a, clock), b, where(plan, b, clock))


def from_unit(plan, clock):
    """Whether all sources of a clock come from unit alone, so that their stamps are known beforehand."""
    return all(not set(inputs(plan)) & (sources(plan, x) | {x}) for x in clock - {"0"})


def calculation(plan, clock, stream):
    """Of an operator that wants an event of both arguments at the same stamp."""
    a, b = clock[stream.a], clock[stream.b]
    if (a & b) - {"0"} or a == b:
        return None
    signal = stream.op in CALCULATIONS
    if {"0"} in (a, b):
        constant, other = (stream.a, stream.b) if a == {"0"} else (stream.b, stream.a)
        what = (
            "stream %d has an event only at stamp 0, so this has none at any later stamp. For a constant at each event of "
            "stream %d use op=set, a=%d and k" % (constant, other, other))
        return what + (", or here " + signal_form(stream.op) if signal else "")
    if from_unit(plan, a) or from_unit(plan, b):
        return None
    remedy = 'use %s; see "Signals"' % signal_form(stream.op) if signal else 'see "keep against filter"'
    return (
        "%s: they meet only where both have one at the same stamp. If they do not always come together, %s in docs/MANUAL.md"
        % (each(plan, clock, stream), remedy))


def timer(plan, clock, s):
    """Of a delay, which is set where its first argument has an event at a stamp of the second or of its own."""
    stream = plan[s]
    a, b = clock[stream.a], clock[stream.b]
    if a & (b | {s}):
        return None
    if a == {"0"}:
        return (
            "stream %d, the time to wait, has an event only at stamp 0, so the timer can be set only there. For the same time at "
            "each event of stream %d use op=set, a=%d and k" % (stream.a, stream.b, stream.b))
    if b == {"0"}:
        return (
            "stream %d has an event only at stamp 0, so the timer can be set only there. Let b be a stream that has an event "
            "wherever the timer is to be set" % stream.b)
    if from_unit(plan, a) or from_unit(plan, b):
        return None
    return (
        "%s: the timer is set only where both have one at the same stamp. Let the time to wait be worked out from stream %d, "
        "as by op=set, a=%d and k" % (each(plan, clock, stream), stream.b, stream.b))


def strangers(plan, may, clock):
    """Operators that want events at the same stamp, of streams that have theirs from different sources."""
    said = []
    for s, stream in enumerate(plan):
        if may[s] == NEVER or not all(clock[x] for x in reads(stream)):
            continue
        if stream.op in CALCULATIONS + ["keep"]:
            said.append((s, calculation(plan, clock, stream)))
        elif stream.op == "delay":
            said.append((s, timer(plan, clock, s)))
    return [(s, what) for s, what in said if what]


# ---- windows that have nothing to look back at

def single(plan, may):
    """Windows over a stream that has one event at most."""
    said = []
    for s in windows(plan):
        a = plan[s].a
        if may[a] != NEVER and may[a].later == NONE:
            said.append((s, (
                "stream %d has an event only at stamp 0, so there is never more than this one value to look at. For a constant at "
                "each event of another stream, as to count them, let a be a stream op=set of that one" % a)))
    return said


# ---- streams that lead nowhere

def unread(plan, s):
    if plan[s].op == "in":
        return "nothing reads this input: its readings are taken and forgotten. Let a stream read it, or leave it out"
    return "nothing reads it and it is no output: its events go nowhere. Write out=1 on it, or leave it out"


def among_themselves(others):
    return (
        "only streams that are worked out from it read it (%s), and none of them is an output. Write out=1 on the one that you "
        "want, or leave them out" % joined(sorted(others)))


def nowhere(plan, told):
    """Streams from which no output is worked out: the last of each row of them, unless it was told already."""
    if not any(stream.out for stream in plan):
        return [(None, "the plan has no output: nothing is printed or handed out. Write out=1 on the stream that you want")]
    after = readers(plan)
    ahead = [reached(plan, s, lambda x: after[x]) for s in range(len(plan))]
    lost = [s for s in range(len(plan)) if not any(plan[x].out for x in ahead[s] | {s})]
    ends = [s for s in lost if not ahead[s] - {s}]
    said = [(s, unread(plan, s)) for s in ends if s not in told]
    told = told | set(ends)
    for s in reversed(lost):
        if not (ahead[s] | {s}) & told and all(s in ahead[x] for x in ahead[s]):
            told |= ahead[s]
            said.append((s, among_themselves(ahead[s] - {s})))
    return said


# ---- what a logger has to have for it

def longer_state(plan):
    """Of a plan that only the longer state has room for, in words; None of any other."""
    if len(plan) <= FEWER_STREAMS:
        return None
    return (
        "note: more than %d streams take the longer state, of 20480 bytes: a logger whose firmware lends 12288 refuses this plan "
        'with 3; see "More than 32 streams" in docs/MANUAL.md' % FEWER_STREAMS)


# ---- all of them

NO_STREAMS = (
    "plan.txt has no bytes. If a plan was meant, it was not saved: write it into the file, or copy the nearest one from plans/")


def warnings(plan):
    """All warnings, in words."""
    if not plan:
        return ["warning: " + NO_STREAMS]
    may = possible(plan)
    ticking = endless(plan, may)
    found = nevers(plan, may) + ticking + strangers(plan, may, clocks(plan, may)) + single(plan, may)
    found += nowhere(plan, {s for s, _ in ticking})
    return ["warning: %s%s" % ("" if s is None else named(plan, s) + ": ", what) for s, what in found]
