"""Why load refuses a plan text, in words: from its answer (number, line, stream) and the text."""
import difflib
import re

import causes
from causes import Cause
from plans import CALCULATIONS, KEYS, MOST_WINDOWS, NO_ARGUMENT, ONE_ARGUMENT, OPERATORS, STREAMS, TEXT, USE_K, WIDEST, WINDOWS
from plans import fields, lines_of, undelayed, windows
from words import joined, plural

TABLE = '"From TeSSLa\'s usual operators" in docs/MANUAL.md'
# TeSSLa's names that the manual's table writes with our operators
IN_TABLE = ["count", "const", "prev", "on", "sum", "filter", "default", "and", "or", "not"]
# those for an operator on events and on signals
LIFTS = ["signal", "lift", "slift"]
# names for the mean of the latest events
MEANS = ["mean", "avg", "average", "wmean", "wavg"]


def and_signals(names):
    """The names, and each that stands for a calculation with an s in front too."""
    return {**names, **{"s" + name: "s" + op for name, op in names.items() if op in CALCULATIONS}}


# comparisons that are there with a and b in the other order, and the one that is there the other way round
SWAPPED = and_signals({"gt": "lt", "more": "lt", "ge": "le", "gte": "le"})
NEGATED = and_signals({"ne": "eq", "neq": "eq"})
# names from elsewhere, and what stands for them here
ELSEWHERE = and_signals({
    "input": "in", "read": "in", "null": "nil", "none": "nil", "empty": "nil", "value": "set", "minus": "sub", "times": "mul",
    "mult": "mul", "mod": "rem", "less": "lt", "lower": "lt", "lte": "le", "equal": "eq", "equals": "eq", "timer": "delay",
    "either": "merge", "subtract": "sub", "multiply": "mul", "divide": "div", "modulo": "rem", "negate": "neg", "window": "wsum",
    "wadd": "wsum", "least": "wmin", "minimum": "wmin", "greatest": "wmax", "maximum": "wmax",
})


def due(line, count):
    """The key that is due on a line (from 1) and what it is, in a plan of `count` streams; None after the last stream."""
    if line == 1:
        return "plan", "plan=1"
    if line == 2:
        return "streams", "streams=N, the number of streams"
    stream, place = divmod(line - 3, 5)
    if count is not None and stream >= count:
        return None
    what = ["the operator", "the first argument", "the second argument", "the value", "0 or 1"][place]
    return KEYS[place], "%s=, %s of stream %d" % (KEYS[place], what, stream)


def count_of(lines):
    """The number after streams=, where it can be read."""
    found = re.fullmatch(rb"streams=(\d{1,3})\n", lines[1]) if len(lines) > 1 else None
    return int(found[1]) if found else None


def op_lines(lines):
    """How many streams the text seems to have."""
    return sum(1 for line in lines if re.match(rb"\s*op\s*=", line, re.I))


# ---- nothing in it

NO_PLAN = ". For a card without a plan the file has to have no bytes at all: the command : >plan.txt in its folder makes one"


def looks_empty(text):
    """Whether an editor shows nothing of a text that has bytes: blanks, line ends, a mark at the beginning."""
    return text != b"" and re.fullmatch(rb"(\xef\xbb\xbf|\xff\xfe|\xfe\xff)?[ \t\r\n\0]*", text) is not None


def unseen(text):
    return Cause("the file looks empty, but has %s in it" % plural(len(text), "byte"), "write the plan into it" + NO_PLAN)


# ---- too few lines, too many

def ends_early(lines, line, count):
    """The text ends before this line."""
    if line <= 2:
        return Cause("the text ends before this line", "write the line and those that follow it" + NO_PLAN)
    stream, place = divmod(line - 3, 5)
    if place > 0:
        return Cause(
            "the text ends in stream %d: its line %s= is missing" % (stream, KEYS[place]),
            "add the missing lines: each stream has op, a, b, k, out")
    return Cause(
        "the text ends after %s, but streams=%d says %d" % (plural(stream, "stream"), count, count),
        "write streams=%d, or add the missing streams" % stream if stream else "add the streams, five lines each")


def goes_on(lines, line, count):
    """The text goes on at this line, after the last stream."""
    if lines[line - 1].strip() == b"":
        return Cause("an empty line after the last stream", "delete it: after the last out line comes nothing")
    if lines[line - 1].startswith(b"plan="):
        return Cause("a second plan begins after the last stream", "put each plan into a folder of its own")
    there = op_lines(lines)
    what = "the text goes on after stream %d, the last one" % (count - 1)
    if there <= count:
        return Cause(what, "delete the lines from here; each stream has op, a, b, k, out, once each")
    what += ": streams=%d, but it has %d op lines" % (count, there)
    if there > STREAMS:
        return Cause(what, "delete streams: a plan has at most %d" % STREAMS)
    return Cause(what, "write streams=%d, or delete the lines from here" % there)


# ---- the key

def of_key(lines, line, key):
    """What is wrong if the line's key is not the one that is due; None if it is."""
    body = lines[line - 1].rstrip(b"\n").decode()
    found, equals, _ = body.partition("=")
    form = "write key=value, as %s=%s" % (key, "merge" if key == "op" else "1" if key in ("plan", "streams") else "0")
    if re.match(r"\d+:\s*[a-z]+", body):
        return Cause("a stream in one line, as the manual writes it", "write it out in five lines: op, a, b, k and out")
    if not equals:
        return Cause("a colon where = is due" if re.match(r"[A-Za-z]+\s*:", body) else "the line has no =", form)
    if found == key:
        return None
    if found.lower() == key:
        return Cause("capitals in %s=" % found, "write it in small letters, %s=" % key)
    if found.strip("'\"") != found:
        return Cause("quotation marks", "take them away")
    known = ["plan", "streams"] + KEYS
    if found.lower() not in known:
        return Cause("%s= is no key of a plan" % causes.cut(found), "the keys are %s" % joined(known))
    if line > 1 and lines[line - 2].startswith(found.encode() + b"="):
        return Cause("%s= a second time, where %s= is due" % (found, key), "delete one of the two")
    order = "each stream has op, a, b, k, out, in this order" if key in KEYS else "a plan begins with plan=1 and streams=N"
    return Cause(
        "%s= where %s= is due" % (found, key),
        "put the missing line %s= before it, or the lines into order: %s" % (key, order))


# ---- the operator's name

def nearest(name):
    """What to do about a name that is no operator."""
    low = name.lower()
    if low in OPERATORS:
        return "write op=%s, in small letters" % low
    if low in SWAPPED:
        return "write op=%s, with a and b in the other order; see %s" % (SWAPPED[low], TABLE)
    if low in NEGATED:
        return "write op=%s, and then not; see %s" % (NEGATED[low], TABLE)
    if low in LIFTS:
        return (
            "write the operator itself: op=add and the like work where both arguments have an event, op=sadd and the like on "
            'their last known values; see "Signals" in docs/MANUAL.md')
    if low in MEANS:
        return "a mean is a sum divided by how many there are, as by op=wsum and op=div; plans/curve has one of the last ten"
    if low in IN_TABLE:
        return "see %s: it says how to write %s in a plan" % (TABLE, low)
    if low.startswith("s") and low[1:] in ONE_ARGUMENT + ["keep", "merge", "last", "delay"]:
        return no_signal_form(low[1:])
    close = difflib.get_close_matches(low, OPERATORS, 1, 0.5)
    guess = ELSEWHERE.get(low) or (close[0] if close else None)
    return ("did you mean op=%s? " % guess if guess else "") + 'the names are in the table "The operators" in docs/MANUAL.md'


def no_signal_form(op):
    """What to do about an s in front of an operator that has no signal form."""
    if op == "keep":
        return 'keep has no signal form; to keep by the last known condition see "keep against filter" in docs/MANUAL.md'
    if op in ONE_ARGUMENT:
        other = ", or op=sadd for the sum of two streams" if op == "plus" else ""
        return "%s works on one stream and has no signal form: write op=%s%s" % (op, op, other)
    return "only %s have a signal form: write op=%s" % (joined(CALCULATIONS), op)


def of_name(name):
    """What is wrong with a name that is not even of the form of one."""
    if name == "":
        return Cause("the operator's name is missing", "write one, as op=in")
    if name.strip("'\"") != name:
        return Cause("quotation marks", "take them away")
    if re.search("[A-Z]", name) and re.fullmatch("[A-Za-z]+", name):
        return Cause("capitals in op=%s" % name, nearest(name))
    if re.fullmatch("[a-z]{6,}", name):
        return Cause("%s is no operator: names have at most five letters" % causes.cut(name), nearest(name))
    several = re.match(r"([a-z]{1,5})[ (]", name)
    if several:
        return Cause("more than a name after op=", "write op=%s, and its arguments on the lines a=, b= and k=" % several[1])
    return Cause("%s is no name of an operator: names are one to five small letters" % causes.cut(name), nearest(name))


# ---- what stands after another key

def of_value(key, word):
    """What is wrong with what stands after the right key; None if nothing is."""
    if key == "op":
        return of_name(word)
    if word[:1] in ("'", '"') and word:
        return Cause("quotation marks", "take them away")
    if re.search(" (op|a|b|k|out|streams)=", " " + word):
        return Cause("more than one key on the line", "write each key=value on a line of its own")
    if key == "plan":
        do = "write plan=1; streams= on the next line is the count"
        return Cause("plan=%s: the first line is always plan=1" % causes.cut(word), do)
    if key == "out":
        return Cause("out=%s: out is 0 or 1" % causes.cut(word), "write out=1 for an output, out=0 otherwise")
    if key in ("a", "b") and re.fullmatch("[A-Za-z_][A-Za-z_0-9]*", word):
        return Cause("a name where a number is due: %s" % causes.cut(word), "streams are named by their numbers, counted from 0")
    if " " in word:
        return Cause("a blank in the line", "take it away")
    if key == "k":
        return causes.out_of_range(word) or causes.of_number(word, 19, True)
    return causes.of_number(word, 3, False)


# ---- number by number

def of_length(text):
    """Number 1, with the first line that is not as a plan's lines are."""
    lines = lines_of(text)
    what = "the text has %d bytes, and at most %d are taken" % (len(text), TEXT)
    for place, line in enumerate(lines, 1):
        if not as_in_a_plan(line, due(place, count_of(lines))):
            short = "a plan with nothing else in it is always shorter"
            return Cause(what, "%s. Look at line %d first: %s" % (short, place, of_form(text, place).what))
    return Cause(what, "look for numbers that are too long")


def as_in_a_plan(line, where):
    forms = {"plan": rb"plan=1\n", "op": rb"op=[a-z]{1,5}\n", "out": rb"out=[01]\n"}
    return where and re.fullmatch(forms.get(where[0], rb"%s=-?[0-9]+\n" % where[0].encode()), line)


def of_form(text, line):
    """Number 2: what is wrong at a line."""
    lines = lines_of(text)
    if looks_empty(text):
        return unseen(text)
    if line == 1 and causes.of_file(text):
        return causes.of_file(text)
    if line > len(lines):
        return ends_early(lines, line, count_of(lines))
    here = lines[line - 1]
    where = due(line, count_of(lines))
    general = causes.of_line(here)
    if where is None:
        return general if here.strip() and general else goes_on(lines, line, count_of(lines))
    if general:
        return general
    if as_in_a_plan(here + b"\n", where) and where[0] in ("plan", "op", "out"):
        return causes.NO_LINE_END
    wrong = of_key(lines, line, where[0]) or of_value(where[0], here.rstrip(b"\n").decode().partition("=")[2])
    return wrong or causes.NO_LINE_END


def of_count(text):
    """Number 3."""
    lines = lines_of(text)
    there, count = op_lines(lines), count_of(lines)
    what = "streams=%d: %s" % (count, "a plan has at most %d streams" % STREAMS if count else "the number is 1 or more")
    if 1 <= there <= STREAMS:
        return Cause(what, "write streams=%d, as many as the text has op lines" % there)
    if there:
        return Cause(what, "leave streams out, or split the plan into two")
    return Cause(what, "write how many streams the plan has, and five lines for each" if count else "add the streams" + NO_PLAN)


def of_operator(text, line):
    """Number 4."""
    name = lines_of(text)[line - 1].rstrip(b"\n").decode().partition("=")[2]
    return Cause("%s is no operator" % name, nearest(name))


def uses(op):
    """The fields that an operator uses."""
    arguments = [] if op in NO_ARGUMENT else ["a"] if op in ONE_ARGUMENT else ["a", "b"]
    return arguments + (["k"] if op in USE_K else [])


def of_field(plan, line, s):
    """Number 5: the field at the line, of stream s."""
    op, key = plan[s].op, KEYS[(line - 3) % 5]
    value = getattr(plan[s], key)
    if key == "out":
        return Cause("out=1 on an input", "to hand out an input, add a stream op=plus, a=%d, k=0, and mark that with out=1" % s)
    if key in uses(op):
        return Cause(
            "there is no stream %d: with streams=%d the highest is %d" % (value, len(plan), len(plan) - 1),
            "write the number of the stream that you mean; streams are counted from 0")
    used = joined(uses(op) or ["none of a, b and k"])
    return Cause("%s=%d, but %s does not use %s: it uses %s" % (key, value, op, key, used), "write %s=0" % key)


def of_window(plan, line, s):
    """Number 18: the width at the line, or the operator of the first window too many, of stream s."""
    if KEYS[(line - 3) % 5] == "k":
        return Cause(
            "k=%d, but the k of %s is %d to %d: how many of the latest events it looks at" % (plan[s].k, plan[s].op, 1, WIDEST),
            "write a number from %d to %d" % (1, WIDEST))
    return Cause(
        "stream %d (%s) is a window too many: a plan has at most eight of %s, and this one has %d"
        % (s, plan[s].op, joined(WINDOWS), len(windows(plan))),
        "leave windows out, or split the plan into two; those before it are %s" % joined(windows(plan)[:MOST_WINDOWS]))


def cycle(plan, s):
    """A shortest way from stream s back to itself by undelayed arguments."""
    ways, met = [[s]], set()
    while ways:
        way = ways.pop(0)
        for x in undelayed(plan[way[-1]]):
            if x == s:
                return way
            if x not in met:
                met.add(x)
                ways.append(way + [x])
    return [s]


def of_cycle(plan, s):
    """Number 6: stream s leads to itself."""
    way = cycle(plan, s)
    steps = ["stream %d (%s) reads %s" % (x, plan[x].op, y if y != x else "itself") for x, y in zip(way, way[1:] + [s])]
    return Cause(
        "a cycle: " + ", ".join(steps),
        "a stream may be worked out from its own past only: a cycle must pass through the first argument (a) of a last or a "
        'delay; see "Stamp 0 and the base of a recursion" in docs/MANUAL.md')


def why(text, verdict):
    number, line, stream = verdict
    if number == 1:
        return of_length(text)
    if number == 2:
        return of_form(text, line)
    if number == 3:
        return of_count(text)
    if number == 4:
        return of_operator(text, line)
    if number == 5:
        return of_field(fields(text), line, stream)
    return of_window(fields(text), line, stream) if number == 18 else of_cycle(fields(text), stream)


# ---- what is printed

def elsewhere(text, line):
    """In one line: the mistakes on other lines that show in their bytes."""
    found = {}
    for place, other in enumerate(lines_of(text), 1):
        wrong = causes.of_line(other) if place != line else None
        if wrong:
            found.setdefault(wrong.what.partition(":")[0], []).append(place)
    words = []
    for what, places in found.items():
        more = "line %d" % places[0] if len(places) == 1 else "%d lines, the first is %d" % (len(places), places[0])
        words.append("%s on %s" % (what, more))
    return "  also: " + "; ".join(words) if words else None


def explain(text, verdict):
    """The lines to print for a text that is refused."""
    number, line, _ = verdict
    cause = why(text, verdict)
    lines = lines_of(text)
    said = ["plan.txt%s: %s" % (" line %d" % line if line else "", cause.what)]
    if 1 <= line <= len(lines):
        said.append("  the line: %s" % causes.quoted(lines[line - 1]))
    where = due(line, count_of(lines)) if number in (2, 3, 4) else None
    if where:
        said.append("  due here: %s" % where[1])
    said.append("  do: %s" % cause.do)
    more = elsewhere(text, line) if number in (1, 2) and cause != causes.UTF_16 and not looks_empty(text) else None
    return said + ([more] if more else []) + ["  load answers %d" % number]
