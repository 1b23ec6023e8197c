"""Plans for ./check and ./order: the operators, what load answers to a text, and the streams of a text that it takes."""
import os
import re
import subprocess
from collections import namedtuple

from words import joined

TOP = os.path.dirname(os.path.dirname(os.path.realpath(__file__)))
LAST_STAMP = 4294967295
HORIZON = LAST_STAMP + 1
LEAST, GREATEST = -2**63, 2**63 - 1
TEXT = 4096
STREAMS = 64
# as many as the shorter of the two states has room for
FEWER_STREAMS = 32
WIDEST = 64
MOST_WINDOWS = 8

# by what they use
NO_ARGUMENT = ["in", "nil", "unit"]
# at each event of their argument, something of its latest k values
WINDOWS = ["wsum", "wmin", "wmax"]
ONE_ARGUMENT = ["time", "set", "plus", "neg"] + WINDOWS
CALCULATIONS = ["add", "sub", "mul", "div", "rem", "lt", "le", "eq"]
# the signal form of each, on the last known values
SIGNALS = {"s" + op: op for op in CALCULATIONS}
TWO_ARGUMENTS = CALCULATIONS + ["keep", "merge", "last", "delay"] + list(SIGNALS)
OPERATORS = NO_ARGUMENT + ONE_ARGUMENT + TWO_ARGUMENTS
USE_K = ["set", "plus"] + WINDOWS
KEYS = ["op", "a", "b", "k", "out"]

Stream = namedtuple("Stream", "op a b k out")
Verdict = namedtuple("Verdict", "number line stream")


class NoVerdict(Exception):
    """The program that judges plan texts gave no answer; it says itself why."""


def verdict(text):
    """What load answers to a text, and where, by the proved program; while that is being proved it says how far it is."""
    done = subprocess.run([os.path.join(TOP, "tools", "program"), "verdict"], input=text[:TEXT + 1], stdout=subprocess.PIPE)
    found = re.fullmatch(rb"number=(\d+) line=(\d+) stream=(\d+)\n", done.stdout)
    if not found:
        raise NoVerdict
    return Verdict(*map(int, found.groups()))


def lines_of(text):
    """The lines of a text, each with its byte 10 if it has one."""
    return re.findall(rb"[^\n]*\n|[^\n]+", text)


def fields(text):
    """The streams of a text whose lines have the right form, also if it breaks rule 5, 18 or 6; none of the text of no bytes."""
    words = [line.rstrip(b"\n").split(b"=")[1].decode() for line in lines_of(text)[2:]]
    rows = [words[place:place + 5] for place in range(0, len(words), 5)]
    return [Stream(op, int(a), int(b), int(k), out == "1") for op, a, b, k, out in rows]


def reads(stream):
    """The streams that a stream is worked out from."""
    if stream.op in NO_ARGUMENT:
        return []
    return [stream.a] if stream.op in ONE_ARGUMENT else [stream.a, stream.b]


def undelayed(stream):
    """Those of them that are read at the same stamp: all but the first of a last or a delay."""
    return [stream.b] if stream.op in ("last", "delay") else reads(stream)


def windows(plan):
    return [s for s, stream in enumerate(plan) if stream.op in WINDOWS]


def inputs(plan):
    return [s for s, stream in enumerate(plan) if stream.op == "in"]


def no_input(plan, s):
    """In words: stream s takes no readings, and what there is."""
    what = "there is no stream %d" % s if s >= len(plan) else "stream %d (%s) is no input" % (s, plan[s].op)
    if not plan:
        return what, "the plan has no streams: put the plan of these readings into plan.txt"
    return what, "the inputs of plan.txt are %s" % joined(inputs(plan)) if inputs(plan) else "the plan has no input"


def reached(plan, start, step):
    """All streams that `step` leads to from stream `start`, in one step or more."""
    met, todo = set(), list(step(start))
    while todo:
        s = todo.pop()
        if s not in met:
            met.add(s)
            todo.extend(step(s))
    return met


def sources(plan, s):
    """All streams that stream s is worked out from, directly or not."""
    return reached(plan, s, lambda x: reads(plan[x]))


def readers(plan):
    """To each stream those that read it directly."""
    found = [[] for _ in plan]
    for s, stream in enumerate(plan):
        for x in dict.fromkeys(reads(stream)):
            found[x].append(s)
    return found
