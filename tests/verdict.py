#!/usr/bin/env python3
"""A second judge of plan texts, from document 01's "Plan text" and "Load" with document 02's operators, its plan of no streams and its
number 18, apart from the library: it reads a text from the standard input and prints `number=N line=L stream=S`, as the program
`verdict` does. `verdict(text)` gives the three."""
import re
import sys

KEYS = ["op", "a", "b", "k", "out"]
NO_ARGUMENT = ["in", "nil", "unit"]
WINDOWS = ["wsum", "wmin", "wmax"]
ONE_ARGUMENT = ["time", "set", "plus", "neg"] + WINDOWS
CALCULATIONS = ["add", "sub", "mul", "div", "rem", "lt", "le", "eq"]
# the signal forms among them: "with s in front"
TWO_ARGUMENTS = CALCULATIONS + ["keep", "merge", "last", "delay"] + ["s" + op for op in CALCULATIONS]
USE_K = ["set", "plus"] + WINDOWS
DELAYED = ["last", "delay"]

NATURAL = r"(?:0|[1-9][0-9]*)"
SMALL = r"(?:0|[1-9][0-9]{0,2})"
FORM = {
    "plan": re.compile(rb"plan=1\n"),
    "streams": re.compile(rb"streams=(%s)\n" % SMALL.encode()),
    # "any other fault of an op line is 2": one to five small letters are the form
    "op": re.compile(rb"op=([a-z]{1,5})\n"),
    "a": re.compile(rb"a=(%s)\n" % SMALL.encode()),
    "b": re.compile(rb"b=(%s)\n" % SMALL.encode()),
    "k": re.compile(rb"k=(%s|-[1-9][0-9]*)\n" % NATURAL.encode()),
    "out": re.compile(rb"out=([01])\n"),
}


class Fault(Exception):
    """Raised with number, line and stream."""


def take(lines, place, key, stream):
    """What the line at this place (from 0) says, which must be `key`'s."""
    found = FORM[key].fullmatch(lines[place]) if place < len(lines) else None
    good = found and (key != "k" or -2**63 <= int(found[1]) < 2**63)
    if not good:
        raise Fault(2, place + 1, stream)
    return found[1].decode() if found.lastindex else ""


def read(text):
    """The rows (op, a, b, k, out) of a text that passes numbers 1 to 4."""
    if len(text) > 4096:
        raise Fault(1, 0, 0)
    # "An empty plan text now means a plan of no streams"
    if not text:
        return []
    lines = re.findall(rb"[^\n]*\n|[^\n]+", text)
    take(lines, 0, "plan", 0)
    count = int(take(lines, 1, "streams", 0))
    if not 1 <= count <= 64:
        raise Fault(3, 2, 0)
    rows = []
    for stream in range(count):
        row = []
        for key in KEYS:
            place = 2 + 5 * stream + len(row)
            word = take(lines, place, key, stream)
            if key == "op" and word not in NO_ARGUMENT + ONE_ARGUMENT + TWO_ARGUMENTS:
                raise Fault(4, place + 1, stream)
            row.append(word if key == "op" else int(word))
        rows.append(row)
    if len(lines) > 2 + 5 * count:
        raise Fault(2, 3 + 5 * count, 0)
    return rows


def rule_5(rows):
    """An unused field not 0, a used argument not below N, or out=1 on in."""
    for stream, (op, a, b, k, out) in enumerate(rows):
        bad = [
            a != 0 if op in NO_ARGUMENT else a >= len(rows),
            b >= len(rows) if op in TWO_ARGUMENTS else b != 0,
            k != 0 and op not in USE_K,
            op == "in" and out == 1,
        ]
        if any(bad):
            raise Fault(5, 4 + 5 * stream + bad.index(True), stream)


def rule_18(rows):
    """"a width outside 1 to 64 or a ninth window": the lowest stream with such a width, by its k line; else the ninth window, by its
    op line."""
    windows = [stream for stream, row in enumerate(rows) if row[0] in WINDOWS]
    for stream in windows:
        if not 1 <= rows[stream][3] <= 64:
            raise Fault(18, 6 + 5 * stream, stream)
    if len(windows) > 8:
        raise Fault(18, 3 + 5 * windows[8], windows[8])


def rule_6(rows):
    """A cycle without a delayed argument: the lowest stream that leads to itself."""
    step = []
    for op, a, b, _, _ in rows:
        step.append(({a} if op in ONE_ARGUMENT + TWO_ARGUMENTS and op not in DELAYED else set()) | ({b} if op in TWO_ARGUMENTS else set()))
    for start in range(len(rows)):
        met, todo = set(), list(step[start])
        while todo:
            stream = todo.pop()
            if stream not in met:
                met.add(stream)
                todo.extend(step[stream])
        if start in met:
            raise Fault(6, 3 + 5 * start, start)


def verdict(text):
    try:
        rows = read(text)
        rule_5(rows)
        rule_18(rows)
        rule_6(rows)
    except Fault as fault:
        return fault.args
    return 0, 0, 0


if __name__ == "__main__":
    print("number=%d line=%d stream=%d" % verdict(sys.stdin.buffer.read(2049)))
