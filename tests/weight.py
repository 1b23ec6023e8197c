#!/usr/bin/env python3
"""The day of plans/weight, the evening of plans/light, the night of plans/hill, the weighings of plans/curve and the visits of
plans/colony, apart from the engine: the day's readings, and what must be printed of all five, by the arithmetic of the questions.
Without an argument it compares the files with this; `tests/weight.py --write` writes the day's readings-0.txt, readings-1.txt and
expected.txt. Run at the top of the repository."""
import re
import sys
from fractions import Fraction
from math import floor

MINUTE, HOUR, DAY = 60, 3600, 86400
# a cold clear day, in tenths of a degree, at each full hour
TEMPERATURES = [-61, -74, -86, -97, -108, -119, -131, -124, -88, -31, 24, 67, 98, 117, 126, 121, 103, 72, 39, 11, -12, -29, -43, -55]


def inside(minute):
    """Whether the bird is in the box: at night, and for some minutes of each half hour of the day."""
    return minute < 402 or minute >= 1047 or minute % 31 in (3, 4, 5, 17)


def weighing(stamp):
    """The box, the bird, what the cold or warm balance adds, and a gram that comes and goes."""
    minute = stamp // MINUTE
    box = 312 + stamp // (4 * HOUR)
    return box + (19 if inside(minute) else 0) + round(TEMPERATURES[stamp // HOUR] / 100) + (1 if minute * minute % 7 == 2 else 0)


def quotient(x, y):
    """Document 02: "a quotient goes down to the next whole number", by fractions."""
    return floor(Fraction(x, y))


def results(stamp):
    """The last known temperature at or before a weighing, and the weight less one gram for each ten degrees."""
    temperature = TEMPERATURES[stamp // HOUR]
    return temperature, weighing(stamp) - quotient(temperature, 100)


def printed(stamps):
    """What comes out together: all of stream 5, then all of stream 8."""
    return ["s=5 t=%d v=%d\n" % (t, results(t)[0]) for t in stamps] + ["s=8 t=%d v=%d\n" % (t, results(t)[1]) for t in stamps]


def expected():
    """A weighing comes out when the thermometer is known past it: at the progress to the next minute, or at its own reading
    of the full hour, together with the weighing of that hour; the last one at the end of the record."""
    lines, waiting = [], []
    for stamp in range(0, DAY, MINUTE):
        if stamp % HOUR == 0:
            lines += printed(waiting + [stamp])
            waiting = []
        else:
            lines += printed(waiting)
            waiting = [stamp]
    return lines + printed(waiting)


FILES = {
    "plans/weight/readings-0.txt": ["t=%d v=%d\n" % (t, weighing(t)) for t in range(0, DAY, MINUTE)],
    "plans/weight/readings-1.txt": ["t=%d v=%d\n" % (t, TEMPERATURES[t // HOUR]) for t in range(0, DAY, HOUR)],
    "plans/weight/expected.txt": expected(),
}


# ---- plans/light

def light(weight, temperature):
    """Whether an owl is too light: 290 g at 0 degrees, one gram more for each degree below, one less for each above."""
    return weight < 290 - Fraction(temperature, 10)


def evening(trace):
    """What the lines of a trace print: where the balance or the thermometer reports, once both have, and not before both are
    known past that stamp."""
    known, latest, waiting, lines = [0, 0], [None, None], [], []
    for line in trace:
        s, bound, stamp, value = re.fullmatch(r"s=([01]) (?:p=(\d+)|t=(\d+) v=(-?\d+))\n", line).groups()
        s = int(s)
        known[s] = int(bound) if bound else int(stamp) + 1
        if stamp:
            waiting.append((int(stamp), s, int(value)))
        for t in sorted({t for t, _, _ in waiting if t < min(known)}):
            for _, x, v in [reading for reading in waiting if reading[0] == t]:
                latest[x] = v
            if None not in latest:
                lines.append("s=6 t=%d v=%d\n" % (t, light(*latest)))
        waiting = [reading for reading in waiting if reading[0] >= min(known)]
    return lines


# ---- plans/hill

def night(trace):
    """What the lines of a trace print: at each full hour the mean of the readings since the full hour before, if there is one,
    and not before the thermometer is known to that hour."""
    hour, readings, lines = 0, [], []
    for line in trace:
        bound, stamp, value = re.fullmatch(r"s=0 (?:p=(\d+)|t=(\d+) v=(-?\d+))\n", line).groups()
        known = int(bound) if bound else int(stamp) + 1
        if stamp:
            readings.append((int(stamp), int(value)))
        while hour + HOUR <= known:
            values = [v for t, v in readings if hour <= t < hour + HOUR]
            hour += HOUR
            if values:
                lines.append("s=20 t=%d v=%d\n" % (hour, quotient(sum(values), len(values))))
    return lines


# ---- plans/curve

def perch(trace):
    """What the lines of a trace print: with each weighing the mean of the last ten of all so far, the least and the greatest."""
    weighings, lines = [], []
    for line in trace:
        stamp, value = map(int, re.fullmatch(r"s=0 t=(\d+) v=(-?\d+)\n", line).groups())
        weighings.append(value)
        last = weighings[-10:]
        lines += ["s=%d t=%d v=%d\n" % (s, stamp, v) for s, v in [(4, quotient(sum(last), len(last))), (5, min(last)), (6, max(last))]]
    return lines


# ---- plans/colony

BOXES = 10


def colony(trace):
    """What the lines of a trace print: with a box's own line its visits so far, at stamp 0 and at each visit; then what hangs on all
    boxes, as far as the one known least: the visits of all together wherever one had a visit, and at each full hour those of the hour,
    the most of an hour and the mean of the last four hours."""
    known, visits, lines = [0] * BOXES, [[] for _ in range(BOXES)], []
    told, hours = 0, []
    for line in trace:
        s, bound, stamp = re.fullmatch(r"s=(\d+) (?:p=(\d+)|t=(\d+) v=\d+)\n", line).groups()
        box = int(s) // 4
        fresh = [(0, 0)] if known[box] == 0 else []
        known[box] = int(bound) if bound else int(stamp) + 1
        if stamp:
            visits[box].append(int(stamp))
            fresh.append((int(stamp), len(visits[box])))
        lines += ["s=%d t=%d v=%d\n" % (4 * box + 4, t, v) for t, v in fresh]
        before, told = told, min(known)
        all_visits = [t for stamps in visits for t in stamps]
        for t in sorted({0, *all_visits}):
            if before <= t < told:
                lines.append("s=49 t=%d v=%d\n" % (t, sum(x <= t for x in all_visits)))
        # what lies strictly before a full hour is known as soon as all boxes are known to it
        full = [HOUR * (n + 1) for n in range(len(hours), told // HOUR)]
        hours += [sum(t - HOUR <= x < t for x in all_visits) for t in full]
        latest = [hours[max(0, t // HOUR - 4):t // HOUR] for t in full]
        for s, results in ((57, [four[-1] for four in latest]), (58, map(max, latest)), (62, [quotient(sum(four), len(four)) for four in latest])):
            lines += ["s=%d t=%d v=%d\n" % (s, t, v) for t, v in zip(full, results)]
    return lines


def compare(folder, printed):
    """What is worked out of a folder's trace stands in its expected.txt; gives how many lines that are."""
    with open(folder + "/trace.txt", encoding="ascii") as file:
        lines = printed(file)
    with open(folder + "/expected.txt", encoding="ascii") as file:
        if file.readlines() != lines:
            sys.exit("%s/expected.txt is not what is worked out here" % folder)
    return len(lines)


def main(write):
    for path, lines in FILES.items():
        with open(path, "w" if write else "r", encoding="ascii") as file:
            if write:
                file.writelines(lines)
            elif file.readlines() != lines:
                sys.exit("%s is not what is worked out here" % path)
    print("the day of plans/weight: %d weighings, %d temperatures" % (DAY // MINUTE, len(TEMPERATURES)))
    print("the evening of plans/light: %d answers" % compare("plans/light", evening))
    print("the night of plans/hill: %d means" % compare("plans/hill", night))
    print("the weighings of plans/curve: %d lines" % compare("plans/curve", perch))
    print("the visits of plans/colony: %d lines" % compare("plans/colony", colony))


if __name__ == "__main__":
    main("--write" in sys.argv[1:])
