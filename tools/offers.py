"""What replay answers to the lines of a trace, worked out from how far each input is known."""
from collections import deque

import causes
import hints
import traces
from plans import HORIZON, inputs, no_input, reached, reads

SHOWN = 20
ROOM = 16
# a replay works off some ten thousand events in a second
LONG = 1000000


def tied(plan, s):
    """The streams that have to do with stream s: those that arguments tie to it, in either direction."""
    beside = [set(reads(stream)) for stream in plan]
    for x, stream in enumerate(plan):
        for y in reads(stream):
            beside[y].add(x)
    return reached(plan, s, lambda x: beside[x]) | {s}


class Trace:
    """A trace read line by line, on a plan that is taken, or on None, where only the form of the lines is looked at."""

    def __init__(self, plan):
        self.plan = plan
        entered = inputs(plan or [])
        timers = hints.again(plan, hints.possible(plan)) if plan else {}
        # how far each input is known: at most, if all readings are taken, and for sure, if some may be refused for lack of room
        self.known = dict.fromkeys(entered, 0)
        self.sure = dict.fromkeys(entered, 0)
        self.latest = {}
        self.held = {s: deque() for s in entered}  # the stamps of the readings that it may still hold
        self.beside = {s: [x for x in entered if x in tied(plan, s)] for s in entered}
        self.timers = {s: {d: period for d, period in timers.items() if d in tied(plan, s)} for s in entered}
        self.readings = self.progress = self.faults = 0
        self.ended = None    # the first line that cannot be read
        self.crowded = None  # the first reading for which there may be no room
        self.ringing = None  # the first progress that lets a timer ring too often

    def fault(self, place, line, what, do, number):
        self.faults += 1
        ends = number == 16 and self.ended is None
        if self.faults <= SHOWN:
            print("trace.txt line %d: %s\n  the line: %s\n  do: %s" % (place, what, causes.quoted(line), do))
            print("  replay answers %d%s" % (number, " and ends here" if ends else ""))
        if ends:
            self.ended = place

    def line(self, place, line):
        """Takes in the next line."""
        parts = traces.read(line)
        if parts is None:
            self.fault(place, line, *traces.why(line), 16)
            return
        if parts[2] is None:
            self.progress += 1
        else:
            self.readings += 1
        if self.plan is not None:
            self.offer(place, line, *parts)

    def offer(self, place, line, s, stamp, value):
        if s not in self.known:
            self.fault(place, line, *no_input(self.plan, s), 7)
        elif value is None and stamp > HORIZON:
            self.fault(place, line, "progress past %d, one past the last stamp" % HORIZON, "write p=%d or less" % HORIZON, 10)
        elif stamp < self.sure[s]:
            self.fault(place, line, *self.early(s, stamp, value), 8)
        elif value is not None:
            self.reading(place, s, stamp, value)
        elif stamp >= self.known[s]:
            self.ring(place, s, stamp)
            self.known[s] = self.sure[s] = stamp

    def early(self, s, stamp, value):
        """In words: input s is already known past this stamp."""
        if value is None:
            return "progress of input %d to %d, which is already known to %d" % (s, stamp, self.sure[s]), "leave the line out"
        if self.latest.get(s) == (stamp, value):
            return "a repeat: input %d has this reading already" % s, "leave the line out; ./order does it"
        if self.latest.get(s, (None,))[0] == stamp:
            what = "a second reading of input %d at stamp %d, with another value" % (s, stamp)
            return what, "a stream has one event at a stamp: leave one of them out"
        what = "out of order: input %d is already known below %d" % (s, self.sure[s])
        return what, "readings of one input come by rising stamp; ./order sorts them"

    def reading(self, place, s, stamp, value):
        """At rest an input holds readings only at or past the stamp to which the input furthest behind is known."""
        slow = min(self.beside[s], key=lambda x: (self.sure[x], x))
        held = self.held[s]
        while held and held[0] < self.sure[slow]:
            held.popleft()
        roomy = len(held) < ROOM
        if not roomy and self.crowded is None:
            self.crowded = place, s, slow, self.sure[slow]
        if roomy and stamp >= self.known[s]:
            self.sure[s] = stamp + 1
            self.latest[s] = stamp, value
        self.known[s] = max(self.known[s], stamp + 1)
        held.append(stamp)

    def ring(self, place, s, stamp):
        """Progress over so many stamps that a timer that sets itself again rings too often."""
        for d, period in self.timers[s].items():
            rings = (stamp - self.known[s]) // period
            if rings > LONG and self.ringing is None:
                self.ringing = place, stamp, d, rings

    def end(self):
        """What is said after the last line."""
        if self.faults > SHOWN:
            print("trace.txt: %d more lines are faulty" % (self.faults - SHOWN))
        if self.ended:
            print("trace.txt: replay ends at line %d, the first that cannot be read" % self.ended)
        if self.crowded:
            print(
                "warning: trace.txt line %d: input %d is 16 readings ahead of input %d, which is known only below %d: replay may "
                "answer 9 from here on. ./order writes a trace with the progress lines that prevent it" % self.crowded)
        if self.ringing:
            print(
                "warning: trace.txt line %d: up to %d stream %d (delay) can ring %d times, and a replay takes long. Write "
                "progress only to the stamp up to which you want the ticks" % self.ringing)
