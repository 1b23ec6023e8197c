"""Lines of a trace: how one is read, and why one cannot be."""
import re

import causes
from causes import Cause
from plans import GREATEST, LAST_STAMP, LEAST

LINE = 64
READING = re.compile(rb"s=(0|[1-9][0-9]{0,2}) t=(0|[1-9][0-9]{0,9}) v=(0|-?[1-9][0-9]{0,18})\n")
PROGRESS = re.compile(rb"s=(0|[1-9][0-9]{0,2}) p=(0|[1-9][0-9]{0,9})\n")
FORMS = "s=0 t=3 v=7 for a reading, s=0 p=6 for progress"


def read(line):
    """(stream, stamp, value) of a reading, (stream, bound, None) of progress, None for a line that cannot be read."""
    found = READING.fullmatch(line)
    if found:
        s, t, v = int(found[1]), int(found[2]), int(found[3])
        return (s, t, v) if t <= LAST_STAMP and LEAST <= v <= GREATEST else None
    found = PROGRESS.fullmatch(line)
    return (int(found[1]), int(found[2]), None) if found else None


def of_part(key, word):
    """What is wrong with one key=value of a trace line."""
    wrong = causes.of_number(word, {"s": 3, "v": 19}.get(key, 10), key == "v")
    digits = re.fullmatch(r"-?[1-9][0-9]*", word)
    if re.fullmatch(r"\d{4}-\d\d?-\d\d?.*|\d\d?:\d\d.*|\d\d?\.\d\d?\.\d{2,4}", word):
        return Cause("a date or a time of day: %s" % word, "a stamp is one whole number, as the seconds since the start")
    if key == "t" and digits and int(word) > LAST_STAMP:
        do = "count the stamps from a later beginning, or in larger units"
        return Cause("a stamp above %d, the last one: %s" % (LAST_STAMP, word), do)
    if key == "v" and causes.out_of_range(word):
        return causes.out_of_range(word)
    if wrong and key == "s" and digits and len(word) > 3:
        return Cause("a stream number of more than three digits: %s" % word, "write the input's number in plan.txt")
    return wrong


def why(line):
    """What is wrong with a line that cannot be read."""
    wrong = causes.of_file(line) or causes.of_line(line)
    if wrong:
        return wrong
    body = line.rstrip(b"\n").decode()
    if len(body) > LINE:
        return Cause("a line of %d bytes, and at most %d are read" % (len(body), LINE), "the forms are " + FORMS)
    if "  " in body:
        return Cause("two blanks where one is due", "write one blank between the parts")
    if re.fullmatch(r"[-0-9.:]+([;, ][-0-9.:]+)+", body):
        return Cause("columns of a table", "write each line out: " + FORMS)
    keys = [part.partition("=")[0] for part in body.split(" ")]
    for part in body.split(" "):
        key, equals, word = part.partition("=")
        if equals and key in ("s", "t", "v", "p"):
            wrong = of_part(key, word)
            if wrong:
                return wrong
    if keys in (["s", "t", "v"], ["s", "p"]):
        return causes.NO_LINE_END
    if "p" in keys and ("v" in keys or "t" in keys):
        return Cause("a reading and progress on one line", "write two lines: " + FORMS)
    if any(key != key.lower() for key in keys):
        return Cause("capitals", "write s=, t=, v= and p= in small letters")
    if sorted(keys) in (["s", "t", "v"], ["p", "s"]):
        return Cause("the parts in another order", "the forms are " + FORMS)
    missing = [key for key in ("s", "t", "v") if key not in keys]
    if "p" not in keys and missing and set(keys) <= {"s", "t", "v"}:
        return Cause("no %s=" % "= and no ".join(missing), "the forms are " + FORMS)
    return Cause("not a line of a trace", "the forms are " + FORMS)
