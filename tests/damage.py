"""Damaged plan texts, for the tests: edits of good plans, from the ones a hand makes to single bytes; and texts of few bytes."""
import glob

from shortly import OPERATORS, WINDOWS, random_plan, text_of

NUMBERS = ["0", "1", "5", "31", "32", "33", "64", "65", "00", "01", "-0", "-1", "+1", "999", "1000", "", "1.5", "0,5", "9223372036854775807", "9223372036854775808", "-9223372036854775808", "-9223372036854775809"]
NAMES = list(OPERATORS) + ["", "Merge", "merg", "count", "filter", "on", "x", "sneg", "sadds", "Sadd", "smerge", "wsums", "Wsum", "wavg", "add1", "abcdef", "in "]
LINES = ["", "# x", "plan=1", "plan=2", "streams=3", "op=in", "a=0", "b=0", "k=0", "out=0", "out=1", "out=2", " a=0", "a =0", "OP=in", "\t", "a=0\r"]
# the plan of no streams, and what is close to it
FEW = [b"", b"", b"", b"\n", b" ", b"\x00", b"\xef\xbb\xbf", b"plan=1", b"plan=1\n", b"plan=1\n\n", b"streams=0\n", b"plan=1\nstreams=0", b"plan=1\nstreams=0\n", b"plan=1\nstreams=0\n\n"]
BYTES = b"\n\r\t =-+.,0129azAZ#;\x00\x7f\x80\xff"


def by_line(draw, lines):
    """One line left out, doubled, swapped, put in or written anew; put in where there is none."""
    if not lines:
        lines.append(draw.choice(LINES) + "\n")
        return
    place = draw.randrange(len(lines))
    way = draw.randrange(7)
    if way == 0:
        del lines[place]
    elif way == 1:
        lines.insert(place, lines[place])
    elif way == 2:
        other = draw.randrange(len(lines))
        lines[place], lines[other] = lines[other], lines[place]
    elif way == 3:
        lines.insert(draw.randrange(len(lines) + 1), draw.choice(LINES) + "\n")
    else:
        key = lines[place].partition("=")[0]
        lines[place] = "%s=%s\n" % (key, draw.choice(NAMES if key == "op" else NUMBERS))


def by_byte(draw, text):
    """One byte put in, taken out or altered, or the text cut."""
    place = draw.randrange(len(text) + 1)
    way = draw.randrange(4)
    if way == 0:
        return text[:place] + bytes([draw.choice(BYTES)]) + text[place:]
    if way == 1:
        return text[:place] + text[place + 1:]
    if way == 2:
        return text[:place] + bytes([draw.choice(BYTES)]) + text[place + 1:]
    return text[:place]


def by_field(draw, rows):
    """A field of one stream, of the right form: what numbers 5, 18 and 6 are about."""
    place = draw.randrange(len(rows))
    op, a, b, k, out = rows[place]
    way = draw.randrange(7)
    if way == 0:
        op = draw.choice(list(OPERATORS))
    elif way == 5 and OPERATORS[op] == 1:
        op, k = draw.choice(WINDOWS), draw.choice([0, 1, 10, 63, 64, 64, 65, 66, 256, 257, -1, 2**32 + 5, 2**63 - 1, -2**63])
    elif way == 6 and op in WINDOWS:
        k = draw.choice([0, 65, -1])
    elif way in (1, 2):
        a = draw.randrange(len(rows) + 2)
    elif way == 3:
        b = draw.randrange(len(rows) + 2)
    else:
        out = True
    rows[place] = op, a, b, k, out


def ring(draw, count):
    """Streams of which each reads the next, in a hidden order, closed to a ring or open, with an input at its end."""
    names = list(range(count))
    draw.shuffle(names)
    rows = [None] * count
    for s, after in zip(names, names[1:] + names[:1]):
        rows[s] = "neg", after, 0, 0, draw.random() < 0.2
    if draw.random() < 0.5:
        rows[names[-1]] = "in", 0, 0, 0, False
    return rows


def texts(draw, rounds):
    """So many texts: of the plans under plans/ and of random plans, with none to three edits."""
    good = [open(path, encoding="ascii").read() for path in sorted(glob.glob("plans/*/plan.txt"))]
    for turn in range(rounds):
        if turn % 50 == 0:
            # at and above the greatest length, and the one that was it before the longer state
            yield (draw.choice(good) + "x" * 4096).encode()[:draw.choice([2047, 4095]) + turn // 50 % 4]
            continue
        if turn % 25 == 1:
            yield draw.choice(FEW)
            continue
        if turn % 3 == 0:
            count = draw.choice([1, 2, 5, 12, 32, 33, 47, 64, 65])
            rows = ring(draw, count) if draw.random() < 0.1 else random_plan(draw, count)
            if draw.random() < 0.1:
                # about as many windows as are taken
                for place in draw.sample(range(len(rows)), min(len(rows), draw.randrange(7, 11))):
                    rows[place] = draw.choice(WINDOWS), rows[place][1], 0, draw.choice([1, 2, 3, 64]), rows[place][4]
            for _ in range(draw.randrange(3)):
                by_field(draw, rows)
            yield text_of(rows).encode()
            continue
        lines = draw.choice(good).splitlines(keepends=True)
        for _ in range(draw.randrange(1, 3) if turn % 3 == 1 else 0):
            by_line(draw, lines)
        text = "".join(lines).encode()
        for _ in range(draw.randrange(1, 3) if turn % 3 == 2 else 0):
            text = by_byte(draw, text)
        yield text
