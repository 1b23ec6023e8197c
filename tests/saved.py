#!/usr/bin/env python3
"""Of each saved state NAME.txt under tests/states, into a folder: NAME.state, its 12,288 bytes; NAME.used, the first of them that
are used; NAME.plan, the text of the plan that it was made with, as document 01 writes it; NAME.counts, a line for each stream with
the two counts of missing events that its record has. Run at the top of the repository."""
import glob
import os
import sys

sys.dont_write_bytecode = True
from shortly import WINDOWS, short, text_of

STATE, RECORD, WINDOW, WINDOWS_AT, COUNTS_AT = 12288, 256, 512, 8192, 56


def read(path):
    """The bytes of a saved state, and the rows of its plan."""
    state, rows = bytearray(STATE), []
    with open(path, encoding="utf-8") as file:
        for line in file:
            key, _, rest = line.rstrip("\n").partition(" ")
            if key == "plan" and rest:
                rows = short(rest)
            elif key == "bytes":
                at, _, values = rest.partition(":")
                values = bytes.fromhex(values)
                state[int(at):int(at) + len(values)] = values
    return state, rows


def counts(state, streams):
    """The lines of the streams' counts, from the bytes."""
    said = ""
    for s in range(streams):
        at = s * RECORD + COUNTS_AT
        said += "s=%d outside=%d zero=%d\n" % (s, int.from_bytes(state[at:at + 4], "little"), int.from_bytes(state[at + 4:at + 8], "little"))
    return said


def main(folder):
    for path in sorted(glob.glob("tests/states/*.txt")):
        state, rows = read(path)
        windows = sum(row[0] in WINDOWS for row in rows)
        used = WINDOWS_AT + WINDOW * windows if windows else RECORD * len(rows)
        name = os.path.join(folder, os.path.basename(path)[:-4])
        for end, what in (("state", state), ("used", state[:used])):
            with open(name + "." + end, "wb") as file:
                file.write(what)
        for end, what in (("plan", text_of(rows) if rows else ""), ("counts", counts(state, len(rows)))):
            with open(name + "." + end, "w", encoding="ascii") as file:
                file.write(what)


if __name__ == "__main__":
    main(sys.argv[1])
