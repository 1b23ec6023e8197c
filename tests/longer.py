#!/usr/bin/env python3
"""Longer states by docs/LAYOUT.md, into a folder where tests/saved.py has put saved ones: of each of 12,288 bytes, NAME.state, the
same in 20,480 as NAME-longer.state; and states of 33 to 64 streams, made here. With each what tests/saved.py writes: .used, .plan
and .counts. Run at the top of the repository."""
import glob
import os
import shutil
import sys

sys.dont_write_bytecode = True
from saved import counts
from shortly import OPERATORS, WINDOWS, text_of

SHORTER, LONGER, RECORD, WINDOW, ALL_WINDOWS = 12288, 20480, 256, 512, 4096
BOUND_AT, COUNTS_AT = 16, 56
# stored numbers are the places in the list of operators, from 1
NUMBERS = {op: place for place, op in enumerate(OPERATORS, 1)}


def widened(state):
    """Records, zeros, windows: the windows lie behind as many records as there is room for."""
    records, windows = state[:SHORTER - ALL_WINDOWS], state[SHORTER - ALL_WINDOWS:]
    return records + bytes(LONGER - SHORTER) + windows


def used(state, rows):
    windows = sum(row[0] in WINDOWS for row in rows)
    return LONGER - ALL_WINDOWS + WINDOW * windows if windows else RECORD * len(rows)


def loaded(rows):
    """A state that nothing was offered to: of each record the plan alone."""
    state = bytearray(LONGER)
    for s, (op, a, b, k, out) in enumerate(rows):
        state[RECORD * s:RECORD * s + 4] = NUMBERS[op], a, b, out
        state[RECORD * s + 8:RECORD * s + 16] = k.to_bytes(8, "little", signed=True)
    return state


def known(state, s, bound, outside=0, zero=0):
    """Stream s known up to a bound, with these counts and no event."""
    at = RECORD * s
    state[at + BOUND_AT:at + BOUND_AT + 8] = bound.to_bytes(8, "little")
    state[at + COUNTS_AT:at + COUNTS_AT + 8] = outside.to_bytes(4, "little") + zero.to_bytes(4, "little")


def chain(count, last=("neg", 0)):
    """An input, and behind it each stream of the one before; the last by this operator and k."""
    rows = [("in", 0, 0, 0, False)] + [("neg", s, 0, 0, False) for s in range(count - 2)]
    return rows + [(last[0], count - 2, 0, last[1], True)]


def made():
    """By name: the state and the rows of its plan."""
    for count in (33, 47, 48, 49, 64):
        yield "%d streams" % count, loaded(chain(count)), chain(count)
    # more is used than a shorter state has; two windows of three and two values
    rows = chain(40, ("wsum", 64)) + [("wmin", 38, 0, 2, True)]
    state = loaded(rows)
    for s, kept in ((39, (5, -6, 7)), (40, (2**63 - 1, -2**63))):
        known(state, s, 9)
        state[RECORD * s + 5] = len(kept)
        for place, value in enumerate(kept):
            at = LONGER - ALL_WINDOWS + WINDOW * (s - 39) + 8 * place
            state[at:at + 8] = value.to_bytes(8, "little", signed=True)
    yield "two windows", state, rows
    rows = chain(64)
    state = loaded(rows)
    known(state, 63, 5, outside=258)
    known(state, 32, 7, outside=4294967295)
    yield "counts", state, rows


def write(name, end, what):
    with open(name + "." + end, "wb") as file:
        file.write(what)


def main(folder):
    for path in sorted(glob.glob(os.path.join(folder, "*.state"))):
        with open(path, "rb") as file:
            state = file.read()
        if len(state) != SHORTER:
            continue
        name = path[:-len(".state")]
        with open(name + ".used", "rb") as file:
            length = len(file.read())
        # what is used ends with the records, or with the windows, which lie further on
        length += LONGER - SHORTER if length > SHORTER - ALL_WINDOWS else 0
        write(name + "-longer", "state", widened(state))
        write(name + "-longer", "used", widened(state)[:length])
        for end in ("plan", "counts"):
            shutil.copy(name + "." + end, name + "-longer." + end)
    for name, state, rows in made():
        name = os.path.join(folder, "longer-" + name.replace(" ", "-"))
        write(name, "state", state)
        write(name, "used", state[:used(state, rows)])
        write(name, "plan", text_of(rows).encode())
        write(name, "counts", counts(state, len(rows)).encode())


if __name__ == "__main__":
    main(sys.argv[1])
