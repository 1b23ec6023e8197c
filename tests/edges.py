#!/usr/bin/env python3
"""Writes what the program `edges` must print, worked out with Python's whole numbers.

The rules are those of document 01: a zero divisor is said first, and a result outside the values gives none; of division
document 02's: "a quotient goes down to the next whole number and the remainder has the divisor's sign".
`tests/edges.py > crates/edges/stdout`
"""
from fractions import Fraction
from math import floor

LEAST, MOST = -2**63, 2**63 - 1
EDGES = [LEAST, LEAST + 1, LEAST + 2, -2**62 - 1, -2**62, -2**32 - 1, -2**32, -3037000500, -7, -6, -5, -2, -1, 0,
         1, 2, 5, 7, 2**31, 3037000499, 3037000500, 2**32, 2**62, MOST - 1, MOST]


def said(z):
    return str(z) if LEAST <= z <= MOST else 'outside'


def quotient(x, y):
    return 'zero' if y == 0 else said(floor(Fraction(x, y)))


def remainder(x, y):
    return 'zero' if y == 0 else said(x - y * floor(Fraction(x, y)))


for x in EDGES:
    print(x, said(-x))
    for y in EDGES:
        print(x, y, said(x + y), said(x - y), said(x * y), quotient(x, y), remainder(x, y),
              int(x < y), int(x <= y), int(x == y))
