#!/usr/bin/env python3
"""docs/MANUAL.md says of the numbers, and of the block of registers, what include/tessla.h says: the tables row by row."""
import re
import sys

header = open('include/tessla.h').read()
manual = open('docs/MANUAL.md').read()
faults = []


def names(kind):
    """The names of an enum of the header, in small letters and without what they have in common, with their numbers."""
    body = re.search(r'enum tessla_%s \{(.*?)\};' % kind, header, re.S)[1]
    found = re.findall(r'TESSLA_(?:AT_|COMMAND_|FLAG_)?(\w+) = (\d+)', body)
    return {name.lower(): int(number) for name, number in found}


def rows(head):
    """The rows of the manual's table with this head, as lists of cells."""
    table = manual.split(head + '\n', 1)
    if len(table) == 1:
        faults.append('the manual has no table ' + head)
        return []
    lines = iter(table[1].splitlines()[1:])
    return [[cell.strip() for cell in line.strip('|').split('|')] for line in iter(lambda: next(lines, ''), '')]


def same(what, in_header, in_manual):
    for key in sorted({*in_header, *in_manual}, key=str):
        if in_header.get(key) != in_manual.get(key):
            faults.append(f'{what} {key}: header {in_header.get(key)!r}, manual {in_manual.get(key)!r}')


# the numbers: one text for each, in both, and 16 in the manual only
texts = {int(n): said for n, said in re.findall(r'X\((\d+), "(.*)"\)', header)}
said = {int(row[0]): row[1].replace('`', '') for row in rows('| number | says | what to do |')}
if said.pop(16, None) is None:
    faults.append('16: not in the manual')
same('number', texts, said)
if sorted(texts) != sorted(names('number').values()):
    faults.append('the header has texts for other numbers than it names')

# the block: where each place lies and what a write there does; the commands; the flags
places = re.findall(r'TESSLA_AT_(\w+) = (\d+),? +/\* (\d+(?: to \d+)?) +(.*?)  ', header)
for name, at, lies, _ in places:
    if lies.split()[0] != at:
        faults.append(f'the header names {name} at {at} and says {lies}')
same('place', {name.lower(): (lies, write) for name, _, lies, write in places},
     {row[1]: (row[0], row[2]) for row in rows('| bytes | name | a write | holds |')})
if sorted(names('place')) != sorted(name.lower() for name, *_ in places):
    faults.append('the header says nothing of a place that it names')
same('command', names('command'), {row[1]: int(row[0]) for row in rows('| command | name | does | its status |')})
same('flag', names('flag'), {row[1]: 1 << int(row[0].split()[1]) for row in rows('| flag | name | is set | by |')})

print(*faults, sep='\n', end='\n' if faults else '')
sys.exit(bool(faults))
