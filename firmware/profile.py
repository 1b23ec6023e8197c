#!/usr/bin/env python3
"""profile.py PROGRAM.elf TEXT COUNTS: for each measured call the instructions, the cycles of a Cortex-M0+ without wait states
that follow from them, and the functions in which most of them lie."""
import bisect
import re
import subprocess
import sys


def run(*words):
    return subprocess.run(words, capture_output=True, text=True, check=True).stdout


def cycles(op, arg):
    """Cycles of an instruction, and of the same when it jumps: the table of the core's manual."""
    op = op.split('.')[0]
    listed = re.search(r'\{(.*)\}', arg)
    if listed:
        n = 0
        for part in listed[1].split(','):
            ends = part.strip().split('-')
            n += int(ends[1][1:]) - int(ends[0][1:]) + 1 if len(ends) == 2 else 1
        jump = op.startswith('pop') and 'pc' in listed[1]
        return (n + 3, n + 3) if jump else (n + 1, n + 1)
    if op.startswith(('ldr', 'str')):
        return 2, 2
    if op in ('bl', 'bl.n'):
        return 3, 3
    if op in ('bx', 'blx'):
        return 2, 2
    if re.match(r'b([a-z]{2})?$', op) or op in ('cbz', 'cbnz'):
        return 1, 2
    return 1, 1


def program(elf):
    """The cost of the instruction at each address, and the functions by address."""
    cost, starts = {}, []
    for line in run('arm-none-eabi-objdump', '-d', elf).splitlines():
        m = re.match(r'([0-9a-f]+) <(.+)>:$', line)
        if m:
            starts.append((int(m[1], 16), m[2]))
            continue
        parts = line.split('\t')
        if len(parts) >= 3:
            cost[int(parts[0].strip().rstrip(':'), 16)] = cycles(parts[2].strip(), '\t'.join(parts[3:]))
    return cost, sorted(starts)


def zones(path):
    for block in open(path).read().split('zone\n')[1:]:
        yield [(int(a, 16), int(n), int(t)) for a, n, t in (line.split() for line in block.splitlines())]


def main():
    elf, text, counts = sys.argv[1:4]
    cost, starts = program(elf)
    addresses = [a for a, _ in starts]
    names = [line.split('|')[1:4] for line in open(text) if line.startswith('zone|')]
    found = list(zones(counts))[1:]  # the first is the gauge itself
    for (plan, what, number), zone in zip(names, found):
        by, instructions, clock = {}, 0, 0
        for a, n, jumps in zone:
            name = starts[bisect.bisect(addresses, a) - 1][1]
            if name.startswith(('gauge_', 'count_')):
                continue
            stay, jump = cost.get(a, (1, 1))
            instructions += n
            took = (n - jumps) * stay + jumps * jump
            clock += took
            by[name] = by.get(name, 0) + took
        top = sorted(by.items(), key=lambda x: -x[1])[:int(sys.argv[4]) if len(sys.argv) > 4 else 6]
        print('%s|%s|%s|%d|%d|%s' % (plan, what, number, instructions, clock, ', '.join('%s %d%%' % (f, 100 * c // clock) for f, c in top)))


main()
