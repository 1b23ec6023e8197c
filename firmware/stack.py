#!/usr/bin/env python3
"""stack.py PROGRAM.elf ENGINE.o ENGINE.su FUNCTION=TIMES ROOT..: the most bytes of stack that each ROOT can take.

Frames are those that the compiler wrote into ENGINE.su, for other functions those that push and sub sp make. Calls are branches
to other functions, and the relocations of ENGINE.o. FUNCTION calls itself, and lies on the stack at most TIMES times at once;
any other recursion, a frame of varying size or a call by an unknown register is an error.
"""
import re
import subprocess
import sys


def run(*words):
    return subprocess.run(words, capture_output=True, text=True, check=True).stdout


def registers(arg):
    n = 0
    for part in re.search(r'\{(.*)\}', arg)[1].split(','):
        ends = part.strip().split('-')
        n += int(ends[1][1:]) - int(ends[0][1:]) + 1 if len(ends) == 2 else 1
    return 4 * n


def main():
    elf, engine, su, recursive, *roots = sys.argv[1:]
    again, times = recursive.rsplit('=', 1)
    told = {}
    for line in open(su):
        name, size, kind = line.rstrip('\n').split('\t')
        assert kind == 'static', 'a frame of a size that varies: ' + name
        told[name.split('.ll:', 1)[1]] = int(size)

    calls, frame, unknown, name = {}, {}, set(), None
    for line in run('arm-none-eabi-objdump', '-d', elf).splitlines():
        m = re.match(r'[0-9a-f]+ <(.+)>:$', line)
        if m:
            name = m[1]
            calls[name], frame[name] = set(), 0
            continue
        parts = line.split('\t')
        if len(parts) < 3:
            continue
        op, arg = parts[2].strip(), '\t'.join(parts[3:])
        if op.startswith('push') or (op.startswith('stmdb') and arg.startswith('sp!')):
            frame[name] += registers(arg)
        elif op.startswith('sub') and re.match(r'sp, (?:sp, )?#(\d+)', arg):
            frame[name] += int(re.match(r'sp, (?:sp, )?#(\d+)', arg)[1])
        elif re.search(r'\[sp, #-(\d+)\]!', arg):
            frame[name] += int(re.search(r'\[sp, #-(\d+)\]!', arg)[1])
        elif op.startswith('blx') and re.match(r'r|ip', arg):
            unknown.add(name)
        target = re.search(r'<(.+)>$', arg.split(' @')[0].strip())
        if re.match(r'bl?x?[a-z.]*$', op) and target:
            to = re.sub(r'\+0x[0-9a-f]+$', '', target[1])
            # a jump to a place inside the same function is no call; one to its start is
            if to != name or (op.startswith('bl') and '+0x' not in target[1]):
                calls[name].add(to)
    name = None
    for line in run('arm-none-eabi-objdump', '-dr', engine).splitlines():
        m = re.match(r'[0-9a-f]+ <(.+)>:$', line)
        if m:
            name = m[1]
            continue
        m = re.search(r'R_ARM_\S+\s+(\S.*)$', line)
        if m and m[1].strip() in calls and name in calls and m[1].strip() != name:
            calls[name].add(m[1].strip())

    deepest = {}

    def deep(f, path):
        if f in deepest:
            return deepest[f]
        assert f not in path, 'recursion: ' + ' '.join(path + (f,))
        assert f not in unknown or f in told, 'a call by a register in ' + f
        own = told.get(f, frame[f])
        to = set(calls[f])
        many = 1
        if f in to:
            assert f == again, 'recursion of ' + f
            to.discard(f)
            many = int(times)
        below = max((deep(g, path + (f,)) for g in to), default=(0, ()))
        deepest[f] = (own * many + below[0], (f + (' x %d' % many if many > 1 else ''),) + below[1])
        return deepest[f]

    sys.setrecursionlimit(10000)
    assert again in calls, 'no function ' + again
    for root in roots:
        size, path = deep(root, ())
        print('%s|%d|%s' % (root, size, ' > '.join(path)))


main()
