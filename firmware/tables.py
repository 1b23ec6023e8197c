#!/usr/bin/env python3
"""Reads what firmware/measure prints, and prints the tables of docs/PERFORMANCE.md, section "On the controller"."""
import sys

MHZ = 48
CORES = {'cortex-m0plus': 'Cortex-M0+', 'cortex-m3': 'Cortex-M3'}
CALLS = ['load', 'validation', 'offer', 'move', 'collect', 'run at rest', 'a reading to rest']


def count(n):
    return format(int(n), ',')


def ms(n):
    return '%.1f' % (int(n) / MHZ / 1000)


code, bound, painted, zones = {}, {}, {}, {}
core = kind = None
for line in sys.stdin:
    line = line.rstrip('\n')
    if line.startswith('== '):
        core, kind = line[3:].split(': ', 1)
    elif kind.startswith('bytes'):
        code[core] = line.strip()
    elif kind.startswith('the most stack'):
        call, size, path = line.split('|')
        bound.setdefault(core, []).append((int(size), call, path))
    elif kind.startswith('painted'):
        painted[core] = line
    else:
        plan, call, number, instructions, cycles, where = line.split('|')
        zones.setdefault(core, {})[plan, call] = (number, instructions, cycles, where)

names = [c for c in CORES if c in code]
print('| | %s | goal |' % ' | '.join(CORES[c] for c in names))
print('|---|%s---|' % ('---|' * len(names)))
print('| bytes of code, with the parts of libgcc and newlib that it takes | %s | 65,536 |' % ' | '.join(count(code[c]) for c in names))
print('| deepest stack in bytes, no call can take more | %s | 4,096 |' % ' | '.join(count(max(bound[c])[0]) for c in names))
print('| deepest stack in bytes, painted | %s | 4,096 |' % ' | '.join(count(painted[c]) for c in names))
print()
for c in names:
    print('Deepest on the %s: `%s`.' % (CORES[c], max(bound[c])[2]))
    print()

plans = list(dict.fromkeys(plan for plan, call in zones[names[0]] if (plan, 'load') in zones[names[0]]))
def table(c, cell):
    print('| plan | %s |' % ' | '.join(CALLS))
    print('|---|%s' % ('---:|' * len(CALLS)))
    for plan in plans:
        print('| %s | %s |' % (plan, ' | '.join(cell(zones[c][plan, call]) for call in CALLS)))
    print()


for c in names:
    print('%s, instructions:' % CORES[c])
    print()
    table(c, lambda zone: count(zone[1]))
c = names[0]
print('%s, milliseconds at %d MHz: at one cycle an instruction / by the cycles of the manual:' % (CORES[c], MHZ))
print()
table(c, lambda zone: '%s / %s' % (ms(zone[1]), ms(zone[2])))
print('%s, by the cycles of the manual: what a run takes besides the check of the state, and a collection after a reading:' % CORES[c])
print()
print('| plan | moves of a reading | ms of these moves | moves a millisecond | ms to collect the outputs | ms to collect every stream |')
print('|---|---:|---:|---:|---:|---:|')
for plan in plans:
    zone = lambda call: zones[c][plan, call]
    moves = int(zone('a reading to rest')[0])
    cycles = int(zone('run to rest')[2]) - int(zone('validation')[2])
    print('| %s | %d | %s | %.1f | %s | %s |' % (plan, moves, ms(cycles), moves * MHZ * 1000 / cycles,
          ms(zone('collecting the outputs')[2]), ms(zone('collecting every stream')[2])))
print()
COMMANDS = [('command 1', 'offer'), ('command 2', 'collect'), ('command 3 at rest', 'run at rest'), ('command 3 to rest', 'run to rest')]
for n in names:
    print('%s, instructions of a plain write to the block and of its line, and of each command with what it takes beside its call:' % CORES[n])
    print()
    print('| plan | plain write | line | %s |' % ' | '.join('%s | beside %s' % pair for pair in COMMANDS))
    print('|---|%s' % ('---:|' * (2 + 2 * len(COMMANDS))))
    for plan in plans:
        instructions = lambda call: int(zones[n][plan, call][1])
        cells = [count(instructions(call)) for call in ['plain write', 'line']]
        cells += ['%s | +%s' % (count(instructions(command)), count(instructions(command) - instructions(call))) for command, call in COMMANDS]
        print('| %s | %s |' % (plan, ' | '.join(cells)))
    print()
LONGEST = ['32 streams, the longest text', '64 streams, the longest text']
print('The plan as text: instructions of the call, and what it takes beside the check of the state; by the cycles of the manual in ms:')
print()
print('| plan | bytes of the text | %s | ms, %s |' % (' | '.join('%s, instructions | beside the check' % CORES[n] for n in names), CORES[c]))
print('|---|---:|%s---:|' % ('---:|---:|' * len(names)))
for plan in [*plans, *LONGEST]:
    zone = lambda n, call: zones[n][plan, call]
    cells = ['%s | %s' % (count(zone(n, 'plan text')[1]), count(int(zone(n, 'plan text')[1]) - int(zone(n, 'validation')[1]))) for n in names]
    print('| %s | %s | %s | %s |' % (plan, count(zone(c, 'plan text')[0]), ' | '.join(cells), ms(zone(c, 'plan text')[2])))
print()
for longest in LONGEST:
    print('Refused 19, a byte too few for the longest of %s: %s.' % (longest.split(',')[0],
          ', '.join('%s instructions on the %s' % (count(zones[n][longest, 'plan text refused'][1]), CORES[n]) for n in names)))
    print()
print('A state copied into the longer one: instructions of the call, and what it takes beside the check of the state; by the cycles of the manual in ms:')
print()
print('| plan | %s | ms, %s |' % (' | '.join('%s, instructions | beside the check' % CORES[n] for n in names), CORES[c]))
print('|---|%s---:|' % ('---:|---:|' * len(names)))
for plan in [plan for plan in plans if (plan, 'widen') in zones[c]]:
    zone = lambda n, call: zones[n][plan, call]
    cells = ['%s | %s' % (count(zone(n, 'widen')[1]), count(int(zone(n, 'widen')[1]) - int(zone(n, 'validation')[1]))) for n in names]
    print('| %s | %s | %s |' % (plan, ' | '.join(cells), ms(zone(c, 'widen')[2])))
print()
print('The counts of a stream: instructions of the call, and what it takes beside the check of the state:')
print()
print('| plan | %s |' % ' | '.join('%s, instructions | beside the check' % CORES[n] for n in names))
print('|---|%s' % ('---:|---:|' * len(names)))
for plan in plans:
    zone = lambda n, call: int(zones[n][plan, call][1])
    print('| %s | %s |' % (plan, ' | '.join('%s | %s' % (count(zone(n, 'missing')), count(zone(n, 'missing') - zone(n, 'validation'))) for n in names)))
print()
print('A run whose one move passes 16 readings of each of two inputs, with no event; keep counts nothing, the others count each stamp:')
print()
print('| plan | counted | %s | ms, %s |' % (' | '.join('%s, instructions | beside the check' % CORES[n] for n in names), CORES[c]))
print('|---|---:|%s---:|' % ('---:|---:|' * len(names)))
for plan in ['keep past 16 stamps', 'div past 16 stamps', 'mul past 16 stamps', 'sdiv past 32 stamps']:
    zone = lambda n, call: zones[n]['two inputs, ' + plan, call]
    cells = ['%s | %s' % (count(zone(n, 'run past them')[1]), count(int(zone(n, 'run past them')[1]) - int(zone(n, 'check before')[1]))) for n in names]
    print('| two inputs, %s | %s | %s | %s |' % (plan, zone(c, 'missing')[0], ' | '.join(cells), ms(zone(c, 'run past them')[2])))
print()
print('A signal form against the five streams that it stands for, a reading to rest:')
print()
print('| plan | moves | %s | ms, %s |' % (' | '.join('%s, instructions | beside the inputs alone' % CORES[n] for n in names), CORES[c]))
print('|---|---:|%s---:|' % ('---:|---:|' * len(names)))
for plan in ['two inputs alone', 'two inputs, a signal form', 'two inputs, its five streams']:
    zone = lambda n, plan: zones[n][plan, 'a reading to rest']
    cells = ['%s | %s' % (count(zone(n, plan)[1]), count(int(zone(n, plan)[1]) - int(zone(n, 'two inputs alone')[1]))) for n in names]
    print('| %s | %s | %s | %s |' % (plan, zone(c, plan)[0], ' | '.join(cells), ms(zone(c, plan)[2])))
print()
print('A window of the latest 64 values, full, and neg, which looks at one, a reading to rest:')
print()
print('| plan | moves | %s | ms, %s |' % (' | '.join('%s, instructions | beside the input alone' % CORES[n] for n in names), CORES[c]))
print('|---|---:|%s---:|' % ('---:|---:|' * len(names)))
for plan in ['alone', 'neg', 'wsum of 64', 'wmin of 64', 'wmax of 64', 'eight windows of 64']:
    zone = lambda n, plan: zones[n]['one input, ' + plan, 'a reading to rest']
    cells = ['%s | %s' % (count(zone(n, plan)[1]), count(int(zone(n, plan)[1]) - int(zone(n, 'alone')[1]))) for n in names]
    print('| one input, %s | %s | %s | %s |' % (plan, zone(c, plan)[0], ' | '.join(cells), ms(zone(c, plan)[2])))
print()
passing = [zones[n]['one input, wsum of 64', 'run over 16 readings'] for n in names]
print('A run whose one move passes 16 readings, each sum of 64 out of range: %s; %s ms on the %s.'
      % (', '.join('%s instructions on the %s' % (count(zone[1]), CORES[n]) for n, zone in zip(names, passing)), ms(passing[0][2]), CORES[c]))
print()
print('One move of a division to its event, and what div and rem take beside the same move of lt, which divides nothing:')
print()
print('| operands | %s |' % ' | '.join('%s, instructions with lt | div | rem' % CORES[n] for n in names))
print('|---|%s' % ('---:|---:|---:|' * len(names)))
for operands in [call for plan, call in zones[c] if plan == 'one lt']:
    instructions = lambda n, plan: int(zones[n][plan, operands][1])
    cells = ['%s | +%s | +%s' % tuple(count(x) for x in (instructions(n, 'one lt'), instructions(n, 'one div') - instructions(n, 'one lt'),
             instructions(n, 'one rem') - instructions(n, 'one lt'))) for n in names]
    print('| %s | %s |' % (operands, ' | '.join(cells)))
print()
print('Where the cycles of a reading to rest go (%s):' % CORES[c])
print()
print('| plan | functions |')
print('|---|---|')
for plan in plans:
    print('| %s | %s |' % (plan, zones[c][plan, 'a reading to rest'][3]))
