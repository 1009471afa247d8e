#!/usr/bin/env python3
"""What translating schedules of 1,000,000 instructions costs the program, beside runs of the same.

  compare.py LISTSET [RUNS]

LISTSET is the built program. A machine's schedule of up to 1,000,000 instructions is run by `replay`, translated to the source
and run there by `source`; then that schedule of the source is translated back. Each figure is the least user and system time of
RUNS runs (5 where it isn't given). Both translations print the histories that they keep: where they don't, the script ends
with status 1.
"""
import os
import resource
import subprocess
import sys

COUNTER = 'class W { int v; void f() { while (true) { v = v + 1; } } }'
LOCKED = ('class W { int v; ReentrantLock l = new ReentrantLock(); '
          'void f() { while (true) { l.lock(); v = v + 1; l.unlock(); } } }')
CALLED = 'class W { int v; int g(int a) { v = a; return a; } void f() { int i = 0; while (true) { i = g(i + 1); } } }'
ONE = 'setup { w = new W(); } thread A { w.f(); }'
TWO = 'setup { w = new W(); } thread A { w.f(); } thread B { w.f(); }'
ROWS = [
    ('fields of one object', COUNTER, ONE, 'setup*100 A*999900'),
    ('two threads in turns', COUNTER, TWO, 'setup*100 ' + 'A B ' * 499950),
    ('calls', CALLED, ONE, 'setup*100 A*999900'),
    ('two threads and a lock', LOCKED, TWO, 'setup*100 ' + 'A*100 B*100 ' * 4999),
]


def spent():
    usage = resource.getrusage(resource.RUSAGE_CHILDREN)
    return usage.ru_utime + usage.ru_stime


def least(program, words, parts, runs):
    """Returns the least time of the runs in milliseconds, and what they print."""
    times = []
    for _ in range(runs):
        before = spent()
        done = subprocess.run([program, *words], input='\n%%\n'.join(parts).encode(), stdout=subprocess.PIPE, check=True)
        times.append(spent() - before)
    return 1000 * min(times), done.stdout.decode()


def main():
    if len(sys.argv) < 2:
        sys.exit(__doc__)
    program, runs = os.path.abspath(sys.argv[1]), int(sys.argv[2]) if len(sys.argv) > 2 else 5
    print('| Run | `replay` | To the source | `source` | Steps of the source | To the machine |\n|---|---|---|---|---|---|')
    for name, classes, threads, schedule in ROWS:
        replay, history = least(program, ['replay'], [classes, threads, schedule], runs)
        to_source, steps = least(program, ['translate', '--to', 'source'], [classes, threads, schedule], runs)
        source, same = least(program, ['source'], [classes, threads, steps], runs)
        to_machine, back = least(program, ['translate', '--to', 'machine'], [classes, threads, steps], runs)
        _, again = least(program, ['replay'], [classes, threads, back], 1)
        if not history == same == again:
            sys.exit(f'{name}: the histories differ')
        count = sum(int(item.partition('*')[2] or 1) for item in steps.split())
        print(f'| {name} | {replay:.0f} ms | {to_source:.0f} ms | {source:.0f} ms | {count:,} | {to_machine:.0f} ms |')


main()
