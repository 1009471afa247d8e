#!/usr/bin/env python3
"""What a run of 1,000,000 scheduled instructions costs the program, beyond its start.

  compare.py LISTSET [RUNS]

LISTSET is the built program. Each row is the least user and system time of RUNS runs (20 where it isn't given): of `replay`
with an empty schedule, which is the program's start with one small compilation, and of `replay` with 1,000,000 steps.
"""
import os
import pathlib
import sys

sys.path.insert(0, str(pathlib.Path(__file__).resolve().parents[1]))
from counting import least  # pylint: disable=wrong-import-position

ROWS = [
    ('a loop', 'class W { void f() { while (true) { } } }', 'setup { w = new W(); } thread A { w.f(); }', 'setup*100 A*999900'),
    ('two loops in turns', 'class W { void f() { while (true) { } } }',
     'setup { w = new W(); } thread A { w.f(); } thread B { w.f(); }', 'setup*100 ' + 'A B ' * 499950),
    ('fields of one object', 'class W { int v; void f() { while (true) { v = v + 1; } } }',
     'setup { w = new W(); } thread A { w.f(); }', 'setup*100 A*999900'),
]


def main():
    if len(sys.argv) < 2:
        sys.exit(__doc__)
    program, runs = os.path.abspath(sys.argv[1]), int(sys.argv[2]) if len(sys.argv) > 2 else 20
    print('| Run | Start | 1,000,000 steps | Beyond the start |\n|---|---|---|---|')
    for name, classes, threads, schedule in ROWS:
        head = f'{classes}\n%%\n{threads}\n%%\n'
        start, whole = (1000 * least([program, 'replay'], f'{head}{steps}\n'.encode(), runs) for steps in ('', schedule))
        print(f'| {name} | {start:.1f} ms | {whole:.1f} ms | {whole - start:.1f} ms |')


main()
