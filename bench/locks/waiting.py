#!/usr/bin/env python3
"""How many instructions two threads spend in waiting for one another's lock.

  waiting.py LISTSET [ROUNDS]

LISTSET is the built program. Two threads each take one lock ROUNDS times (100 where it isn't given), with so much work in
the section that it guards and so much outside, and have so many steps each by turns. A thread's steps up to its return are
the least number of steps after which the history of `replay` has that return, and so are those that it needs alone, behind
the other: what it takes more than those is waiting, since it makes all its other instructions in both. Last come the steps of
both in the record of `live`, where each thread runs on a thread of the processor: the middle one of five runs.
"""
import os
import subprocess
import sys

# writes of a field in the section, additions to a local outside of it, and steps at a turn
ROWS = [(1, 0, 1), (1, 0, 10), (1, 0, 100), (10, 0, 1), (10, 0, 100), (1, 10, 1), (1, 10, 100), (1, 100, 1)]
CLASSES = '''class C {
  Lock l = new ReentrantLock();
  int v;
  void f(int n) {
    int i = 0, u = 0;
    while (i < n) { l.lock(); %s l.unlock(); %s i = i + 1; }
  }
}'''
PROGRAM = 'setup { c = new C(); } thread A { c.f(%d); } thread B { c.f(%d); }'


def returned(program, text, schedule):
    done = subprocess.run([program, 'replay'], input=(text + schedule + '\n').encode(), capture_output=True, check=True)
    return [thread for thread in 'AB' if f'\n{thread}.1 return\n' in done.stdout.decode()]


def least(holds):
    """The least number for which it holds, where it holds for all greater ones."""
    high = 1
    while not holds(high):
        high *= 2
    low = high // 2
    while high - low > 1:
        middle = (low + high) // 2
        low, high = (low, middle) if holds(middle) else (middle, high)
    return high


def live_steps(program, text):
    """How many steps of A and B the record of a live run has."""
    done = subprocess.run([program, 'live', '--limit', '1000000'], input=text.encode(), capture_output=True, check=True)
    items = [item.partition('*') for item in done.stdout.decode().partition('\n')[0].split()]
    return sum(int(count or 1) for thread, _, count in items if thread in ('A', 'B'))


def by_turns(each, turns):
    """So many steps, `each` of A, `each` of B, and so on; and how many of them are A's and B's."""
    whole, rest = divmod(turns, 2 * each)
    items = f'A*{each} B*{each} ' * whole + (f'A*{min(rest, each)} ' if rest else '') + (f'B*{rest - each}' if rest > each else '')
    return items, {'A': whole * each + min(rest, each), 'B': whole * each + max(rest - each, 0)}


def waiting(taken, needed):
    return f'{taken - needed:,} ({100 * (taken - needed) / taken:.0f} %)'


def main():
    if len(sys.argv) < 2:
        sys.exit(__doc__)
    program, rounds = os.path.abspath(sys.argv[1]), int(sys.argv[2]) if len(sys.argv) > 2 else 100
    print('| Writes in the section | Additions outside | Steps at a turn | Steps of A and B alone | By turns | Waiting | Live | Waiting |\n|---|---|---|---|---|---|---|---|')
    for inside, outside, each in ROWS:
        classes = CLASSES % (' '.join(['v = v + 1;'] * inside), ' '.join(['u = u + 1;'] * outside))
        text = f'{classes}\n%%\n{PROGRAM % (rounds, rounds)}\n%%\n'
        alone = {'A': least(lambda n: 'A' in returned(program, text, f'setup*99 A*{n}'))}
        alone['B'] = least(lambda n: 'B' in returned(program, text, f'setup*99 A*{alone["A"]} B*{n}'))
        turns = {}
        for thread in 'AB':
            n = least(lambda n: thread in returned(program, text, 'setup*99 ' + by_turns(each, n)[0]))
            turns[thread] = by_turns(each, n)[1][thread]
        needed, taken = sum(alone.values()), sum(turns.values())
        lived = sorted(live_steps(program, text[:-3]) for _ in range(5))[2]
        cells = [inside, outside, each, f'{needed:,}', f'{taken:,}', waiting(taken, needed), f'{lived:,}', waiting(lived, needed)]
        print(f'| {" | ".join(map(str, cells))} |')


main()
