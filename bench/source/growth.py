#!/usr/bin/env python3
"""How the time and the memory of a source run grow with its steps.

  growth.py BENCH_SOURCE [RUNS]

BENCH_SOURCE is the built program of crates/bench_source. Each time is the least user and system time of RUNS runs (5 where
it isn't given), and the memory is the most that the program had at once. Both are told beyond those of a run of no steps.
"""
import os
import resource
import subprocess
import sys

PARTS = ['arithmetic', 'fields', 'calls', 'locks', 'turns']
STEPS = [10_000, 100_000, 1_000_000]


def spent():
    usage = resource.getrusage(resource.RUSAGE_CHILDREN)
    return 1000 * (usage.ru_utime + usage.ru_stime)


def least(program, part, steps, runs):
    """The least milliseconds and kilobytes of some runs."""
    times, memories = [], []
    for _ in range(runs):
        before = spent()
        subprocess.run([program, part, str(steps)], stdout=subprocess.DEVNULL, check=True)
        times.append(spent() - before)
        # a child of this program would count this program's own memory
        told = subprocess.run(['/usr/bin/time', '-f', '%M', program, part, str(steps)], capture_output=True, check=True)
        memories.append(int(told.stderr))
    return min(times), min(memories)


def main():
    if len(sys.argv) < 2:
        sys.exit(__doc__)
    program, runs = os.path.abspath(sys.argv[1]), int(sys.argv[2]) if len(sys.argv) > 2 else 5
    print('| Part | Steps | Time | Nanoseconds a step | Memory | Bytes a step |\n|---|---|---|---|---|---|')
    for part in PARTS:
        start = least(program, part, 0, runs)
        for steps in STEPS:
            time, memory = (a - b for a, b in zip(least(program, part, steps, runs), start))
            print(f'| {part} | {steps:,} | {time:.1f} ms | {1e6 * time / steps:.0f} | {memory:,} KB | {1024 * memory / steps:.0f} |')


main()
