#!/usr/bin/env python3
"""How `batch` scales: the instructions of its longest chain with 1, 2 and 4 workers, and its memory, with few and with many histories.

  scaling.py LISTSET [COUNT]

LISTSET is the built program, with the names of its functions. 2,000 seeds of 600 steps where COUNT isn't given. Valgrind counts the
instructions. What the workers do is the work in their parts, and all else is done one after the other. So the longest chain is all
else and one worker's share of the parts. Memory is the greatest that a run without Valgrind takes, of COUNT seeds and of ten times as
many."""
import os
import re
import subprocess
import sys
import tempfile

CLASS = 'class Counter { int v; void inc() { int t = v; v = t + 1; } }\n%%\nsetup { c = new Counter(); }\n'
PROGRAMS = {'few histories': 2, 'many histories': 20}
STEPS = 600


def text(calls):
    body = 'c.inc(); ' * calls
    return f'{CLASS}thread A {{ {body}}}\nthread B {{ {body}}}\n'


def words(program, count):
    return [program, 'batch', '--seed', '1', '--count', str(count), '--steps', str(STEPS)]


def counted(program, count, calls, workers):
    """All instructions, and those of the parts."""
    processors = sorted(os.sched_getaffinity(0))[:workers]
    with tempfile.TemporaryDirectory() as folder:
        out = f'{folder}/out'
        subprocess.run(['taskset', '-c', ','.join(map(str, processors)), 'valgrind', '--tool=callgrind', f'--callgrind-out-file={out}', *words(program, count)],
                       input=text(calls).encode(), stdout=subprocess.DEVNULL, stderr=subprocess.DEVNULL, check=True)
        said = subprocess.run(['callgrind_annotate', '--inclusive=yes', '--threshold=100', out], capture_output=True, text=True, check=True).stdout
    whole = int(re.search(r'([\d,]+) \(100\.0%\)  PROGRAM TOTALS', said)[1].replace(',', ''))
    parts = sum(int(line.split()[0].replace(',', '')) for line in said.splitlines() if 'MapParallelIterator::fold_into' in line)
    return whole, parts


def histories(program, count, calls):
    said = subprocess.run(words(program, count), input=text(calls).encode(), capture_output=True, check=True).stdout
    return said.count(b'seed ')


def memory(program, count, calls):
    """The greatest resident memory of a run, in kilobytes."""
    run = subprocess.run(['/usr/bin/time', '-f', '%M', *words(program, count)], input=text(calls).encode(), stdout=subprocess.DEVNULL, stderr=subprocess.PIPE, check=True)
    return int(run.stderr.split()[-1])


def main():
    if len(sys.argv) < 2:
        sys.exit(__doc__)
    program, count = os.path.abspath(sys.argv[1]), int(sys.argv[2]) if len(sys.argv) > 2 else 2000
    print(f'| {count} seeds of {STEPS} steps | Histories | All instructions | One after the other | Chain of 1, 2, 4 workers | Times as fast |\n|---|---|---|---|---|---|')
    for name, calls in PROGRAMS.items():
        chains, shares = [], []
        for workers in (1, 2, 4):
            whole, parts = counted(program, count, calls, workers)
            chains.append(whole if workers == 1 else whole - parts + parts // workers)
            shares.append(f'{100 * (whole - parts) / whole:.1f} %')
        print(f'| {name} | {histories(program, count, calls)} | {chains[0] / 1e6:.0f} million | {", ".join(shares)} | '
              f'{", ".join(f"{chain / 1e6:.0f}" for chain in chains)} million | {chains[0] / chains[1]:.2f}, {chains[0] / chains[2]:.2f} |')
    print(f'\n| Memory | {count} seeds | {10 * count} seeds |\n|---|---|---|')
    for name, calls in PROGRAMS.items():
        print(f'| {name} | ' + ' | '.join(f'{memory(program, n, calls) / 1024:.1f} MB, {histories(program, n, calls)} histories' for n in (count, 10 * count)) + ' |')


main()
