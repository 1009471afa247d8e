#!/usr/bin/env python3
"""What `trace` and `state` of 1,000,000 steps cost, beside `source` of the same and a plain Rust program that writes the same lines.

  compare.py LISTSET [RUNS [STEPS]]

LISTSET is the built program. Each figure is the least user time of RUNS runs (10 where it isn't given), in turns. The plain program
(main.rs) must print what `trace` prints. It runs no Java, so what it costs stands beside what `trace` costs beyond `source`.
"""
import os
import pathlib
import resource
import subprocess
import sys
import tempfile

HERE = pathlib.Path(__file__).resolve().parent
ROWS = [('fields of one object', 'v = v + 1;'), ('a lock taken and given back', 'l.lock(); l.unlock();'), ('a thread that waits', 'l.lock();')]
TEXT = '''class W {{ int v; Lock l = new ReentrantLock(); void f() {{ while (true) {{ {} }} }} }}
%%
setup {{ w = new W(); }} thread A {{ w.f(); }} thread B {{ w.f(); }}
%%
setup*10 A*20 all*{}
'''


def spent(words, text, output):
    before = resource.getrusage(resource.RUSAGE_CHILDREN).ru_utime
    with open(output, 'wb') as file:
        subprocess.run([str(word) for word in words], input=text.encode(), stdout=file, check=True)
    return 1000 * (resource.getrusage(resource.RUSAGE_CHILDREN).ru_utime - before)


def main():
    if len(sys.argv) < 2:
        sys.exit(__doc__)
    program = os.path.abspath(sys.argv[1])
    runs, steps = (int(word) for word in (sys.argv[2:] + ['10', '1000000'][len(sys.argv) - 2:]))
    print('| Run | Bytes of the trace | `source` | `state` | `trace` | Beyond `source` | Plain Rust | Ratio |\n|---|---|---|---|---|---|---|---|')
    with tempfile.TemporaryDirectory() as folder:
        folder = pathlib.Path(folder)
        subprocess.run(['rustc', '-O', '--edition', '2024', '-o', folder / 'program', HERE / 'main.rs'], check=True)
        for part, (name, body) in enumerate(ROWS):
            text = TEXT.format(body, (steps - 30) // 2)
            words = {view: [program, view] for view in ('source', 'state', 'trace')} | {'plain': [folder / 'program', part, steps]}
            least = dict.fromkeys(words, float('inf'))
            for _ in range(runs):
                for view, it in words.items():
                    least[view] = min(least[view], spent(it, text, folder / view))
            told = (folder / 'trace').read_bytes()
            if told != (folder / 'plain').read_bytes():
                sys.exit(f'{name}: the plain program prints something else')
            beyond = least['trace'] - least['source']
            figures = ' | '.join(f'{least[view]:.0f} ms' for view in ('source', 'state', 'trace'))
            print(f'| {name} | {len(told):,} | {figures} | {beyond:.0f} ms | {least["plain"]:.0f} ms | {beyond / least["plain"]:.2f} |')


main()
