#!/usr/bin/env python3
"""Live threads on a tape, beside a plain Rust turnstile on an `AtomicU64`, and `replay` in one thread.

  compare.py LISTSET [STEPS [RUNS]]

LISTSET is the built program. 200,000 steps and 3 runs where they aren't given. Each row is the least wall time of RUNS runs of
`replay --live`, and the processor time of that run: what is beyond that of `replay` is the seats' waiting, which they spend on the
processors of others. A run that is refused with 53 isn't counted. The plain program is the machine of the crates' own text (crates/bench_machine/plain/convert.py), whose
threads add one to a local for ever, too.
"""
import os
import pathlib
import shutil
import subprocess
import sys
import tempfile
import time

sys.path.insert(0, str(pathlib.Path(__file__).resolve().parents[1]))
from counting import spent  # pylint: disable=wrong-import-position

HERE = pathlib.Path(__file__).resolve().parent
CLASSES = 'class W { void f() { int i = 0; while (true) { i = i + 1; } } }'


def plain(folder):
    subprocess.run([sys.executable, HERE.parents[1] / 'crates/bench_machine/plain/convert.py', folder], check=True)
    shutil.copy(HERE / 'main.rs', pathlib.Path(folder) / 'src/main.rs')
    subprocess.run(['cargo', 'build', '--release', '--offline', '--quiet'], cwd=folder, check=True)
    return pathlib.Path(folder) / 'target/release/plain_machine'


def text_of(threads, run, steps):
    program = 'setup { w = new W(); }' + ''.join(f' thread {"ABCD"[i]} {{ w.f(); }}' for i in range(threads))
    turns = ' '.join(f'{"ABCD"[i % threads]}*{run}' for i in range((steps - 100) // run))
    return f'{CLASSES}\n%%\n{program}\n%%\nsetup*100 {turns}\n'


def least(words, text, runs):
    rows = []
    for _ in range(runs):
        start, before = time.perf_counter(), spent()
        done = subprocess.run([str(word) for word in words], input=text.encode(), stdout=subprocess.DEVNULL)
        if done.returncode == 0:
            rows.append((time.perf_counter() - start, spent() - before))
    if not rows:
        return 'refused', 'refused'
    wall, processor = min(rows)
    return f'{1000 * wall:.0f} ms', f'{1000 * processor:.0f} ms'


def main():
    if len(sys.argv) < 2:
        sys.exit(__doc__)
    program = os.path.abspath(sys.argv[1])
    steps, runs = (int(word) for word in (sys.argv[2:] + ['200000', '3'][len(sys.argv) - 2:]))
    print('| Threads | Steps at a turn | `replay` | `replay --live` | its processor time | Plain Rust | its processor time |')
    print('|---|---|---|---|---|---|---|')
    with tempfile.TemporaryDirectory() as folder:
        rust = plain(folder)
        for threads in (1, 2, 4):
            for run in (1, 1000):
                text = text_of(threads, run, steps)
                alone = least([program, 'replay'], text, runs)
                live = least([program, 'replay', '--live'], text, runs)
                other = least([rust, threads, run, steps], '', runs)
                print(f'| {threads} | {run:,} | {alone[0]} | {live[0]} | {live[1]} | {other[0]} | {other[1]} |', flush=True)


main()
