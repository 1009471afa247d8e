#!/usr/bin/env python3
"""Steps a second of live threads, beside the same with a plain `std::sync::Mutex` round a plain Rust machine.

  compare.py LISTSET [STEPS [RUNS]]

LISTSET is the built program. 1,000,000 steps and 5 runs where they aren't given. Each row is the least wall time of RUNS runs
of `live` for a program of 1, 2 and 4 threads that loop for ever. The plain program is the machine of the crates' own text
(crates/bench_machine/plain/convert.py); its threads add one to a local for ever, too.
"""
import os
import pathlib
import shutil
import subprocess
import sys
import tempfile
import time

HERE = pathlib.Path(__file__).resolve().parent
CLASSES = 'class W { void f() { int i = 0; while (true) { i = i + 1; } } }'


def plain(folder):
    subprocess.run([sys.executable, HERE.parents[1] / 'crates/bench_machine/plain/convert.py', folder], check=True)
    shutil.copy(HERE / 'main.rs', pathlib.Path(folder) / 'src/main.rs')
    subprocess.run(['cargo', 'build', '--release', '--offline', '--quiet'], cwd=folder, check=True)
    return pathlib.Path(folder) / 'target/release/plain_machine'


def text_of(threads):
    return CLASSES + '\n%%\nsetup { w = new W(); }' + ''.join(f' thread {"ABCD"[i]} {{ w.f(); }}' for i in range(threads)) + '\n'


def least(words, text, runs):
    times = []
    for _ in range(runs):
        start = time.perf_counter()
        subprocess.run([str(word) for word in words], input=text.encode(), stdout=subprocess.DEVNULL, check=True)
        times.append(time.perf_counter() - start)
    return min(times)


def main():
    if len(sys.argv) < 2:
        sys.exit(__doc__)
    program = os.path.abspath(sys.argv[1])
    steps, runs = (int(word) for word in (sys.argv[2:] + ['1000000', '5'][len(sys.argv) - 2:]))
    print('| Threads | Steps a second | Plain Rust | Ratio |\n|---|---|---|---|')
    with tempfile.TemporaryDirectory() as folder:
        rust = plain(folder)
        for threads in (1, 2, 4):
            text = text_of(threads)
            live = least([program, 'live', '--limit', steps], text, runs)
            other = least([rust, threads, steps], '', runs)
            print(f'| {threads} | {steps / live / 1e6:.2f} million | {steps / other / 1e6:.2f} million | {live / other:.2f} |')


main()
