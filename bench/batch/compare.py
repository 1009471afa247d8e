#!/usr/bin/env python3
"""What `batch` costs with 1, 2 and 4 processors, beside a loop of the same seeds in plain Rust.

  compare.py LISTSET [COUNT [STEPS [RUNS]]]

LISTSET is the built program. 5,000 seeds of 200 steps and 10 runs where they aren't given. The first row has the processor's instructions
of a seed, by callgrind: those of 1,256 seeds less those of 256. Each other row is the least wall time of
RUNS runs, in turns, and its ratio to that of the plain loop that sets its machine back. The plain loop is the machine of the crates'
own text (crates/bench_machine/plain/convert.py) in one thread: on one machine that is set back for each seed, and on one that is
loaded for each. In both two threads add one to a local for ever.
"""
import os
import pathlib
import shutil
import subprocess
import sys
import tempfile
import time

HERE = pathlib.Path(__file__).resolve().parent
sys.path.insert(0, str(HERE.parent))
from counting import counted  # pylint: disable=wrong-import-position

TEXT = '''class W { void f() { int i = 0; while (true) { i = i + 1; } } }
%%
setup { w = new W(); } thread A { w.f(); } thread B { w.f(); }
'''


def plain(folder):
    subprocess.run([sys.executable, HERE.parents[1] / 'crates/bench_machine/plain/convert.py', folder], check=True)
    shutil.copy(HERE / 'main.rs', pathlib.Path(folder) / 'src/main.rs')
    subprocess.run(['cargo', 'build', '--release', '--offline', '--quiet'], cwd=folder, check=True)
    return pathlib.Path(folder) / 'target/release/plain_machine'


def spent(words, text):
    start = time.perf_counter()
    subprocess.run([str(word) for word in words], input=text.encode(), stdout=subprocess.DEVNULL, check=True)
    return 1000 * (time.perf_counter() - start)


def of_a_seed(words_of):
    """Returns the instructions of a seed, of a command that takes so many."""
    few, many = (counted(words_of(count), TEXT.encode())[0] for count in (256, 1256))
    return (many - few) / 1000


def main():
    if len(sys.argv) < 2:
        sys.exit(__doc__)
    program = os.path.abspath(sys.argv[1])
    count, steps, runs = (int(word) for word in (sys.argv[2:] + ['5000', '200', '10'][len(sys.argv) - 2:]))
    processors = sorted(os.sched_getaffinity(0))
    batch = [program, 'batch', '--seed', 1, '--count', count, '--steps', steps]
    rows = {f'{n} workers': ['taskset', '-c', ','.join(str(p) for p in processors[:n])] + batch for n in (1, 2, 4) if n <= len(processors)}
    with tempfile.TemporaryDirectory() as folder:
        loop = [plain(folder), count, steps]
        rows['plain Rust, set back'] = loop
        rows['plain Rust, loaded for each seed'] = loop + ['load']
        seeds = [of_a_seed(lambda n: [program, 'batch', '--seed', 1, '--count', n, '--steps', steps])]
        seeds.append(of_a_seed(lambda n: [loop[0], n, steps]))
        least = {name: spent(words, TEXT) for name, words in rows.items()}
        for _ in range(runs - 1):
            for name, words in rows.items():
                least[name] = min(least[name], spent(words, TEXT))
    print(f'| {count} seeds of {steps} steps | Wall time | Ratio |\n|---|---|---|')
    print(f'| instructions of a seed | {seeds[0]:,.0f} | {seeds[0] / seeds[1]:.2f} |')
    for name, wall in least.items():
        ratio = f"{wall / least['plain Rust, set back']:.2f}" if name.endswith('workers') else ''
        print(f'| wall time, {name} | {wall:.1f} ms | {ratio} |')


main()
