#!/usr/bin/env python3
"""What `./listset` costs beyond the program that it runs, in milliseconds of processor time: compare.py [RUNS]

It runs what ./listset runs: the proved program, or the one without proofs. Each figure is the least of RUNS runs (200
where it isn't given) of `replay` of an example, less the least of as many runs of the program alone. No source may be
edited meanwhile. """
import os
import resource
import subprocess
import sys

TOP = os.path.dirname(os.path.dirname(os.path.dirname(os.path.abspath(__file__))))
EXAMPLE = 'examples/least_int.txt'
FOLDERS = ('crates/listset/out', 'crates/listset/out/unproved')


def spent(words, path):
    usage = resource.getrusage(resource.RUSAGE_CHILDREN)
    before = usage.ru_utime + usage.ru_stime
    with open(f'{TOP}/{path}', 'rb') as file:
        subprocess.run(words, cwd=TOP, stdin=file, stdout=subprocess.DEVNULL, stderr=subprocess.DEVNULL, check=True)
    usage = resource.getrusage(resource.RUSAGE_CHILDREN)
    return 1000 * (usage.ru_utime + usage.ru_stime - before)


def main():
    runs = int(sys.argv[1]) if len(sys.argv) > 1 else 200
    done = subprocess.run(['./listset', 'replay', EXAMPLE], cwd=TOP, capture_output=True, check=True)
    program = f'{TOP}/{FOLDERS[b"NOT PROVED" in done.stderr]}/listset'
    ways = {'alone': [program, 'replay'], 'on a file': ['./listset', 'replay', EXAMPLE], 'on standard input': ['./listset', 'replay']}
    least = {name: min(spent(words, EXAMPLE) for _ in range(runs)) for name, words in ways.items()}
    print('| Run | Program, ms | ./listset, ms | Beyond the program |\n|---|---|---|---|')
    for name in list(ways)[1:]:
        print(f'| {name} | {least["alone"]:.2f} | {least[name]:.2f} | {least[name] - least["alone"]:.2f} |')


main()
