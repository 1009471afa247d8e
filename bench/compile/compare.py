#!/usr/bin/env python3
"""Counts and times `compile` on class texts of several shapes, beside javac on the same texts.

Usage: compare.py LISTSET [RUNS]

LISTSET is the built program. Instructions are those that callgrind counts, without those of an empty class text. Times
are the least user and system time of RUNS runs (20 if left out), without that of an empty class text. javac compiles
each text RUNS times in one process, after it has warmed up on all of them. Its time is the least processor time of its
thread.
"""
import os
import pathlib
import subprocess
import sys
import tempfile

sys.path.insert(0, str(pathlib.Path(__file__).resolve().parents[1]))
from counting import counted, least  # pylint: disable=wrong-import-position
from shapes import SHAPES  # pylint: disable=wrong-import-position

JAVA = pathlib.Path(__file__).resolve().parent / 'Compiles.java'
REST = '\n%%\nsetup { }\nthread A { }\n'


def whole(text):
    """The input of `compile` for a class text."""
    return (text + REST).encode()


def javac(texts, runs):
    """The least times of javac in one process, in seconds. The first round over the texts warms it up."""
    with tempfile.TemporaryDirectory() as folder:
        paths = []
        for number, text in enumerate(texts):
            paths.append(os.path.join(folder, f'{number}.java'))
            pathlib.Path(paths[-1]).write_text(text, encoding='utf-8')
        subprocess.run(['javac', '-d', folder, JAVA], check=True)
        words = ['java', '-cp', folder, 'Compiles', str(runs), *paths, *paths]
        said = subprocess.run(words, capture_output=True, text=True, check=True)
        return [int(line) / 1e9 for line in said.stdout.split()[len(texts):]]


def main():
    if len(sys.argv) < 2:
        sys.exit(__doc__)
    program, runs = os.path.abspath(sys.argv[1]), int(sys.argv[2]) if len(sys.argv) > 2 else 20
    texts = {name: make() for name, make in SHAPES.items()}
    java = javac(list(texts.values()), runs)
    words = [program, 'compile']
    none, start = counted(words, whole(''))[0], least(words, whole(''), runs)
    print('| Shape | Bytes | Instructions a byte | Time | javac | Ratio |\n|---|---|---|---|---|---|')
    for (name, text), other in zip(texts.items(), java):
        bytes_of = len(text.encode())
        a_byte = (counted(words, whole(text))[0] - none) / bytes_of
        time = least(words, whole(text), runs) - start
        times = f'{1000 * time:.1f} ms | {1000 * other:.1f} ms | {time / other:.2f}'
        print(f'| {name} | {bytes_of:,} | {a_byte:,.0f} | {times} |', flush=True)


if __name__ == '__main__':
    main()
