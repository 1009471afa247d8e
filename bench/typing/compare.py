#!/usr/bin/env python3
"""Times the check of class texts of four sizes, beside javac on the same texts.

Usage: compare.py LISTSET [RUNS]

LISTSET is the built program. Each figure is the least user and system time of RUNS runs (9 if left out; of javac 3). The
check is what the program takes for a text less what it takes for the same text with a reserved class name, which it
refuses once the text is parsed. javac's figure is less what it takes for an empty class.
"""
import os
import resource
import subprocess
import sys
import tempfile

from class_text import class_text

SIZES = [(32768, 8), (65536, 16), (131072, 32), (262144, 64)]


def least(runs, command, text=b''):
    times = []
    for _ in range(runs):
        before = resource.getrusage(resource.RUSAGE_CHILDREN)
        subprocess.run(command, input=text, stdout=subprocess.DEVNULL, stderr=subprocess.DEVNULL)
        after = resource.getrusage(resource.RUSAGE_CHILDREN)
        times.append(after.ru_utime - before.ru_utime + after.ru_stime - before.ru_stime)
    return min(times)


def javac(folder, text, runs):
    path = os.path.join(folder, 'Text.java')
    with open(path, 'w', encoding='utf-8') as file:
        file.write(text)
    return least(runs, ['javac', '-proc:none', '-d', os.path.join(folder, 'out'), path])


def main():
    program = os.path.abspath(sys.argv[1])
    runs = int(sys.argv[2]) if len(sys.argv) > 2 else 9
    rest = '%%\nsetup { }\n%%\n'
    with tempfile.TemporaryDirectory() as folder:
        start = javac(folder, 'class Empty { }', 3)
        print('bytes  lexed and parsed  checked  javac (seconds)')
        for size, classes in SIZES:
            whole, stopped = (class_text(size, classes, s) for s in (False, True))
            parsed = least(runs, [program, 'source'], (stopped + '\n' + rest).encode())
            checked = least(runs, [program, 'source'], (whole + '\n' + rest).encode())
            java = javac(folder, whole, 3)
            print(f'{size}  {parsed:.4f}  {checked - parsed:.4f}  {java - start:.2f}')


if __name__ == '__main__':
    main()
