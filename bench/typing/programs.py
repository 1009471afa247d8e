#!/usr/bin/env python3
"""Counts the instructions of `source` for thread programs whose calls name what stands first, and what stands last.

Usage: programs.py LISTSET

LISTSET is the built program. Each text has one class, with the most methods, and a program whose setup makes some objects and whose
threads make the most calls, of one method on one object: the first of all or the last. Names have one length, so both programs have as
many bytes, and what the second takes beyond the first is what looking names up takes.
"""
import re
import subprocess
import sys

METHODS = 511
CALLS = 256
VALGRIND = ['valgrind', '--tool=callgrind', '--callgrind-out-file=/dev/null']


def program_text(objects, threads, number):
    """A class and a program: `number` 0 calls the first method on the first object, -1 the last on the last."""
    methods = [f'm{n:03}' for n in range(METHODS)]
    names = [f's{n:03}' for n in range(objects)]
    called = f'{names[number]}.{methods[number]}(); ' * CALLS
    text = 'class C { ' + ''.join(f'void {name}() {{ }} ' for name in methods) + '}\n%%\n'
    text += 'setup { ' + ''.join(f'{name} = new C(); ' for name in names) + '}'
    return text + ''.join(f' thread A{n} {{ {called}}}' for n in range(threads)) + '\n%%\n'


def counted(program, text):
    run = subprocess.run([*VALGRIND, program, 'source'], input=text.encode(), capture_output=True)
    if run.returncode:
        sys.exit(f'{program}: {run.stderr.decode()[-200:]}')
    return int(re.search(rb'Collected : (\d+)', run.stderr)[1])


def main():
    print('| Objects | Threads | First | Last | Ratio |\n|---|---|---|---|---|')
    for objects, threads in (1, 1), (256, 1), (1, 16), (256, 16):
        first, last = (counted(sys.argv[1], program_text(objects, threads, number)) for number in (0, -1))
        print(f'| {objects} | {threads} | {first:,} | {last:,} | {last / first:.2f} |', flush=True)


if __name__ == '__main__':
    main()
