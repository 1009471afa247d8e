#!/usr/bin/env python3
"""Counts the instructions of checking class texts, beyond parsing them, in the proved program and in plain Rust.

Usage: count.py LISTSET

LISTSET is the built program. The plain checker is made from the crates' own text by plain/convert.py. The check is what a
run takes for a text less what it takes for the same text with a reserved class name, which both programs refuse once the
text is parsed and the names of the classes are read. The last text is that of the most methods and many calls of them.
"""
import os
import pathlib
import re
import subprocess
import sys
import tempfile

from class_text import CALLED, call_text, class_text
from compare import SIZES

CONVERT = pathlib.Path(__file__).resolve().parent / 'plain/convert.py'
REST = '\n%%\nsetup { }\n%%\n'
# what is printed of a text that is accepted, and of a stopped one
ANSWERS = ('', r'fault 19 ReservedClass at .*')
PLAIN_ANSWERS = ('accepted', r'Broken\(Broken { rule: ReservedClass, .*')
VALGRIND = ['valgrind', '--tool=callgrind', '--callgrind-out-file=/dev/null']


def plain_program(folder):
    subprocess.run([sys.executable, CONVERT, folder], check=True)
    subprocess.run(['cargo', 'build', '--release', '--offline', '--quiet', '-j1'], cwd=folder, check=True,
                   env={**os.environ, 'RUSTFLAGS': '-Awarnings'})
    return os.path.join(folder, 'target/release/plain_typing')


def counted(command, text):
    """The instructions of a run, and what it prints."""
    run = subprocess.run(VALGRIND + command, input=text.encode(), capture_output=True)
    collected = re.search(rb'Collected : (\d+)', run.stderr)
    said = [line for line in run.stderr.decode().splitlines() if not line.startswith(('==', '--'))]
    return int(collected[1]), '\n'.join([run.stdout.decode().strip(), *said]).strip()


def check_of(command, texts, answers):
    """The instructions of the check: those for the whole text less those for the stopped one."""
    counts = []
    for text, answer in zip(texts, answers):
        count, printed = counted(command, text)
        if not re.fullmatch(answer, printed):
            sys.exit(f'{command[0]}: {printed[:200]!r} is not {answer!r}')
        counts.append(count)
    return counts[0] - counts[1]


def compare(name, program, plain, texts):
    """Prints the line of a text and the same text with a reserved class name."""
    proved_check = check_of([program, 'source'], [text + REST for text in texts], ANSWERS)
    plain_check = check_of([plain, 'check'], texts, PLAIN_ANSWERS)
    print(f'| {name} | {proved_check:,} | {plain_check:,} | {proved_check / plain_check:.2f} |', flush=True)


def main():
    program = os.path.abspath(sys.argv[1])
    with tempfile.TemporaryDirectory() as folder:
        plain = plain_program(folder)
        print('| Bytes | Proved | Plain | Ratio |\n|---|---|---|---|')
        for size, classes in SIZES:
            compare(f'{size:,}', program, plain, [class_text(size, classes, stopped) for stopped in (False, True)])
        size = SIZES[-1][0]
        (whole, calls), (refused, _) = (call_text(size, stopped) for stopped in (False, True))
        compare(f'{size:,}, {CALLED} methods, {calls:,} calls', program, plain, [whole, refused])


if __name__ == '__main__':
    main()
