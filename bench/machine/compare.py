#!/usr/bin/env python3
"""What `replay` of 1,000,000 instructions costs beside an interpreter that is written for speed by hand (flat.rs).

  compare.py LISTSET [test]

LISTSET is the built program. The interpreter runs the code that the compiler makes (image/main.rt.txt prints it) and
reads the same schedule texts. First both must print the same history for each example with a schedule, `source`
examples by their translation, and for each row of `replay`; with `test` that is all. Then each row of the table has
the processor's instructions for a step, by callgrind, without those of an empty schedule: of `replay`, of the
interpreter, and of it where places aren't checked."""
import os
import pathlib
import re
import subprocess
import sys
import tempfile

HERE = pathlib.Path(__file__).resolve().parent
sys.path.insert(0, str(HERE.parent))
from counting import TOP, counted, unproved  # pylint: disable=wrong-import-position

FLAGS = ['--edition', '2024', '-C', 'opt-level=3', '-C', 'target-cpu=x86-64-v2', '-C', 'codegen-units=1', '-C', 'panic=abort']
USES = ['ls_code', 'ls_compiler', 'ls_events', 'ls_image', 'ls_report']
CELLS = '65536'
CLASSES = '''class W {
  int v; ReentrantLock l = new ReentrantLock();
  void loop() { while (true) { } }
  void fields() { while (true) { v = v + 1; } }
  void calls() { while (true) { nothing(); } }
  void nothing() { }
  void locks() { while (true) { l.lock(); l.unlock(); } }
}'''
STEPS = 999_900
NAMES = 'ABCDEFGHIJKLMNOP'
ROWS = [
    ('loop', 'loop', 1, f'A*{STEPS}'),
    ('fields', 'fields', 1, f'A*{STEPS}'),
    ('calls', 'calls', 1, f'A*{STEPS}'),
    ('locks', 'locks', 1, f'A*{STEPS}'),
    ('A B A B ..', 'loop', 2, ' '.join(NAMES[:2]) + f' {" ".join(NAMES[:2])}' * (STEPS // 2 - 1)),
    ('16 threads in turns', 'loop', 16, ' '.join(NAMES[at % 16] for at in range(STEPS))),
]


def built(folder, name, *flags):
    path = f'{folder}/{name}'
    subprocess.run(['rustc', *FLAGS, *flags, '-o', path, HERE / 'flat.rs'], check=True)
    return path


def said(words, text):
    done = subprocess.run([str(word) for word in words], input=text.encode(), stdout=subprocess.PIPE, stderr=subprocess.DEVNULL, check=False)
    return done.stdout.decode(), done.returncode


def image_of(image, folder, classes, program):
    """Writes the code of two texts into a file, and returns its path."""
    text, _ = said([image, classes, program], '')
    path = pathlib.Path(folder) / 'image'
    path.write_text(text)
    return path


def parts_of(path):
    """Returns the parts of an input, or none if it isn't a text of three parts."""
    try:
        parts = re.split(r'(?m)^%%\n', path.read_bytes().decode())
    except UnicodeDecodeError:
        return None
    return parts if len(parts) == 3 else None


def cases(program):
    """Gives each example and row: its name, its cells and its three parts. A schedule is one of instructions."""
    for path in sorted((TOP / 'examples').glob('**/*.txt')):
        parts, command = parts_of(path), re.match(r'// *(\w+)', path.read_text())
        if parts and command and command[1] in ('replay', 'source', 'trace', 'state'):
            if command[1] != 'replay':
                parts[2] = said([program, 'translate', '--to', 'machine'], '%%\n'.join(parts))[0]
            yield path.name, CELLS, parts
    for folder in sorted((TOP / 'tests/rows/replay').iterdir()):
        words, parts = (folder / 'args').read_text().split('\n'), parts_of(folder / 'stdin')
        if parts and '--live' not in words:
            yield folder.name, words[words.index('--cells') + 1] if '--cells' in words else CELLS, parts


def agree(program, image, flat, folder):
    """Returns how many histories are the same. It ends where one isn't. What `replay` refuses isn't compared."""
    count = 0
    for name, cells, parts in cases(program):
        history, status = said([program, 'replay', '--cells', cells], '%%\n'.join(parts))
        if status == 0:
            if said([flat, image_of(image, folder, *parts[:2]), cells], parts[2]) != (history, 0):
                sys.exit(f'{name}: the interpreter prints another history')
            count += 1
    return count


def row(program, image, flats, folder, method, threads, schedule):
    """Returns the instructions for a step of `replay` and of the interpreters."""
    text = 'setup { w = new W(); }' + ''.join(f' thread {name} {{ w.{method}(); }}' for name in NAMES[:threads])
    path, whole = image_of(image, folder, CLASSES, text), f'setup*100 {schedule}\n'
    commands = [([program, 'replay'], f'{CLASSES}\n%%\n{text}\n%%\n')] + [([flat, path, CELLS], '') for flat in flats]
    steps = 100 + STEPS // threads * threads
    return [(counted(words, (head + whole).encode())[0] - counted(words, (head + '\n').encode())[0]) / steps for words, head in commands]


def main():
    if len(sys.argv) < 2:
        sys.exit(__doc__)
    program = os.path.abspath(sys.argv[1])
    with unproved('bench_image', HERE / 'image/main.rt.txt', USES) as image, tempfile.TemporaryDirectory() as folder:
        flats = [built(folder, 'flat'), built(folder, 'unchecked', '--cfg', 'unchecked')]
        count = [agree(program, image, flat, folder) for flat in flats][0]
        print(f'{count} histories are the same', file=sys.stderr, flush=True)
        if 'test' in sys.argv[2:]:
            return
        print('| Part | `replay`, instructions a step | Flat stack | Unchecked | Ratio |\n|---|---|---|---|---|')
        for name, *of_row in ROWS:
            replay, flat, unchecked = row(program, image, flats, folder, *of_row)
            print(f'| {name} | {replay:.1f} | {flat:.1f} | {unchecked:.1f} | {replay / flat:.2f} |', flush=True)


main()
