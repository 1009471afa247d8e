#!/usr/bin/env python3
"""What `check` or `order` costs beside the same work in plain Rust.

  compare.py LISTSET [RUNS [check|order [plain|fast]]]

LISTSET is the built program. Each row is a history of so many threads with so many calls each, whose events come in a random
order, and for `check` a legal order of it: instructions of the processor by callgrind, without those of a history without events, and the
least user and system time of RUNS runs (15 where it isn't given), of both programs by turns. Both must say that the order is legal; for
`order` both must find one and the same order, and in the last row, whose last call answers what it can't, the same event.
The program in plain Rust is plain.rs, which works as listset does, or fast.rs, which is written for speed.
"""
import os
import pathlib
import random
import re
import resource
import subprocess
import sys
import tempfile

HERE = pathlib.Path(__file__).resolve().parent
ROWS = [(1, 256), (4, 256), (16, 256), (16, 1024), (16, 4096)]
# histories of more events are timed alone: callgrind takes minutes for one
LONG = 500_000
ORDER_ROWS = [(16, 4096, True), (16, 31_250, True), (16, 31_250, False)]


def text_of(threads, calls):
    """A history in which each call takes place where it returns, and the order of its calls."""
    chance = random.Random(7)
    lines, order, kept = ['setup.1 call s = new LazyList()', 'setup.1 return'], [], set()
    open_calls, next_call = {}, {thread: 1 for thread in range(threads)}
    while next_call:
        thread = chance.choice(list(next_call))
        name = f'T{thread}.{next_call[thread]}'
        if thread not in open_calls:
            open_calls[thread] = chance.choice(['add', 'remove', 'contains']), chance.randrange(100)
            lines.append(f'{name} call s.{open_calls[thread][0]}({open_calls[thread][1]})')
            continue
        method, item = open_calls.pop(thread)
        answer = (item in kept) != (method == 'add')
        kept = kept | {item} if method == 'add' else kept - {item} if method == 'remove' else kept
        lines.append(f'{name} return {str(answer).lower()}')
        order.append(name)
        next_call[thread] += 1
        if next_call[thread] > calls:
            del next_call[thread]
    return ('\n'.join(lines) + '\n%%\n' + ' '.join(order) + '\n').encode(), len(lines)


def history_of(threads, calls, is_legal):
    """Its history alone, or with another answer of the last call."""
    text, events = text_of(threads, calls)
    history = text.partition(b'%%\n')[0]
    if not is_legal:
        front, last = history[:-1].rsplit(b' ', 1)
        history = front + (b' false\n' if last == b'true' else b' true\n')
    return history, events


def spent():
    usage = resource.getrusage(resource.RUSAGE_CHILDREN)
    return usage.ru_utime + usage.ru_stime


def run(words, text):
    before = spent()
    done = subprocess.run(words, input=text, stdout=subprocess.PIPE, check=True)
    return 1000 * (spent() - before), done.stdout


def counted(words, text):
    told = subprocess.run(['valgrind', '--tool=callgrind', '--callgrind-out-file=/dev/null', *words], input=text,
                          stdout=subprocess.DEVNULL, stderr=subprocess.PIPE, check=True).stderr
    return int(re.search(rb'Collected : (\d+)', told)[1])


def row(both, starts, runs, text):
    """Returns the counts, the least times and what both print, which must be the same."""
    is_long = text.count(b'\n') > LONG
    counts = [None if is_long else counted(words, text) - start for words, start in zip(both, starts)]
    times, said = [[], []], set()
    for _ in range(runs):
        for words, of_one in zip(both, times):
            took, printed = run(words, text)
            of_one.append(took)
            said.add(printed)
    if len(said) != 1:
        sys.exit(f'they print {[it[-300:].decode() for it in said]}')
    return counts, [min(of_one) for of_one in times], said.pop()


def main():
    if len(sys.argv) < 2:
        sys.exit(__doc__)
    runs = int(sys.argv[2]) if len(sys.argv) > 2 else 15
    command = sys.argv[3] if len(sys.argv) > 3 else 'check'
    other = sys.argv[4] if len(sys.argv) > 4 else 'plain'
    with tempfile.TemporaryDirectory() as folder:
        plain = f'{folder}/plain'
        subprocess.run(['rustc', '--edition', '2021', '-O', '-o', plain, HERE / f'{other}.rs'], check=True)
        both = [[os.path.abspath(sys.argv[1]), command], [plain, command]]
        starts = [counted(words, b'%%\n' if command == 'check' else b'') for words in both]
        print('| Threads x calls | Events | Instructions | Plain Rust | Ratio | listset | Plain Rust | Ratio |')
        print('|---|---|---|---|---|---|---|---|')
        for threads, calls, is_legal in ORDER_ROWS if command == 'order' else [(*it, True) for it in ROWS]:
            text, events = text_of(threads, calls) if command == 'check' else history_of(threads, calls, is_legal)
            counts, least, said = row(both, starts, runs, text)
            if (said != b'legal\n') if command == 'check' else said.startswith(b'hopeless ') == is_legal:
                sys.exit(f'they print {said[-300:].decode()}')
            name = f'{threads} x {calls}' + ('' if is_legal else ', no legal order')
            by_count = f'{counts[0] / 1e6:.2f} million | {counts[1] / 1e6:.2f} million | {counts[0] / counts[1]:.2f}' if counts[0] else ' | | '
            print(f'| {name} | {events:,} | {by_count} '
                  f'| {least[0]:.1f} ms | {least[1]:.1f} ms | {least[0] / least[1]:.2f} |', flush=True)


main()
