#!/usr/bin/env python3
"""hostile [--program P] [--stack KB] [--memory MB] [WORD..]: large, deep and odd inputs, and streams that fail.

Each input must get one of the answers that are listed for it (0 done, or a fault's number), within ten seconds, in a stack of 8 MB. One
that takes over 16 bytes of memory for each byte of its input, beside what its command takes anyway, is printed as heavy. The streams
are closed, directories, full or shut by their readers. With words, only what has one of them in its name is tried. Prints too what
took over two seconds; ends with status 1 where an answer is wrong or late."""
import argparse
import os
import subprocess
import sys
import tempfile
import time

import large
import streams
from tool import PROGRAM, fault_of, Done

SECONDS = 10
TIMES = 16
# what a command takes anyway, in bytes: the program itself, and where it runs something a machine's cells and a million steps
ANYWAY = {"compile": 8 * 2**20, "check": 4 * 2**20}
RUN = 48 * 2**20


SHELL = 'ulimit -s "$1"; ulimit -v "$2"; shift 2; exec "$@"'


def measured(program, words, text, stack, memory):
    """One run under limits, with its seconds and the most memory that it had, in bytes.

    The kernel counts what a process had before it became the program, so `time` stands between it and this script."""
    with tempfile.TemporaryFile() as given, tempfile.TemporaryFile() as out, tempfile.TemporaryFile() as errors, tempfile.NamedTemporaryFile() as most:
        given.write(text)
        given.seek(0)
        line = ["/usr/bin/time", "-q", "-f", "%M", "-o", most.name, "sh", "-c", SHELL, "sh", str(stack), str(memory * 1024), "timeout", "-s", "KILL", "60"]
        start = time.time()
        done = subprocess.run([*line, program, *words], stdin=given, stdout=out, stderr=errors, check=False)
        seconds = time.time() - start
        out.seek(0)
        errors.seek(0)
        return Done(out.read(), errors.read(), done.returncode), seconds, int(most.read().split()[-1]) * 1024


def answer(done):
    """0 for a run that is done, a fault's number, or what came instead."""
    if done.status == 0 and not done.errors:
        return 0
    number = fault_of(done)
    return number if number and not done.out else f"status {done.status}, {done.errors[:100]!r}"


def wrong_with(wanted, came, seconds):
    """What is said of one input's answer and its time."""
    wrong = [] if came in wanted else [f"answered {came}, wanted {wanted}"]
    return wrong + ([f"took {seconds:.1f} s"] if seconds > SECONDS else [])


def is_heavy(command, text, memory):
    return memory > TIMES * len(text) + ANYWAY.get(command, RUN)


def inputs(program, limits, words):
    """Tries each large input; answers how many there were, how many were wrong and how many heavy."""
    count = failed = heavy = 0
    for name, arguments, text, wanted in large.everything():
        if words and not any(word in name for word in words):
            continue
        done, seconds, memory = measured(program, arguments, text, *limits)
        wrong, much = wrong_with(wanted, answer(done), seconds), is_heavy(arguments[0], text, memory)
        count, failed, heavy = count + 1, failed + bool(wrong), heavy + much
        if wrong or much or seconds > 2:
            told = "; ".join(wrong) or ("heavy" if much else "slow")
            print(f"{name}: {told}; {len(text):,} bytes, {seconds:.1f} s, {memory / 2**20:.0f} MB, {memory / len(text):.0f} a byte", flush=True)
    return count, failed, heavy


def arguments():
    parser = argparse.ArgumentParser(description=__doc__)
    parser.add_argument("--program", default=PROGRAM)
    parser.add_argument("--stack", type=int, default=8192)
    parser.add_argument("--memory", type=int, default=3000)
    parser.add_argument("words", nargs="*")
    return parser.parse_args()


def main():
    given = arguments()
    program, start = os.path.abspath(given.program), time.time()
    count, failed, heavy = inputs(program, (given.stack, given.memory), given.words)
    for name, wrong in streams.checked(program):
        if given.words and not any(word in name for word in given.words):
            continue
        count, failed = count + 1, failed + bool(wrong)
        if wrong:
            print(f"{name}: {wrong}", flush=True)
    print(f"{count} inputs and streams, {failed} wrong, {heavy} heavy, {time.time() - start:.0f} s")
    return 1 if failed else 0


if __name__ == "__main__":
    sys.exit(main())
