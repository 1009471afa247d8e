#!/usr/bin/env python3
"""programs [--program P] [--seed N] [--count N] (jvm | threads | texts): random accepted programs, run in two ways that must agree.

`jvm`: programs of one thread, on the source side, on the machine and on a real Java machine: one history. `threads`: programs of
several threads under random schedules: the schedule translated to the other side has the same history there, live threads give the
history of their schedule, and a tally is that of its samples. `texts`: only whether `compile` accepts them. Ends with status 1 where
something is wrong; each such input is kept in found."""
import argparse
import os
import random
import sys
import time

import jvm
import sides
from bodies import class_text
from shapes import drawn_world
from threads import drawn_program, drawn_schedule
from tool import PROGRAM, joined, keep, run

AT_ONCE = 250
MOST_THREADS = 64


class Tally:
    """What has been counted, and what was wrong."""

    def __init__(self, seed):
        self.seed, self.counts, self.wrong = seed, {}, 0

    def add(self, name, more=1):
        self.counts[name] = self.counts.get(name, 0) + more

    def fail(self, name, words, text, came, wanted):
        self.wrong += 1
        folder = keep(f"{name}_{self.seed}", words, text, came, wanted)
        print(f"{name} {self.seed}: {came[:300]} (kept in {folder})", flush=True)

    def told(self, seconds):
        counts = ", ".join(f"{name} {count}" for name, count in sorted(self.counts.items()))
        return f"{counts}; {self.wrong} wrong, {seconds:.0f} s"


def drawn(seed, free, threads, package=None):
    """The class text and the program of a seed."""
    world = drawn_world(random.Random(seed), free)
    text = class_text(world, package)
    return text, drawn_program(world, threads), world.random


def accepted(program, tally, text, threads):
    """Whether `compile` takes the texts; what it refuses is counted."""
    done = run(program, ["compile"], joined(text.encode(), threads.text().encode()))
    if done.status == 0:
        tally.add("accepted")
        return True
    tally.add("refused")
    tally.add(f"refused with {done.errors.decode(errors='replace').strip().split(' at ')[0]}")
    return False


def texts(program, tally, seed):
    free = seed % 2 == 0
    text, threads, _ = drawn(seed, free, 2)
    if not accepted(program, tally, text, threads):
        done = run(program, ["compile"], joined(text.encode(), threads.text().encode()))
        tally.fail("refused", ["compile"], joined(text.encode(), threads.text().encode()), done.told(), "accepted")


def threads(program, tally, seed):
    """One program of several threads, compared in each way there is."""
    free = seed % 3 != 0
    text, drawn_threads, r = drawn(seed, free, r_threads(seed))
    if not accepted(program, tally, text, drawn_threads):
        return
    parts = [text.encode(), drawn_threads.text().encode()]
    # a turn of 64 live threads takes long
    schedule = drawn_schedule(r, drawn_threads, 20 if r_threads(seed) == MOST_THREADS else 400).encode()
    for check in sides.CHECKS:
        wrong = check(program, parts, schedule, r, tally)
        if wrong:
            tally.fail(check.__name__, *wrong)


def r_threads(seed):
    """How many threads a program has: up to four, and for each hundredth seed as many as there may be."""
    return MOST_THREADS if seed % 100 == 50 else (2, 2, 3, 1, 4, 2)[seed % 6]


def on_the_jvm(program, tally, seeds):
    """So many programs of one thread at once."""
    batch = {}
    for seed in seeds:
        package = f"p{seed}"
        text, program_of, _ = drawn(seed, False, 1, package)
        if accepted(program, tally, text, program_of):
            batch[package] = (text, program_of)
    histories, refused = jvm.histories([(name, text, calls) for name, (text, calls) in batch.items()])
    if refused:
        tally.wrong += 1
        print(refused[:3000])
        return
    for name, (text, calls) in batch.items():
        tally.seed = int(name[1:])
        compared(program, tally, [text.encode(), calls.text().encode()], histories.get(name, ""))


def compared(program, tally, parts, wanted):
    """One history of the Java machine against those of both sides."""
    if "StackOverflowError" in wanted or "hung" in wanted or not wanted:
        tally.fail("jvm", ["source"], joined(*parts), wanted, "a generated program ends")
        return
    tally.add("programs on the JVM")
    for line in wanted.splitlines():
        if " trap " in line:
            tally.add(f"traps, {line.split()[-1]}")
    tally.add("calls on the JVM", wanted.count(" call "))
    tally.add("left waiting on the JVM", int(wanted.count(" call ") > wanted.count(" return") + wanted.count(" trap ")))
    for command, schedule in (("source", b"setup*20000 A*60000\n"), ("replay", b"setup*60000 A*300000\n")):
        done = run(program, [command], joined(*parts, schedule))
        if done.out.decode() != wanted or done.status != 0:
            tally.fail(f"jvm_{command}", [command], joined(*parts, schedule), done.told() + "\n" + done.out.decode(), wanted)


def arguments():
    parser = argparse.ArgumentParser(description=__doc__)
    parser.add_argument("way", choices=("jvm", "threads", "texts"))
    parser.add_argument("--program", default=PROGRAM)
    parser.add_argument("--seed", type=int, default=1)
    parser.add_argument("--count", type=int, default=1000)
    return parser.parse_args()


def main():
    words = arguments()
    program, tally, start = os.path.abspath(words.program), Tally(words.seed), time.time()
    seeds = range(words.seed, words.seed + words.count)
    if words.way == "jvm":
        for first in seeds[::AT_ONCE]:
            on_the_jvm(program, tally, seeds[first - words.seed:first - words.seed + AT_ONCE])
    else:
        for tally.seed in seeds:
            (texts if words.way == "texts" else threads)(program, tally, tally.seed)
    print(tally.told(time.time() - start))
    return 1 if tally.wrong else 0


if __name__ == "__main__":
    sys.exit(main())
