#!/usr/bin/env python3
"""mutate [--program P] [--seed N] [--count N] [--one-in N]: the program on inputs and command lines that were spoilt at random.

A case is the rows, examples or generated programs with bytes, tokens or parts changed, and a command line. What must hold of
every run stands in claims.py; the claims that need further runs are tried on each case that is accepted, or on one in N. Prints how
many cases there were and how many a second, by command and outcome. Ends with status 1 where a claim failed; the smallest input
that was found for it is kept in found."""
import argparse
import os
import sys
import time

from cases import Case, Stock, drawn_case
from claims import command_of, wrong_with
from tool import PROGRAM, fault_of, keep

KEPT = 3


def shrunk(program, case, claim, tries=400):
    """A smaller input for which the same claim fails: pieces are left out for as long as it does."""
    text, size = case.text, max(1, len(case.text) // 2)
    while size and tries:
        at = 0
        while at < len(text) and tries:
            tries -= 1
            smaller = Case(case.kind, case.words, text[:at] + text[at + size:])
            if wrong_with(program, smaller, True)[0] == claim:
                text = smaller.text
            else:
                at += size
        size //= 2
    return Case(case.kind, case.words, text)


def outcome(case, done):
    """What a case is counted under."""
    if done.status == 1:
        return f"fault {fault_of(done)}"
    return f"{command_of(case.words) or 'other'} {'done' if done.status == 0 else f'status {done.status}'}"


def report(program, case, seed, claim, counts):
    counts[claim] = counts.get(claim, 0) + 1
    if counts[claim] > KEPT:
        return
    small = shrunk(program, case, claim)
    came = wrong_with(program, small, True)[1]
    folder = keep(f"{claim}_{seed}", small.words, small.text, came or "it didn't come again", claim)
    print(f"{claim}, case {seed}, {case.kind}: {(came or '')[:300]} (kept in {folder})", flush=True)


def arguments():
    parser = argparse.ArgumentParser(description=__doc__)
    parser.add_argument("--program", default=PROGRAM)
    parser.add_argument("--seed", type=int, default=1)
    parser.add_argument("--count", type=int, default=10_000)
    parser.add_argument("--one-in", type=int, default=2)
    return parser.parse_args()


def main():
    words = arguments()
    program, stock, start = os.path.abspath(words.program), Stock(), time.time()
    failed, outcomes = {}, {}
    for seed in range(words.seed, words.seed + words.count):
        case = drawn_case(seed, stock)
        claim, _, done = wrong_with(program, case, seed % words.one_in == 0)
        name = outcome(case, done)
        outcomes[name] = outcomes.get(name, 0) + 1
        if claim:
            report(program, case, seed, claim, failed)
    seconds = time.time() - start
    print(", ".join(f"{name} {count}" for name, count in sorted(outcomes.items())))
    print(f"{words.count} cases, {words.count / seconds:.0f} a second; wrong: {failed or 'none'}")
    return 1 if failed else 0


if __name__ == "__main__":
    sys.exit(main())
