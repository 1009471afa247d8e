#!/usr/bin/env python3
"""alone [--program P] [--seed N] [--count N]: whether `find` counts rightly in which programs a call throws, waits or never ends, one at a time.

Each case is a small class of `races.py`. Of it all programs with two threads of one call, and at most a call in the setup, are gone
through. Their orders of whole calls are run by `trace`, one call after another, so no search is asked for them. What a thread waits for
is read from `state`. Where `find` says `none`, the lines below it must count the programs in which a call ends by an exception, those in
which one waits for ever, and those in which one never ends otherwise. They must name the first number of these, and a call that is so in
its program. If no method gives back a lock that another call has taken, `find` must not say `none` where one waits; where it finds a lock
that is never given back, that must be so in its number, and in none before. With `--strict` the first number of all must be found, with
such a call. Where `explore --verdict` says `none` and `complete`
of such a program, its lines must name such a call, or there is none. Ends with status 1 if something is wrong."""
import argparse
import collections
import random
import re
import sys

from races import Case
from tool import PROGRAM, joined, keep, run

ALONE = 400
BOUNDS = ["--calls", "1", "--setup", "1"]
TRACED = re.compile(r"\d+ (\w+)\.(\d+) (call|return|trap)\b ?(.*)")
KINDS = ("throws", "waits for ever", "never ends")
ALONE_LINE = re.compile(rf"// a call ({'|'.join(KINDS)}) when calls run one at a time: (.*)")
LINE = re.compile(rf"// in (at least )?(\d+) a call ({'|'.join(KINDS)}) when calls run one at a time: number (\d+), (.*)")
KEPT_LINE = re.compile(r"// number (\d+) of (\d+): a lock is never given back: (.*)")
METHOD = re.compile(r"^  (?:synchronized )?void \w+\(\) \{(.*?)\}\n(?=  (?:synchronized )?void|\})", re.M | re.S)
STRICT_LINE = re.compile(rf"// number (\d+) of \d+: a call ({'|'.join(KINDS)}) when calls run one at a time: (.*)")


def ran(program, text, schedule):
    """The calls of a schedule, each with its end if it has ended: its thread, its words, what ended it, and the answer."""
    calls = {}
    for line in run(program, ["trace"], joined(text, f"{schedule}\n".encode()), seconds=60).out.decode().split("\n"):
        event = TRACED.match(line)
        if event and event[3] == "call":
            calls[event[1], event[2]] = [event[1], event[4], None, None]
        elif event:
            calls[event[1], event[2]][2:] = event[3], event[4]
    return list(calls.values())


def verdict_wrong(program, text, known):
    """What is wrong with the lines of `explore --verdict`, or None."""
    lines = run(program, ["explore", "--verdict"], text, seconds=120).out.decode().split("\n")
    if lines[0] != "none" or not lines[-2].endswith(" complete"):
        return None
    said = {it[1]: it[2] for it in map(ALONE_LINE.fullmatch, lines) if it}
    for kind, calls in known.items():
        if said.get(kind) not in (calls or {None}):
            return f"explore --verdict says {lines}, and a call {kind}: {sorted(calls)}"
    return None


def stopped(program, text, schedule, thread, words):
    """A call that hasn't ended after a schedule: that it waits, and for what; or that it never ends."""
    lines = run(program, ["state"], joined(text, f"{schedule}\n".encode()), seconds=60).out.decode().split("\n")
    waits = next((it for it in lines if re.match(rf"{thread}\.\d+ waits for ", it)), None)
    if waits is None:
        return "never ends", words
    owner = re.search(r", which (\w+) owns$", waits)[1]
    ended = next((f"; {it}" for it in lines if it.startswith(f"{owner} has ended")), "")
    return "waits for ever", f"{words}, {thread} {waits.split(' ', 1)[1]}{ended}"


def faults(program, text):
    """What calls are told that have a fault in some order of whole calls, for each kind."""
    told, left = {kind: set() for kind in KINDS}, [(f"setup*{ALONE}", ("A", "B"))]
    while left:
        schedule, threads = left.pop()
        calls = ran(program, text, schedule)
        told["throws"] |= {f"{words}, {answer}" for _, words, end, answer in calls if end == "trap"}
        pending = [(thread, words) for thread, words, end, _ in calls if end is None]
        for thread, words in pending:
            kind, said = stopped(program, text, schedule, thread, words)
            told[kind].add(said)
        if not pending and not any(thread == "setup" and end == "trap" for thread, _, end, _ in calls):
            left += [(f"{schedule} {thread}*{ALONE}", tuple(it for it in threads if it != thread)) for thread in threads]
    return told


def strict_wrong(program, classes, all_faults):
    """What is wrong with what `find --strict` says of a class of which `find` says `none`, or None."""
    lines = run(program, ["find", "--strict", *BOUNDS], classes, seconds=120).out.decode().split("\n")
    first = next((n for n, it in enumerate(all_faults, 1) if any(it.values())), None)
    line = STRICT_LINE.fullmatch(lines[0])
    if first is None:
        return None if lines[0] == "// none" else f"find --strict says {lines[0]!r}, and no call has a fault"
    if line is None or int(line[1]) != first or line[3] not in all_faults[first - 1][line[2]]:
        return f"find --strict says {lines[0]!r}, and number {first} has {all_faults[first - 1]}"
    return None


def gives_back(case):
    """Whether a method of a class unlocks and takes no lock. No method of such a class calls another."""
    return any("unlock()" in it and not re.search(r"\b(lock|tryLock)\(\)", it) for it in METHOD.findall(case.text))


def kept_wrong(program, classes, case, line):
    """What is wrong with a lock that is told as never given back, or None."""
    number = int(line[1])
    known = [faults(program, joined(classes, run(program, ["find", "--print", str(n), *BOUNDS], classes).out)) for n in range(1, number + 1)]
    if gives_back(case):
        return f"says {line[0]!r}, and a method gives a lock back"
    if any(it["waits for ever"] for it in known[:-1]) or line[3] not in known[-1]["waits for ever"]:
        return f"says {line[0]!r}, and a call waits {[it['waits for ever'] for it in known]}"
    return None


def tried(program, case):
    """What is wrong with what is said of a class, or None; and a word on it."""
    classes = case.text.encode()
    told = run(program, ["find", *BOUNDS], classes, seconds=120).out.decode().split("\n")
    kept = KEPT_LINE.fullmatch(told[0])
    if kept:
        return kept_wrong(program, classes, case, kept), "kept"
    if told[0] != "// none":
        return None, "not none"
    count = int(re.search(r" of (\d+) with ", told[1])[1])
    said = {it[3]: it for it in map(LINE.fullmatch, told) if it}
    if any(it[1] for it in said.values()):
        return None, "not known"
    programs = [run(program, ["find", "--print", str(n), *BOUNDS], classes).out for n in range(1, count + 1)]
    all_faults = [faults(program, joined(classes, it)) for it in programs]
    if not gives_back(case) and any(it["waits for ever"] for it in all_faults):
        return "says none, a call waits for ever, and no method gives a lock back", ""
    for text, known in zip(programs, all_faults):
        wrong = verdict_wrong(program, joined(classes, text), known)
        if wrong:
            return wrong, ""
    wrong = strict_wrong(program, classes, all_faults)
    if wrong:
        return wrong, ""
    for kind in KINDS:
        numbers = [n for n, it in enumerate(all_faults, 1) if it[kind]]
        line = said.get(kind)
        if bool(line) != bool(numbers):
            return f"says {line and line[0]!r}, and a call {kind} in {numbers}", ""
        if line and ((int(line[2]), int(line[4])) != (len(numbers), numbers[0]) or line[5] not in all_faults[numbers[0] - 1][kind]):
            return f"says {line[0]!r}, and a call {kind} in {numbers}, first {sorted(all_faults[numbers[0] - 1][kind])}", ""
    return None, " and ".join(sorted(said)) or "no fault"


def main():
    reader = argparse.ArgumentParser(description=__doc__)
    reader.add_argument("--program", default=PROGRAM)
    reader.add_argument("--seed", type=int, default=1)
    reader.add_argument("--count", type=int, default=100)
    options = reader.parse_args()
    counts = collections.Counter()
    for number in range(options.count):
        case = Case(random.Random(options.seed * 1_000_000 + number))
        wrong, word = tried(options.program, case)
        counts["wrong" if wrong else word] += 1
        if wrong:
            print(f"{number}: {wrong}", flush=True)
            keep(f"alone_{options.seed}_{number}", ["find", *BOUNDS], case.text.encode(), wrong, "all orders of whole calls")
    print(f"{options.count} classes: " + ", ".join(f"{name} {count}" for name, count in sorted(counts.items())))
    return 1 if counts["wrong"] else 0


if __name__ == "__main__":
    sys.exit(main())
