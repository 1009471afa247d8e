#!/usr/bin/env python3
"""specs [--program P] [--seed N] [--count N] (pairs | families): whether what `--spec` says of a class, judged by another class, is so.

Each case is a random class of fields, loops, a lock and a monitor, and another one with the same methods: the reference. Its histories
come from small.py, which walks through all states of its threads, and so do the serial histories of the reference. `pairs`: a random
program of two or three threads. `explore --spec` shows exactly the histories, each with its verdict, and counts them. `explore --verdict --spec`
finds a history that isn't linearizable exactly if there is one, and tells its first event that no order explains; else threads that
wait, or turn, for ever. `order --spec` explains each of some histories, some with an answer changed, or names the line from which on
none does. `families`: the first program of `find --spec` that is wrong, with one thread and with two, and why, is that of the programs
in order. What is too large is counted. Ends with status 1 if something is wrong."""
import argparse
import random
import re
import sys

from small import Program, TooLarge, alike, drawn, explored, serial_runs
from tool import PROGRAM, joined, keep, run
from verdicts import EVENT, changed, explains

STATES = "60000"
END = re.compile(r"states \d+ histories (\d+) not linearizable (\d+) complete")
NUMBER = re.compile(r"// number (\d+) of \d+: ([a-z ]+)")
REASONS = ("not linearizable", "threads wait for ever", "threads turn for ever")
# Families: of one thread with two calls and two ints, and of two threads.
FAMILIES = ["--threads 1 --calls 2 --setup 0 --values 2", "--threads 1 --calls 2 --setup 1 --values 1",
            "--threads 2 --calls 1 --setup 1 --values 1", "--threads 2 --calls 1 --setup 0 --values 2", "--threads 2 --calls 2 --setup 0 --values 1"]


def events(lines):
    """The events of a history: the call's name, what happened, and the answer."""
    return [(f"{it[1]}.{it[2]}", it[3], "" if it[3] == "call" else it[4]) for it in map(EVENT.fullmatch, lines)]


class Judge:
    """What a class may do on a program, and what the reference explains of it."""

    def __init__(self, small, like, text):
        self.histories, self.waiting, self.turning = explored(Program(small, text))
        runs, endless = serial_runs(Program(like, text))
        self.runs = [self.ends(it) for it in runs]
        self.endless = [(self.ends(it[:-1]), events(it[-1:])[0][0]) for it in endless]
        self.known = {}
        # a setup that turns for ever: no thread has started
        self.is_refused = bool(self.turning) and all(line.startswith("setup.") for it in self.histories for line in it)

    @staticmethod
    def ends(lines):
        return [it for it in events(lines) if it[1] != "call"]

    def is_linearizable(self, history):
        if history not in self.known:
            self.known[history] = any(explains(it, events(history)) for it in self.runs)
        return self.known[history]

    def is_excused(self, history, call):
        """Whether this pending call never ends after calls, one at a time, that explain exactly what has ended."""
        ended = {it[0] for it in self.ends(history)}
        return any(never == call and {it[0] for it in run_} == ended and explains(run_, events(history)) for run_, never in self.endless)

    def has_unexcused(self, history):
        ended = {it[0] for it in self.ends(history)}
        pending = [call for call, what, _ in events(history) if what == "call" and call not in ended]
        return any(not self.is_excused(history, it) for it in pending)

    def reason(self):
        """Why `find` stops at the program, or None."""
        wrong = (any(not self.is_linearizable(it) for it in self.histories), any(map(self.has_unexcused, self.waiting)),
                 any(map(self.has_unexcused, self.turning)))
        return next((reason for reason, is_so in zip(REASONS, wrong) if is_so), None)


def wrong_rows(judge, out):
    """What is wrong with the rows of an exploration, or None."""
    *blocks, last = out.split("\n\n")
    rows = {tuple(lines[2:]): lines[0] for lines in (block.split("\n") for block in blocks)}
    for history, head in rows.items():
        if history not in judge.histories:
            return f"no schedule has this history\n{history}"
        if not head.endswith(f", {'' if judge.is_linearizable(history) else 'not '}linearizable"):
            return f"{head}, which is wrong\n{history}"
        if (" waits for " in head) != (history in judge.waiting):
            return f"{head}, but threads {'do not ' if ' waits for ' in head else ''}wait\n{history}"
    beginnings = {history[:n] for history in rows for n in range(len(history) + 1)}
    if not judge.histories <= beginnings:
        return f"no row has this history\n{min(judge.histories - beginnings)}"
    end, count = END.fullmatch(last.strip()), sum(not judge.is_linearizable(it) for it in rows)
    return None if end and (int(end[1]), int(end[2])) == (len(rows), count) else f"{last.strip()}, but it is {len(rows)} and {count}"


def in_words(called, line, returned, threw):
    """An event of a history in words, where the calls by their names are these."""
    name, kind, *detail = line.split(" ", 2)
    return " ".join([name, called[name], {"return": returned, "trap": threw}[kind], *detail])


def line_on(judge, history):
    """The line on the first event of a history that no order of whole calls explains."""
    at = next(n for n in range(len(history)) if not judge.is_linearizable(history[:n + 1]))
    before = [it for it in history[:at] if not it.startswith("setup.")]
    called = {it.split()[0]: it.split(" ", 2)[2] for it in history if it.split()[1] == "call"}
    ends = [it for it in before if it.split()[1] != "call"]
    ended = [in_words(called, it, "returned", "threw") for it in ends]
    over, own = {it.split()[0] for it in ends}, history[at].split(".")[0]
    names = [it.split()[0] for it in before if it.split()[1] == "call"]
    running = [f"{it} {called[it]}" for it in names if it not in over and it.split(".")[0] != own]
    after = " after " * bool(ended) + " and ".join(ended)
    still = f", with {' and '.join(running)} still running" if running else ""
    return f"// no order of whole calls explains that {in_words(called, history[at], 'returns', 'throws')}{after}{still}\n"


def wrong_verdict(judge, out):
    """What is wrong with a verdict alone, or None. Above its last line there is a line on an event."""
    first, _, rest = out.partition("\n")
    head = re.sub(r"; context switches \d+$", "", first)
    history = tuple(rest.split("\n\n")[0].split("\n")[1:])
    if not out.endswith(" complete\n"):
        return f"{first}, not complete"
    if any(not judge.is_linearizable(it) for it in judge.histories):
        is_so = head == "not linearizable" and history in judge.histories and not judge.is_linearizable(history)
        is_so = is_so and out.split("\n\n")[1].startswith(line_on(judge, history))
    elif judge.waiting:
        is_so = " waits for " in head and history in judge.waiting
    elif judge.turning:
        is_so = head == "threads turn for ever" and history in judge.turning
    else:
        is_so = head == "none"
    return None if is_so else f"{out}is wrong: {len(judge.waiting)} wait, {len(judge.turning)} turn"


def wrong_order(judge, history, out):
    """What is wrong with what `order` says of a history, or None. The making of the object is in no order."""
    told = out.split("\n")
    at = re.match(r"hopeless (\d+) (.*)", told[0])
    count = int(at[1]) - 1 if at else len(history)
    order = told[1 if at else 0].split()
    if at and (at[2] != history[count] or judge.is_linearizable(history[:count + 1])):
        return f"{out}\n{history}: it isn't hopeless there"
    is_one = any([it[0] for it in run_ if it[0] != "setup.1"] == order and explains(run_, events(history[:count])) for run_ in judge.runs)
    return None if is_one else f"{out}\n{history}: the order doesn't explain it"


def program_of(rng, small):
    """A random program of a class."""
    calls = [f" s.{it.name}({rng.randrange(1, 3) if it.takes else ''});" for it in small.methods if it.name != "S"]
    setup = rng.choice(calls) if rng.random() < 0.3 else ""
    shape = rng.choice(((1, 1), (2, 1), (2, 2), (1, 1, 1)))
    threads = "".join(f"thread {'ABC'[i]} {{{''.join(rng.choice(calls) for _ in range(n))} }}\n" for i, n in enumerate(shape))
    return f"setup {{ s = new S();{setup} }}\n{threads}"


def histories_of(rng, judge):
    """Some histories, and these with an answer changed."""
    some = rng.sample(sorted(it for it in judge.histories if it), min(3, len(judge.histories) - 1))
    return [it for history in some for it in (history, tuple(changed(rng, list(history))))]


def tried_pair(program, rng, small, like):
    """Yields each command for a program of a pair with its input, what is wrong with its answer or None, and words on it."""
    text = program_of(rng, small)
    judge = Judge(small, like, text)
    parts = [it.text().encode() for it in (small, like)]
    parts.insert(1, text.encode())
    trials = [(["explore"], parts, lambda out: wrong_rows(judge, out)), (["explore", "--verdict"], parts, lambda out: wrong_verdict(judge, out))]
    for history in histories_of(rng, judge):
        asked = [*parts[:2], "".join(f"{line}\n" for line in history).encode(), parts[2]]
        trials.append((["order"], asked, lambda out, history=history: wrong_order(judge, history, out)))
    for words, asked, wrong_of in trials:
        words += ["--spec"] + ["--states", STATES] * (words[0] == "explore")
        done = run(program, words, joined(*asked), seconds=120)
        refused = words[:2] == ["explore", "--spec"] and judge.is_refused and done.errors == b"fault 62 SetupEndless\n"
        wrong = wrong_of(done.out.decode()) if done.status == 0 else None if refused else done.told()
        yield words, joined(*asked), wrong, f"{len(judge.histories)} histories, {judge.reason()}"


def tried_family(program, rng, small, like):
    """The same for a family: the number at which `find` stops."""
    words = ["find", "--spec", "--states", STATES, *rng.choice(FAMILIES).split()]
    text = joined(small.text().encode(), like.text().encode())
    done = run(program, words, text, seconds=300)
    last = re.search(r"numbers 1 to (\d+) .* and 0 cut", done.out.decode())
    if done.status or not last:
        yield words, text, None if " cut from " in done.out.decode() else done.told(), "cut"
        return
    first = NUMBER.match(done.out.decode())
    count, want = int(first[1]) if first else int(last[1]), None
    for number in range(1, count + 1):
        one = run(program, [*words, "--print", str(number)], text).out.decode()
        reason = Judge(small, like, one).reason()
        want = (number, reason) if reason else None
        if want:
            break
    got = (count, first[2]) if first else None
    yield words, text, None if got == want else f"{got}, but it is {want}", f"{' '.join(words[4:])}: {got or f'none of {count}'}"


def main():
    reader = argparse.ArgumentParser(description=__doc__)
    reader.add_argument("kind", choices=("pairs", "families"))
    reader.add_argument("--program", default=PROGRAM)
    reader.add_argument("--seed", type=int, default=1)
    reader.add_argument("--count", type=int, default=100)
    options = reader.parse_args()
    tried, bad, large = tried_pair if options.kind == "pairs" else tried_family, 0, 0
    for number in range(options.count):
        rng = random.Random(options.seed * 1_000_000 + number)
        small = drawn(rng)
        like, told, wrong = alike(rng, small), "too large", None
        try:
            for words, text, wrong, told in tried(options.program, rng, small, like):
                if wrong:
                    bad += 1
                    keep(f"specs_{options.kind}_{options.seed}_{number}", words, text, wrong, "what all schedules and all whole calls say")
                    break
        except TooLarge:
            large += 1
        print(f"{number}: {wrong or told}", flush=True)
    print(f"{options.count} {options.kind}, {large} of them too large, {bad} wrong")
    return 1 if bad else 0


if __name__ == "__main__":
    sys.exit(main())
