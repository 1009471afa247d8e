#!/usr/bin/env python3
"""explorations [--program P] [--seed N] [--count N] (examples | sets | tiny): whether `explore` finds what the other commands find.

Of an exploration that is complete: each row's schedule, run by `source`, prints the row's history, and `state` after it says of waiting
threads what the row says. Each history that `batch` counts, by
both ways of drawing, and each that `live` comes to, is the beginning of a row's. `examples`: the programs of two and three threads in
examples/. `sets`: the stored classes, with two threads of two calls on one or two items and with three threads of one call; no history
may be without a legal order. `tiny`: random programs of two threads of a few steps; each interleaving of seven steps of both is run by
`source`. Its history is the beginning of a row's, and each row of so few steps is found so. Ends with status 1 if something is wrong."""
import argparse
import glob
import itertools
import os
import random
import re
import sys

from tool import PROGRAM, TOP, joined, keep, run

SEEDS, STEPS, LIVE, EACH = 2_000, 400, 5, 7
STATES = "2000000"
CALLS = ("add", "remove", "contains")
WAITS = re.compile(rb"(?m)^(\w+)\.\d+( waits for .*)$")
VERDICT = re.compile(rb"(, (legal|illegal|not judged))?(, (not )?linearizable)?$")
# how a row may end of itself, if no thread waits and if one does
ENDS = (b"ended", b"out of cells", b"goes on", b"not seen"), (b"out of cells", b"goes on", b"not seen")
END = re.compile(rb"states (\d+) histories (\d+)( illegal (\d+))?( not linearizable (\d+))? (complete|cut)([: ].*)?\n")


def lines(text):
    return tuple(line for line in text.split(b"\n") if line)


class Explored:
    """What `explore` prints of a program: rows of a schedule and a history, how many have no legal order, and whether it is complete."""

    def __init__(self, text):
        self.rows = []
        *blocks, last = text.split(b"\n\n")
        for block in blocks:
            head, schedule, *history = lines(block)
            self.rows.append((head, schedule, tuple(history)))
        end = END.fullmatch(last)
        self.states, self.complete = int(end[1]), end[7] == b"complete"
        self.illegal = int(end[4]) if end[4] else 0
        self.beginnings = {history[:n] for _, _, history in self.rows for n in range(len(history) + 1)}


def explored(program, text):
    done = run(program, ["explore", "--states", STATES], text, seconds=300)
    return (Explored(done.out), done) if done.status == 0 else (None, done)


def tallied(text):
    """The histories of a tally."""
    return [lines(block) for block in re.split(rb"(?m)^seed \d+ count \d+$", text)[1:]]


def seen(program, text):
    """Each history that `batch` and `live` show, with the words that showed it."""
    for words in ([], ["--switch", "10"]):
        words = ["batch", "--seed", "0", "--count", str(SEEDS), "--steps", str(STEPS), *words]
        done = run(program, words, text, seconds=60)
        for history in tallied(done.out):
            yield words, history
    for _ in range(LIVE):
        done = run(program, ["live"], text, seconds=60)
        yield ["live"], lines(done.out.partition(b"\n")[2])


def wrong_of(program, text, found):
    """What is wrong with an exploration, or None."""
    for head, schedule, history in found.rows:
        done = run(program, ["source"], text + b"\n%%\n" + schedule + b"\n")
        if lines(done.out) != history:
            return f"source {schedule.decode()} prints {done.told()}"
        done = run(program, ["state"], text + b"\n%%\n" + schedule + b"\n")
        waits = b"; ".join(name + words for name, words in WAITS.findall(done.out))
        if waits != VERDICT.sub(b"", head) and head.partition(b",")[0] not in ENDS[bool(waits)]:
            return f"{head.decode()}, but state {schedule.decode()} prints {done.told()}"
    if len({history for _, _, history in found.rows}) != len(found.rows):
        return "a history stands twice"
    if found.complete:
        for words, history in seen(program, text):
            if history not in found.beginnings:
                return f"{' '.join(words)} shows {b' / '.join(history).decode()}"
    return None


def examples():
    """The programs of the examples that `source` runs."""
    for path in sorted(glob.glob(f"{TOP}/examples/**/*.txt", recursive=True)):
        with open(path, "rb") as file:
            parts = file.read().split(b"\n%%\n")
        if len(parts) >= 3 and b"thread" in parts[1]:
            yield os.path.basename(path), parts[0] + b"\n%%\n" + parts[1], None


def sets(rng, count):
    """The stored classes with two threads of two calls each, and with three threads of one."""
    for number in range(count):
        for path in sorted(glob.glob(f"{TOP}/examples/classes/*.java")):
            name = os.path.basename(path)[: -len(".java")]
            with open(path, "rb") as file:
                classes = file.read()
            shape = (1, 1, 1) if number % 3 == 2 else (2, 2)
            calls = [" ".join(f"s.{rng.choice(CALLS)}({rng.choice((1, 1, 2))});" for _ in range(n)) for n in shape]
            threads = "".join(f"thread {'ABC'[i]} {{ {it} }}\n" for i, it in enumerate(calls))
            yield f"{name} {calls}", classes + f"\n%%\nsetup {{ s = new {name}(); }}\n{threads}".encode(), 0


BODIES = ["v = 1;", "v = v + 1;", "int t = v; v = t + 2;", "if (v == 0) v = 3;", "m.lock(); v = 4; m.unlock();", "w = v;",
          "synchronized (this) { v = 5; }", "v = 1 / v;", "w++;"]


def tiny(rng, count):
    """Random classes of two short methods, which two threads call once."""
    for number in range(count):
        a, b = rng.choice(BODIES), rng.choice(BODIES)
        text = ("class C { int v; int w; ReentrantLock m; C() { m = new ReentrantLock(); } "
                f"int a() {{ {a} return v; }} int b() {{ {b} return w; }} }}\n%%\n"
                "setup { c = new C(); }\nthread A { c.a(); }\nthread B { c.b(); }\n")
        yield f"{number}: {a} | {b}", text.encode(), None


def interleavings():
    """Each list of EACH steps of one thread and EACH of the other."""
    for places in itertools.combinations(range(2 * EACH), EACH):
        yield " ".join("A" if i in places else "B" for i in range(2 * EACH)).encode()


def steps_of(schedule, thread):
    """How many steps of a thread a printed schedule without groups has."""
    return sum(int(n or 1) for n in re.findall(rb"\b" + thread + rb"(?:\*(\d+))?(?= |$)", schedule))


def brute_force(program, text, found):
    """What is wrong with an exploration beside all interleavings of EACH steps of both threads, or None."""
    known = {lines(run(program, ["source"], text + b"\n%%\n@2 setup*60 " + steps + b"\n").out) for steps in interleavings()}
    lost = [history for history in known if history not in found.beginnings]
    if lost:
        return f"a list of steps shows {b' / '.join(lost[0]).decode()}"
    for _, schedule, history in found.rows:
        short = max(steps_of(schedule, b"A"), steps_of(schedule, b"B")) <= EACH
        if short and not any(it[: len(history)] == history for it in known):
            return f"no list of steps shows {b' / '.join(history).decode()}"
    return None


def tried(options, name, text, most_illegal):
    """Tries one program; returns what is wrong, or None, and a word on it."""
    found, done = explored(options.program, text)
    if found is None:
        return f"explore: {done.told()}", ""
    wrong = wrong_of(options.program, text, found)
    if wrong is None and most_illegal is not None and (found.illegal > most_illegal or not found.complete):
        wrong = f"{found.illegal} histories without a legal order, complete: {found.complete}"
    if wrong is None and options.kind == "tiny" and found.complete:
        wrong = brute_force(options.program, text, found)
    return wrong, f"{found.states} states, {len(found.rows)} histories, {found.illegal} illegal, {'complete' if found.complete else 'cut'}"


def main():
    reader = argparse.ArgumentParser(description=__doc__)
    reader.add_argument("--program", default=PROGRAM)
    reader.add_argument("--seed", type=int, default=1)
    reader.add_argument("--count", type=int, default=3)
    reader.add_argument("kind", choices=("examples", "sets", "tiny"))
    options = reader.parse_args()
    rng = random.Random(options.seed)
    cases = {"examples": lambda: examples(), "sets": lambda: sets(rng, options.count), "tiny": lambda: tiny(rng, options.count)}
    count = bad = 0
    for name, text, most_illegal in cases[options.kind]():
        count += 1
        wrong, told = tried(options, name, text, most_illegal)
        print(f"{name}: {wrong or told}", flush=True)
        if wrong:
            bad += 1
            keep(f"explorations_{options.kind}_{count}", ["explore"], text, wrong, "what `explore` finds")
    print(f"{count} programs, {bad} wrong")
    return 1 if bad else 0


if __name__ == "__main__":
    sys.exit(main())
