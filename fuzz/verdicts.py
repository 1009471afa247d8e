#!/usr/bin/env python3
"""verdicts [--program P] [--seed N] [--count N]: whether `explore` and `batch --judge` say of each history rightly if it is linearizable.

Each case is a class of counters, stacks, queues, sets, locks or markable references, right or broken, and a random program of two or
three threads. All orders of whole calls are run by `trace`, one call after another, so no exploration is asked for them. A history is
linearizable exactly if one of these runs explains it. Of each row of `explore`, of an exploration that is cut too, and of each history of
`batch --judge`: `linearizable` and `not linearizable` stand where they should, and the last line of `explore` counts them. If a call alone
goes on and on, `explore` may say nothing of a history and `batch` `not judged`. `order` finds a run of whole calls for some of the rows, and
for these with an answer changed, or the line from which on no run explains them. `explore --verdict` prints a run that is wrong as it says,
and none only if no row of a whole exploration is wrong; no row that is wrong so has fewer context switches than it tells. Ends with status 1 if something is wrong."""
import argparse
import random
import re
import sys

from tool import PROGRAM, joined, keep, run

STATES, CUT, ALONE = "60000", "40", 400
SAMPLES = ["--seed", "1", "--count", "200", "--steps", "300", "--switch", "5", "--judge"]
EVENT = re.compile(r"(\w+)\.(\d+) (call|return|trap) ?(.*)")
TRACED = re.compile(r"\d+ (\w+)\.(\d+) (call|return|trap)\b ?(.*)")
END = re.compile(r"states \d+ histories \d+( illegal (\d+))?( not linearizable (\d+))? (complete|complete in these cells|cut)")

# A class of each kind: its text, how its object is made, and the calls that a program draws from.
KINDS = {
    "counter": ("class S { int v; void inc() { int t = v; v = t + 1; } int get() { return v; } }", "inc() get()"),
    "kept_counter": ("class S { int v; synchronized void inc() { v++; } synchronized int get() { return v; } }", "inc() get()"),
    "tickets": ("class S { int n; int next() { if (n > 1) return -1; n++; return n; } }", "next()"),
    "stack": ("""class N { int v; N next; N(int v, N next) { this.v = v; this.next = next; } }
class S { N top; void push(int v) { top = new N(v, top); } int pop() { int v = top.v; top = top.next; return v; } }""",
              "push(1) push(2) pop()"),
    "kept_stack": ("""class N { int v; N next; N(int v, N next) { this.v = v; this.next = next; } }
class S { N top; synchronized void push(int v) { top = new N(v, top); }
synchronized int pop() { if (top == null) return -1; int v = top.v; top = top.next; return v; } }""", "push(1) push(2) pop()"),
    "queue": ("""class S { boolean[] full = new boolean[4]; int head; int tail; Lock m = new ReentrantLock();
void enq(int k) { m.lock(); try { full[tail] = k == 1; tail++; } finally { m.unlock(); } }
boolean deq() { if (head == tail) { int none = 1 / 0; } boolean x = full[head]; head++; return x; } }""", "enq(1) enq(2) deq()"),
    "set": ("""class S { boolean a; boolean b;
boolean add(int k) { if (k == 1) { if (a) return false; a = true; return true; } if (b) return false; b = true; return true; }
boolean remove(int k) { if (k == 1) { if (!a) return false; a = false; return true; } if (!b) return false; b = false; return true; }
boolean contains(int k) { if (k == 1) return a; return b; } }""", "add(1) remove(1) contains(1) add(2)"),
    "trapped_set": ("class S { int n; boolean add(int k) { n++; k = 1 / (2 - n); n--; return true; } }", "add(1) add(2)"),
    "try_lock": ("class S { Lock m = new ReentrantLock(); int v; int f() { if (m.tryLock()) { v++; m.unlock(); return v; } return 0; } }",
                 "f()"),
    "lock_held": ("class S { Lock m = new ReentrantLock(); int v; void take() { m.lock(); v++; } int see() { return v; } }",
                  "take() see()"),
    "waits_for_it": ("class S { boolean on; int n; void set() { on = true; } int got() { while (!on && n < 1) { n++; } return n; } }",
                     "set() got()"),
    "markable": ("""class N { int v; }
class S { N n = new N(); AtomicMarkableReference<N> r = new AtomicMarkableReference<N>(n, false);
boolean mark() { if (r.isMarked()) return false; return r.attemptMark(n, true); } boolean seen() { return r.isMarked(); } }""",
                 "mark() seen()"),
    "markable_exchanged": ("""class N { int v; }
class S { N n = new N(); AtomicMarkableReference<N> r = new AtomicMarkableReference<N>(n, false);
boolean mark() { return r.compareAndSet(n, n, false, true); } boolean free() { return r.compareAndSet(n, n, true, false); } }""",
                           "mark() free()"),
    "two_objects": ("""class P { int v; void up() { v++; } }
class S { P a = new P(); P b = new P(); void move() { a.up(); b.up(); } int sum() { return a.v - b.v; } }""", "move() sum()"),
}


def program_of(rng, calls):
    """A program of two threads of up to two calls or of three of one or two, with a call in the setup now and then, and how many calls
    each of its threads has."""
    shape = rng.choice(((1, 1), (2, 1), (2, 2), (1, 1, 1), (2, 1, 1)))
    setup = f" s.{rng.choice(calls)};" if rng.random() < 0.3 else ""
    threads = {"ABC"[i]: [f"s.{rng.choice(calls)};" for _ in range(n)] for i, n in enumerate(shape)}
    text = f"setup {{ s = new S();{setup} }}\n" + "".join(f"thread {t} {{ {' '.join(it)} }}\n" for t, it in threads.items())
    return text, {t: len(it) for t, it in threads.items()}


def events(lines):
    """The events of a history but those of the setup: the call's name, what happened, and the answer."""
    found = (EVENT.match(line) for line in lines)
    return [(f"{it[1]}.{it[2]}", it[3], it[4]) for it in found if it and it[1] != "setup"]


def call_alone(program, text, schedule, thread):
    """The schedule with one more call of a thread, alone to its end, and the call with its end. None if it doesn't end so. And whether it
    goes on and on."""
    done = run(program, ["trace"], joined(text, f"{schedule} {thread}*{ALONE}\n".encode()), seconds=60)
    lines = [it for it in map(TRACED.match, done.out.decode().split("\n")) if it]
    before = run(program, ["trace"], joined(text, f"{schedule}\n".encode()), seconds=60).out.decode()
    known = len([it for it in map(TRACED.match, before.split("\n")) if it])
    for line in lines[known:]:
        if line[1] == thread and line[3] != "call":
            steps = int(line[0].split()[0]) - int(before.rstrip("\n").split("\n")[-1].split()[0] if before.strip() else 0)
            return (f"{schedule} {thread}*{steps}", (f"{thread}.{line[2]}", line[3], line[4])), False
    return None, len(lines) > known + ALONE // 2


def serial_runs(program, text, counts):
    """Each run of whole calls, as the calls with their ends. And whether a call goes on and on."""
    runs, left, endless = [()], [("setup*80", (), dict(counts), frozenset())], False
    while left:
        schedule, calls, counts, trapped = left.pop()
        for thread, count in counts.items():
            if not count or thread in trapped:
                continue
            more, goes_on = call_alone(program, text, schedule, thread)
            endless = endless or goes_on
            if more is None:
                continue
            runs.append((*calls, more[1]))
            left.append((more[0], runs[-1], {**counts, thread: count - 1}, trapped | ({thread} if more[1][1] == "trap" else set())))
    return runs, endless


def explains(serial, history):
    """Whether a run of whole calls explains a history: each end in the history is in the run, each call in the run was called in the
    history, and what had ended there before a call was called ended before it here."""
    called = {call: at for at, (call, what, _) in enumerate(history) if what == "call"}
    ended = {call: (at, what, answer) for at, (call, what, answer) in enumerate(history) if what != "call"}
    place = {call: at for at, (call, _, _) in enumerate(serial)}
    if any(call not in called for call in place) or any(call not in place for call in ended):
        return False
    if any(call in ended and ended[call][1:] != (what, answer) for call, what, answer in serial):
        return False
    return not any(a in ended and ended[a][0] < called[b] and place[a] > place[b] for a in place for b in place)


def wrong_row(head, history, runs, whole):
    """What is wrong with what a row says of its history, or None; and whether it says that it isn't linearizable."""
    is_so = any(explains(it, history) for it in runs)
    is_set = re.search(r"[, ](legal|illegal)\b", head) is not None
    says_not = head.endswith("not linearizable")
    says_so = head.endswith(" linearizable") and not says_not
    if says_not and is_so or says_so and not is_so:
        return f"{head}, but it is{'' if is_so else ' not'} linearizable", says_not
    if whole and not is_so and not says_not or not is_set and is_so and not says_so and whole:
        return f"{head} says too little", says_not
    return None, says_not


def wrong_exploration(program, text, states, runs, endless):
    """What is wrong with an exploration, or None, and a word on it."""
    done = run(program, ["explore", "--states", states], text, seconds=120)
    if done.status != 0:
        return f"explore: {done.told()}", ""
    *blocks, last = done.out.decode().split("\n\n")
    end = END.fullmatch(last.strip())
    sure, count = end[5] == "complete" or not endless, 0
    for block in blocks:
        head, _, *history = block.split("\n")
        wrong, says_not = wrong_row(head, events(history), runs, sure)
        if wrong:
            return wrong + "\n" + block, ""
        count += says_not
    if end[4] is not None and int(end[4]) != count or sure and end[4] is None:
        return f"{last.strip()}, but {count} rows are not linearizable", ""
    return None, f"{len(blocks)} rows, {count} not linearizable, {end[5]}"


def wrong_tally(program, text, runs, endless):
    """What is wrong with a judged tally, or None, and a word on it."""
    done = run(program, ["batch", *SAMPLES], text, seconds=120)
    if done.status != 0:
        return f"batch: {done.told()}", ""
    blocks, count = done.out.decode().split("\n\n")[:-1], 0
    for block in blocks:
        head, *history = block.split("\n")
        wrong, says_not = wrong_row(head, events(history), runs, not endless)
        if wrong:
            return f"batch: {wrong}\n{block}", ""
        count += says_not
    return None, f"{len(blocks)} sampled, {count} not linearizable"


def switches(schedule):
    """How many context switches a printed schedule has: steps of another thread than the step before, but for the one that leaves the setup."""
    spread = schedule.removeprefix("@2 ")
    while "(" in spread:
        spread = re.sub(r"\(([^()]*)\)(?:\*(\d+))?", lambda it: " ".join([it[1]] * int(it[2] or 1)), spread)
    names = [item.partition("*")[0] for item in spread.split()]
    return max(sum(name != before for before, name in zip(["setup"] + names, names)) - 1, 0)


def not_simplest(first, schedule, rows):
    """What is wrong with the switches that a verdict tells of its schedule, or None: none of these rows' schedules has fewer."""
    if "; context switches " not in first:
        return None
    told = int(first.rpartition(" ")[2])
    if told != switches(schedule):
        return f"{first}, but it has {switches(schedule)}: {schedule}"
    fewer = [it for it in rows if switches(it.split("\n")[1]) < told]
    return f"{first}, but this row has fewer\n{fewer[0]}" if fewer else None


def wrong_verdict(program, text, runs, endless):
    """What is wrong with a verdict alone, or None, and a word on it. The run that is printed is wrong as it says; and if none is, no row of
    a whole exploration is wrong, and none ends in waiting."""
    done = run(program, ["explore", "--verdict", "--states", STATES], text, seconds=120)
    if done.status != 0:
        return f"explore --verdict: {done.told()}", ""
    out = done.out.decode()
    first, rest = out.split("\n", 1)
    head = first.partition("; context switches ")[0]
    complete = out.endswith(" complete\n")
    rows = run(program, ["explore", "--states", STATES], text, seconds=120).out.decode()
    *blocks, last = rows.split("\n\n")
    whole = last.strip().endswith(" complete")
    heads = [block.split("\n", 1)[0] for block in blocks]
    waiting = any(" waits for " in it for it in heads)
    bad = [it for it in blocks if not any(explains(run_, events(it.split("\n")[2:])) for run_ in runs)]
    compared = bad if head == "not linearizable" else [it for it in blocks if " waits for " in it.split("\n", 1)[0]] if " waits for " in head else []
    said = not_simplest(first, rest.split("\n", 1)[0], compared)
    if said:
        return said, ""
    if head in ("not linearizable", "not judged"):
        history = events(rest.split("\n\n")[0].split("\n")[1:])
        if head == "not judged" and not endless:
            return f"{head}, though each call ends", ""
        if any(explains(it, history) for it in runs):
            return f"{head}, but a run of whole calls explains it\n{out}", ""
    elif complete and whole and bad and not endless:
        return f"{head}, but a row is not linearizable\n{bad[0]}", ""
    elif (head.startswith("none") or head == "threads turn for ever") and complete and whole and waiting:
        return f"{head}, but a row waits for ever", ""
    elif " waits for " in head and whole and not waiting:
        return f"{head}, but no row waits for ever", ""
    return None, f"{head.split(' waits')[0]}, {out.splitlines()[-1]}"


def changed(rng, lines):
    """The history with the answer of one call of a thread changed. The runs of whole calls say nothing of the setup's."""
    ends = [at for at, line in enumerate(lines) if re.fullmatch(r"(?!setup\.).* return (true|false|-?\d+)", line)]
    if not ends:
        return lines
    at = rng.choice(ends)
    head, answer = lines[at].rsplit(" ", 1)
    other = {"true": "false", "false": "true"}.get(answer) or str(int(answer) + rng.choice((-1, 1)))
    return [*lines[:at], f"{head} {other}", *lines[at + 1:]]


def explained_by(order, lines, runs):
    """Whether the run of whole calls in this order explains a history."""
    calls = [it for it in order.split() if not it.startswith("setup.")]
    return any([call for call, _, _ in it] == calls and explains(it, events(lines)) for it in runs)


def wrong_order(program, text, lines, runs, endless):
    """What is wrong with the order of whole calls that is found for a history, or None."""
    done = run(program, ["order"], joined(text, "".join(f"{line}\n" for line in lines).encode()), seconds=120)
    told = done.out.decode().split("\n")
    is_so = any(explains(it, events(lines)) for it in runs)
    if done.status != 0 or told[-1] != "":
        return f"order: {done.told()}"
    if told[0].startswith("not judged: a call goes on") and len(told) == 2:
        return None if endless and not is_so else "not judged, but it can be"
    if not told[0].startswith("hopeless "):
        return None if len(told) == 2 and explained_by(told[0], lines, runs) else f"{told[0]!r} doesn't explain it"
    _, number, line = told[0].split(" ", 2)
    count = int(number)
    if len(told) != 3 or lines[count - 1] != line or not explained_by(told[1], lines[:count - 1], runs):
        return f"{told}: the lines before aren't explained so"
    return f"{told}: a run explains it" if any(explains(it, events(lines[:count])) for it in runs) else None


def wrong_orders(program, text, runs, endless):
    """What is wrong with the orders of some rows, and of these with an answer changed; or None, and a word on it."""
    rng = random.Random(len(text) + len(runs))
    *blocks, _ = run(program, ["explore", "--states", STATES], text, seconds=120).out.decode().split("\n\n")
    for block in rng.sample(blocks, min(4, len(blocks))):
        lines = block.split("\n")[2:]
        for history in (lines, changed(rng, lines)):
            wrong = wrong_order(program, text, history, runs, endless)
            if wrong:
                return wrong + "\n" + "\n".join(history), ""
    return None, "orders"


def tried(program, text, counts):
    """What is wrong with the explorations, the verdict, the tally and the orders of a program, or None, and words on them."""
    runs, endless = serial_runs(program, text, counts)
    words = [f"{len(runs)} runs"]
    for trial in (lambda: wrong_exploration(program, text, STATES, runs, endless),
                  lambda: wrong_exploration(program, text, CUT, runs, endless), lambda: wrong_verdict(program, text, runs, endless),
                  lambda: wrong_tally(program, text, runs, endless), lambda: wrong_orders(program, text, runs, endless)):
        wrong, told = trial()
        if wrong:
            return wrong, ""
        words.append(told)
    return None, "; ".join(words)


def main():
    reader = argparse.ArgumentParser(description=__doc__)
    reader.add_argument("--program", default=PROGRAM)
    reader.add_argument("--seed", type=int, default=1)
    reader.add_argument("--count", type=int, default=100)
    options = reader.parse_args()
    bad = 0
    for number in range(options.count):
        rng = random.Random(options.seed * 1_000_000 + number)
        name = rng.choice(sorted(KINDS))
        classes, calls = KINDS[name]
        program, counts = program_of(rng, calls.split())
        text = joined(classes.encode(), program.encode())
        wrong, told = tried(options.program, text, counts)
        print(f"{number} {name}: {wrong or told}", flush=True)
        if wrong:
            bad += 1
            keep(f"verdicts_{options.seed}_{number}", ["explore"], text, wrong, "what all orders of whole calls say")
    print(f"{options.count} programs, {bad} wrong")
    return 1 if bad else 0


if __name__ == "__main__":
    sys.exit(main())
