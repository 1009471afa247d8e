#!/usr/bin/env python3
"""races [--program P] [--seed N] [--count N] [--families N]: whether data races are told rightly.

Each case is a small class whose fields are volatile here and there, and a random program of two or three threads. Their states and steps
are those of a page of choices, which tells objects by class and number. Over all runs it is kept which last accesses each thread comes
after: program order, locks, monitors, markable references and volatile fields order them, as happens-before does. `explore --races` must tell
a race exactly if there are two accesses to one variable that isn't volatile, one a write, that aren't ordered so. It must name the variables
that two threads are about to access in one state, and no others. The last two steps of the schedule that it prints are two such accesses.
Beside `none` of `explore --verdict` a line must say so too. The page of the schedule marks the two accesses, if there is Node. Where a
method or a line of the class text is told of an access, the page must mark it there.
Where a `tryLock()` fails, it counts as one that sees what the owner of its lock did before it took the lock.

Of so many classes all programs with two threads of one call are looked at one by one. The first of which `explore --races` tells a race must
be the one that `find --races` shows, with the same schedule, and that a line beside `none` of `find` names. Ends with status 1 if something
is wrong."""
import argparse
import collections
import json
import random
import re
import shutil
import subprocess
import sys

from tool import PROGRAM, TOP, joined, keep, run

STATES, MOST_ORDERS = "3000", 30000
MARKED = f"{TOP}/tests/page/meets.js"
FIELD = re.compile(r"(\w+)\.\d+ (reads|writes) (\w+)#(\d+)\.(\w+): ")
ITEM = re.compile(r"(\w+)\.\d+ (reads|writes) boolean\[\]#(\d+)\[(-?\d+)\]: (?!ArrayIndexOutOfBounds|(true|false): ArrayIndexOutOfBounds)")
# what acquires, and what releases: a lock as it is freed, and as it is taken; a markable reference
TAKEN = re.compile(r"\w+\.\d+ (?:locks|tries) (?:the monitor of )?\w+#(\d+)(?:: true)?$")
NOT_TAKEN = re.compile(r"\w+\.\d+ tries \w+#(\d+): false$")
FREED = re.compile(r"\w+\.\d+ unlocks (?:the monitor of )?\w+#(\d+)$")
PAIR_READ = re.compile(r"\w+\.\d+ reads AtomicMarkableReference#(\d+): ")
PAIR_SET = re.compile(r"\w+\.\d+ sets AtomicMarkableReference#(\d+) ")
PAIR_BOTH = re.compile(r"\w+\.\d+ (?:exchanges|marks) AtomicMarkableReference#(\d+) ")
PAIR_MADE = re.compile(r"\w+\.\d+ makes AtomicMarkableReference of .*: AtomicMarkableReference#(\d+)$")
STILL = re.compile(r"waits for|has ended|hasn't started")
RACE = re.compile(r"race on (.*): write volatile before it, or hold one lock at both accesses")
ITEMS = "race on an element of boolean[]: hold one lock at both accesses, since no element is volatile"
NUMBERS = ["v", "w", "1", "2", "v + 1", "0", "w"]
TRUTHS = ["b", "c", "!b", "v == 1", "w == 0", "p == null", "p != null", "e[0]", "e[1]", "r.isMarked()",
          "r.compareAndSet(null, this, false, true)", "r.attemptMark(null, true)", "r.getReference() == null", "e[2]"]


class Case:
    """A class, its program, and the fields that are volatile."""

    def __init__(self, rng):
        self.rng, self.names = rng, 0
        self.tries = rng.random() < 0.4
        often = rng.choice((0, 0.2, 0.5, 0.8))
        self.volatile = set()
        fields = [self.field("S", it, often) for it in ("int v;", "int w;", "boolean b;", "boolean c;", "S p;", "D d;")]
        fields += ["boolean[] e = new boolean[2];", self.field("S", "Lock l = new ReentrantLock();", often / 3), "Lock k = new ReentrantLock();",
                   "AtomicMarkableReference<S> r = new AtomicMarkableReference<S>(null, false);"]
        methods = "fgh"[:rng.choice((1, 2, 2, 3))]
        texts = []
        for name in methods:
            body = "\n    ".join(self.statement(0) for _ in range(rng.choice((1, 2, 2, 3))))
            texts.append(f"  {'synchronized ' if rng.random() < 0.12 else ''}void {name}() {{ {body} }}")
        made = self.field("D", "int n;", often)
        self.text = f"class D {{ {made} D(int a) {{ n = a; }} }}\nclass S {{\n  {' '.join(fields)}\n" + "\n".join(texts) + "\n}\n"
        setup = f"s.{rng.choice(methods)}(); " if rng.random() < 0.15 else ""
        self.program = f"setup {{ s = new S(); {setup}}}\n"
        threads = rng.choice((2, 2, 2, 2, 3))
        for thread in "ABC"[:threads]:
            calls = 1 if threads == 3 or rng.random() < 0.8 else 2
            self.program += f"thread {thread} {{ {''.join(f's.{rng.choice(methods)}(); ' for _ in range(calls))}}}\n"

    def field(self, owner, text, often):
        if self.rng.random() >= often:
            return text
        self.volatile.add(f"{owner}.{re.split('[ ;=]', text.split(' ', 1)[1])[0]}")
        return "volatile " + text

    def fresh(self):
        self.names += 1
        return f"x{self.names}"

    def simple(self):
        rng, name = self.rng, self.fresh()
        return rng.choice((f"v = {rng.choice(NUMBERS)};", f"w = {rng.choice(NUMBERS)};", "v++;", "w++;", "b = true;", "c = true;",
                           f"b = {rng.choice(TRUTHS)};", "p = this;", "p = new S();" if rng.random() < 0.15 else "p = this;", "e[0] = true;",
                           "e[1] = b;", f"int {name} = v;", f"int {name} = w;", "r.set(this, true);", f"boolean {name} = b;", f"S {name} = p;",
                           "if (p != null) p.v = 1;", f"S {name} = r.get(e);"))

    def statement(self, depth):
        rng, kind = self.rng, self.rng.random()
        if depth > 1 or kind < 0.34:
            return self.simple()
        if kind < 0.4:
            name, other = self.fresh(), self.fresh()
            return rng.choice(("d = new D(1);", f"D {name} = d; if ({name} != null) {{ int {other} = {name}.n; }}",
                               f"D {name} = d; if ({name} == null) {{ d = new D(3); }}"))
        lock = rng.choice("llk")
        if kind < 0.52:
            return f"{lock}.lock(); try {{ {self.statement(depth + 1)} }} finally {{ {lock}.unlock(); }}"
        if kind < 0.6:
            return f"synchronized (this) {{ {self.statement(depth + 1)} }}"
        if kind < 0.75:
            other = f" else {{ {self.statement(depth + 1)} }}" if rng.random() < 0.35 else ""
            return f"if ({rng.choice(TRUTHS)}) {{ {self.statement(depth + 1)} }}{other}"
        if kind < 0.84 and self.tries:
            inner, other = self.statement(depth + 1), self.statement(depth + 1)
            return rng.choice((f"if ({lock}.tryLock()) {{ {inner} {lock}.unlock(); }} else {{ {other} }}", f"if (!{lock}.tryLock()) {{ {inner} }}",
                               f"{lock}.lock();"))
        if kind < 0.88:
            return rng.choice(("l.unlock();", "l.lock();", "k.lock();"))
        if kind < 0.92:
            return f"while (!{rng.choice(('b', 'c', 'r.isMarked()', 'e[0]'))}) {{ }}"
        return "b = true; " + self.simple() if kind < 0.96 else self.simple() + " b = true;"


def access(case, line):
    """The variable that a line accesses, as a user names it and with its object, and whether it writes; None if it is volatile or none."""
    found = FIELD.match(line)
    if found and found[3] != "AtomicMarkableReference":
        name = f"{found[3]}.{found[5]}"
        return None if name in case.volatile else (name, found[4], found[2] == "writes")
    found = ITEM.match(line)
    return ("boolean[]", f"{found[3]}[{found[4]}]", found[2] == "writes") if found else None


def are_in_conflict(one, other):
    return bool(one and other and one[:2] == other[:2] and (one[2] or other[2]))


def synchronizes(case, line):
    """What a line acquires, and what it releases."""
    found = FIELD.match(line)
    if found and f"{found[3]}.{found[5]}" in case.volatile:
        on = ("field", found[4], found[5])
        return ([on], []) if found[2] == "reads" else ([], [on])
    for form, acquired, released in ((TAKEN, ["freed"], ["taken"]), (NOT_TAKEN, ["taken"], []), (FREED, [], ["freed", "taken"]),
                                     (PAIR_READ, ["pair"], []), (PAIR_SET, [], ["pair"]), (PAIR_BOTH, ["pair"], ["pair"]),
                                     (PAIR_MADE, [], ["pair"])):
        found = form.match(line)
        if found:
            return [(it, found[1]) for it in acquired], [(it, found[1]) for it in released]
    return [], []


class Order:
    """Which last accesses each thread and each synchronization comes after."""

    def __init__(self, after, synchronized, last):
        self.after, self.synchronized, self.last = after, synchronized, last

    def key(self):
        return tuple(self.after), frozenset((on, it) for on, it in self.synchronized.items() if it), self.last

    def step(self, thread, accessed, acquired, released):
        """The order after a step, and whether the step races with an earlier one."""
        after, synchronized, last = list(self.after), dict(self.synchronized), self.last
        for on in acquired:
            after[thread] |= synchronized.get(on, frozenset())
        races = False
        if accessed:
            for place, by, writes in last:
                if place == accessed[:2] and by != thread and (writes or accessed[2]) and (place, by, writes) not in after[thread]:
                    races = True
            mine = (accessed[:2], thread, accessed[2])
            after = [it - {mine} for it in after]
            synchronized = {on: it - {mine} for on, it in synchronized.items()}
            after[thread] |= {mine}
            last |= {mine}
        for on in released:
            synchronized[on] = synchronized.get(on, frozenset()) | after[thread]
        return Order(after, synchronized, last), races


def has_race(case, data):
    """Whether a run has two accesses that nothing orders; None where there are too many orders."""
    texts, lines, to = data["texts"], data["lines"], data["to"]
    told = [(access(case, it), *synchronizes(case, it)) for it in texts]
    first = Order([frozenset()] * len(lines[0]), {}, frozenset())
    seen, line = {(0, first.key())}, collections.deque([(0, first)])
    races = False
    while line:
        state, order = line.popleft()
        if len(seen) > MOST_ORDERS:
            return True if races else None
        for thread in range(1, len(lines[state])):
            number = lines[state][thread]
            if STILL.search(texts[number]):
                continue
            after, raced = order.step(thread, *told[number])
            races |= raced
            key = (to[state][thread], after.key())
            if key not in seen:
                seen.add(key)
                line.append((key[0], after))
    return races


def meetings(case, data):
    """The variables that two threads are about to access in one state, and one writes."""
    accesses = [access(case, it) for it in data["texts"]]
    found = set()
    for row in data["lines"]:
        next_ones = [accesses[it] for it in row[1:]]
        for at, one in enumerate(next_ones):
            found |= {one[0] for other in next_ones[:at] if are_in_conflict(one, other)}
    return found


def wrong_run(program, case, text, told):
    """What is wrong with the schedule of a race that is told."""
    done = run(program, ["trace"], joined(text, told[1].encode()), seconds=60)
    last = [it.split(" ", 1)[1] for it in done.out.decode().split("\n")[-3:-1]]
    if len(last) < 2 or last[0].split(".")[0] == last[1].split(".")[0] or not are_in_conflict(*(access(case, it) for it in last)):
        return f"the last steps of the schedule aren't accesses that conflict: {last}"
    if not all(any(line.endswith(it) for line in told) for it in last):
        return f"the last steps aren't told: {last}"
    return wrong_mark(program, text, told[1], last, told)


def wrong_mark(program, text, schedule, last, told):
    """What is wrong with the accesses that the page of a schedule marks, by its last two steps; None where there is no Node."""
    if not shutil.which("node"):
        return None
    data = run(program, ["page"], joined(text, schedule.encode()), seconds=60).out
    marks = subprocess.run(["node", MARKED], input=data, capture_output=True, check=True).stdout.decode().split("\n")[:-1]
    marked = [it.split(" ", 1) for it in marks]
    if len(marked) != 2 or not all(any(it.startswith(words) for _, words in marked) for it in last):
        return f"the page marks {marks}, and the last steps are {last}"
    return wrong_places(text, told, marked, last)


PLACE = re.compile(r"  (\w+) (reads|writes) it(?: in (?:new )?(\w+)(?:\.(\w+))?(?:, line (\d+))?)?")


def wrong_places(text, told, marked, last):
    """What is wrong with the places of the first race that is told, by the lines that the page marks. Of elements none are told."""
    at = next((number for number, it in enumerate(told) if it.startswith("race on ")), 0)
    if told[at] == ITEMS:
        return f"places of elements: {told}" if told[at + 1].startswith("  ") else None
    places = [PLACE.fullmatch(it) for it in told[at + 1:at + 3] if it.startswith("  ")]
    if len(places) != 2 or not all(places):
        return f"no places of accesses: {told}"
    for place, access_told in zip(places, last):
        thread, does = access_told.split(".")[0], access_told.split(" ")[1]
        if (place[1], place[2]) != (thread, does):
            return f"places of {place[1]}, and {thread} {does}"
        line = next(int(number) for number, words in marked if access_told.startswith(words))
        if place[5] and int(place[5]) != line or place[4] and method_of(text, line) != place[4]:
            return f"says {place[0]!r}, and the page marks line {line}"
    return None


def method_of(text, line):
    """The method of a line of a class text, whose methods begin with `void` on lines of their own."""
    heads = [re.search(r"void (\w+)\(", it) for it in text.decode().split("\n")[:line]]
    return next((it[1] for it in reversed(heads) if it), None)


RACED = re.compile(r"// data race on (.*): Java allows more than is shown here")
FREE = {"// no data race: Java allows no other history",
        "// no data race, if a tryLock() that fails sees what the owner of its lock did before it took the lock"}


def wrong_beside(program, text, meets):
    """What is wrong with the line beside `none` of a verdict, by the variables on which accesses meet."""
    told = run(program, ["explore", "--verdict"], text, seconds=60).out.decode().split("\n")
    if told[0] != "none" or not told[-2].endswith(" complete"):
        return None
    line = told[-3]
    found = RACED.fullmatch(line)
    is_so = found[1].replace("an element of ", "") in meets if found else not meets and line in FREE
    return None if is_so else f"says {line!r} beside none, and accesses meet on {sorted(meets)}"


def tried(program, case):
    """What is wrong with what is told of a program, and a word on it."""
    text = joined(case.text.encode(), case.program.encode())
    page = run(program, ["page", "--states", STATES], text, seconds=60)
    if page.status or not page.out:
        return None, "refused"
    data = json.loads(page.out)
    if not data["complete"]:
        return None, "too many states"
    done = run(program, ["explore", "--races"], text, seconds=60)
    told = done.out.decode().split("\n")
    if done.status or not told[-2].endswith(" complete"):
        return f"not told: {done.told()}", ""
    named = {RACE.fullmatch(it)[1] for it in told if RACE.fullmatch(it)} | ({"boolean[]"} if ITEMS in told else set())
    meets, races = meetings(case, data), has_race(case, data)
    if named != meets:
        return f"names {sorted(named)}, and accesses meet on {sorted(meets)}", ""
    if told[0].startswith("data race") != bool(meets):
        return f"says {told[0]!r}, and accesses meet on {sorted(meets)}", ""
    if meets and (wrong := wrong_run(program, case, text, told)):
        return wrong, ""
    if wrong := wrong_beside(program, text, meets):
        return wrong, ""
    if races is None:
        return None, "too many orders"
    return (f"says {told[0]!r}, and by happens-before there is {'one' if races else 'none'}" if races != bool(meets) else None,
            "race" if races else "no race")


BOUNDS = ["--calls", "1", "--setup", "0"]
BESIDE = re.compile(r"// data race on (.*) in number (\d+): Java allows more than is shown here")


def first_race(program, classes, count):
    """The number of the first program of a class of which a race is told, its schedule, and whether it isn't known of one before."""
    for number in range(1, count + 1):
        text = run(program, ["find", "--print", str(number), *BOUNDS], classes, seconds=60).out
        told = run(program, ["explore", "--races"], joined(classes, text), seconds=60).out.decode().split("\n")
        if told[0].startswith("data race"):
            return number, told[1]
        if not told[0].startswith("no data race") or not told[-2].endswith(" complete"):
            return None, ""
    return 0, ""


def family(program, case):
    """What is wrong with what `find` tells of the races of a class, and a word on it."""
    classes = case.text.encode()
    done = run(program, ["find", "--races", *BOUNDS], classes, seconds=120)
    shown = done.out.decode().split("\n")
    if done.status:
        return None, "refused"
    count = int(re.search(r" of (\d+) with ", shown[1])[1])
    first, schedule = first_race(program, classes, count)
    if first is None:
        return None, "not known"
    wanted = f"// number {first} of {count}: data race on " if first else "// none"
    if not shown[0].startswith(wanted) or first and shown[-2] != schedule:
        return f"shows {shown[0]!r} and {shown[-2]!r}, and the first race is in {first}, by {schedule}", ""
    told = run(program, ["find", *BOUNDS], classes, seconds=120).out.decode().split("\n")
    if told[0] == "// none" and (not BESIDE.fullmatch(told[-2]) or int(BESIDE.fullmatch(told[-2])[2]) != first if first else told[-2] not in FREE):
        return f"says {told[-2]!r} beside none, and the first race is in {first}", ""
    return None, ("race" if first else "no race") + (" beside none" if told[0] == "// none" else "")


def families(options):
    """Tries classes, and answers how many are wrong."""
    counts = collections.Counter()
    for number in range(options.families):
        case = Case(random.Random(options.seed * 1_000_000 + 500_000 + number))
        wrong, word = family(options.program, case)
        counts["wrong" if wrong else word] += 1
        if wrong:
            print(f"class {number}: {wrong}", flush=True)
            keep(f"races_of_class_{options.seed}_{number}", ["find", "--races", *BOUNDS], case.text.encode(), wrong, "its programs one by one")
    print(f"{options.families} classes: " + ", ".join(f"{name} {count}" for name, count in sorted(counts.items())))
    return counts["wrong"]


def main():
    reader = argparse.ArgumentParser(description=__doc__)
    reader.add_argument("--program", default=PROGRAM)
    reader.add_argument("--seed", type=int, default=1)
    reader.add_argument("--count", type=int, default=100)
    reader.add_argument("--families", type=int, default=0)
    options = reader.parse_args()
    counts = collections.Counter()
    for number in range(options.count):
        case = Case(random.Random(options.seed * 1_000_000 + number))
        wrong, word = tried(options.program, case)
        counts["wrong" if wrong else word] += 1
        if wrong:
            print(f"{number}: {wrong}", flush=True)
            keep(f"races_{options.seed}_{number}", ["explore", "--races"], joined(case.text.encode(), case.program.encode()), wrong,
                 "what happens-before says over all runs")
    print(f"{options.count} programs: " + ", ".join(f"{name} {count}" for name, count in sorted(counts.items())))
    return 1 if families(options) + counts["wrong"] else 0


if __name__ == "__main__":
    sys.exit(main())
