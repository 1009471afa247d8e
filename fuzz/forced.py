#!/usr/bin/env python3
"""forced [--program P] [--seed N] [--count N] [--lists N] [--swap] [--examples]: threads, forced on a Java machine.

For each seed a program of two to four threads: of random classes that are Java, or for each third seed of one of the
five stored classes. For each of its random schedules `trace` lists the steps. Forced.java puts a gate before each
action of the Java text, and so makes real threads, locks, monitors and markables take those steps in that order. Each
step's object, value and answer must be Java's. So must the history that `source` prints, and what `state` tells of
each thread in the end: its next step, that it waits, or that it is over.

`--swap` makes lists wrong: in each that has such, two neighbouring steps change places that are of two threads, about
one thing, and not both reads. The script tells of how many lists this was noticed; two writes of one value may well
change places. `--examples` takes the programs of the examples in place of drawn ones, with their own schedules and
others. Ends with status 1 where something is wrong; each such input is kept in found."""
import argparse
import glob
import os
import random
import re
import shutil
import subprocess
import sys
import tempfile
import time
from concurrent.futures import ThreadPoolExecutor

from jvm import put, spelled
from programs import Tally, accepted, drawn
from threads import NAMES, Program, drawn_schedule
from tool import PROGRAM, TOP, joined, run

AT_ONCE = 50
RUNS_AT_ONCE = 8
SETUP = "setup*2000"
STORED = ("CoarseList", "FineList", "OptimisticList", "LazyList", "LockFreeList")
IDLE = re.compile(r" (has(n't)? (started|ended).*|never starts.*|waits for .*)$")
HEAD = """import java.util.concurrent.locks.*;
import java.util.concurrent.atomic.AtomicMarkableReference;
"""
KINDS = (("locks", "locks R"), ("monitors locked", "locks the"), ("exchanges", "exchanges "), ("marks", "marks "),
    ("traps", "trap "))
JAVA = ("-XX:+UseSerialGC", "-XX:TieredStopAtLevel=1")


class Case:
    """One program: its class text, its calls, and what was drawn to force on it."""

    def __init__(self, seed, text, program):
        self.seed, self.text, self.program = seed, text, program
        self.package = f"p{seed}"
        self.parts = [text.encode(), program.text().encode()]
        self.schedules, self.lists, self.histories = [], [], []

    def names(self):
        return ["setup"] + [name for name, _ in self.program.threads]


def stored(seed, r):
    """A random program of a stored class: calls of a set with few items."""
    name = STORED[seed // 3 % len(STORED)]
    with open(f"{TOP}/examples/classes/{name}.java", encoding="ascii") as file:
        text = file.read()
    program = Program()
    program.setup = [(f"s = new {name}()", None), *set_calls(r, 4)]
    program.threads = [(thread, set_calls(r, 5)) for thread in NAMES[:threads_of(seed)]]
    return text, program


def set_calls(r, most):
    methods, items = ("add", "add", "remove", "contains"), (0, 1, 1, 2, -7)
    return [(f"s.{r.choice(methods)}({r.choice(items)})", "boolean") for _ in range(r.randrange(most))]


def threads_of(seed):
    return (2, 3, 2, 4, 3)[seed % 5]


def fine_schedule(r, program):
    """The setup to its end, then threads in short runs, and all of them for a while."""
    names = [name for name, _ in program.threads]
    items = [SETUP]
    for _ in range(r.choice((20, 60, 200, 400))):
        items.append(f"{r.choice(names)}*{r.choice((1, 1, 1, 2, 2, 3, 5, 9, 20))}")
    return " ".join(items + [f"all*{r.choice((1, 20, 60))}"]) + "\n"


def drawn_case(seed, lists):
    r = random.Random(f"forced {seed}")
    if seed % 3 == 0:
        text, program = stored(seed, r)
    else:
        text, program, _ = drawn(seed, False, threads_of(seed))
    case = Case(seed, text, program)
    for _ in range(lists):
        schedule = drawn_schedule(r, program, 60).replace("setup*3000", SETUP) if r.random() < 0.3 else fine_schedule(r, program)
        case.schedules.append(schedule.encode())
    return case, r


def read_program(text, classes):
    """A thread program that is written, with what each of its methods answers by the class text."""
    program = Program()
    text = re.sub(r"//.*", "", text)
    for head, body in re.findall(r"(setup|thread\s+[\w$]+)\s*\{([^}]*)\}", text):
        calls = []
        for call in filter(None, map(str.strip, body.split(";"))):
            method = re.search(r"([\w$]+)\s*\(", call)
            made = " = " in call
            result = re.search(rf"\b(int|boolean|void)\s+{re.escape(method[1])}\s*\(", classes)
            calls.append((call, None if made else result[1]))
        if head == "setup":
            program.setup = calls
        else:
            program.threads.append((head.split()[1], calls))
    return program


def example_cases(lists):
    """The programs of the examples that have a schedule of source steps, with that and others."""
    found = []
    for seed, path in enumerate(sorted(glob.glob(f"{TOP}/examples/**/*.txt", recursive=True))):
        with open(path, encoding="ascii") as file:
            parts = re.split(r"^%%\n", file.read(), flags=re.MULTILINE)
        if len(parts) != 3 or not re.match(r"// (source|trace|state)\b", parts[0]) or "StackOverflowError" in parts[0]:
            continue
        r = random.Random(f"example {seed}")
        case = Case(seed, parts[0], read_program(parts[1], parts[0]))
        case.schedules = [parts[2].encode(), *(fine_schedule(r, case.program).encode() for _ in range(lists - 1))]
        found.append((case, r))
    return found


def listed(program, case, schedule):
    """The steps of a schedule that act, as (thread, text), and those in which a thread waits."""
    steps, waiting = [], 0
    traced = run(program, ["trace"], joined(*case.parts, schedule), 60)
    for line in traced.out.decode().splitlines():
        _, _, told = line.partition(" ")
        if IDLE.search(told) and " call " not in told:
            waiting += " waits for " in told
            continue
        who, _, text = told.partition(" ")
        steps.append((who.partition(".")[0], text))
    return steps, waiting


def ends(program, case, schedule):
    """What each thread does in the end, as (kind, thread, text)."""
    names, found = case.names(), []
    shown = run(program, ["state"], joined(*case.parts, schedule), 60).out.decode().splitlines()
    for number, line in enumerate(shown[-len(names):]):
        head, _, text = line.partition(" ")
        waits = re.fullmatch(r"waits for (.*), which \S+ owns", text)
        if waits:
            found.append(("waits", number, f"locks {waits[1]}"))
        elif text.startswith("has ended"):
            found.append(("over", number, ""))
        elif "." in head:
            found.append(("next", number, text))
    return found


def place_of(text):
    """What an action is about: a field, an element, an object, or the history."""
    found = re.search(r"[\w$\[\]]+#\d+(\.[\w$]+|\[\d+\])?", text)
    if text.startswith(("call ", "return", "trap ")):
        return "history"
    return found and not text.startswith(("makes ", "enters ")) and found[0]


def in_conflict(one, other):
    """Whether two steps are of two threads, about one thing, and not both reads."""
    (who, text), (whose, next_text) = one, other
    if who == whose or "setup" in (who, whose) or text.startswith("reads ") and next_text.startswith("reads "):
        return False
    return bool(place_of(text)) and place_of(text) == place_of(next_text)


def swapped(steps, r):
    """The steps with two neighbours that are in conflict in each other's place; None where there are none."""
    places = [place for place in range(1, len(steps)) if in_conflict(steps[place - 1], steps[place])]
    if not places:
        return None
    place = r.choice(places)
    return [*steps[:place - 1], steps[place], steps[place - 1], *steps[place + 1:]]


def prepared(program, case, r, tally, swap):
    """Makes the lists of a case with the histories that are wanted."""
    numbers = {name: number for number, name in enumerate(case.names())}
    tally.add(f"programs of {len(case.program.threads)} threads")
    setup = f"setup*{len(listed(program, case, SETUP.encode())[0])}"
    for schedule in case.schedules:
        schedule = schedule.replace(SETUP.encode(), setup.encode())
        steps, waiting = listed(program, case, schedule)
        after = ends(program, case, schedule)
        done = run(program, ["source"], joined(*case.parts, schedule), 60)
        steps = swapped(steps, r) if swap else steps
        if steps is None:
            continue
        counted(tally, steps, waiting, after)
        lines = [f"do {numbers[who]} {text}" for who, text in steps]
        lines += [] if swap else [f"{kind} {number} {text}" for kind, number, text in after]
        case.lists.append((schedule, "\n".join(lines) + "\n", done.out.decode()))
    return case


def counted(tally, steps, waiting, after):
    tally.add("lists")
    tally.add("steps", len(steps))
    tally.add("steps that wait", waiting)
    tally.add("waiting in the end", sum(kind == "waits" for kind, _, _ in after))
    for name, start in KINDS:
        tally.add(name, sum(text.startswith(start) for _, text in steps))
    tally.add("changes of thread", sum(one[0] != other[0] for one, other in zip(steps, steps[1:])))


def called(name, calls):
    """The Java lines of a thread's calls."""
    lines = []
    for number, (text, result) in enumerate(calls, 1):
        lines.append(f'    Gate.call("{name}.{number}", "{spelled(text)}");')
        target, equals, making = text.partition(" = ")
        base, _, call = text.partition(".")
        if equals:
            made = f'Gate.made(Gate.makes("{making[4:making.index("(")]}"), {making})'
            lines.append(f'    {target} = Gate.write("{target}", {made}); Gate.done();')
        elif result in ("int", "boolean"):
            lines.append(f'    Gate.done(Gate.read("{base}", {base}).{call});')
        else:
            lines.append(f'    Gate.read("{base}", {base}).{call}; Gate.done();')
    return lines


def main_class(case):
    fields = []
    for text, _ in case.program.setup:
        name, equals, making = text.partition(" = new ")
        fields += [f"  {making[:making.index('(')]} {name};"] if equals else []
    lines = [f"package {case.package};", "import forced.Gate;", "public final class Main implements Gate.Program {"]
    parts = [("setup", case.program.setup), *case.program.threads]
    cases = " ".join(f"case {number}: part{number}(); break;" for number in range(len(parts)))
    lines += [*fields, f"  public void part(int thread) {{ switch (thread) {{ {cases} }} }}"]
    for number, (name, calls) in enumerate(parts):
        lines += [f"  void part{number}() {{", *called(name, calls), "  }"]
    return "\n".join([*lines, "}"]) + "\n"


def forced(folder, built, cases):
    """Runs all lists of such programs in one Java machine; answers the history of each, and what the machine says."""
    put(folder, "programs", "".join(f"{case.package} {len(case.names())} {len(case.lists)}\n" for case in cases))
    for case in cases:
        put(folder, f"{case.package}/Classes.java", f"package {case.package};\nimport forced.Gate;\n{HEAD}{case.text}")
        put(folder, f"{case.package}/Main.java", main_class(case))
        for number, (_, steps, _) in enumerate(case.lists, 1):
            put(folder, f"{case.package}/{number}", steps)
    words = ["java", *JAVA, "-Xss16m", "-cp", built, "forced.Forced", folder]
    done = subprocess.run(words, capture_output=True, check=False)
    pieces = [piece.partition("\n") for piece in done.stdout.decode().split("== ")[1:]]
    return {name: history for name, _, history in pieces}, done.stderr.decode()


def compared(case, histories, tally, swap):
    """What came of each list against what `source` prints."""
    for number, (schedule, _, wanted) in enumerate(case.lists, 1):
        came = histories.get(f"{case.package} {number}", "nothing came")
        tally.add("noticed", int(came != wanted))
        if came != wanted and not swap:
            tally.seed = case.seed
            tally.fail(f"forced_{number}", ["source"], joined(*case.parts, schedule), came, wanted)


def arguments():
    parser = argparse.ArgumentParser(description=__doc__)
    parser.add_argument("--program", default=PROGRAM)
    parser.add_argument("--seed", type=int, default=1)
    parser.add_argument("--count", type=int, default=100)
    parser.add_argument("--lists", type=int, default=8)
    parser.add_argument("--swap", action="store_true")
    parser.add_argument("--examples", action="store_true")
    return parser.parse_args()


def in_one_machine(words, drawn_cases, tally, built):
    """So many programs in one Java machine."""
    with ThreadPoolExecutor(RUNS_AT_ONCE) as pool:
        taken = [(case, r) for case, r in drawn_cases if accepted(words.program, tally, case.text, case.program)]
        cases = list(pool.map(lambda pair: prepared(words.program, *pair, tally, words.swap), taken))
    folder = tempfile.mkdtemp(prefix="listset-forced-")
    try:
        histories, said = forced(folder, built, cases)
        if said:
            tally.wrong += 1
            print(said[:3000], flush=True)
        for case in cases:
            compared(case, histories, tally, words.swap)
    finally:
        shutil.rmtree(folder)


def main():
    words, start = arguments(), time.time()
    words.program, tally = os.path.abspath(words.program), Tally(words.seed)
    built = tempfile.mkdtemp(prefix="listset-gate-")
    try:
        here = os.path.dirname(os.path.abspath(__file__))
        texts = [f"{here}/Forced.java", f"{here}/Gate.java"]
        subprocess.run(["javac", "-J-XX:+UseSerialGC", "-d", built, *texts], check=True)
        if words.examples:
            in_one_machine(words, example_cases(words.lists), tally, built)
        seeds = [] if words.examples else range(words.seed, words.seed + words.count)
        for first in range(0, len(seeds), AT_ONCE):
            cases = [drawn_case(seed, words.lists) for seed in seeds[first:first + AT_ONCE]]
            in_one_machine(words, cases, tally, built)
    finally:
        shutil.rmtree(built)
    print(tally.told(time.time() - start))
    return 1 if tally.wrong else 0


if __name__ == "__main__":
    sys.exit(main())
