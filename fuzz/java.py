#!/usr/bin/env python3
"""java [--program P] [--seed N] [--count N]: random Java classes answer on a Java machine as with `--java`.

Case N is the class that `java_classes.py` makes of N. It is run by `source --java`, and by javac and java: 60 random sequences of calls by
one thread must be answered alike, up to the first call that throws, and what it throws too. A class that is refused is counted, by what is
said. A sequence is too long if its thread still steps after the last step that a schedule may have, and then it is answered alike up to
there; or if the Java machine lacks memory or time for it. It is counted. Ends with status 1 where something is wrong."""
import argparse
import collections
import os
import random
import re
import subprocess
import sys
import tempfile

import java_classes
from tool import PROGRAM, TOP, keep, run

AT_ONCE, SEQUENCES, METHODS = 20, 60, 8
STEPS = ["setup*999 A*50000", "setup*999 A*999000"]   # the second where a sequence wasn't done with the first


def sequences(seed):
    """Random calls of the methods of a class, and in the end of `log`."""
    chance = random.Random(f"calls {seed}")
    for _ in range(SEQUENCES):
        calls = [(f"m{chance.randrange(METHODS)}", chance.choice([0, 1, 2, 3, 5, -1])) for _ in range(chance.randint(1, 8))]
        yield [f"{method}({argument})" for method, argument in calls] + ["log()"]


def on_jvm(folder, cases):
    """What a Java machine answers to each sequence of each class, by the class's name; None where a class takes too much."""
    for name, text, _ in cases:
        with open(f"{folder}/{name}.java", "w", encoding="utf-8") as file:
            file.write(text)
    files = [f"{folder}/{name}.java" for name, _, _ in cases]
    done = subprocess.run(["javac", "-nowarn", "-d", folder, f"{TOP}/fuzz/Calls.java", *files], capture_output=True, text=True, check=False)
    if done.returncode:
        sys.exit(f"javac refuses a class: {done.stderr[:2000]}")
    return {name: on_jvm_alone(folder, name, all_calls) for name, _, all_calls in cases}


def on_jvm_alone(folder, name, all_calls):
    """The same of one class; None where it takes more than the memory or the time that it is given."""
    lines = "".join(f"{name} {' '.join(calls)}\n" for calls in all_calls)
    words = ["java", "-Xmx1g", "-XX:+UseSerialGC", "-XX:TieredStopAtLevel=1", "-Xss16m", "-cp", folder, "Calls"]
    try:
        done = subprocess.run(words, input=lines, capture_output=True, text=True, timeout=60, check=True)
    except (subprocess.CalledProcessError, subprocess.TimeoutExpired):
        return None
    return [line.partition(" ")[2] for line in done.stdout.splitlines()]


def whole_of(name, text, calls, steps):
    """The parts of a run of the class."""
    calls = " ".join(f"x.{it};" for it in calls)
    return f"{text}\n%%\nsetup {{ x = new {name}(); }}\nthread A {{ {calls} }}\n%%\n{steps}\n".encode()


def by_source(program, name, text, calls, steps):
    """The same by `source --java`."""
    came = run(program, ["source", "--java"], whole_of(name, text, calls, steps), seconds=60)
    if came.status != 0:
        return came.told()
    return " ".join(re.findall(r"^A\.\d+ ((?:return|trap).*)$", came.out.decode(), re.M))


def is_long(program, name, text, calls, came, wanted):
    """Whether the thread still steps after the last step that a schedule may have, and what it answered up to there is as wanted."""
    if not f"{wanted} ".startswith(f"{came} "):
        return False
    state = run(program, ["state", "--java"], whole_of(name, text, calls, STEPS[-1]), seconds=60).out.decode().splitlines()
    return bool(state) and re.match(r"A\.\d+ (?!waits)", state[-1]) is not None


def wrong_of(program, case, answers, long):
    """Whether a sequence of a class is answered otherwise, which is kept then; or None where the class is refused. Adds what is too long."""
    name, text, all_calls = case
    if run(program, ["java"], text.encode()).status != 0:
        return None
    if answers is None:
        long.append(f"{name}, on the Java machine")
        return False
    for calls, wanted in zip(all_calls, answers, strict=True):
        if "OutOfMemoryError" in wanted:
            long.append(f"{name} {' '.join(calls)}")
            continue
        came = next((it for it in (by_source(program, name, text, calls, steps) for steps in STEPS) if it == wanted), "otherwise")
        if came != wanted:
            came = by_source(program, name, text, calls, STEPS[-1])
            if is_long(program, name, text, calls, came, wanted):
                long.append(f"{name} {' '.join(calls)}")
                continue
            print(f"WRONG {keep(name, ['source', '--java'], text.encode(), f'{calls}: {came}', wanted)}")
            return True
    return False


def refusals(program, text):
    """By what a class is refused, without its places and names."""
    errors = run(program, ["java"], text.encode()).errors.decode()
    return {re.sub(r"`[^`]*`", "`..`", it) for it in re.findall(r"error(?:\[J\d+\])?: (.*)", errors)} or {errors[:200]}


def main():
    parser = argparse.ArgumentParser(description=__doc__.split("\n", maxsplit=1)[0])
    parser.add_argument("--program", default=PROGRAM)
    parser.add_argument("--seed", type=int, default=1)
    parser.add_argument("--count", type=int, default=100)
    options = parser.parse_args()
    wrong, count, refused, long = 0, 0, collections.Counter(), []
    for first in range(options.seed, options.seed + options.count, AT_ONCE):
        seeds = range(first, min(first + AT_ONCE, options.seed + options.count))
        cases = [(*java_classes.make(seed, METHODS), list(sequences(seed))) for seed in seeds]
        with tempfile.TemporaryDirectory() as folder:
            answers = on_jvm(folder, cases)
        for case in cases:
            is_wrong = wrong_of(options.program, case, answers[case[0]], long)
            count += is_wrong is not None
            wrong += bool(is_wrong)
            if is_wrong is None:
                refused.update(refusals(options.program, case[1]))
    print(f"{options.count} classes: {count} restated, {options.count - count} refused, {wrong} wrong; {len(long)} sequences too long")
    for it in long:
        print(f"  too long: {it}")
    for words, times in refused.most_common():
        print(f"  {times} times: {words}")
    sys.exit(1 if wrong else 0)


if __name__ == "__main__":
    os.environ.setdefault("LC_ALL", "C")
    main()
