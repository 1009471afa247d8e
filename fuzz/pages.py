#!/usr/bin/env python3
"""pages [--program P] [--seed N] [--count N] (texts | programs): what the page of a run reads, without a browser.

A run's data are put together from what `trace`, `state` and `source` print. From them the page must come to the
state that `state` prints, at some steps and at the end, and its own reading of the class text must ask for what
each line says. `programs`: random programs of one to four threads, for each hundredth seed of 64, under random
schedules; each fourth is read from a later step on. `texts`: inputs of examples/, of the documents and of tests/rows,
and the stored classes with random calls; of the class texts that tests/texts says to be accepted only that they
are read. Then tests/page/java.js tries places in Java files. Needs Node. Ends with status 1 where something is
wrong."""
import argparse
import glob
import json
import os
import random
import re
import subprocess
import sys

from programs import drawn, r_threads
from threads import drawn_schedule
from tool import PROGRAM, TOP

sys.path.insert(0, f"{TOP}/tests/page")
import data  # noqa: E402

STATES = 4
MOST_STEPS = 20_000
SET_CALLS = ("add", "remove", "contains")


def runs_of(text, words):
    """The three parts of an input whose schedule is one of the source, or None."""
    parts = data.cut(text)
    return parts[:3] if words and words[0] in ("source", "trace", "state", "replay") and len(parts) >= 3 else None


def inputs():
    """Inputs of the repository, each with its name and the words of its command."""
    for path in sorted(glob.glob(f"{TOP}/examples/**/*.txt", recursive=True)):
        with open(path, encoding="utf-8") as file:
            text = file.read()
        found = re.match(r"// ([^:\n]*):", text)
        yield os.path.basename(path), found[1].split() if found else [], text
    for path in sorted(glob.glob(f"{TOP}/docs/*.md")):
        with open(path, encoding="utf-8") as file:
            page = file.read()
        for found in re.finditer(r"(?ms)^```input (.*?)\n(.*?)^```$", page):
            yield f"{os.path.basename(path)}:{page.count(chr(10), 0, found.start()) + 1}", found[1].split(), found[2]
    for folder in sorted(glob.glob(f"{TOP}/tests/rows/*/*/")):
        with open(f"{folder}stdin", "rb") as file:
            text = file.read().decode("utf-8", "replace")
        yield os.path.relpath(folder, TOP), folder.split("/")[-3:-2], text


def stored_classes():
    """The list-based sets of the repository, with the name of the class that is the set."""
    for path in sorted(glob.glob(f"{TOP}/examples/classes/*.java")):
        with open(path, encoding="utf-8") as file:
            yield os.path.basename(path), file.read()
    with open(f"{TOP}/crates/ls_stored_classes/src/lib.rt", encoding="utf-8") as file:
        for name, text in re.findall(r'(?s)pub const (\w+): &str = "(.*?)";', file.read()):
            yield name, text


def with_random_calls(text, r, threads=3):
    """A program of a set's class, and a schedule."""
    made = re.findall(r"class (\w+)", text)[-1]
    program = f"setup {{ s = new {made}(); {' '.join(f's.add({n});' for n in (1, 3, 5))} }}\n"
    names = "ABCDEF"[:threads]
    for name in names:
        program += f"thread {name} {{ {' '.join(f's.{r.choice(SET_CALLS)}({r.randrange(7)});' for _ in range(4))} }}\n"
    items = ["setup*900", *(f"{r.choice(names)}*{r.randrange(1, 30)}" for _ in range(60)), "@2 (A B C)*9"]
    items = [items[-1].split(" ", 1)[0], *items[:-1], items[-1].split(" ", 1)[1]]
    return [text, program, " ".join(items)]


def read_alone():
    """The class texts that are accepted, with no run."""
    for path in sorted(glob.glob(f"{TOP}/tests/texts/class_*.txt")):
        with open(path, encoding="utf-8") as file:
            body = file.read().split("\n---\n", 1)
        accepted = False
        for line in body[-1].split("\n"):
            if line.startswith("= "):
                accepted = line == "= accepted"
            elif accepted and line and "<<" not in line and "\\u{" not in line:
                yield os.path.basename(path), line


class Runs:
    """The page's reading in Node, to which runs are handed."""

    def __init__(self, program):
        self.tool = data.Listset(os.path.abspath(program))
        self.node = subprocess.Popen(["node", f"{TOP}/tests/page/read.js"], stdin=subprocess.PIPE, encoding="utf-8")
        self.handed, self.refused, self.long = 0, 0, 0

    def hand(self, name, parts, r, first=None):
        """One run, from a step on that is drawn where none is given."""
        try:
            if self.tool.run("trace", parts, "--from", str(MOST_STEPS + 1)):
                self.long += 1
                return
            steps = data.steps_of(parts[2], self.tool.threads(*parts[:2]))
            start = r.randrange(1, len(steps) + 2) if first is None else first
            line = json.loads(data.data_of(self.tool, parts, start))
            cuts = sorted({r.randrange(start - 1, len(steps) + 1) for _ in range(STATES if start <= len(steps) else 0)})
            states = [[at, self.tool.run("state", [*parts[:2], data.schedule_of(steps[:at])])] for at in cuts]
        except (data.Refused, UnicodeDecodeError):
            self.refused += 1
            return
        self.handed += 1
        json.dump({"name": name, "data": line, "states": states}, self.node.stdin)
        self.node.stdin.write("\n")

    def end(self):
        self.node.stdin.close()
        status = self.node.wait()
        left_out = f"{self.refused} inputs are refused by the program, {self.long} have over {MOST_STEPS} steps"
        print(f"{self.handed} runs were handed on; {left_out}")
        return status


def programs(runs, seeds):
    for seed in seeds:
        text, threads, r = drawn(seed, seed % 3 != 0, r_threads(seed))
        parts = [text, threads.text(), drawn_schedule(r, threads, 400)]
        runs.hand(f"seed {seed}", parts, r, 1 if seed % 4 else None)


def texts(runs, seeds):
    r = random.Random(seeds.start)
    for name, words, text in inputs():
        parts = runs_of(text, words)
        if parts:
            runs.hand(name, parts, r, 1)
            runs.hand(f"{name}, a window", parts, r)
    for name, text in stored_classes():
        for _ in range(10):
            runs.hand(name, with_random_calls(text, r), r, 1)
    for name, text in read_alone():
        runs.hand(f"{name}: {text}", [text, "setup { }", ""], r, 1)


def main():
    parser = argparse.ArgumentParser(description=__doc__)
    parser.add_argument("way", choices=("texts", "programs"))
    parser.add_argument("--program", default=PROGRAM)
    parser.add_argument("--seed", type=int, default=1)
    parser.add_argument("--count", type=int, default=300)
    words = parser.parse_args()
    runs = Runs(words.program)
    (texts if words.way == "texts" else programs)(runs, range(words.seed, words.seed + words.count))
    status = runs.end()
    if words.way == "texts":
        status |= subprocess.run(["node", f"{TOP}/tests/page/java.js"], check=False).returncode
    return status


if __name__ == "__main__":
    sys.exit(main())
