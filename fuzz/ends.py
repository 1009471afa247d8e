#!/usr/bin/env python3
"""ends [--program P] [--seed N] [--count N]: whether `explore --ends` tells rightly which calls end.

Each case is a random class of fields, loops, a lock and a monitor, and a random program of two or three threads. small.py says what each
thread may do, and asks the program for nothing. Over its states a call may not end where a strongly connected component of steps, none of
which ends it, has a step of it. So each call is wait-free, lock-free, obstruction-free or blocking. By fair scheduling each thread must have
a step in the component that isn't over; by fair locks one that acts, if it could act there. `explore --ends` must say the same of each call,
and with `--again` of threads that begin their calls again.

Each schedule that goes round is played by `source`, with `--again` in the program with its calls written many times. After its way the call
must be pending. In its repeated part the call must not end, and nothing may begin or end that mustn't. Its thread takes a step there, and
`state` prints the same after one round and after two. If all threads go on, each takes a step that isn't over; by fair locks each acts that
could act where one of its steps is taken. Where `explore --verdict` says `none`, it must tell of a livelock exactly if there is one. What is
too large is counted. Ends with status 1 if something is wrong."""
import argparse
import collections
import random
import re
import sys

import small
from small import FIELDS, IDLE, WAITS, Method, Program, Small, condition, expression, leaf
from tool import PROGRAM, joined, keep, run

MOST, STATES, MANY = 2500, "20000", (60, 600)
HEAD = re.compile(r"(\w+)\.(\d+) call .*")
LINE = re.compile(r"  (wait-free|lock-free|obstruction-free|blocking|not [a-z -]+?)(?:, [^:]*)?: (.*)")
LASSO = re.compile(r"(@2 .*) \((.*)\)\*10")
EVENT = re.compile(r"(\w+)\.(\d+) (call|return|trap)\b.*")
LIVELOCK = re.compile(r"// livelock: .*: (@2 .*)")
BEGINS, ENDS, INSIDE = "begins", "ends", "inside"


# ---- random classes that wait in loops

def looping(r, takes, depth=0):
    """Statements, among them loops that wait for a field, and such as write it first."""
    name, value = r.choice(FIELDS), leaf(r, takes)
    kind = r.randrange(9 if depth < 2 else 4)
    if kind == 0:
        return [("while", condition(r, takes), [])]
    if kind == 1:
        mine = ("x",) if takes else ("number", r.randrange(2))
        return [("set", name, mine), ("while", ("!=", ("field", name), mine), [("set", name, mine)])]
    if kind in (2, 3):
        return [("set", name, expression(r, takes) if r.random() < 0.3 else value)]
    inner = looping(r, takes, depth + 1)
    if kind in (4, 5):
        return [("lock",), *inner, ("unlock",)] if r.random() < 0.93 else [("lock",), *inner]
    if kind == 6:
        return [("if", condition(r, takes), inner, looping(r, takes, depth + 1))]
    if kind == 7:
        return [("while", condition(r, takes), inner)]
    return [*inner, *looping(r, takes, depth + 1)]


def drawn(r):
    """A random class and a program of it."""
    if r.random() < 0.3:
        made = small.drawn(r)
    else:
        names = "fgh"[:r.choice((1, 2, 2, 3))]
        methods = []
        for name in names:
            takes = r.random() < 0.3
            methods.append(Method(name, "void", takes, r.random() < 0.2, looping(r, takes) + (looping(r, takes) if r.random() < 0.4 else [])))
        made = Small((r.randrange(2), r.randrange(2)), methods)
    methods = [it for it in made.methods if it.name != "S"]
    threads = r.choice((2, 2, 2, 2, 3))

    def calls(most):
        picked = [r.choice(methods) for _ in range(most)]
        return "".join(f"s.{it.name}({r.randrange(1, 3) if it.takes else ''}); " for it in picked)
    lines = ["setup { s = new S(); }"]
    lines += [f"thread {it} {{ {calls(1 if threads == 3 else r.choice((1, 1, 2)))}}}" for it in "ABC"[:threads]]
    return made, "\n".join(lines) + "\n"


# ---- the graph of states, by small.py

class Graph:
    """States without their histories. An edge is a thread, where its step leads, and what it is."""

    def __init__(self, program, again):
        self.program, self.again, self.count = program, again, len(program.names)
        state = program.start
        for _ in range(MOST):
            after = program.stepped(state, 0)
            if after == IDLE:
                break
            if after == WAITS or after[2][0][1] == small.TRAPPED:
                raise small.TooLarge
            state = after[:3] + ((),)
        else:
            raise small.TooLarge
        self.places, self.states, self.edges = {state: 0}, [state], []
        while len(self.edges) < len(self.states):
            self.edges.append([it for t in range(1, self.count) for it in [self.edge(len(self.edges), t)] if it])

    def edge(self, at, t):
        state = self.states[at]
        k, place, _ = state[2][t]
        if self.again and k == len(self.program.calls[t]) and place != small.TRAPPED:
            state = state[:2] + (state[2][:t] + ((0, small.BETWEEN, ()),) + state[2][t + 1:],) + state[3:]
        after = self.program.stepped(state, t)
        if after == IDLE:
            return None
        if after == WAITS:
            return t, at, WAITS
        sort = INSIDE if not after[3] else BEGINS if " call " in after[3][0] else ENDS
        return t, self.place_of(after[:3] + ((),)), sort

    def place_of(self, state):
        # where a thread that has ended begins again, both are one state
        if self.again:
            rest = tuple((0, small.BETWEEN, ()) if k == len(self.program.calls[t]) and t and at != small.TRAPPED else (k, at, stack)
                         for t, (k, at, stack) in enumerate(state[2]))
            state = state[:2] + (rest,) + state[3:]
        if state not in self.places:
            self.places[state] = len(self.states)
            self.states.append(state)
            if len(self.states) > MOST:
                raise small.TooLarge
        return self.places[state]

    def pending(self, at, t):
        """The number of the call of a thread that hasn't ended."""
        k, place, _ = self.states[at][2][t]
        return None if place in (small.BETWEEN, small.TRAPPED) or k == len(self.program.calls[t]) else k + 1


def components(graph, nodes, is_kept):
    """The inner edges of each strongly connected component of these nodes, by the edges that are kept."""
    kept = {at: [(t, to, sort) for t, to, sort in graph.edges[at] if to in nodes and is_kept(t, sort)] for at in nodes}
    order, seen = [], set()
    for root in nodes:
        line = [] if root in seen else [(root, iter(kept[root]))]
        seen.add(root)
        while line:
            at, rest = line[-1]
            after = next((to for _, to, _ in rest if to not in seen), None)
            if after is None:
                order.append(at)
                line.pop()
            else:
                seen.add(after)
                line.append((after, iter(kept[after])))
    back = {at: [] for at in nodes}
    for at in nodes:
        for _, to, _ in kept[at]:
            back[to].append(at)
    part = {}
    for root in reversed(order):
        line = [] if root in part else [root]
        while line:
            at = line.pop()
            if at not in part:
                part[at] = root
                line += [it for it in back[at] if it not in part]
    inner = collections.defaultdict(list)
    for at in nodes:
        for t, to, sort in kept[at]:
            if part[at] == part[to]:
                inner[part[at]].append((at, t, to, sort))
    return list(inner.values())


def fair(graph, is_kept, by_locks):
    """The components in which each thread has a step that isn't over there; by locks, one that acts if it could act."""
    left, found = [set(range(len(graph.states)))], []
    while left:
        for inner in components(graph, left.pop(), is_kept):
            nodes = {it[0] for it in inner}
            steps = {t for _, t, _, _ in inner}
            acts = {t for _, t, _, sort in inner if sort != WAITS}
            bad = {at for at in nodes for t, _, sort in graph.edges[at] if t not in steps or by_locks and sort != WAITS and t not in acts}
            if not bad:
                found.append(inner)
            elif nodes - bad:
                left.append(nodes - bad)
    return found


def endless(graph, parts):
    """The threads and calls of which a step is in one of these components."""
    return {(t, graph.pending(at, t)) for inner in parts for at, t, _, _ in inner if graph.pending(at, t)}


def is_silent(_, sort):
    """No call begins or ends with the step."""
    return sort in (INSIDE, WAITS)


def starved(graph, t, all_stop):
    """What is told of each call of a thread, and of which it may not end though no lock passes over a thread."""
    nodes = set(range(len(graph.states)))

    def is_mine(u, sort):
        return u != t or is_silent(u, sort)

    def is_alone(u, sort):
        return u == t and is_silent(u, sort)
    starve, blocked = endless(graph, components(graph, nodes, is_mine)), endless(graph, components(graph, nodes, is_alone))
    fairly, by_locks = endless(graph, fair(graph, is_mine, False)), endless(graph, fair(graph, is_mine, True))
    for call in range(1, len(graph.program.calls[t]) + 1):
        key = (t, call)
        told = {"blocking"} if key in blocked else {"obstruction-free", "not lock-free"} if key in all_stop else \
            {"lock-free", "not wait-free"} if key in starve else {"wait-free"}
        yield key, told, {"not starvation-free by fair locks"} if key in by_locks else {"not starvation-free"} if key in fairly else set()


def classified(graph):
    """What is to be told of each call, and the calls of a livelock."""
    all_stop = endless(graph, components(graph, set(range(len(graph.states))), is_silent))
    fairly, by_locks = endless(graph, fair(graph, is_silent, False)), endless(graph, fair(graph, is_silent, True))
    calls = {}
    for t in range(1, graph.count):
        for key, told, starving in starved(graph, t, all_stop):
            if key in by_locks:
                told.add("not deadlock-free by fair locks")
            elif "wait-free" not in told:
                told |= starving | ({"not deadlock-free"} if key in fairly else set())
            calls[graph.program.names[t], key[1]] = told
    return calls, by_locks


# ---- what is told

def read(out):
    """What is told of each call, with the schedules that go round; None if it isn't complete."""
    lines = out.split("\n")
    if not lines[-2].endswith(" complete"):
        return None
    calls, now = {}, None
    for line in lines:
        head, told = HEAD.fullmatch(line), LINE.fullmatch(line)
        if head:
            now = calls.setdefault((head[1], int(head[2])), {})
        elif told:
            now[told[1]] = told[2]
    return calls


class Player:
    """Plays schedules that go round, by `source` and `state`."""

    def __init__(self, program, classes, text, again):
        self.program, self.classes, self.again, self.names = program, classes, again, ["setup"] + re.findall(r"thread (\w+)", text)
        self.text, self.lengths = text, {name: body.count(";") for name, body in re.findall(r"thread (\w+) \{ (.*?)\}", text)}

    def written(self, many):
        return re.sub(r"(thread \w+) \{ (.*?)\}", lambda it: f"{it[1]} {{ {it[2] * many}}}", self.text) if self.again else self.text

    def of(self, command, many, schedule):
        return run(self.program, [command], joined(self.classes, self.written(many).encode(), f"{schedule}\n".encode()), seconds=60).out.decode()

    def events(self, many, schedule):
        return [(it[1], int(it[2]), it[3]) for it in map(EVENT.fullmatch, self.of("source", many, schedule).split("\n")) if it]

    def is_over(self, events, name, many):
        mine = [it for it in events if it[0] == name]
        return bool(mine) and (mine[-1][2] == "trap" or mine[-1][2] == "return" and mine[-1][1] == self.lengths[name] * (many if self.again else 1))

    def called(self, number, name):
        return (number - 1) % self.lengths[name] + 1 if self.again else number

    def passed_over(self, many, way, cycle):
        """The threads that could act where a step of the cycle is taken, and don't act in it."""
        could, acted = set(), set()
        for done in range(len(cycle)):
            state = self.of("state", many, " ".join([way, *cycle[:done]]))
            stopped = set(re.findall(r"^(\w+)(?:\.\d+ waits for| has ended| was trapped| is trapped)", state, re.M))
            able = {it for it in self.names[1:] if it not in stopped}
            could |= able
            acted |= {cycle[done]} & able
        return could - acted

    def wrong(self, name, call, what, lasso):
        """What is wrong with a schedule that goes round, or None."""
        found = LASSO.fullmatch(lasso)
        if not found:
            return "isn't a way and ten rounds"
        way, cycle = found[1], [it for word in found[2].split() for it in [word.split("*")[0]] * int((word.split("*") + ["1"])[1])]
        for many in MANY:
            before, after = self.events(many, way), self.events(many, lasso)
            if not self.again or not any(self.is_over(after, it, many) and not self.is_over(before, it, many) for it in self.names[1:]):
                break
        mine = [it for it in before if it[0] == name]
        if not mine or mine[-1][2] != "call" or self.called(mine[-1][1], name) != call:
            return "the call isn't pending after the way"
        rest = after[len(before):]
        if name not in cycle or any(it[0] == name for it in rest):
            return "the call ends, or its thread takes no step"
        if what == "blocking" and set(cycle) != {name} or "lock-free" in what and rest:
            return "another thread steps, or a call begins or ends"
        if ("deadlock" in what or "starvation" in what) and any(it not in cycle and not self.is_over(before, it, many) for it in self.names[1:]):
            return "a thread takes no step"
        if not self.again and self.of("state", many, " ".join([way, *cycle])) != self.of("state", many, " ".join([way, *cycle * 2])):
            return "it doesn't come back to one state"
        if "by fair locks" in what and len(cycle) <= 40:
            passed = self.passed_over(many, way, cycle)
            return f"{sorted(passed)} could act" if passed else None
        return None


def verdict_wrong(program, text, is_livelock):
    """What is wrong with what is told of a livelock beside `none`, or None."""
    lines = run(program, ["explore", "--verdict", "--states", STATES], text, seconds=120).out.decode().split("\n")
    if lines[0] != "none" or not lines[-2].endswith(" complete"):
        return None
    told = [it for it in lines if LIVELOCK.fullmatch(it)]
    return None if bool(told) == is_livelock else f"explore --verdict says {lines}, and there is {'a' if is_livelock else 'no'} livelock"


def tried(program, case, again):
    """What is wrong with what is told of a case, or None; and what is told of its calls."""
    made, text = case
    classes = made.text().encode()
    graph = Graph(Program(made, text), again)
    wanted, stop = classified(graph)
    words = ["explore", "--ends", "--states", STATES] + (["--again"] if again else [])
    done = run(program, words, joined(classes, text.encode()), seconds=120)
    told = read(done.out.decode()) if done.status == 0 else {}
    if told is None:
        raise small.TooLarge
    if {key: set(it) for key, it in told.items()} != wanted:
        return f"tells {done.told()}, and it is {wanted}", []
    player = Player(program, classes, text, again)
    for (name, call), lines in told.items():
        for what, rest in lines.items():
            if rest.startswith("@2"):
                wrong = player.wrong(name, call, what, rest)
                if wrong:
                    return f"{name}.{call} {what}: {rest}: {wrong}", []
    wrong = None if again else verdict_wrong(program, joined(classes, text.encode()), bool(stop))
    return wrong, [" and ".join(sorted(it)) for it in wanted.values()]


def main():
    reader = argparse.ArgumentParser(description=__doc__)
    reader.add_argument("--program", default=PROGRAM)
    reader.add_argument("--seed", type=int, default=1)
    reader.add_argument("--count", type=int, default=100)
    options = reader.parse_args()
    counts, calls = collections.Counter(), collections.Counter()
    for number in range(options.count):
        case = drawn(random.Random(options.seed * 1_000_000 + number))
        for again in (False, True):
            try:
                wrong, words = tried(options.program, case, again)
            except small.TooLarge:
                counts["too large"] += 1
                continue
            counts["wrong" if wrong else "right"] += 1
            calls.update(words)
            if wrong:
                print(f"{number}{' again' if again else ''}: {wrong}", flush=True)
                text = joined(case[0].text().encode(), case[1].encode())
                words = ["explore", "--ends"] + ["--again"] * again
                keep(f"ends_{options.seed}_{number}", words, text, wrong, "the components of the graph of states")
    print(f"{options.count} programs: " + ", ".join(f"{name} {count}" for name, count in sorted(counts.items())))
    for words, count in sorted(calls.items()):
        print(f"  {count} calls: {words}")
    return 1 if counts["wrong"] else 0


if __name__ == "__main__":
    sys.exit(main())
