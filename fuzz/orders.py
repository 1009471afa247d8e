#!/usr/bin/env python3
"""orders [--program P] [--seed N] [--count N]: random histories, orders and schedules, right and a little wrong, against readers.py.

For a history and an order the verdict, or the fault and its place, must be what the plain reader says; for a schedule the fault and its
place, or that there is none, and the same steps spelled one by one must give the same history. Ends with status 1 where one differs."""
import argparse
import os
import random
import sys
import time

import mutations
from claims import parts_of
from readers import read_history, read_order, read_schedule, verdict
from tool import PROGRAM, joined, keep, run

TEXTS = b"class C { int v; void f() { v = v + 1; } int get() { return v; } }\n"
NAMES = {40: "40 BadItem", 41: "41 UnknownThread", 42: "42 TooManySteps", 77: "77 BadHistory", 78: "78 BadOrder"}
TRAPS = ("ArithmeticException", "NullPointerException", "StackOverflowError", "Error")


def line_of(fault):
    number, place = fault
    return f"fault {NAMES[number]}" + ("\n" if place is None else f" at {place}\n")


class Play:
    """A history as it is drawn: the set itself answers, mostly."""

    def __init__(self, r):
        self.r, self.held, self.lines, self.open, self.done = r, set(), [], {}, {}
        self.order = []

    def call(self, thread):
        number = self.done.get(thread, 0) + 1
        self.done[thread] = number
        method, item = self.r.choice(("add", "add", "remove", "contains")), self.r.choice((0, 1, 2, 3, -7))
        if self.r.random() < 0.01:
            method = self.r.choice(("f", "addAll"))
        self.open[thread] = (number, method, item)
        self.lines.append(f"{thread}.{number} call {'t' if self.r.random() < 0.005 else 's'}.{method}({item})")

    def finish(self, thread):
        number, method, item = self.open.pop(thread)
        reply = (item in self.held) == (method != "add")
        (self.held.add if method == "add" else self.held.discard if method == "remove" else len)(item if method in ("add", "remove") else ())
        self.order.append(f"{thread}.{number}")
        if self.r.random() < 0.03:
            self.lines.append(f"{thread}.{number} trap {self.r.choice(TRAPS)}")
            return False
        told = str(reply != (self.r.random() < 0.02)).lower() if self.r.random() < 0.98 else self.r.choice(("1", "-5", ""))
        self.lines.append(f"{thread}.{number} return {told}".rstrip())
        return True


def drawn_history(r):
    """A history of one to four threads, and the order in which its calls ended."""
    play, threads = Play(r), ["A", "B", "_c", "D4"][:r.choice((1, 2, 3, 4))]
    if r.random() < 0.7:
        play.lines += ["setup.1 call s = new List()", "setup.1 return"]
    for _ in range(r.choice((0, 2, 6, 15, 40))):
        if not threads:
            break
        thread = r.choice(threads)
        if thread not in play.open:
            play.call(thread)
        elif not play.finish(thread):
            threads.remove(thread)
    return play


def drawn_order(r, play):
    """The order, with some entries moved, left out, twice or unknown, and with pending calls."""
    order = list(play.order)
    order += [f"{thread}.{call[0]}" for thread, call in play.open.items() if r.random() < 0.5]
    for _ in range(r.choice((0, 0, 1, 2, 5))):
        kind = r.randrange(5)
        if order and kind < 2:
            order.insert(r.randrange(len(order)), order.pop(r.randrange(len(order))))
        elif order and kind == 2:
            order.pop(r.randrange(len(order)))
        elif order and kind == 3 and r.random() < 0.4:
            order.append(r.choice(order))
        elif r.random() < 0.2:
            order.insert(r.randrange(len(order) + 1), r.choice(("setup.1", "A.99", "q.1", "all.1", "A.1" + "0" * 30)))
    return order


def of_orders(r, program):
    play = drawn_history(r)
    history, order = "".join(f"{line}\n" for line in play.lines).encode(), " ".join(drawn_order(r, play)).encode()
    if r.random() < 0.4:
        history = mutations.spoilt(r, history, 1)
    if r.random() < 0.15:
        order = mutations.spoilt(r, order, 1)
    return ["check"], history, order


def wanted_of(parts):
    """What `check` must say, or None where these aren't two parts of text."""
    if len(parts) != 2 or not all(is_text(part) for part in parts):
        return None
    texts = [part.decode() for part in parts]
    events, entries = read_history(texts[0]), read_order(texts[1])
    for fault in (events, entries):
        if isinstance(fault, tuple):
            return fault_place(fault, texts[0] if fault is events else texts[1])
    return verdict(events, entries)


def fault_place(fault, text):
    """A fault's line, its place in bytes."""
    number, place = fault
    return line_of((number, place if number in (42, 77) else len(text[:place].encode())))


def check_orders(program, r):
    words, history, order = of_orders(r, program)
    text = joined(history, order)
    wanted = wanted_of(parts_of(text))
    if wanted is None:
        return "no two texts", None
    done = run(program, words, text)
    came = (done.out or done.errors).decode()
    return wanted.split(" at ")[0].rsplit(" ", 1)[0].strip(), None if came == wanted else (words, text, came, wanted)


def grouped(r, items, gap, outer):
    """The items with groups round some of them, a little too deep at times."""
    if not items or outer > 9 or r.random() < 0.3:
        return items
    first, last = sorted(r.choices(range(len(items) + 1), k=2))
    inner = gap.join(grouped(r, items[first:last], gap, outer + 1))
    group = r.choice(("(", "( ")) + inner + r.choice((")", " )")) + r.choice(("", "*1", "*2", "*3", "*70"))
    return [*items[:first], group, *grouped(r, items[last:], gap, outer + 1)]


def check_schedules(program, r):
    """A schedule text, right or a little wrong."""
    threads = ["A", "B", "Cc"][:r.choice((0, 1, 2, 3))]
    calls = "".join(f"thread {name} {{ s.f(); s.get(); }} " for name in threads)
    parts = [TEXTS, f"setup {{ s = new C(); }} {calls}\n".encode()]
    items = [r.choice([*threads, "setup", "all"]) + r.choice(("", "", "*1", "*2", "*7", "*30")) for _ in range(r.choice((0, 1, 5, 20)))]
    gap = r.choice((" ", "\n", "\t", "\r\n", "  "))
    text = gap.join(["setup*5", *items] if r.random() < 0.5 else ["@2", "setup*5", *grouped(r, items, gap, 0)]).encode()
    if r.random() < 0.6:
        text = mutations.spoilt(r, text, r.choice((1, 1, 2)))
    if b"%%" in text or not is_text(text):
        return "no text", None
    read = read_schedule(text.decode(), threads)
    return compared(program, parts, text, read, ["setup", *threads])


def is_text(text):
    try:
        text.decode()
    except UnicodeDecodeError:
        return False
    return True


def compared(program, parts, text, read, names):
    command = "source"
    done = run(program, [command], joined(*parts, text))
    if isinstance(read, tuple):
        wanted = fault_place(read, text.decode())
        came = done.errors.decode()
        return wanted.split(" at ")[0].strip(), None if came == wanted else ([command], joined(*parts, text), came, wanted)
    plain = " ".join(names[step] for step in read).encode()
    again = run(program, [command], joined(*parts, plain + b"\n"))
    return "schedules", None if again.same(done) and done.status == 0 else ([command], joined(*parts, text), done.told(), again.told())


def main():
    parser = argparse.ArgumentParser(description=__doc__)
    parser.add_argument("--program", default=PROGRAM)
    parser.add_argument("--seed", type=int, default=1)
    parser.add_argument("--count", type=int, default=5000)
    given = parser.parse_args()
    program, start, counts, failed = os.path.abspath(given.program), time.time(), {}, 0
    for seed in range(given.seed, given.seed + given.count):
        r = random.Random(seed)
        kind, wrong = (check_schedules if seed % 3 == 0 else check_orders)(program, r)
        counts[kind] = counts.get(kind, 0) + 1
        if wrong:
            failed += 1
            print(f"case {seed}: {wrong[2]!r}, wanted {wrong[3]!r} (kept in {keep(f'read_{seed}', *wrong)})", flush=True)
    print(", ".join(f"{kind} {count}" for kind, count in sorted(counts.items())))
    print(f"{given.count} cases, {given.count / (time.time() - start):.0f} a second, {failed} wrong")
    return 1 if failed else 0


if __name__ == "__main__":
    sys.exit(main())
