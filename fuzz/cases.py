"""Cases of words and an input, drawn from a seed out of the worked rows, the examples and generated programs."""
import glob
import os
import random

import mutations
import words
from bodies import class_text
from shapes import drawn_world
from threads import drawn_program, drawn_schedule
from tool import TOP, joined

ROWS = f"{TOP}/tests/rows"
EXAMPLES = f"{TOP}/examples"


def read(path):
    with open(path, "rb") as file:
        return file.read()


class Stock:
    """What cases are made of: inputs by command, and their parts by kind."""

    def __init__(self):
        self.inputs = {command: [] for command in words.COMMANDS}
        self.classes, self.programs, self.schedules, self.histories, self.orders = [], [], [], [], []
        for folder in sorted(os.listdir(ROWS)):
            for name in sorted(os.listdir(f"{ROWS}/{folder}")):
                self.add(read(f"{ROWS}/{folder}/{name}/args").split()[0].decode(), read(f"{ROWS}/{folder}/{name}/stdin"))
                self.add_history(f"{ROWS}/{folder}/{name}/stdout")
        for name in sorted(glob.glob("**/*.txt", root_dir=EXAMPLES, recursive=True)):
            text = read(f"{EXAMPLES}/{name}")
            self.add("check" if text.startswith(b"A.") or b"%%\nA." in text else "source", text)
        self.classes += [read(f"{EXAMPLES}/classes/{name}") for name in sorted(os.listdir(f"{EXAMPLES}/classes"))]

    def add(self, command, text):
        if command in self.inputs:
            self.inputs[command].append(text)
        parts = text.split(b"\n%%\n")
        into = (self.histories, self.orders) if command == "check" else (self.classes, self.programs, self.schedules)
        for part, kind in zip(parts, into):
            kind.append(part)

    def add_history(self, path):
        text = read(path) if os.path.isfile(path) else b""
        if b" call " in text and not text.startswith(b"seed"):
            self.histories.append(text)


class Case:
    def __init__(self, kind, arguments, text):
        self.kind, self.words, self.text = kind, arguments, text


def parts_for(r, stock, command):
    """Parts of an input: those of one row, or each from another row, or generated ones."""
    if command == "check":
        return [r.choice(stock.histories), r.choice(stock.orders)]
    count = 3 if command in ("replay", "source", "translate") else 2
    if r.random() < 0.5:
        return drawn_parts(r)[:count]
    if r.random() < 0.8:
        like = r.choice(("source", "replay", "translate"))
        return (r.choice(stock.inputs[like]).split(b"\n%%\n") + [b"", b"", b""])[:count]
    return [r.choice(stock.classes), r.choice(stock.programs), r.choice(stock.schedules)][:count]


def drawn_parts(r):
    """A generated class text, its program and a schedule."""
    seed = r.randrange(2**48)
    world = drawn_world(random.Random(seed), r.random() < 0.5)
    text = class_text(world)
    program = drawn_program(world, r.choice((1, 2, 3)))
    return [text.encode(), program.text().encode(), drawn_schedule(r, program, r.choice((30, 300, 5000))).encode()]


def row(r, stock):
    """The bytes of a row, spoilt, for any command."""
    command = r.choice(words.COMMANDS)
    text = mutations.spoilt(r, r.choice(stock.inputs[r.choice((command, command, "source", "compile"))] or [b""]), r.choice((1, 1, 2, 4)))
    return Case("row", words.good(r, command, False), text)


def part(r, stock):
    """One part spoilt and the others whole, so that what stands behind it is reached."""
    command = r.choice(words.COMMANDS)
    parts = parts_for(r, stock, command)
    place = r.randrange(len(parts))
    parts[place] = mutations.spoilt(r, parts[place], r.choice((1, 1, 1, 2, 3)))
    return Case("part", words.good(r, command, len(parts[-1]) < 30), joined(*parts))


def near(r, stock):
    """A class text with one number or token changed, which is often still accepted."""
    command = r.choice(("replay", "source", "translate", "live", "batch"))
    parts = parts_for(r, stock, command)
    for place in range(len(parts)):
        if r.random() < 0.6:
            parts[place] = r.choice((mutations.number_nearby, mutations.swap, mutations.replace))(r, parts[place])
    return Case("near", words.good(r, command, False), joined(*parts))


def splice(r, stock):
    texts = [r.choice(stock.inputs[r.choice(("source", "replay", "compile", "check", "translate"))]) for _ in range(2)]
    return Case("splice", words.good(r, r.choice(words.COMMANDS), False), mutations.spliced(r, *texts))


def order(r, stock):
    """A history and an order, both a little off; lines and items in other places."""
    history, wanted = r.choice(stock.histories), r.choice(stock.orders)
    items = [line.split(b" ")[0] for line in history.split(b"\n") if b" call " in line]
    if items and r.random() < 0.7:
        wanted = b" ".join(r.choice(items) for _ in range(r.randrange(len(items) + 2)))
    if r.random() < 0.5:
        history = r.choice((mutations.line_order, mutations.number, mutations.replace, mutations.delete, mutations.odd))(r, history)
    if r.random() < 0.3:
        wanted = mutations.spoilt(r, wanted, 1)
    return Case("order", ["check"], joined(history, wanted))


def line(r, stock):
    """An odd command line with a whole input."""
    arguments = words.odd(r)
    command = next((word for word in arguments if word in words.COMMANDS), "compile")
    return Case("line", arguments, joined(*parts_for(r, stock, command)))


def noise(r, stock):
    """Bytes of no text at all, or tokens in any order."""
    if r.random() < 0.5:
        return Case("noise", words.good(r, r.choice(words.COMMANDS)), bytes(r.randrange(256) for _ in range(r.randrange(300))))
    tokens = [r.choice((*mutations.WORDS, *mutations.SIGNS, *mutations.NUMBERS, b"\n%%\n")) for _ in range(r.randrange(80))]
    return Case("noise", words.good(r, r.choice(words.COMMANDS)), b" ".join(tokens))


KINDS = (row, part, part, near, near, splice, order, line, noise)


def drawn_case(seed, stock):
    """The case of a seed; one that would take long is drawn anew."""
    r = random.Random(seed)
    case = r.choice(KINDS)(r, stock)
    while words.takes_long(case.words):
        case = r.choice(KINDS)(r, stock)
    return case
