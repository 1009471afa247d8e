"""Schedules, histories and orders read once more, plainly: what the program's own readers and its verdicts are compared with.

Each reader answers a fault as (number, place), or what it read."""
import re

RESERVED = frozenset("""abstract assert boolean break byte case catch char class const continue default do double else enum extends
final finally float for goto if implements import instanceof int interface long native new package private protected public return
short static strictfp super switch synchronized this throw throws transient try void volatile while true false null""".split())
NAME = r"[A-Za-z_$][A-Za-z0-9_$]*"
VALUE = r"(?:true|false|0|-?[1-9][0-9]*)"
ITEM = re.compile(rf"({NAME})(?:\*([1-9][0-9]*))?")
VERSION = re.compile(r"[ \t\r\n]*@2(?=[ \t\r\n)]|\Z)")
PIECE = re.compile(r"[()]|[^ \t\r\n()]+")
TIMES = re.compile(r"(?:\*([1-9][0-9]*))?(?=[ \t\r\n)]|\Z)")
ENTRY = re.compile(rf"({NAME})\.([1-9][0-9]*)")
VALUES = rf"({VALUE}(?:, {VALUE})*)?"
LINE = re.compile(rf"({NAME})\.([1-9][0-9]*) (?:call ({NAME}) = new ({NAME})\({VALUES}\)|call ({NAME})\.({NAME})\({VALUES}\)|"
    rf"(return)(?: ({VALUE}))?|trap (ArithmeticException|NullPointerException|ArrayIndexOutOfBoundsException|"
    rf"NegativeArraySizeException|IllegalMonitorStateException|StackOverflowError|Error))")


def is_name(text):
    return text not in RESERVED


def items(text):
    """What stands between gaps, with its place."""
    return [(found.start(), found.group()) for found in re.finditer(r"[^ \t\r\n]+", text)]


def read_schedule(text, threads):
    """The threads of each step, the setup being 0; 40 and 41 come before 42."""
    names = {name: place for place, name in enumerate(["setup", *threads])}
    version = VERSION.match(text)
    turns = read_groups(text, version.end(), len(text), 0, names) if version else [read_item(at, item, names) for at, item in items(text)]
    faults = [turns] if isinstance(turns, tuple) else [turn for turn in turns if isinstance(turn[0], int)]
    if faults:
        return faults[0]
    return (42, None) if length_of(turns) > 1_000_000 else steps_of(turns)


def count_of(digits):
    return int(digits or "1") if len(digits or "1") < 9 else 10**9


def read_item(at, item, names):
    """The threads that an item names and its count, or its fault."""
    form = ITEM.fullmatch(item)
    if not form or not is_name(form.group(1)):
        return 40, at
    if form.group(1) not in names and form.group(1) != "all":
        return 41, at
    who = range(1, len(names)) if form.group(1) == "all" else [names[form.group(1)]]
    return list(who), count_of(form.group(2))


def closing(text, at):
    """The place of the parenthesis that closes the one at this place, or None."""
    deep = 0
    for place in range(at, len(text)):
        deep += {"(": 1, ")": -1}.get(text[place], 0)
        if deep == 0:
            return place
    return None


def read_groups(text, at, end, outer, names):
    """The items and groups between two places, each with its count, within so many groups; or the first fault."""
    turns = []
    while found := PIECE.search(text, at, end):
        at, piece = found.end(), found.group()
        if piece == ")":
            return 40, found.start()
        if piece == "(":
            close = closing(text, found.start())
            times = None if close is None else TIMES.match(text, close + 1)
            if outer == 8 or not times or not items(text[at:close]):
                return 40, found.start()
            turn = read_groups(text, at, close, outer + 1, names), count_of(times.group(1))
            at = times.end()
            if isinstance(turn[0], tuple):
                return turn[0]
        else:
            turn = (40, found.start()) if text[at:at + 1] == "(" else read_item(found.start(), piece, names)
            if isinstance(turn[0], int):
                return turn
        turns.append(turn)
    return turns


def length_of(turns):
    return sum(count * (length_of(what) if what and isinstance(what[0], tuple) else len(what)) for what, count in turns)


def steps_of(turns):
    return [step for what, count in turns if what for step in (steps_of(what) if isinstance(what[0], tuple) else what) * count]


def in_range(text):
    return text in ("true", "false") or -2**31 <= int(text) <= 2**31 - 1 if len(text) < 14 else False


class Event:
    """One line: whose call it is of, what it does, and its words."""

    def __init__(self, form):
        self.thread, self.number = form.group(1), form.group(2)
        self.key = f"{self.thread}.{self.number}"
        self.new = form.group(4)
        self.target, self.method = form.group(6), form.group(7)
        given = form.group(5) if self.new else form.group(8)
        self.values = given.split(", ") if given else []
        self.value = form.group(10)
        self.kind = "call" if self.new or self.method else "return" if form.group(9) else "trap"
        self.names = [name for name in (self.thread, form.group(3), self.new, self.target, self.method) if name]

    def is_well(self):
        values = self.values + ([self.value] if self.value else [])
        return all(is_name(name) for name in self.names) and self.thread != "all" and all(in_range(value) for value in values) and (
            not self.new or self.thread == "setup")


def event_of(line):
    form = LINE.fullmatch(line)
    event = Event(form) if form else None
    return event if event and event.is_well() else None


def comes_next(event, threads):
    """Whether the event may come next; notes it where it may. A thread is its calls so far, its open call, and whether it trapped."""
    made, opened, trapped = threads.get(event.thread, (0, None, False))
    if event.kind == "call":
        threads[event.thread] = made + 1, event, False
        return not opened and not trapped and event.number == str(made + 1)
    if not opened or opened.number != event.number or (opened.new and event.value):
        return False
    threads[event.thread] = made, None, event.kind == "trap"
    return True


def read_history(text):
    """The events, or 77 at the first line that isn't one of a history."""
    events, at, threads = [], 0, {}
    lines = text.split("\n")
    for line in lines[:-1] if lines[-1] == "" else lines:
        event = event_of(line)
        if not event or not comes_next(event, threads):
            return 77, at
        events.append(event)
        at += len(line.encode()) + 1
    return events


def read_order(text):
    entries = []
    for at, item in items(text):
        form = ENTRY.fullmatch(item)
        if not form or not is_name(form.group(1)):
            return 78, at
        entries.append(item)
    return entries


class SetCall:
    """A set call of a history: when it was called, when it was over, and its reply where it has one."""

    def __init__(self, event, place):
        self.key, self.method, self.item, self.called = event.key, event.method, event.values[0], place
        self.over, self.reply = None, None


def is_set_call(event):
    return event.method in ("add", "remove", "contains") and len(event.values) == 1 and event.values[0] not in ("true", "false")


def set_calls(events):
    """The set calls by key, and the first call that is none."""
    calls, target = {}, None
    for place, event in enumerate(events):
        if event.kind != "call":
            if event.key in calls:
                calls[event.key].over, calls[event.key].reply = place, event.value if event.kind == "return" else None
                calls[event.key].returned = event.kind == "return"
        elif event.new:
            if target is not None:
                return calls, event.key
        elif not is_set_call(event) or target not in (None, event.target):
            return calls, event.key
        else:
            target = event.target
            calls[event.key] = SetCall(event, place)
            calls[event.key].returned = False
    return calls, None


def repeated(order):
    return next((key for place, key in enumerate(order) if key in order[place + 1:]), None)


def against_time(order, calls):
    latest = -1
    for key in order:
        if calls[key].over is not None and latest > calls[key].over:
            return key
        latest = max(latest, calls[key].called)
    return None


def wrong_reply(order, calls):
    held = set()
    for key in order:
        call = calls[key]
        present = call.item in held
        reply = "true" if present == (call.method != "add") else "false"
        if call.method == "add":
            held.add(call.item)
        elif call.method == "remove":
            held.discard(call.item)
        if call.returned and call.reply != reply:
            return key
    return None


def verdict(events, order):
    """The first rule that is broken, in the order of their tests, and its call."""
    calls, none = set_calls(events)
    if none:
        return f"broken 76 {none}\n"
    unknown = next((key for key in order if key not in calls), None)
    missing = next((key for key, call in calls.items() if call.returned and key not in order), None)
    for rule, key in ((71, unknown), (72, repeated(order)), (73, missing)):
        if key:
            return f"broken {rule} {key}\n"
    for rule, key in ((74, against_time(order, calls)), (75, wrong_reply(order, calls))):
        if key:
            return f"broken {rule} {key}\n"
    return "legal\n"
