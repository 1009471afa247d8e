"""Random small classes, and all that threads may do on an object of one. Nothing here asks the program.

A class has two int fields, a lock and two or three methods, which are trees of tuples. A tree is printed as Java, and compiled to code of
which each action is one that another thread can see: a read or a write of a field, a lock, the beginning and the end of a call, a turn of
a loop. What stands between two actions is done with the first. A state has the fields, who holds the lock and the monitor, where each
thread stands, and the history. `explored` walks through all states, and `serial_runs` runs whole calls one at a time."""
import re

FIELDS, EXCEPTIONS = ("v", "w"), ("ArithmeticException", "IllegalMonitorStateException")
LOCK, MONITOR = 0, 1
BETWEEN, TRAPPED = -1, -2
IDLE, WAITS = "idle", "waits"
MOST = 30_000
ACTIONS = {"read", "write", "lock", "unlock", "turn", "return", "trap"}
OPERATORS = {"+": lambda a, b: a + b, "-": lambda a, b: a - b, "/": lambda a, b: int(a / b),
             "<": lambda a, b: int(a < b), "==": lambda a, b: int(a == b), "!=": lambda a, b: int(a != b)}


class TooLarge(Exception):
    """More states than are looked at."""


class Method:
    """A method, or the constructor: what it answers, whether it takes an int and is synchronized, and its statements."""

    def __init__(self, name, answers, takes, is_kept, body):
        self.name, self.answers, self.takes, self.is_kept, self.body = name, answers, takes, is_kept, body

    def text(self):
        kept, head = "synchronized " if self.is_kept else "", f"{self.answers} {self.name}".strip()
        return f"{kept}{head}({'int x' if self.takes else ''}) {block(self.body)}"


class Small:
    """A class of this kind."""

    def __init__(self, starts, methods):
        self.starts, self.methods = starts, methods

    def text(self):
        fields = " ".join(f"int {name} = {value};" for name, value in zip(FIELDS, self.starts))
        methods = "\n".join(f"  {it.text()}" for it in self.methods)
        return f"class S {{\n  {fields} Lock m = new ReentrantLock();\n{methods}\n}}\n"


def shown(e):
    """An expression as Java."""
    if e[0] in ("number", "field"):
        return str(e[1])
    return "x" if e[0] == "x" else f"{shown(e[1])} {e[0]} {shown(e[2])}"


def block(body):
    return "{ " + "".join(f"{statement(it)} " for it in body) + "}"


def statement(s):
    if s[0] == "set":
        return f"{s[1]} = {shown(s[2])};"
    if s[0] == "if":
        return f"if ({shown(s[1])}) {block(s[2])} else {block(s[3])}"
    if s[0] == "while":
        return f"while ({shown(s[1])}) {block(s[2])}"
    return f"m.{s[0]}();" if s[0] in ("lock", "unlock") else f"return {shown(s[1])};" if s[1] else "return;"


# ---- random classes

def leaf(r, takes):
    return r.choice([("number", r.randrange(3)), *(("field", it) for it in FIELDS), *([("x",)] * 2 if takes else [])])


def expression(r, takes):
    if r.random() < 0.5:
        return leaf(r, takes)
    return (r.choices("+-/", (6, 3, 1))[0], leaf(r, takes), leaf(r, takes))


def condition(r, takes):
    return (r.choice(("<", "==", "!=")), ("field", r.choice(FIELDS)), leaf(r, takes))


def statements(r, takes, depth=0):
    found = []
    for _ in range(r.choice((1, 1, 2, 2, 3) if depth == 0 else (0, 1, 1))):
        kind = r.random()
        if kind < 0.55 or depth == 2:
            found.append(("set", r.choice(FIELDS), expression(r, takes)))
        elif kind < 0.75:
            found.append(("if", condition(r, takes), statements(r, takes, depth + 1), statements(r, takes, depth + 1)))
        elif kind < 0.85:
            name = r.choice(FIELDS)
            up = [("set", name, ("+", ("field", name), ("number", 1)))]
            found.append(("while", ("<", ("field", name), ("number", 2)), up) if r.random() < 0.5 else ("while", condition(r, takes), []))
        else:
            inner = statements(r, takes, depth + 1)
            found += [("lock",), *inner, ("unlock",)] if r.random() < 0.9 else [("lock",), *inner]
    return found


def drawn_method(r, name):
    answers, takes = r.choice(("void", "int", "int", "boolean")), r.random() < 0.4
    body = statements(r, takes)
    if answers != "void":
        body.append(("return", condition(r, takes) if answers == "boolean" else expression(r, takes)))
    return Method(name, answers, takes, r.random() < 0.3, body)


def drawn(r):
    """A random class. Now and then its constructor does something."""
    made = [Method("S", "", False, False, statements(r, False))] if r.random() < 0.1 else []
    return Small((r.randrange(2), r.randrange(2)), made + [drawn_method(r, it) for it in "fgh"[:r.choice((2, 2, 3))]])


def changed_tree(r, tree):
    """A tree with a number, a field, an operator or a statement changed, in some place."""
    if isinstance(tree, list):
        kept = [it for it in tree if it[0] == "return" or r.random() < 0.9]
        return [changed_tree(r, it) for it in kept]
    if not isinstance(tree, tuple) or r.random() < 0.3:
        return tree
    if tree[0] == "number":
        return ("number", r.randrange(3)) if r.random() < 0.3 else tree
    if tree[0] == "field":
        return ("field", r.choice(FIELDS)) if r.random() < 0.2 else tree
    if tree[0] in ("<", "==", "!=") and r.random() < 0.15:
        return (r.choice(("<", "==", "!=")), *tree[1:])
    return tuple(changed_tree(r, it) for it in tree)


def alike(r, small):
    """Another class with the same methods: one call at a time, or changed in some places."""
    way = r.random()
    methods = []
    for it in small.methods:
        body = it.body if way < 0.4 else changed_tree(r, it.body)
        is_kept = it.name != "S" and (way < 0.2 or it.is_kept and r.random() < 0.8)
        methods.append(Method(it.name, it.answers, it.takes, is_kept, body))
    return Small(small.starts if way < 0.8 else (r.randrange(2), r.randrange(2)), methods)


# ---- code

def put(e, code):
    """The code that leaves the value of an expression on the stack."""
    if e[0] in OPERATORS:
        put(e[1], code)
        put(e[2], code)
        code.append(("do", e[0]))
    else:
        code.append(("read", FIELDS.index(e[1])) if e[0] == "field" else e)


def put_branch(test, body, code, after):
    """The code that does a body if a test holds, and what comes after it; else it goes past both."""
    put(test, code)
    at = len(code)
    code.append(None)
    put_all(body, code)
    after()
    code[at] = ("unless", len(code))


def put_all(body, code):
    for s in body:
        top = len(code)
        if s[0] == "set":
            put(s[2], code)
            code.append(("write", FIELDS.index(s[1])))
        elif s[0] == "if":
            put_branch(s[1], s[2], code, lambda: code.append(None))
            jump = len(code) - 1
            put_all(s[3], code)
            code[jump] = ("go", len(code))
        elif s[0] == "while":
            put_branch(s[1], s[2], code, lambda top=top: code.append(("turn", top)))
        elif s[0] == "return":
            put(s[1], code)
        else:
            code.append((s[0], LOCK))


def code_of(method):
    """The code of a method. Its last two actions, or one, are where it goes when it traps."""
    code, kept = [], [("unlock", MONITOR)] if method.is_kept else []
    code += [("lock", MONITOR)] if method.is_kept else []
    put_all(method.body, code)
    return [*code, *kept, ("return", method.answers), *kept, ("trap",)], len(code) + len(kept) + 1


def settled(code, end, at, stack, x):
    """Where the next action stands, and the stack there. A division by 0 leads to the place of traps."""
    while code[at][0] not in ACTIONS:
        what, *more = code[at]
        at += 1
        if what == "do":
            *stack, a, b = stack
            if more[0] == "/" and b == 0:
                return end, (EXCEPTIONS[0],)
            stack.append(OPERATORS[more[0]](a, b))
        elif what == "go":
            at = more[0]
        elif what == "unless":
            *stack, test = stack
            at = at if test else more[0]
        else:
            stack = [*stack, x if what == "x" else more[0]]
    return at, tuple(stack)


class Program:
    """A class with what its threads call: for each, the setup first, pairs of a text and a method with its argument."""

    def __init__(self, small, text):
        methods = {it.name: it for it in small.methods}
        code = {name: code_of(it) for name, it in methods.items()}
        code.setdefault("S", ([("return", ""), ("trap",)], 1))
        self.names, self.calls = [], []
        for name, body in re.findall(r"(setup|thread \w+) \{ (.*?)\}", text):
            found = re.findall(r"((?:s = new |s\.)(\w+)\((\d*)\));", body)
            self.names.append(name.rpartition(" ")[2])
            self.calls.append([(whole, *code[method], int(x or 0)) for whole, method, x in found])
        self.start = (small.starts, (None, None), tuple((0, BETWEEN, ()) for _ in self.names), ())

    def event(self, t, k, words):
        return (f"{self.names[t]}.{k + 1} {words}",)

    def stepped(self, state, t):
        """The state after a step of a thread; IDLE if it has nothing to do, WAITS if it waits."""
        fields, locks, threads, history = state
        k, at, stack = threads[t]
        if at == TRAPPED or k == len(self.calls[t]) or t and threads[0][0] < len(self.calls[0]):
            return IDLE
        whole, code, end, x = self.calls[t][k]
        if at == BETWEEN:
            history += self.event(t, k, f"call {whole}")
            place = (k, *settled(code, end, 0, (), x))
            return fields, locks, threads[:t] + (place,) + threads[t + 1:], history
        what, *more = code[at]
        at += 1
        if what == "read":
            stack += (fields[more[0]],)
        elif what == "write":
            fields = tuple(stack[-1] if it == more[0] else value for it, value in enumerate(fields))
            stack = stack[:-1]
        elif what in ("lock", "unlock"):
            owner, count = locks[more[0]] or (t, 0)
            if what == "lock" and owner != t:
                return WAITS
            if what == "unlock" and (owner != t or count == 0):
                at, stack = end, (EXCEPTIONS[1],)
            else:
                count += 1 if what == "lock" else -1
                locks = tuple(((t, count) if count else None) if it == more[0] else value for it, value in enumerate(locks))
        elif what == "turn":
            at = more[0]
        else:
            trap = what == "trap"
            answer = "" if more[:1] in ([""], ["void"]) else str(bool(stack[-1])).lower() if more[:1] == ["boolean"] else str(stack[-1])
            history += self.event(t, k, f"{what} {answer}".strip())
            place = (k, TRAPPED, ()) if trap else (k + 1, BETWEEN, ())
            return fields, locks, threads[:t] + (place,) + threads[t + 1:], history
        place = (k, *settled(code, end, at, stack, x))
        return fields, locks, threads[:t] + (place,) + threads[t + 1:], history


def explored(program):
    """The histories of all schedules; those after which no thread acts and one waits; and those after which threads turn for ever."""
    seen, left, before, fine = {program.start}, [program.start], {}, []
    waiting = set()
    while left:
        state = left.pop()
        afters = [program.stepped(state, t) for t in range(len(program.names))]
        acted = [it for it in afters if it not in (IDLE, WAITS)]
        if not acted or any(it[3] != state[3] for it in acted):
            fine.append(state)
        if not acted and WAITS in afters:
            waiting.add(state[3])
        for after in acted:
            before.setdefault(after, []).append(state)
            if after not in seen:
                seen.add(after)
                left.append(after)
        if len(seen) > MOST:
            raise TooLarge
    ends = set(fine)
    while fine:
        state = fine.pop()
        more = [it for it in before.get(state, ()) if it not in ends and it[3] == state[3]]
        ends.update(more)
        fine += more
    return {it[3] for it in seen}, waiting, {it[3] for it in seen - ends}


def run_alone(program, state, t):
    """The state after the next call of a thread, run alone; or None if it never ends, or IDLE if there is none."""
    seen, length = set(), len(state[3]) + 2
    if program.stepped(state, t) == IDLE:
        return IDLE
    while len(state[3]) < length:
        state = program.stepped(state, t)
        if state == WAITS or state in seen:
            return None
        seen.add(state)
        if len(seen) > MOST:
            raise TooLarge
    return state


def serial_runs(program):
    """The histories of whole calls, run one at a time; and those up to a call that never ends."""
    runs, endless, left = [], [], [program.start]
    while left:
        state = left.pop()
        runs.append(state[3])
        for t in range(len(program.names)):
            after = run_alone(program, state, t)
            if after is None:
                endless.append(program.stepped(state, t)[3])
            elif after != IDLE:
                left.append(after)
    return runs, endless
