"""Statements and whole class texts. A statement is its lines, and whether it can complete normally: nothing stands behind
one that can't, so each text that isn't free is Java, with its locals assigned and its code reachable."""
from shapes import FLAGS, LOCKS, drawn_type, markable
from values import OR, PRODUCT, element, fresh, handle, is_class, leaf, pair_base, rendered_call, shown, simple_places, target, value
from values import made

LOCALS = ("i", "j", "t", "u", "curr", "pred", "succ", "next", "key", "v", "count", "old", "seen", "m", "q", "z1", "z2")
DEEPEST = 40
MOST = 400


class Writer:
    """What is known where the next piece of a body is written."""

    def __init__(self, world, shape, call):
        self.world, self.shape, self.call, self.r = world, shape, call, world.random
        self.scope = [(name, type_, not (call.recursive and name == "n")) for type_, name in call.params]
        self.labels, self.loops = [], 0
        self.cost, self.times, self.depth, self.most = 4, 1, 0, MOST
        self.recursed = self.plain = False

    def may_call(self, call):
        if self.world.free:
            return self.r.random() < 0.7
        if call is self.call:
            return call.recursive and not self.recursed and self.times == 1 and not self.plain
        return call.ready and call.depth < DEEPEST and self.cost + self.times * call.cost <= self.most

    def charge(self, call):
        if call is self.call:
            self.recursed = True
        self.cost += self.times * (3 + call.cost)
        self.depth = max(self.depth, call.depth)

    def name(self):
        taken = {name for name, _, _ in self.scope}
        left = [name for name in LOCALS if name not in taken]
        return self.r.choice(left) if left else None


def expression(w, want, depth=3):
    return shown(w, value(w, want, depth), OR)


def indented(lines):
    return [f"  {line}" for line in lines]


def declaration(w, depth):
    """A local with its start value; where the text is free it may lack one, or read itself."""
    name, type_ = w.name(), drawn_type(w.world)
    if not name or len(w.scope) > 20:
        return [";"], True
    if w.world.free and w.r.random() < 0.3:
        w.scope.append((name, type_, True))
        return [f"{type_} {name};" if w.r.random() < 0.5 else f"{type_} {name} = {expression(w, type_)};"], True
    w.scope.append((name, None, True))
    text = expression(w, type_)
    w.scope[-1] = (name, type_, True)
    return [f"{'final ' if w.world.free and w.r.random() < 0.1 else ''}{type_} {name} = {text};"], True


def assigned_places(w):
    """Locals that may change and own fields, with the fields of what these refer to."""
    fixed = {name for name, _, writable in w.scope if not writable}
    simple = [(text, type_) for text, type_ in simple_places(w) if text not in fixed]
    found = list(simple)
    for text, type_ in simple:
        if is_class(w, type_):
            found += [(f"{text}.{name}", kind) for kind, name in w.world.by_name[type_].fields if w.r.random() < 0.1]
    return found


def assignment(w, depth):
    w.cost += w.times
    if w.r.random() < 0.12:
        return [f"{element(w, 1)[0]} = {expression(w, 'boolean')};"], True
    if w.r.random() < 0.15:
        shape = w.r.choice(w.world.classes)
        base = target(w, shape.name, 1)
        if base:
            type_, name = w.r.choice(shape.fields)
            return [f"{base}.{name} = {expression(w, type_)};"], True
    left = assigned_places(w)
    if not left:
        return [";"], True
    text, type_ = w.r.choice(left)
    return [f"{f'({text})' if w.r.random() < 0.03 else text} = {expression(w, type_)};"], True


def changed_count(w, depth):
    """`+=`, `++` or `--` on a local or a field of type int; its target may be what any expression answers."""
    left = [text for text, type_ in assigned_places(w) if type_ == "int"]
    if w.r.random() < 0.3:
        shape = w.r.choice(w.world.classes)
        names = [name for type_, name in shape.fields if type_ == "int"]
        base = target(w, shape.name, 1) if names else None
        left = [f"{base}.{w.r.choice(names)}"] if base else left
    if not left:
        return [";"], True
    w.cost += 2 * w.times
    text = w.r.choice(left)
    text = f"({text})" if w.r.random() < 0.06 else text
    if w.r.random() < 0.4:
        return [f"{text} += {expression(w, 'int')};"], True
    return [f"{w.r.choice((f'{text}++', f'{text}--', f'++{text}', f'--{text}'))};"], True


def api_call(w, depth):
    """A statement that is an operation of a lock or a markable."""
    w.cost += w.times
    if w.r.random() < 0.5:
        return [f"{handle(w, list(LOCKS), 1)}.{w.r.choices(('lock', 'tryLock', 'unlock'), (5, 4, 1))[0]}();"], True
    base, inner = pair_base(w, 1)
    pair = f"{expression(w, inner, 2)}, {expression(w, 'boolean', 2)}"
    if w.r.random() < 0.6:
        return [f"{base}.set({pair});"], True
    return [f"{base}.compareAndSet({expression(w, inner, 1)}, {expression(w, inner, 2)}, {expression(w, 'boolean', 1)}, {expression(w, 'boolean', 1)});"], True


def call_statement(w, depth):
    if w.r.random() < 0.3:
        return api_call(w, depth)
    ready = [call for call in w.world.calls if w.may_call(call)]
    if not ready:
        return [";"], True
    call = w.r.choice(ready)
    pair = rendered_call(w, call, 2) if call.name else made(w, call.owner.name, 2)
    return [f"{pair[0]};" if pair else ";"], True


def condition(w):
    known = [text for text, type_ in simple_places(w) if type_ not in ("int", "boolean")]
    if known and w.r.random() < 0.25:
        return f"{w.r.choice(known)} {w.r.choice(('!=', '!=', '=='))} null"
    return expression(w, "boolean")


def nested(w, depth):
    """A block's lines without its braces, and whether it can complete; its locals end with it."""
    size = len(w.scope)
    found = block(w, depth - 1, w.r.choice((1, 1, 2, 3)))
    del w.scope[size:]
    return found


def conditional(w, depth):
    head = f"if ({condition(w)}) {{"
    first, completes = nested(w, depth)
    if w.r.random() < 0.5:
        return [head, *indented(first), "}"], True
    second, otherwise = nested(w, depth)
    return [head, *indented(first), "} else {", *indented(second), "}"], completes or otherwise


def looped(w, depth, label):
    """A loop's body, with the steps in it counted for each turn."""
    turns = w.r.choice((1, 2, 3))
    times, w.times = w.times, w.times * (turns + 1)
    w.loops += 1
    w.labels.append(label)
    lines, _ = nested(w, depth)
    w.labels.pop()
    w.loops -= 1
    w.times = times
    return turns, lines


def loop(w, depth):
    """A loop that ends: its counter changes first in each turn, and by nothing else."""
    counter = w.name()
    if not counter or w.times > 12:
        return [";"], True
    label = f"L{len(w.labels)}" if w.r.random() < 0.5 else None
    head = f"{label}: " if label else ""
    if w.world.free and w.r.random() < 0.4:
        return free_loop(w, depth, label, head)
    if w.r.random() < 0.5:
        return for_loop(w, depth, label, head, counter)
    size = len(w.scope)
    w.scope.append((counter, "int", False))
    turns, lines = looped(w, depth, label)
    also = f" && {shown(w, value(w, 'boolean', 2), 3)}" if w.r.random() < 0.2 else ""
    del w.scope[size:]
    if w.r.random() < 0.6:
        body = [f"int {counter} = 0;", f"{head}while ({counter} < {turns}{also}) {{", f"  {counter} = {counter} + 1;"]
    else:
        body = [f"int {counter} = {turns};", f"{head}while (true) {{", f"  if ({counter} <= 0) break;", f"  {counter} = {counter} - 1;"]
    return ["{", *indented([*body, *indented(lines), "}"]), "}"], True


def simple_parts(w, most):
    """Up to so many simple statements without their semicolons, as the head of a `for` has them."""
    drawn = [w.r.choice((changed_count, assignment, call_statement))(w, 1)[0][0][:-1] for _ in range(w.r.randrange(most + 1))]
    return [text for text in drawn if text]


def for_loop(w, depth, label, head, counter):
    """A `for` that ends: its counter goes up or down in the updates, or first in each turn."""
    size = len(w.scope)
    w.scope.append((counter, "int", False))
    opening, other = simple_parts(w, 2), w.name()
    also_declared = not opening and other and w.r.random() < 0.3
    if also_declared:
        w.scope.append((other, "int", True))
    turns, lines = looped(w, depth, label)
    times, w.times = w.times, w.times * (turns + 1)
    more = simple_parts(w, 2)
    w.times = times
    also = f" && {shown(w, value(w, 'boolean', 2), 3)}" if w.r.random() < 0.2 else ""
    del w.scope[size:]
    up = w.r.random() < 0.6
    step = w.r.choice((f"{counter}++", f"++{counter}", f"{counter} += 1") if up else (f"{counter}--", f"--{counter}", f"{counter} += -1"))
    first, updates = ([f"{step};"], more) if w.r.random() < 0.2 else ([], w.r.choice(([step, *more], [*more, step])))
    start = f"{counter} = {0 if up else turns}"
    test = f"{counter} < {turns}{also}" if up else w.r.choice((f"{counter} > 0{also}", "", "true"))
    if test in ("", "true"):
        first = [f"if ({counter} <= 0) break;", *first]
    body = [*indented([*first, *lines]), "}"]
    if opening or not also_declared and w.r.random() < 0.2:
        whole = [f"int {counter} = 7;", f"{head}for ({', '.join([start, *opening])}; {test}; {', '.join(updates)}) {{", *body]
        return ["{", *indented(whole), "}"], True
    more_declared = f", {other} = {w.r.randrange(9)}" if also_declared else ""
    return [f"{head}for (int {start}{more_declared}; {test}; {', '.join(updates)}) {{", *body], True


def free_loop(w, depth, label, head):
    test = w.r.choice((condition(w), "true", "false"))
    _, lines = looped(w, depth, label)
    first = [f"  if ({condition(w)}) break;"] if test == "true" else []
    if w.r.random() < 0.5:
        opening, updates = ", ".join(simple_parts(w, 2)), ", ".join(simple_parts(w, 2))
        return [f"{head}for ({opening}; {w.r.choice((test, '')) if test == 'true' else test}; {updates}) {{", *first, *indented(lines), "}"], True
    return [f"{head}while ({test}) {{", *first, *indented(lines), "}"], True


def guarded(w, depth):
    first, completes = nested(w, depth)
    second, behind = nested(w, depth)
    return ["try {", *indented(first), "} finally {", *indented(second), "}"], completes and behind


def locked(w, depth):
    """The pattern of lock, try and unlock."""
    known = [text for text, type_ in simple_places(w) if type_ in LOCKS]
    if not known:
        return guarded(w, depth)
    base = w.r.choice(known)
    first, completes = nested(w, depth)
    w.cost += 2 * w.times
    return [f"{base}.lock();", "try {", *indented(first), f"}} finally {{ {base}.unlock(); }}"], completes


def synchronized(w, depth):
    """A block in the monitor of an object, which may be null."""
    base = target(w, w.r.choice(w.world.classes).name, 1) or "this"
    w.cost += 2 * w.times
    lines, completes = nested(w, depth)
    return [f"synchronized ({f'({base})' if w.r.random() < 0.06 else base}) {{", *indented(lines), "}"], completes


def jump(w, depth):
    if w.loops and w.r.random() < 0.7:
        label = w.r.choice(w.labels)
        return [f"{w.r.choice(('break', 'continue'))}{f' {label}' if label else ''};"], False
    return returned(w), False


def returned(w):
    if w.call.result == "void":
        return ["return;"]
    return [f"return {expression(w, w.call.result)};"]


def braces(w, depth):
    lines, completes = nested(w, depth)
    return ["{", *indented(lines), "}"], completes


SIMPLE = (declaration, assignment, call_statement, changed_count)
NESTED = (conditional, conditional, loop, loop, loop, guarded, locked, synchronized, braces)


def statement(w, depth):
    if depth <= 0 or w.r.random() < 0.55 or w.cost > w.most:
        return w.r.choices(SIMPLE, (4, 4, 3, 3))[0](w, depth)
    return w.r.choice(NESTED)(w, depth)


def block(w, depth, count):
    """So many statements, fewer where one can't complete; a jump may stand last where the block isn't the body itself."""
    lines = []
    for _ in range(count):
        more, completes = statement(w, depth)
        lines += more
        if not completes and not (w.world.free and w.r.random() < 0.3):
            return lines, False
    if depth == 4 or w.r.random() < 0.8:
        return lines, True
    more, _ = jump(w, depth)
    return lines + more, False


def body(w):
    lines = []
    if w.call.recursive:
        w.plain, scope, w.scope = True, w.scope, []
        start = "" if w.call.result == "void" else f" {shown(w, leaf(w, w.call.result, -2), OR)}"
        w.plain, w.scope = False, scope
        if not w.world.free or w.r.random() < 0.5:
            lines.append(f"if (n <= 0) return{start};")
    more, completes = block(w, 4, w.r.choice((1, 2, 3, 4, 6)))
    lines += more
    if w.call.result != "void" and (completes or w.world.free):
        lines += returned(w)
    return lines


def written(world, call):
    """Writes the body of a method or constructor; from then on it may be called."""
    w = Writer(world, call.owner, call)
    if call.name is None:
        initialised(w)
    declared = call.name or call.owner.declared_make
    lines = body(w) if declared else []
    result = f"{'synchronized ' if call.synchronized else ''}{call.result} " if call.name else ""
    params = ", ".join(f"{type_} {name}" for type_, name in call.params)
    call.text = [f"{result}{call.name or call.owner.name}({params}) {{", *indented(lines), "}"] if declared else []
    turns = 5 if call.recursive else 1
    call.cost, call.depth, call.ready = (w.cost + 2 * call.synchronized) * turns, w.depth + turns, True


def initialised(w):
    """Writes the field declarations of a class: their start values belong to its constructor."""
    w.plain, scope, w.scope = True, w.scope, []
    lines = []
    for type_, name in w.shape.fields:
        prefix = w.r.choice(("", "", "volatile ", "public ", "protected volatile "))
        start = f" = {expression(w, type_, 1)}" if w.r.random() < (0.85 if type_ not in ("int", "boolean") else 0.3) else ""
        lines.append(f"{prefix}{type_} {name}{start};")
    w.shape.lines = lines
    w.plain, w.scope = False, scope


def class_text(world, package=None):
    """The whole text of a world."""
    for call in world.calls:
        written(world, call)
    lines = [f"package {package};"] if package else []
    if package:
        lines += ["import java.util.concurrent.locks.*;", "import java.util.concurrent.atomic.AtomicMarkableReference;"]
    for shape in world.classes:
        members = [*shape.lines]
        for call in (shape.make, *shape.methods):
            members += call.text
        lines += [f"class {shape.name} {{", *indented(members), "}"]
    return "\n".join(lines) + "\n"
