"""Expressions of a wanted type, each as its text and its level: 1 for `||` up to 8 for what a dot may follow."""
from shapes import FLAGS, LOCKS, fits, markable

OR, AND, EQUAL, LESS, SUM, PRODUCT, UNARY, POST = range(1, 9)
EDGES = ("0", "1", "2", "3", "7", "10", "-1", "-2", "46341", "65536", "2147483647", "-2147483648", "-2147483647",
    "Integer.MIN_VALUE", "Integer.MAX_VALUE", "- 3", "1000000007")
ARITHMETIC = ((" + ", SUM), (" - ", SUM), (" * ", PRODUCT), (" / ", PRODUCT), (" % ", PRODUCT))


def number(text):
    return text, UNARY if text.startswith("-") else POST


def shown(w, pair, least):
    """The expression's text where a level of at least `least` must stand; sometimes with parentheses that aren't needed."""
    text, level = pair
    if level < least or w.r.random() < 0.06:
        return f"({text})"
    return text


def is_class(w, type_):
    return type_ in w.world.by_name


def simple_places(w):
    """Locals and own fields by name, as (text, type)."""
    found = [(name, type_) for name, type_, _ in w.scope if type_]
    taken = {name for name, _, _ in w.scope}
    for type_, name in [] if w.plain else w.shape.fields:
        found.append((f"this.{name}" if name in taken else name, type_))
    return found


def places(w, want):
    """What can be read with the wanted type, by name or through one reference."""
    simple = simple_places(w)
    found = [(text, type_) for text, type_ in simple if fits(w.world, type_, want)]
    for text, type_ in simple:
        if is_class(w, type_):
            fields = w.world.by_name[type_].fields
            found += [(f"{text}.{name}", kind) for kind, name in fields if fits(w.world, kind, want) and w.r.random() < 0.08]
    return [text for text, _ in found]


def target(w, name, depth):
    """Something of a class that a dot may follow."""
    known = [text for text, type_ in simple_places(w) if type_ == name]
    if name == w.shape.name and w.r.random() < 0.6:
        return "this"
    if known and w.r.random() < 0.2:
        return w.r.choice(known)
    pair = made(w, name, depth - 1)
    if pair and depth > -2:
        return shown(w, pair, POST)
    return w.r.choice(known) if known else None


def handle(w, types, depth):
    """A lock, an array or a markable that a dot or an index may follow."""
    known = [text for type_ in types for text in places(w, type_)]
    if known and w.r.random() < 0.9:
        return w.r.choice(known)
    return shown(w, fresh(w, w.r.choice(types), depth - 1), POST)


def arguments(w, call, depth, own=False):
    texts = []
    for place, (type_, _) in enumerate(call.params):
        if call.recursive and place == 0 and not (own and w.world.free):
            texts.append("n - 1" if own else counted(w, depth))
        else:
            texts.append(shown(w, value(w, type_, depth - 1), OR))
    return ", ".join(texts)


def counted(w, depth):
    """A first argument of a method that counts it down: at most 4."""
    if w.r.random() < 0.7:
        return str(w.r.choice((0, 1, 2, 3, 4, 4)))
    return f"{shown(w, value(w, 'int', depth - 1), PRODUCT)} % 5"


def made(w, name, depth):
    """`new` of a class of the text, where there are steps and frames left for it."""
    call = w.world.by_name[name].make
    if not w.may_call(call):
        return None
    w.charge(call)
    return f"new {name}({arguments(w, call, depth)})", POST


def fresh(w, want, depth):
    """A thing of a type that is no int or boolean, newly made, or null."""
    w.cost += w.times
    if want in LOCKS:
        return "new ReentrantLock()", POST
    if want == FLAGS:
        length = str(w.r.choice((1, 2, 3, 3, 3, 3, 3, 0))) if w.r.random() < 0.97 else f"{shown(w, value(w, 'int', depth - 1), PRODUCT)} % 5"
        return f"new boolean[{length}]", UNARY
    if is_class(w, want):
        return made(w, want, depth) or ("null", POST)
    inner = want[want.index("<") + 1:-1]
    first = shown(w, value(w, inner, depth - 1), OR)
    return f"new {want}({first}, {shown(w, value(w, 'boolean', depth - 1), OR)})", POST


def method_call(w, want, depth):
    """A call of a method that answers the wanted type; None where there is none."""
    fitting = [call for call in w.world.calls if call.name and wanted(w, call.result, want) and w.may_call(call)]
    return rendered_call(w, w.r.choice(fitting), depth) if fitting else None


def wanted(w, result, want):
    return result != "void" and fits(w.world, result, want) if want else True


def rendered_call(w, call, depth):
    """A call of a method on some target; None where none is at hand."""
    own = call is w.call
    w.charge(call)
    if call.owner is w.shape and (own or w.r.random() < 0.5):
        return f"{call.name}({arguments(w, call, depth, own)})", POST
    base = target(w, call.owner.name, depth)
    return (f"{base}.{call.name}({arguments(w, call, depth)})", POST) if base else None


def int_value(w, depth):
    kind = w.r.randrange(10)
    if kind < 6:
        sign, level = w.r.choice(ARITHMETIC)
        left = shown(w, value(w, "int", depth - 1), level)
        right = w.r.choice(("2", "3", "7", "-1", "10")) if level == PRODUCT and w.r.random() < 0.8 else shown(w, value(w, "int", depth - 1), level + 1)
        return f"{left}{sign}{right}", level
    if kind < 7:
        return f"- {shown(w, value(w, 'int', depth - 1), UNARY)}", UNARY
    return method_call(w, "int", depth)


def comparison(w, depth):
    sign = w.r.choice((" < ", " > ", " <= ", " >= "))
    return f"{shown(w, value(w, 'int', depth - 1), LESS)}{sign}{shown(w, value(w, 'int', depth - 1), SUM)}", LESS


def equality(w, depth):
    simple = [type_ for _, type_ in simple_places(w)] + ["int", "boolean"]
    type_ = w.r.choice(simple)
    sign = w.r.choice((" == ", " != "))
    left, right = value(w, type_, depth - 1), value(w, type_, depth - 1)
    return f"{shown(w, left, EQUAL)}{sign}{shown(w, right, LESS)}", EQUAL


def logic(w, depth):
    sign, level = w.r.choice(((" && ", AND), (" || ", OR)))
    return f"{shown(w, value(w, 'boolean', depth - 1), level)}{sign}{shown(w, value(w, 'boolean', depth - 1), level + 1)}", level


def negated(w, depth):
    return f"!{shown(w, value(w, 'boolean', depth - 1), UNARY)}", UNARY


def element(w, depth):
    w.cost += w.times
    index = str(w.r.choice((0, 0, 0, 0, 1, 2))) if w.r.random() < 0.95 else shown(w, value(w, "int", depth - 1), OR)
    return f"{handle(w, [FLAGS], depth)}[{index}]", POST


def lock_test(w, depth):
    w.cost += w.times
    if w.r.random() < 0.5:
        return f"{handle(w, ['ReentrantLock'], depth)}.isHeldByCurrentThread()", POST
    return f"{handle(w, ['Lock', 'ReentrantLock'], depth)}.tryLock()", POST


def pair_base(w, depth):
    """A markable and the class that it refers to."""
    inner = w.r.choice(w.world.classes).name
    return handle(w, [markable(inner)], depth), inner


def pair_test(w, depth):
    w.cost += w.times
    base, inner = pair_base(w, depth)
    kind = w.r.choice(("isMarked", "compareAndSet", "attemptMark"))
    want = {"isMarked": (), "compareAndSet": (inner, inner, "boolean", "boolean"), "attemptMark": (inner, "boolean")}[kind]
    return f"{base}.{kind}({', '.join(shown(w, value(w, type_, depth - 1), OR) for type_ in want)})", POST


def pair_read(w, inner, depth):
    w.cost += 2 * w.times
    base = handle(w, [markable(inner)], depth)
    if w.r.random() < 0.5:
        return f"{base}.getReference()", POST
    return f"{base}.get({shown(w, value(w, FLAGS, depth - 1), OR)})", POST


def boolean_value(w, depth):
    makers = (comparison, comparison, equality, logic, logic, negated, element, lock_test, pair_test)
    if w.r.random() < 0.15:
        return method_call(w, "boolean", depth)
    return w.r.choice(makers)(w, depth)


def class_value(w, want, depth):
    kind = w.r.randrange(6)
    if kind < 3:
        return made(w, want, depth)
    return method_call(w, want, depth) if kind < 4 else pair_read(w, want, depth)


def other_value(w, want, depth):
    return method_call(w, want, depth) if w.r.random() < 0.2 else fresh(w, want, depth)


def leaf(w, want, depth):
    """A constant or something that can be read at once."""
    known = places(w, want)
    if known and w.r.random() < 0.75:
        w.cost += w.times
        return w.r.choice(known), POST
    if want == "int":
        return number(w.r.choice(EDGES) if w.r.random() < 0.8 else str(w.r.randrange(2**31)))
    if want == "boolean":
        return w.r.choice(("true", "false")), POST
    if want == w.shape.name and not w.plain and w.r.random() < 0.5:
        return "this", POST
    return ("null", POST) if depth < -1 or w.r.random() < 0.06 else fresh(w, want, depth - 1)


def value(w, want, depth):
    """An expression of the wanted type, as its text and its level."""
    if depth <= 0 or w.r.random() < 0.35 or w.cost > w.most:
        return leaf(w, want, depth)
    if want == "int":
        return int_value(w, depth) or leaf(w, want, depth)
    if want == "boolean":
        return boolean_value(w, depth) or leaf(w, want, depth)
    return (class_value(w, want, depth) if is_class(w, want) else other_value(w, want, depth)) or leaf(w, want, depth)
