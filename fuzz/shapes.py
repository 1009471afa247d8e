"""What a generated class text declares, and how it is drawn: classes, fields, constructors, methods. Bodies come in bodies.py.

All calls stand in one order, and a body calls only what stands before its own, so every run ends; a method that calls itself
counts its first parameter down. A `free` world keeps none of that: there a call may stand anywhere and loops needn't end."""

LOCKS = ("Lock", "ReentrantLock")
FLAGS = "boolean[]"


class Call:
    """A method, or a constructor where it has no name. Cost and depth bound its steps and its frames."""

    def __init__(self, owner, name, result, params):
        self.owner, self.name, self.result, self.params = owner, name, result, params
        self.recursive = self.synchronized = False
        self.ready = False
        self.cost = self.depth = 0
        self.text = ""

    def is_plain(self):
        """Whether a thread program can make it: no references in or out."""
        plain = all(type_ in ("int", "boolean") for type_, _ in self.params)
        return plain and (self.name is None or self.result in ("int", "boolean", "void"))


class Shape:
    def __init__(self, name):
        self.name = name
        self.fields = []
        self.make = None
        self.methods = []
        self.declared_make = True


class World:
    """The classes of one text. `free` says that it need not be Java and need not end."""

    def __init__(self, random, free):
        self.random, self.free = random, free
        self.classes = [Shape(name) for name in random.sample(CLASS_NAMES, random.choice((1, 2, 2, 3, 4)))]
        self.by_name = {shape.name: shape for shape in self.classes}
        self.calls = []


CLASS_NAMES = ("Node", "List", "C", "D", "Counter", "Window", "K_1", "$q", "Pair")
FIELD_NAMES = ("next", "key", "mark", "v", "w", "lock", "head", "a", "b", "count", "left", "right")
METHOD_NAMES = ("add", "get", "put", "find", "f", "g", "h", "run", "step", "test", "v", "inc", "key")


def markable(name):
    return f"AtomicMarkableReference<{name}>"


def drawn_type(world):
    """The type of a field, parameter or local."""
    r = world.random
    kind = r.choices(("int", "boolean", "class", FLAGS, "lock", "markable"), (6, 4, 4, 2, 2, 2))[0]
    if kind == "class":
        return r.choice(world.classes).name
    if kind == "lock":
        return r.choice(("Lock", "ReentrantLock", "ReentrantLock"))
    return markable(r.choice(world.classes).name) if kind == "markable" else kind


def drawn_params(world, names, most, plain):
    r = world.random
    chosen = r.sample(names, r.choice(range(most + 1)))
    return [(r.choice(("int", "int", "boolean")) if plain or r.random() < 0.6 else drawn_type(world), name) for name in chosen]


def drawn_method(world, shape, name):
    r = world.random
    result = r.choices(("int", "boolean", "void", "any"), (5, 4, 3, 2))[0]
    params = drawn_params(world, ("x", "y", "z", "v", "p"), 3, r.random() < 0.6)
    method = Call(shape, name, drawn_type(world) if result == "any" else result, params)
    method.synchronized = r.random() < 0.2
    if r.random() < 0.25:
        method.recursive = True
        method.params = [("int", "n")] + method.params
    return method


def declare(world, shape, first):
    """Draws the fields and the signatures of one class."""
    r = world.random
    fields = r.sample(FIELD_NAMES, r.choice((1, 2, 3, 4, 5)))
    shape.fields = [(drawn_type(world), name) for name in fields]
    shape.declared_make = r.random() < 0.6
    params = drawn_params(world, ("x", "y", "k"), 2, first or r.random() < 0.7) if shape.declared_make else []
    shape.make = Call(shape, None, "void", params)
    names = r.sample(METHOD_NAMES, r.choice((1, 2, 3, 4)))
    shape.methods = [drawn_method(world, shape, name) for name in names]


def drawn_world(random, free):
    """Draws the declarations of one text, with an order of its calls."""
    world = World(random, free)
    for place, shape in enumerate(world.classes):
        declare(world, shape, place == 0)
    world.calls = [call for shape in world.classes for call in (shape.make, *shape.methods)]
    random.shuffle(world.calls)
    if random.random() < 0.7:
        world.calls.sort(key=lambda call: call.name is not None)
    return world


def fits(world, have, want):
    """Whether a value of the one type is one of the other, in Java too."""
    if have == want:
        return True
    return have in LOCKS and want in LOCKS and (world.free or want == "Lock")
