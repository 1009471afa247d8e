"""Thread programs for a generated class text, and schedules for a program: both drawn from a seed."""

ARGUMENTS = ("0", "1", "2", "3", "-1", "7", "2147483647", "-2147483648", "65536", "46341", "- 5")
NAMES = ("A", "B", "C", "Dd", "_e", "F6")


class Program:
    """The calls of the setup and of each thread, as (text, result): the result is None for a `new`."""

    def __init__(self):
        self.made = []
        self.setup = []
        self.threads = []

    def text(self):
        lines = [block("setup", self.setup)] + [block(f"thread {name}", calls) for name, calls in self.threads]
        return "\n".join(lines) + "\n"


def block(head, calls):
    return " ".join([head, "{", *(f"{text};" for text, _ in calls), "}"])


def argument(random, type_, counted):
    if type_ == "boolean":
        return random.choice(("true", "false"))
    return random.choice(("0", "1", "2", "3", "4", "-1") if counted else ARGUMENTS)


def arguments(random, call):
    drawn = [argument(random, type_, call.recursive and place == 0) for place, (type_, _) in enumerate(call.params)]
    return ", ".join(drawn)


def made(world, program):
    """A `new` of the setup, where a class can be made by one."""
    shapes = [shape for shape in world.classes if shape.make.is_plain()]
    shape = world.random.choice(shapes)
    name = f"s{len(program.made)}" if program.made else "s"
    program.made.append((name, shape))
    return f"{name} = new {shape.name}({arguments(world.random, shape.make)})", None


def called(world, program):
    """A method call on what the setup has made; None where there is none."""
    all_ = [(name, call) for name, shape in program.made for call in shape.methods if call.is_plain()]
    if not all_:
        return None
    name, call = world.random.choice(all_)
    return f"{name}.{call.name}({arguments(world.random, call)})", call.result


def drawn_program(world, threads):
    """A setup of up to three objects and some calls, and so many threads."""
    program, random = Program(), world.random
    for _ in range(random.choice((1, 2, 2, 3))):
        program.setup.append(made(world, program))
        call = called(world, program) if random.random() < 0.25 else None
        program.setup += [call] if call else []
    for name in NAMES[:threads] if threads <= len(NAMES) else [f"T{number}" for number in range(threads)]:
        calls = [called(world, program) for _ in range(random.choice((1, 2, 3, 5, 8)))]
        program.threads.append((name, [call for call in calls if call]))
    return program


def drawn_schedule(random, program, long):
    """Steps of the setup first, as a rule, then of all threads in short and long runs."""
    names = [name for name, _ in program.threads] + ["all"]
    items = [f"setup*{random.choice((3, 40, 3000, 3000, 3000))}"]
    for _ in range(random.choice((0, 3, 20, 60))):
        count = random.choice((1, 1, 2, 3, 5, 9, 20, long))
        items.append(random.choice(names) + (f"*{count}" if count > 1 else ""))
    items += [f"setup*{random.choice((1, 3000))}", f"all*{random.choice((1, 10, long))}"]
    return " ".join(items) + "\n"
