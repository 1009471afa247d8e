"""Cuts the code of a program, as text of LLVM, into parts that can be compiled side by side. Of functions that are alike one is compiled."""
import re

NAME = re.compile(r'@(?:"[^"\n]+"|[\w.$-]+)')
WHOLE = re.compile(r'^define [^\n]*?(@(?:"[^"\n]+"|[\w.$-]+))\([^\n]*\{\n.*?^\}\n', re.M | re.S)
# A function of so few bytes of text is copied into each part that calls it, so that it can be inlined there.
SHORT = 6000


def kinds(bodies):
    """Returns a number for each function. Two have the same one only if their texts are the same but for their own names, and for names of
    functions that have the same number in turn. So a call of one does what a call of the other does."""
    texts, uses, found = {}, {}, {}
    for name, body in bodies.items():
        uses[name] = [None if it == name else it for it in NAME.findall(body)]
        found[name] = texts.setdefault(NAME.sub("@", body), len(texts))
    count = len(texts)
    while True:
        numbers = {}
        found = {name: numbers.setdefault((found[name], *(found.get(it, it) for it in used)), len(numbers)) for name, used in uses.items()}
        if len(numbers) == count:
            return found
        count = len(numbers)


def merged(text):
    """Returns the text with one function in the place of all that are alike. It makes no difference which of them is called, as long as the
    program compares no two places of functions."""
    bodies = {it[1]: it[0] for it in WHOLE.finditer(text)}
    first, found = {}, kinds(bodies)
    for name, kind in found.items():
        first.setdefault(kind, name)
    meant = {name: first[kind] for name, kind in found.items()}

    def renamed(it):
        return NAME.sub(lambda name: meant.get(name[0], name[0]), it)

    rest, at = [], 0
    for it in WHOLE.finditer(text):
        rest.append(renamed(text[at : it.start()]))
        at = it.end()
        if meant[it[1]] == it[1]:
            rest.append(renamed(it[0]))
    return "".join([*rest, renamed(text[at:])])


def reached(uses, roots):
    """Returns the names that are used from roots, themselves among them."""
    found, left = set(), list(roots)
    while left:
        name = left.pop()
        if name in uses and name not in found:
            found.add(name)
            left += uses[name]
    return found


def homes(bodies, uses, count):
    """Returns the part of each function: neighbours by name stay together, and one that a single other calls is beside that other."""
    users = {}
    for user in bodies:
        for name in uses[user] - {user}:
            users.setdefault(name, []).append(user)

    def first(name):
        passed = set()
        while len(users.get(name, ())) == 1 and name not in passed:
            passed.add(name)
            name = users[name][0]
        return name

    home, whole, done = {}, sum(map(len, bodies.values())), 0
    for name in sorted(bodies, key=lambda it: (first(it), it)):
        home[name] = done * count // whole
        done += len(bodies[name])
    return home


def parts(text, count):
    """Returns the texts of so many parts of much the same size. A function that nothing calls is left out. What another part calls is
    hidden, and no longer internal. Constants are copied into each part; variables are in the first."""
    rest = WHOLE.sub("", text).split("\n")
    bodies = {it[1]: it[0] for it in WHOLE.finditer(text)}
    tables = {NAME.match(it)[0]: it for it in rest if it.startswith("@")}
    uses = {name: set(NAME.findall(it)) for name, it in [*bodies.items(), *tables.items()]}
    bodies = {name: bodies[name] for name in reached(uses, ["@main", *tables]) & bodies.keys()}
    home = homes(bodies, uses, count)
    short = {it for it in bodies if it != "@main" and (len(bodies[it]) < SHORT or "inline" in bodies[it].split("{", 1)[0])}
    own = [{it for it in home if home[it] == part} for part in range(count)]
    seen = [reached({it: uses[it] for it in mine | short}, mine) for mine in own]
    used = [set().union(*(uses[it] for it in [*names, *tables])) & home.keys() for names in seen]
    shared = {it for part, names in enumerate(used) for it in names if home[it] != part}

    def shown(name, part):
        if home[name] == part:
            return bodies[name].replace("define internal", "define hidden" if name in shared else "define internal", 1)
        if name in seen[part]:
            return bodies[name].replace("define internal", "define available_externally hidden", 1)
        head = bodies[name].split("\n", 1)[0].replace("define internal", "declare hidden", 1)
        return re.sub(r" %a\d+", "", re.sub(r"(?: \w+inline| inlinehint)?( #\d+)? \{$", r"\1", head))

    def line(it, part):
        if not it.startswith("@") or " constant " in it:
            return it
        it = it.replace("= private", "= hidden")
        return it if part == 0 else re.sub(r"= hidden global (.*) \w+, (align \d+)$", r"= external hidden global \1, \2", it)

    return ["\n".join([*(line(it, part) for it in rest), *(shown(it, part) for it in sorted(used[part] | own[part]))]) for part in range(count)]
