#!/usr/bin/env python3
"""Writes a class text with many declarations, which both listset and javac accept.

Usage: class_text.py BYTES CLASSES [--stopped]

The text has BYTES bytes. Each class has 64 fields and 7 methods, so 64 classes are the most classes, fields and methods
(512 with the default constructors) that are accepted. Bodies use fields, methods and locals from all over the text. With
--stopped the last class has a reserved name, which listset refuses before it looks into any class: what that run takes
less is what the check takes. `call_text` is one class of the most methods, which call one another.
"""
import sys

FIELDS = 64
METHODS = 7
# the most methods of a file, beside the default constructor of its one class
CALLED = 511
STATEMENTS = [
    'n{a} = o.n{b} + x * {c};',
    'if (o.n{a} < n{b} && !(x == {c})) y = x - n{c}; else y = o.n{a};',
    'x = o.m{d}(y + {c}, this, b) / 3;',
    'while (y < n{a} % 7) y = y + 1;',
    'try {{ o.n{a} = y; }} finally {{ n{b} = x; }}',
    'b = b || o != p && n{a} >= o.n{b};',
    'p.n{b} = m{d}(n{a}, o, y <= x);',
]
state = 12345


def below(limit):
    """A number that is the same in every run."""
    global state
    state = (state * 1103515245 + 12345) % 2**31
    return (state >> 8) % limit


def statement():
    text = STATEMENTS[below(len(STATEMENTS))]
    return '    ' + text.format(a=below(FIELDS), b=below(FIELDS), c=below(64), d=below(METHODS)) + '\n'


def method(number, other, room):
    """A method in about `room` bytes."""
    head = f'  int m{number}(int x, {other} o, boolean b) {{\n    {other} p = o; int y = x;\n'
    tail = '    return x + y;\n  }\n'
    lines = ''
    while True:
        line = statement()
        if len(head) + len(lines) + len(line) + len(tail) > room:
            return head + lines + tail
        lines += line


def class_text(size, classes, stopped):
    global state
    state = 12345
    names = [f'C{n:02}' for n in range(classes)]
    fields = ''.join(f'  int n{n};\n' for n in range(FIELDS))
    room = size // classes - len(fields) - len('class C00 {\n}\n')
    text = ''
    for own in range(classes):
        # each class works with its partner, as far off as its own place is from the middle
        other = names[classes - 1 - own]
        name = 'Lock' if stopped and own == classes - 1 else names[own]
        methods = ''
        for n in range(METHODS):
            methods += method(n, other, room * (n + 1) // METHODS - len(methods))
        text += f'class {name} {{\n{fields}{methods}}}\n'
    return text + ' ' * (size - len(text))


def call_text(size, stopped):
    """A class whose methods have names of one length, each with about as many calls of them as the others; and how many calls."""
    name, calls = 'Lock' if stopped else 'C000', 0
    text = f'class {name} {{\n'
    for own in range(CALLED):
        text += f'  void m{own:03}() {{\n'
        while len(text) + len('    m000();\n  }\n}\n') <= size * (own + 1) // CALLED:
            text += f'    m{calls * 197 % CALLED:03}();\n'
            calls += 1
        text += '  }\n'
    text += '}\n'
    return text + ' ' * (size - len(text)), calls


if __name__ == '__main__':
    sys.stdout.write(class_text(int(sys.argv[1]), int(sys.argv[2]), '--stopped' in sys.argv))
