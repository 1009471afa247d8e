#!/usr/bin/env python3
"""Writes class texts of several shapes, which both listset and javac accept.

Usage: shapes.py [SHAPE]

Prints the text of the shape, or the names of all if none is given.
"""
import pathlib
import re
import sys

LISTS = pathlib.Path(__file__).resolve().parents[2] / 'examples/classes'
# statements of fields, locals, parameters and calls
STATEMENTS = [
    'n{a} = o.n{b} + x * {c};',
    'if (o.n{a} < n{b} && !(x == {c})) y = x - n{c}; else y = o.n{a};',
    'x = o.m{d}(y + {c}, this) / 3;',
    'while (y < n{a} % 7) y = y + 1;',
    'o = o.next;',
    'if (o == null || o.next != this) {{ y = {c}; x = y; }}',
    'o.next.n{b} = m{d}(n{a}, o);',
]
FIELDS = 8


def renamed(text, number):
    """A list class with names of its own, so that many stand in one text."""
    names = re.findall(r'^class (\w+)', text, re.M)
    return re.sub(r'\b(' + '|'.join(names) + r')\b', rf'\g<1>{number}', text)


def lists():
    """The list classes of the examples, five times."""
    texts = [path.read_text(encoding='utf-8') for path in sorted(LISTS.glob('*.java'))]
    imports = 'import java.util.concurrent.atomic.*;\nimport java.util.concurrent.locks.*;\n'
    return imports + ''.join(renamed(text, f'{turn}{at}') for turn in range(5) for at, text in enumerate(texts))


def statements(count, methods):
    """So many statements of a class with so many methods."""
    for n in range(count):
        text = STATEMENTS[n % len(STATEMENTS)]
        yield '    ' + text.format(a=n % FIELDS, b=n * 5 % FIELDS, c=n * 7 % FIELDS, d=n * 3 % methods) + '\n'


def class_of(name, methods, count):
    """A class with so many methods, each with so many statements."""
    fields = f'  {name} next;\n' + ''.join(f'  int n{n};\n' for n in range(FIELDS))
    body = ''.join(statements(count, methods))
    return f'class {name} {{\n{fields}' + ''.join(
        f'  int m{n}(int x, {name} o) {{\n    int y = x;\n{body}    return x + y;\n  }}\n' for n in range(methods)) + '}\n'


def small_methods():
    """One class of 500 methods of one or two statements."""
    fields = ''.join(f'  int n{n};\n' for n in range(FIELDS))
    bodies = ['return n{a};', 'n{a} = x; return n{a};', 'return x + n{a} * 3;', 'if (x < n{a}) return x; return n{a};',
              'return m{d}(x + 1, o.next);']
    return f'class C {{\n  C next;\n{fields}' + ''.join(
        f'  int m{n}(int value, C other) {{\n    int x = value; C o = other;\n    '
        + bodies[n % len(bodies)].format(a=n % FIELDS, d=(n + 1) % 500) + '\n  }\n' for n in range(500)) + '}\n'


def one_method():
    """One method of 2,000 statements."""
    return class_of('C', 1, 2000)


def chains():
    """Long sums, long conditions and long chains of fields, each of about a hundred parts."""
    lines = ''
    for n in range(45):
        lines += '    x = ' + ' + '.join(f'n{k * (n + 1) % FIELDS}' for k in range(120)) + ';\n'
        lines += '    if (' + ' && '.join(f'x < n{k * (n + 3) % FIELDS}' for k in range(60)) + ') x = 0;\n'
        lines += '    o' + '.next' * 60 + f'.n{n % FIELDS} = x;\n'
    fields = ''.join(f'  int n{n};\n' for n in range(FIELDS))
    return f'class C {{\n  C next;\n{fields}  void m(int x, C o) {{\n{lines}  }}\n}}\n'


def nested(depth, count):
    """Methods of `if` blocks in one another."""
    one = ''.join(f'if (n{k % FIELDS} < x) {{ x = x + {k % 10}; ' for k in range(depth)) + '}' * depth
    fields = ''.join(f'  int n{n};\n' for n in range(FIELDS))
    return f'class C {{\n{fields}' + ''.join(f'  void m{n}(int x) {{\n    {one}\n  }}\n' for n in range(count)) + '}\n'


def many_classes():
    """The most classes, each of seven methods of three statements."""
    return ''.join(class_of(f'C{n:02}', 7, 3) for n in range(64))


def comments():
    """Comments of about a thousand bytes, and names that are as long."""
    name = 'a' * 1000
    notes = f'  /* {"a comment on the field " * 44} */\n  // {"and another " * 83}\n'
    lines = ''.join(f'{notes}  int {name}{n};\n' for n in range(60))
    body = ''.join(f'    {name}{n} = {name}{(n + 1) % 60};\n' for n in range(30))
    return f'class C {{\n{lines}  void m() {{\n{body}  }}\n}}\n'


def finally_blocks():
    """Three methods of seven `try` in one another, whose `finally` blocks are copied for each way out."""
    one = 'try { ' * 7 + 'if (x < n) return; x = n; ' + ''.join(f'}} finally {{ n = n + {k}; }} ' for k in range(7))
    return 'class C {\n  int n;\n' + ''.join(f'  void m{k}(int x) {{ {one}}}\n' for k in range(3)) + '}\n'


SHAPES = {
    'list classes': lists,
    'small methods': small_methods,
    'one method': one_method,
    'long expressions': chains,
    'ifs 4 deep': lambda: nested(4, 400),
    'ifs 60 deep': lambda: nested(60, 32),
    '64 classes': many_classes,
    'comments, long names': comments,
    'finally 7 deep': finally_blocks,
}


if __name__ == '__main__':
    if sys.argv[1:]:
        sys.stdout.write(SHAPES[sys.argv[1]]())
    else:
        print('\n'.join(SHAPES))
