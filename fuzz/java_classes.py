"""Random Java classes as people write them, for `java.py`: expressions with effects, loops, labels, switches, arrays, nested classes,
generics, overloads, constants, static members, locks and atomics. What a class does depends on its seed alone.

Each class has fields, helpers that note in which order they are called, a method `log` that answers what all of it holds, and methods
`m0`, `m1` and so on with one argument."""
import random

HEAD = """import java.util.concurrent.atomic.*;
import java.util.concurrent.locks.*;

public class {name} {{
  private static final int SIZE = 0x3, STEP = 1 << 1;
  private enum Mode {{ IDLE, BUSY, DONE }}
  private int f = 1, g = 2, s;
  private boolean b;
  private Mode mode = Mode.IDLE;
  private final int[] a = {{1, 2, SIZE}};
  private final AtomicInteger n = new AtomicInteger(4);
  private final AtomicBoolean on = new AtomicBoolean();
  private final AtomicReference<Node> top = new AtomicReference<>(null);
  private final Box<Integer> box = new Box<Integer>(5);
  private final Lock lock = new ReentrantLock();
  private Node list = new Node(3, new Node(1));

  private static class Node {{
    final int key;
    Node next;
    Node(int key) {{ this(key, null); }}
    Node(int key, Node next) {{ this.key = key; this.next = next; }}
    int sum() {{ int all = 0; for (Node it = this; it != null; it = it.next) all += it.key; return all; }}
  }}
  private static class Box<T> {{
    private T value;
    Box(T value) {{ this.value = value; }}
    T get() {{ return value; }}
    T put(T other) {{ T old = value; value = other; return old; }}
  }}
  private int say(int k) {{ s = s * 31 + k; return k; }}
  private boolean yes(int k) {{ say(k); return k > 1; }}
  private {name} me() {{ say(7); return this; }}
  private int two(int k, int l) {{ return k * 3 - l; }}
  private int two(int k) {{ return two(k, STEP) + 1; }}
  private int two(boolean k) {{ return k ? 11 : 13; }}
  private int many(int k) {{ int all = 0; for (int it : a) all += it * k; return all; }}
  public int log() {{
    int held = s + f * 3 + g * 5 + a[0] * 7 + a[1] * 11 + a[2] * 13 + n.get() * 17 + box.get() * 19 + list.sum() * 23;
    if (top.get() != null) held += top.get().sum() * 29;
    switch (mode) {{
      case IDLE: held += 31; break;
      case BUSY: held += 37; break;
      default: held += 41;
    }}
    return held + (b ? 1000 : 0) + (on.get() ? 2000 : 0);
  }}
"""
NUMBERS = ["p", "x", "y", "f", "g", "this.f", "SIZE", "STEP", "box.get()", "n.get()", "list.key", "a[0]", "a[2]", "a.length"]
PLACES = ["p", "x", "y", "f", "g", "this.f", "me().g"]
TRUTHS = ["b", "p > 1", "x < y", "f == g", "true", "a[1] >= 2", "on.get()", "mode == Mode.BUSY", "top.get() == null"]
CALLS = ["say({0})", "two({0}, {1})", "two({0})", "two({2})", "me().two({0}, {1})", "many({0})", "Math.max({0}, {1})", "Math.min({0}, {1})",
         "Math.abs({0})", "n.incrementAndGet()", "n.getAndAdd({0})", "n.addAndGet({0})", "n.getAndSet({0})", "box.put({0})", "n.decrementAndGet()"]
TESTS = ["yes({0})", "n.compareAndSet({0}, {1})", "on.getAndSet({2})", "on.compareAndSet({2}, {3})",
         "top.compareAndSet(top.get(), new Node({0}, top.get()))", "(b = {2})", "(b ^= {2})", "(b |= {2})"]
SIMPLE = ["{place} = {0};", "{place} {op}= {0};", "{place}++;", "--{place};", "say({0});", "list = new Node({0}, list);", "box.put({0});",
          "n.set({0});", "on.set({2});", "mode = {2} ? Mode.BUSY : Mode.DONE;", "top.set(list);", "int {new} = {0}, {new}0; {new}0 = {new}; x -= {new}0;",
          "System.arraycopy(a, {0} & 1, a, {1} & 1, {0} & 3);", "System.arraycopy(a, 0, a, 1, {0} & 1);", "x = y = {0};", "if (list.next != null) list = list.next;", "b = !b;"]


class Maker:
    """Makes the methods of one class."""

    def __init__(self, seed):
        self.chance, self.names = random.Random(f"java {seed}"), 0

    def pick(self, some):
        return self.chance.choice(some)

    def new(self):
        self.names += 1
        return f"v{self.names}"

    def filled(self, form, depth):
        return form.format(self.number(depth), self.number(depth), self.truth(depth), self.truth(depth), place=self.place(depth),
                           op=self.pick("+-*"), new=self.new())

    def place(self, depth):
        if depth > 0 and self.chance.random() < 0.3:
            return f"a[{self.index(depth - 1)}]"
        return self.pick(PLACES)

    def index(self, depth):
        mask = 3 if self.chance.random() < 0.1 else 1
        return self.pick(["0", "1", "2", f"({self.number(depth)} & {mask})"])

    def number(self, depth):
        if depth <= 0:
            return self.pick([*NUMBERS, str(self.chance.randint(0, 4))])
        one, other, less = (lambda: self.number(depth - 1)), self.number(depth - 1), depth - 1
        forms = [lambda: f"({one()} {self.pick('+-*')} {other})", lambda: f"({one()} {self.pick('/%')} {self.pick([other, '3'])})",
                 lambda: f"(-{other})", lambda: f"({self.truth(less)} ? {one()} : {other})", lambda: f"({self.place(less)}{self.pick(['++', '--'])})",
                 lambda: f"({self.pick(['++', '--'])}{self.place(less)})", lambda: f"({self.place(less)} = {other})",
                 lambda: f"({self.place(less)} {self.pick(['+=', '-=', '*=', '%='])} {self.pick([other, '3'])})", lambda: f"a[{self.index(less)}]",
                 lambda: f"({other} & {self.pick([1, 3, 7])})", lambda: f"({other} {self.pick(['<<', '>>'])} {self.chance.randint(1, 3)})",
                 lambda: self.filled(self.pick(CALLS), less), lambda: self.filled(self.pick(CALLS), less), lambda: self.filled(self.pick(CALLS), less)]
        return self.pick(forms)()

    def truth(self, depth):
        if depth <= 0:
            return self.pick(TRUTHS)
        one, other, less = (lambda: self.truth(depth - 1)), self.truth(depth - 1), depth - 1
        forms = [lambda: f"({self.number(less)} {self.pick(['<', '>', '<=', '>=', '==', '!='])} {self.number(less)})",
                 lambda: f"({one()} && {other})", lambda: f"({one()} || {other})", lambda: f"(!({other}))",
                 lambda: f"({one()} {self.pick('&|^')} {other})", lambda: f"({one()} ? {other} : {one()})",
                 lambda: self.filled(self.pick(TESTS), less)]
        return self.pick(forms)()

    def block(self, depth, labels, gap):
        return "".join(self.statement(depth, labels, gap) for _ in range(self.chance.randint(1, 3)))

    def body(self, depth, labels, gap):
        return f"{{\n{self.block(depth - 1, labels, gap + '  ')}{gap}}}"

    def loop(self, depth, labels, gap):
        label, count = f"l{self.new()}", self.new()
        inner = self.body(depth, [*labels, label], gap)
        forms = [f"int {count} = 0;\n{gap}{label}: while ({count}++ < 3 && {self.truth(2)}) {inner}",
                 f"int {count} = 0;\n{gap}{label}: do {inner} while ({count}++ < 3 && {self.truth(2)});",
                 f"{label}: for (int {count} = 0, o{count} = {self.number(1)}; {count} < 3 && {self.truth(1)}; {count}++, {self.onward(count)}) {inner}",
                 f"{label}: for (int {count} : a) {inner}",
                 f"{label}: for (Node {count} = list; {count} != null; {count} = {count}.next) {inner}"]
        return self.pick(forms)

    def onward(self, count):
        return self.pick(["y++", f"x = {self.number(2)}", f"say({self.number(1)})", f"o{count} += {self.number(1)}", "a[1]--"])

    def switch(self, depth, gap):
        some = [self.block(depth - 1, [], gap + "  ") for _ in range(3)]
        return (f"switch ({self.number(1)} & 3) {{\n{gap}case 0:\n{some[0]}{gap}  break;\n{gap}case 1: case SIZE:\n{some[1]}{gap}  break;\n"
                f"{gap}default:\n{some[2]}{gap}}}")

    def statement(self, depth, labels, gap):
        kind = self.chance.randint(0, 13)
        if depth <= 0 or kind < 4:
            return f"{gap}{self.filled(self.pick(SIMPLE), 2)}\n"
        if kind == 4:
            return f"{gap}if ({self.truth(2)})\n{gap}  {self.filled(self.pick(SIMPLE[:6]), 1)}\n"
        if kind == 5:
            return f"{gap}if ({self.truth(2)}) {self.body(depth, labels, gap)} else {self.body(depth, labels, gap)}\n"
        if kind < 9:
            return f"{gap}{self.loop(depth, labels, gap)}\n"
        if kind == 9 and labels:
            return f"{gap}if ({self.truth(1)}) {self.pick(['continue', 'break'])}{self.pick(['', ' ' + self.pick(labels)])};\n"
        if kind == 10:
            return f"{gap}try {self.body(depth, labels, gap)} finally {self.body(1, [], gap)}\n"
        if kind == 11:
            return f"{gap}{self.switch(depth, gap)}\n"
        if kind == 12:
            return f"{gap}lock.lock();\n{gap}try {self.body(depth, labels, gap)} finally {{ lock.unlock(); }}\n"
        return f"{gap}if ({self.truth(1)}) return {self.number(2)};\n"

    def method(self, number):
        kind = self.pick(["public", "public synchronized", "protected final", ""])
        return (f"  {kind} int m{number}(int p) {{\n    int x = p, y = 2;\n    y = {self.number(2)};\n{self.block(2, [], '    ')}"
                f"{self.block(2, [], '    ')}    return {self.number(2)} + x * 3 + y * 5 + p;\n  }}\n")


def make(seed, methods=8):
    """The name of the class of a seed, and its text."""
    maker, name = Maker(seed), f"Random{seed}"
    return name, HEAD.format(name=name) + "".join(maker.method(it) for it in range(methods)) + "}\n"
