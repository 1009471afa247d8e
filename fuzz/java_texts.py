#!/usr/bin/env python3
"""java_texts [--program P] [--seed N] [--count N] (texts | cut): Java texts, as they are restated, answer as on a Java machine.

The texts are those of tests/java: `books` has the book's five lists as it prints them, and Rules.java, which uses many
forms; `course` has texts as students write them. `texts`: each but two is restated. With the probes below 60 random
sequences of calls are made in one thread each, on the JVM (javac, java) and by `source --java`; they must be answered
alike, and the class text that `java` prints has the same history. `cut`: COUNT texts with tokens left out, doubled or
changed places end within ten seconds, with a text or with a sentence. Ends with status 1 where something is wrong; the
input is kept in fuzz/found."""
import argparse
import glob
import os
import random
import re
import subprocess
import sys
import tempfile

from tool import PROGRAM, TOP, joined, keep, run

DRIVE = f"{TOP}/fuzz/Drive.java"
TEXTS = f"{TOP}/tests/java"
SEQUENCES = 60
# Texts that aren't restated.
LEFT = {"27-Filter", "Left"}
# Methods that are added to a class, so that calls can be made and what they leave can be seen.
PROBES = {
    "02": "public void put(int k) { Node n = new Node(k); n.next = head.next; head.next = n; }",
    "03": "boolean has(int key) { return find(head, key).curr.key == key; } "
          "boolean put(int key) { Window w = find(head, key); "
          "return w.pred.next.compareAndSet(w.curr, new Node(key, w.curr), false, false); } "
          "boolean mark(int key) { Window w = find(head, key); "
          "return w.curr.next.attemptMark(w.curr.next.getReference(), true); }",
    "06": "int sum() { Node n = head.get().next.get(); int s = 0; "
          "while (n != null) { s = s * 3 + n.value.hashCode(); n = n.next.get(); } return s; }",
    "07": "int sum() { Node n = top.get(); int s = 0; "
          "while (n != null) { s = s * 3 + n.value.hashCode(); n = n.next; } return s + MIN_DELAY * MAX_DELAY; }",
    "10": "public int up() { return c.incrementAndGet(); } "
          "public boolean swap(int a, int b) { return c.compareAndSet(a, b); } public int now() { return c.get(); } "
          "public int down() { return c.getAndDecrement(); } public int add(int n) { return c.addAndGet(n); } "
          "public int put(int n) { return c.getAndSet(n); }",
    "12": "void put(int i, int v) { balances[i] = v; } int get(int i) { return balances[i]; }",
    "14": "int at(int i) { Node n = head; while (i > 0) { n = n.next; i--; } return n.value; }",
    "17": "static int get() { return shared; } static void add() { shared++; }",
    "18": "boolean held() { return state.get(); } boolean trying() { return !state.getAndSet(true); } "
          "boolean swap() { return state.compareAndSet(true, false); }",
    "21": "static boolean once() { return getInstance() == getInstance(); } "
          "static boolean made() { return instance != null; }",
}
SETS = "add {0..5}|remove {0..5}|contains {0..5}"
# Of a text its class and the calls that are made; {0..5} is a number.
CALLS = {
    "01": ("CoarseList", "add {0..5}"), "02": ("LazyList", "contains {0..5}|put {-9..-1}"),
    "03": ("LockFreeList", "has {0..5}|put {0..5}|mark {0..5}"), "05": ("UnboundedQueue", "enq {0..9}|deq"),
    "06": ("LockFreeQueue", "enq {0..9}|sum"), "07": ("LockFreeStack", "push {0..9}|sum"),
    "08": ("Counter", "increment|getValue"), "09": ("Counter", "increment|get"),
    "10": ("Counter", "getAndIncrement|up|swap {0..2} {0..2}|now|down|add {0..3}|put {0..3}"),
    "12": ("Bank", "put {0..10} {1..9}|get {-1..9}|transfer {0..9} {0..9} {0..9}"),
    "14": ("SortedList", "insert {0..9}|size|at {0..3}"), "15": ("SimpleSet", SETS),
    "16": ("Stack", "push {0..9}|pop|isEmpty"), "17": ("Main", "add|get"),
    "18": ("TASLock", "unlock|held|trying|swap"), "19": ("Table", "eat {0..4}|eat {0..4}|eat {-1..5}"),
    "20": ("Cell", "read|write {0..9}"), "21": ("Singleton", "made|once"), "22": ("FineList", "add {0..5}"),
    "23": ("TwoLockQueue", "enqueue {0..9}|dequeue"), "24": ("LockFreeStack", "push {0..9}|pop"),
    "25": ("BufferConditions", "offer {0..9}|poll|size"), "26": ("Latch", "down|left|passed|tryAwait {0..3}"),
    "28": ("Stock", "copy {-1..5} {-1..5} {-1..5}|copy {0..2} {0..2} {0..3}|move {0..2} {0..2} {0..3}|move {0..4} {0..4} {-1..5}|"
                    "moveBy {-1..3}|copyNothing {0..1}|enter {0..1}|leave {0..1}|enterFair|fairLeft|read {0..5}|write {0..4} {0..9}|"
                    "writeFirst {0..9}|attempt {0..5}"),
    "Rules": ("Rules", "push {0..3}|pop|grow {0..3}|put {0..5}|take|post|pre|both {0..3}|loop {0..9}|sum {0..5}|"
              "minus {0..3}|down|idx {-1..5}|safe {0..2}|sign {-1..1}|pick {0..3}|swap {0..3} {0..3}|locked|"
              "spread {0..4}|chain {0..4}|bump|bump"),
    **{name: (name, SETS) for name in ("CoarseList", "FineList", "OptimisticList", "LazyList", "LockFreeList")},
}

def number_of(chance, low, high):
    return str(chance.randint(int(low), int(high)))


def sequences_by(calls, chance):
    """Random sequences of calls, of which {0..5} is a number."""
    shapes = [[chance.choice(calls.split("|")) for _ in range(chance.randint(1, 14))] for _ in range(SEQUENCES)]
    return [[re.sub(r"\{(-?\d+)\.\.(-?\d+)\}", lambda it: number_of(chance, *it.groups()), call) for call in shape]
            for shape in shapes]


def on_jvm(folder, name, text, sequences):
    """What the calls of each sequence answer on the JVM, a line each; or what javac says."""
    with open(f"{folder}/{name}.java", "w", encoding="utf-8") as file:
        file.write(text)
    words = ["javac", "-nowarn", "-d", folder, f"{folder}/{name}.java", DRIVE]
    built = subprocess.run(words, capture_output=True, text=True, check=False)
    if built.returncode:
        return None, built.stderr.split("\n")[0].rpartition("/")[2]
    words = ["java", "-XX:+UseSerialGC", "-XX:TieredStopAtLevel=1", "-cp", folder, "Drive", name, folder + "/"]
    done = subprocess.run(words, input="".join(f"; {'; '.join(it)}\n" for it in sequences), capture_output=True, text=True,
                          timeout=120, check=False)
    return done.stdout.splitlines(), done.stderr[-200:]


def program_of(name, sequences):
    """A thread for each sequence, each with an object of its own."""
    setup = " ".join(f"x{i} = new {name}();" for i in range(len(sequences)))
    threads = []
    for i, sequence in enumerate(sequences):
        calls = " ".join(f"x{i}.{word}({', '.join(rest)});" for word, *rest in (it.split() for it in sequence))
        threads.append(f"thread T{i} {{ {calls} }}")
    schedule = "setup*99999 " + " ".join(f"T{i}*9999" for i in range(len(sequences)))
    return f"setup {{ {setup} }}\n" + "\n".join(threads), schedule


def by_source(program, text, name, sequences):
    """What the calls of each sequence answer by `source --java`, and its input."""
    thread_program, schedule = program_of(name, sequences)
    given = joined(text.encode(), thread_program.encode(), schedule.encode())
    done = run(program, ["source", "--java"], given, 60)
    answers = [[] for _ in sequences]
    for number, answer in re.findall(rb"^T(\d+)\.\d+ ((?:return|trap).*)$", done.out, re.M):
        answers[int(number)].append(answer.decode() + ";")
    return [" ".join(it) for it in answers], given, done


def differs(program, name, text, sequences):
    """What differs: the input, what came and what was wanted; or None."""
    with tempfile.TemporaryDirectory() as folder:
        wanted, said = on_jvm(folder, name, text, sequences)
    if wanted is None:
        return text.encode(), said, "a file that javac takes"
    for thrown in re.findall(r"throw new (\w+)", text):  # a note says so
        wanted = [it.replace(f"trap {thrown}", "trap ArithmeticException") for it in wanted]
    came, given, done = by_source(program, text, name, sequences)
    if done.status != 0:
        return given, done.told(), "status 0"
    printed = run(program, ["java"], text.encode())
    beside = run(program, ["source"], joined(printed.out, *given.split(b"%%\n")[1:]), 60)
    if beside.out != done.out:
        return given, done.told(), "the history of what `java` prints"
    for sequence, one, other in zip(sequences, came, wanted + [said] * len(sequences)):
        if one != other:
            return given, f"{sequence}\n{one}", other
    return None


def text_of(path):
    with open(path, encoding="utf-8") as file:
        return file.read()


def paths():
    return sorted(glob.glob(f"{TEXTS}/*/*.java"))


def text_cases(options):
    """The texts with their probes, and sequences of the calls that are named."""
    for path in paths():
        name = os.path.basename(path)[:-5]
        key = name if name in CALLS else name[:2]
        if key in CALLS:
            of, calls = CALLS[key]
            text = re.sub(r"(class %s\b[^{]*\{)" % of, lambda it: it[1] + " " + PROBES.get(key, ""), text_of(path), count=1)
            text = re.sub(rf"^public (class|interface) (?!{of}\b)", r"\1 ", text, flags=re.M)
            yield of, text, sequences_by(calls, random.Random(f"{options.seed} {name}"))


def answered(cases, options):
    """Whether calls are answered alike."""
    wrong = files = total = 0
    for name, text, sequences in cases:
        found = differs(options.program, name, text, sequences)
        files, total = files + 1, total + len(sequences)
        if found:
            wrong += 1
            print(f"WRONG {name}: kept in {keep(f'java-{name}', ['source', '--java'], *found)}: {found[1][:200]}", flush=True)
    print(f"{files} files, {total} sequences of calls; {wrong} wrong")
    return wrong


def taken(options):
    """Whether each text is restated that is to be."""
    wrong = 0
    for path in paths():
        name, done = os.path.basename(path)[:-5], run(options.program, ["java"], text_of(path).encode())
        if done.status != (name in LEFT):
            wrong += 1
            print(f"WRONG {name}: {done.told()}")
    return wrong


def cut(options):
    """Whether broken texts end in a text or a sentence."""
    wrong, chance = 0, random.Random(options.seed)
    for number in range(options.count):
        words = re.findall(r"\w+|\s+|.", text_of(chance.choice(paths())), re.S)
        for _ in range(chance.randint(1, 3)):
            i, j = chance.randrange(len(words)), chance.randrange(len(words))
            words[i:i + 1] = chance.choice(([], [words[i]] * 2, [words[j]]))
        text = "".join(words).encode()
        done = run(options.program, ["java"], text)
        if done.status not in (0, 1) or not done.out and not done.errors or done.out and done.status:
            wrong += 1
            print(f"WRONG {keep(f'java-cut-{number}', ['java'], text, done.told(), 'a text or a sentence')}")
    print(f"{options.count} broken texts, {wrong} wrong")
    return wrong


def main():
    parser = argparse.ArgumentParser(description=__doc__, formatter_class=argparse.RawDescriptionHelpFormatter)
    parser.add_argument("mode", choices=("texts", "cut"))
    parser.add_argument("--program", default=PROGRAM)
    parser.add_argument("--seed", type=int, default=1)
    parser.add_argument("--count", type=int, default=60)
    options = parser.parse_args()
    wrong = cut(options) if options.mode == "cut" else taken(options) + answered(text_cases(options), options)
    return 1 if wrong else 0


if __name__ == "__main__":
    sys.exit(main())
