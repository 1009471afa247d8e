#!/usr/bin/env python3
"""growth [--program P] [WORD..]: how time and memory grow with the input, and how much stack the deepest texts need.

Each family is tried at sizes that double. A family is wrong where its last doubling takes over three times as long and that is over half
a second. Then each of the deepest texts is run in ever smaller stacks by each command; the least stack in which it still gets its
answer is printed. Ends with status 1 where a family is wrong, or a text needs over 8 MB."""
import argparse
import os
import sys

from hostile import answer, measured
from large import EMPTY, method, nest
from tool import PROGRAM

MEMORY = 3000
DEEP = {"parentheses": (b"x = ", b"(", b"1", b")", 124), "minuses": (b"x = ", b"- ", b"1", b"", 125), "nots": (b"b = ", b"!", b"b", b"", 125),
    "sums": (b"x = ", b"1 + ", b"1", b"", 125), "right_sums": (b"x = ", b"1 + (", b"1", b")", 62), "ands": (b"b = ", b"b && (", b"b", b")", 62),
    "calls": (b"x = ", b"g(", b"1", b")", 125), "dots": (b"x = n", b".n", b".x", b"", 120), "indices": (b"b = ", b"a[g(", b"1", b")]", 0),
    "blocks": (b"", b"{", b"", b"}", 126), "ifs": (b"", b"if (b) ", b";", b"", 125), "loops": (b"", b"while (b) ", b";", b"", 125),
    "fors": (b"", b"for (; b; ) ", b";", b"", 125), "monitors": (b"", b"synchronized (this) { ", b"", b" }", 42),
    "finallys": (b"", b"try { } finally { ", b"", b" }", 62), "tries": (b"", b"try { ", b"x = 1 / x;", b" } finally { }", 61),
    "recursion": (b"x = ", b"1 + (", b"h()", b")", 60), "recursion_in_tries": (b"", b"try { ", b"f();", b" } finally { }", 61),
    "recursion_in_calls": (b"x = ", b"g(", b"h()", b")", 120), "last_arguments": (b"x = ", b"p(" + b"0, " * 125, b"1", b")", 125)}
METHODS = b"int g(int y) { return y; } int h() { f(); return 1; } int p(%b) { return y0; }" % b", ".join(b"int y%d" % i for i in range(126))
WAYS = (["compile"], ["source"], ["replay"], ["translate", "--to", "machine"], ["translate", "--to", "source"], ["live", "--limit", "100000"],
    ["replay", "--live"], ["batch", "--seed", "1", "--count", "2", "--steps", "20000"])


def lines(count, form):
    return b"".join(form.replace(b"#", str(i).encode()) for i in range(1, count + 1))


def backwards(count):
    return b" ".join(b"A.%d" % i for i in range(count, 0, -1))


def families():
    """Names, words, sizes to begin with, and the input of a size."""
    check, compile_ = ["check"], ["compile"]
    yield "history_of_one_thread", check, 40_000, lambda n: lines(n, b"A.# call s.add(#)\nA.# return true\n") + b"%%\n" + lines(n, b"A.# ")
    yield "history_of_many_threads", check, 8_000, lambda n: lines(n, b"A#.1 call s.add(1)\n") + b"%%\n"
    yield "history_of_one_item", check, 40_000, lambda n: lines(n, b"A.# call s.contains(1)\nA.# return false\n") + b"%%\n" + lines(n, b"A.# ")
    yield "order_of_pending_calls", check, 4_000, lambda n: lines(n, b"A#.1 call s.add(#)\n") + b"%%\n" + lines(n, b"A#.1 ")
    yield "order_backwards", check, 40_000, lambda n: lines(n, b"A.# call s.add(#)\nA.# return true\n") + b"%%\n" + backwards(n)
    yield "order_of_one_call", check, 400_000, lambda n: b"A.1 call s.add(1)\n%%\n" + b"A.1 " * n
    yield "order_of_unknown_calls", check, 40_000, lambda n: lines(n, b"A.# call s.add(#)\nA.# return true\n") + b"%%\n" + lines(n, b"B.# ")
    yield "tally_of_many_histories", ["batch", "--seed", "1", "--steps", "200", "--count"], 8_000, tally
    yield "samples_of_one_history", ["batch", "--seed", "1", "--steps", "20", "--count"], 8_000, lambda n: b"class C{}" + EMPTY
    for name, piece in (("empty_statements", b";"), ("blocks", b"{}"), ("assignments", b"x=1;"), ("calls", b"f();"), ("conditions", b"if(b);else;"),
            ("loops", b"while(b);"), ("fors", b"for(;b;);"), ("counts", b"x++;"), ("field_counts", b"n.x+=x;"), ("tries", b"try{}finally{}"), ("exits", b"if(b)return;"), ("locals", b"{int v;}"), ("dots", b"n.n.n.n=n.n.n;"),
            ("locks", b"l.lock();"), ("makings", b"new C();"), ("exchanges", b"m.set(n,b);")):
        yield f"text_of_{name}", compile_, 60_000 // len(piece), lambda n, piece=piece: typed(piece * n) + EMPTY
    yield "exits_of_a_try", compile_, 500, lambda n: typed(b"try { " + b"if (b) return; " * n + b"} finally { x = 1; }") + EMPTY
    yield "exits_of_a_large_try", compile_, 100, lambda n: typed(b"try { " + b"if (b) return; " * n + b"} finally { " + b"x = 1; " * 10 * n + b"}") + EMPTY
    yield "names", compile_, 8, lambda n: b"".join(b"class %b%d { }" % (b"q" * 3000, i) for i in range(n)) + EMPTY
    run = b"class C { void f() { } int get() { return 1; } }\n%%\nsetup { s = new C(); } thread A { s.f(); } thread B { s.get(); }\n%%\n"
    for words in (["replay"], ["source"], ["translate", "--to", "machine"], ["translate", "--to", "source"], ["replay", "--live"]):
        yield f"schedule_by_{'_'.join(words)}", words, 100_000, lambda n: run + b"A B " * n + b"\n"
    turns = b"class C { int v; void f() { while (true) { v = v + 1; } } }\n%%\nsetup { s = new C(); } thread A { s.f(); } thread B { s.f(); }\n%%\n"
    for words in (["replay"], ["source"], ["translate", "--to", "source"], ["replay", "--live"]):
        yield f"loop_by_{'_'.join(words)}", words, 50_000, lambda n: turns + b"setup*99 " + b"A*2 B " * n + b"\n"
    yield "loop_by_translate_--to_machine", ["translate", "--to", "machine"], 12_000, lambda n: turns + b"setup*99 " + b"A*2 B " * n + b"\n"


def typed(text):
    return method(text, before=b"Lock l = new ReentrantLock(); AtomicMarkableReference<C> m;")


def tally(count):
    threads = b" ".join(b"thread A%d { s.get(); s.get(); s.get(); s.get(); }" % i for i in range(8))
    return b"class C { int v; int get() { v = v + 1; return v; } }\n%%\nsetup { s = new C(); } " + threads + b"\n"


def grown(program, name, words, first, made):
    """Tries a family at three sizes; answers what is wrong."""
    seconds, told = [], []
    for size in (first, 2 * first, 4 * first):
        text = made(size)
        arguments = words + [str(size)] if words[-1] == "--count" else words
        done, took, memory = measured(program, arguments, text, 8192, MEMORY)
        seconds.append(took)
        told.append(f"{len(text):,} bytes {took:.2f} s {memory / 2**20:.0f} MB ({memory / len(text):.0f} a byte) {answer(done)}")
    wrong = seconds[-1] > 0.5 and seconds[-1] > 3 * seconds[-2]
    print(f"{name}: {'; '.join(told)}{' WRONG: time grows faster than its input' if wrong else ''}", flush=True)
    return wrong


def deepest():
    """The deepest texts, each as an input for the commands with a schedule and for those without."""
    for name, (before, opening, middle, ending, count) in DEEP.items():
        text = method(before + nest(opening, middle, ending, count) + (b";" if before else b""), before=METHODS)
        yield name, text + b"\n%%\nsetup { s = new C(); } thread A { s.f(); }\n", b"%%\nsetup*99 A*100000\n"


def least_stack(program, words, text):
    """The least stack in KB, to 16, in which the answer is that of 64 MB."""
    whole = answer(measured(program, words, text, 65536, MEMORY)[0])
    low, high = 0, 65536
    while high - low > 16:
        middle = (low + high) // 2
        same = answer(measured(program, words, text, middle, MEMORY)[0]) == whole
        low, high = (low, middle) if same else (middle, high)
    return high, whole


def stacks(program, words_wanted):
    failed = 0
    for name, parts, schedule in deepest():
        if words_wanted and not any(word in f"stack_of_{name}" for word in words_wanted):
            continue
        found = []
        for words in WAYS:
            text = parts if words[0] in ("compile", "live", "batch") else parts + schedule
            size, whole = least_stack(program, words, text)
            found.append((size, words[0], whole))
        most = max(found)
        failed += most[0] > 8192
        print(f"stack_of_{name}: " + ", ".join(f"{command} {size} KB ({whole})" for size, command, whole in found), flush=True)
    return failed


def main():
    parser = argparse.ArgumentParser(description=__doc__)
    parser.add_argument("--program", default=PROGRAM)
    parser.add_argument("words", nargs="*")
    given = parser.parse_args()
    program, failed = os.path.abspath(given.program), 0
    for name, words, first, made in families():
        if not given.words or any(word in name for word in given.words):
            failed += grown(program, name, words, first, made)
    return 1 if failed + stacks(program, given.words) else 0


if __name__ == "__main__":
    sys.exit(main())
