"""Large and deep inputs, each as (name, words, input, what may come): a fault's number, 0 for done, or several of these.

`series` has inputs of one kind at growing sizes, to see how time and memory grow with the bytes."""

LIMIT = 262_144
EMPTY = b"\n%%\nsetup { }\n"
ONE = b"\n%%\nsetup { s = new C(); } thread A { s.f(); }\n"


def method(text, result=b"void", before=b""):
    """A class with one method."""
    return b"class C { int x; boolean b; C n; boolean[] a; " + before + b" " + result + b" f() { " + text + b" } }"


def fill(piece, size=LIMIT - 400):
    return piece * (size // len(piece))


def nest(opening, middle, ending, count):
    return opening * count + middle + ending * count


def openings():
    """Very many openings, with and without what stands before them."""
    for name, opening in (("parentheses", b"("), ("nots", b"!"), ("minuses", b"- "), ("indices", b"a["), ("calls", b"f("), ("makings", b"new C("),
            ("sums", b"1 + "), ("ors", b"b || "), ("comparisons", b"1 == "), ("dots", b"n."), ("arguments", b"f(1, ")):
        yield f"open_{name}", ["compile"], method(b"return " + opening * (200_000 // len(opening))) + EMPTY, (6, 7)
        yield f"open_{name}_ended", ["compile"], method(b"return " + opening * (200_000 // len(opening)) + b"1; ") + EMPTY, (6, 7)
    for name, opening in (("braces", b"{"), ("ifs", b"if (b) "), ("elses", b"if (b) ; else "), ("loops", b"while (b) "), ("tries", b"try { "),
            ("finallys", b"try { } finally { "), ("labels", b"L: while (b) "), ("fors", b"for (;;) "), ("heads", b"for (x = "),
            ("monitors", b"synchronized (this) { ")):
        yield f"open_{name}", ["compile"], method(opening * (200_000 // len(opening))) + EMPTY, (6, 7)


def lists():
    """Long lists of what no limit but the text's own holds, or a limit of its own."""
    yield "gaps", ["compile"], b" " * LIMIT + EMPTY, 0
    yield "gaps_and_one", ["compile"], b" " * (LIMIT + 1) + EMPTY, 2
    yield "empty_statements", ["compile"], method(fill(b";")) + EMPTY, 0
    yield "blocks", ["compile"], method(fill(b"{}")) + EMPTY, 0
    yield "assignments", ["compile"], method(fill(b"x=1;")) + EMPTY, (0, 32, 33)
    yield "returns", ["compile"], method(fill(b"return;")) + EMPTY, (0, 32, 33)
    yield "comments", ["compile"], fill(b"/**/") + EMPTY, 0
    yield "classes", ["compile"], b"".join(b"class A%d{}" % i for i in range(16_000)) + EMPTY, 20
    yield "fields", ["compile"], b"class C{" + b"".join(b"int v%d;" % i for i in range(20_000)) + b"}" + EMPTY, 20
    yield "field_names", ["compile"], b"class C{int v" + b"".join(b",v%d" % i for i in range(30_000)) + b";}" + EMPTY, 20
    yield "methods", ["compile"], b"class C{" + b"".join(b"void v%d(){}" % i for i in range(14_000)) + b"}" + EMPTY, 20
    yield "one_name_fields", ["compile"], b"class C{int v" + fill(b",v") + b";}" + EMPTY, (11, 20)
    yield "locals", ["compile"], method(b"int v" + b"".join(b",v%d" % i for i in range(30_000)) + b";") + EMPTY, 20
    yield "locals_in_blocks", ["compile"], method(fill(b"{int v;}")) + EMPTY, (0, 20)
    yield "parameters", ["compile"], b"class C{void f(int v" + b"".join(b",int v%d" % i for i in range(20_000)) + b"){}}" + EMPTY, 20
    yield "arguments", ["compile"], method(b"f(1" + fill(b",1") + b");") + EMPTY, 14
    yield "modifiers", ["compile"], fill(b"public ") + b"class C{}" + EMPTY, 0
    yield "annotations", ["compile"], fill(b"@A ") + b"class C{}" + EMPTY, 0
    yield "package", ["compile"], b"package a" + fill(b".a") + b";" + EMPTY, 0
    yield "imports", ["compile"], fill(b"import a.*;") + EMPTY, 0
    yield "counts", ["compile"], method(fill(b"x++;")) + EMPTY, (0, 32, 33)
    yield "loops_with_for", ["compile"], method(fill(b"for(;b;);")) + EMPTY, (0, 32, 33)
    yield "first_parts", ["compile"], method(b"for (x = 1" + fill(b",x=1") + b"; b; ) ;") + EMPTY, (0, 32, 33)
    yield "updates", ["compile"], method(b"for (; b; x++" + fill(b",x++") + b") ;") + EMPTY, (0, 32, 33)
    yield "monitors", ["compile"], method(fill(b"synchronized(this){}")) + EMPTY, (30, 31)
    yield "long_chain", ["compile"], method(b"x=1" + fill(b"+1") + b";") + EMPTY, 7
    yield "calls_in_a_program", ["compile"], b"class C{void f(){}}\n%%\nsetup{s=new C();}thread A{" + fill(b"s.f();") + b"}\n", 24
    yield "threads_in_a_program", ["compile"], b"\n%%\nsetup{}" + b"".join(b"thread A%d{}" % i for i in range(15_000)) + b"\n", 24
    yield "program_of_gaps", ["compile"], b"\n%%\n" + b" " * (LIMIT + 1), 24


def names():
    long = b"q" * (LIMIT - 100)
    yield "class_name", ["compile"], b"class " + long + b"{}" + EMPTY, 0
    yield "class_name_in_a_history", ["replay"], b"class " + long + b"{}\n%%\nsetup{s=new " + long + b"();}\n%%\nsetup*9\n", 0
    yield "method_name_in_a_history", ["replay"], b"class C{void " + long + b"(){}}\n%%\nsetup{s=new C();}thread A{s." + long + b"();}\n%%\nsetup*9 A*9\n", 0
    yield "thread_name", ["translate", "--to", "source"], b"class C{void f(){}}\n%%\nsetup{s=new C();}thread " + long + b"{s.f();}\n%%\nsetup*9 all*9\n", 0
    yield "name_of_the_limit", ["compile"], b"q" * LIMIT + EMPTY, 6
    yield "unknown_name", ["compile"], method(b"x = " + long + b";") + EMPTY, 10
    yield "number", ["compile"], method(b"x = " + b"9" * (LIMIT - 100) + b";") + EMPTY, 5


def towers():
    """`try` and `finally` inside one another, in loops and with exits, at each depth that might double the time."""
    kinds = {"finallys": (b"try { } finally { ", b"", b" }"), "tries": (b"try { ", b"", b" } finally { }"),
        "loops_in_finallys": (b"while (true) try { } finally { ", b"", b" }"), "loops_in_tries": (b"while (true) try { ", b"", b" } finally { }"),
        "breaks_in_finallys": (b"while (true) try { break; } finally { ", b"", b" }"),
        "returns_in_tries": (b"try { if (b) return; ", b"", b" } finally { x = 1; }"),
        "breaks_in_tries": (b"while (b) try { if (b) break; ", b"", b" } finally { if (b) continue; }"),
        "both": (b"try { try { } finally { } ", b"", b" } finally { try { } finally { } }"),
        "ifs": (b"if (b) { while (true) { } } else { ", b"", b" }"), "loops": (b"while (true) { if (b) break; ", b"", b" }"),
        "labels": (b"while (true) { while (b) { break; } ", b"", b" }"), "fors": (b"for (;;) { if (b) continue; ", b"", b" }"),
        "monitors": (b"synchronized (this) { if (b) return; ", b"", b" }"),
        "fors_in_monitors": (b"for (; b; x++) synchronized (this) { if (b) continue; ", b"", b" }")}
    for name, (opening, middle, ending) in kinds.items():
        for depth in (10, 20, 30, 41, 42, 50, 62, 63, 64, 100, 126, 127, 128):
            yield f"tower_of_{name}_{depth}", ["compile"], method(nest(opening, middle, ending, depth)) + EMPTY, (0, 7, 30, 31, 32, 33)


def nested_calls():
    """Calls as deep as they may be, in the arguments of each of many calls, compiled and run."""
    deep = nest(b"f(", b"1", b")", 120)
    text = b"class C { int f(int x) { return x; } int g() { int x = 0; " + (b"x = " + deep + b"; ") * 64 + b"return x; } }"
    parts = text + b"\n%%\nsetup { s = new C(); } thread A { s.g(); }\n"
    for words in (["compile"], ["live"], ["batch", "--seed", "1", "--count", "3", "--steps", "9000"]):
        yield f"nested_calls_{words[0]}", words, parts, 0
    for words in (["replay"], ["source"], ["translate", "--to", "source"], ["translate", "--to", "machine"], ["replay", "--live"]):
        yield f"nested_calls_{'_'.join(words)}", words, parts + b"%%\nsetup*99 A*90000\n", 0
    for name, opening, middle, ending in (("sums", b"(1 + ", b"1", b")"), ("nots", b"(!", b"b", b")"), ("blocks", b"{", b"", b"}"), ("ifs", b"if (b) { ", b"", b"}"),
            ("dots", b"", b"n" + b".n" * 120 + b".x", b""), ("makings", b"new C(", b"1", b").x")):
        shape = method(nest(opening, middle, ending, 60) if name in ("blocks", "ifs") else b"x = " + nest(opening, middle, ending, 60) + b";")
        yield f"deep_{name}", ["source"], shape + ONE + b"%%\nsetup*99 A*999\n", (0, 13, 14)


def schedules():
    program = b"class C { void f() { } }\n%%\nsetup { s = new C(); } thread A { s.f(); } thread B { s.f(); }\n%%\n"
    sixteen = 16 * 2**20
    for name, text, wanted in (("items", b"A B " * (sixteen // 4), 42), ("million_items", b"A " * 1_000_000, 0), ("million_and_one", b"A " * 1_000_001, 42),
            ("gaps", b" " * sixteen, 0), ("lines", b"\n" * sixteen, 0), ("digits", b"A*" + b"9" * sixteen, 42), ("name", b"q" * sixteen, 41),
            ("stars", b"A*" * (sixteen // 2), 40), ("zeros", b"all*0 " * (sixteen // 6), 40), ("gap_each", (b"A" + b" " * 15) * (sixteen // 17), 0),
            ("groups", b"@2 " + b"(A B) " * (sixteen // 8), 42), ("open_groups", b"@2 " + b"(" * sixteen, 40), ("closed_groups", b"@2 " + b")" * sixteen, 40),
            ("groups_of_none", b"@2 A " + b"(A B)*999999999 " * (sixteen // 16), 42), ("nested_counts", b"@2 " + b"(" * 8 + b"A" + b")*999999999" * 8, 42),
            ("carriage_returns", b"A\r\n" * 900_000, 0), ("alternating", b"A B " * 500_000, 0)):
        for command in (["replay"], ["source"], ["translate", "--to", "machine"], ["translate", "--to", "source"]):
            yield f"schedule_of_{name}_{command[-1]}", command, program + text + b"\n", wanted


def histories(size=64 * 2**20):
    pair = b"A.%d call s.add(1)\nA.%d return true\n"
    count = size // 45
    long = b"".join(pair % (i, i) for i in range(1, count))
    yield "history_of_calls", ["check"], long + b"%%\n", 0
    yield "history_of_lines", ["check"], b"\n" * size + b"%%\n", 77
    yield "history_of_one_line", ["check"], b"A.1 call s.add(" + b"1" * size + b")\n%%\n", 77
    yield "history_of_one_name", ["check"], b"q" * size + b".1 call s.add(1)\n%%\n", 0
    yield "history_of_many_threads", ["check"], b"".join(b"A%d.1 call s.add(1)\n" % i for i in range(100_000)) + b"%%\n", 0
    yield "history_of_one_call", ["check"], b"A.1 call s.f(1" + b", 1" * (size // 3) + b")\n%%\n", 0
    yield "order_of_one_call", ["check"], b"A.1 call s.add(1)\n%%\n" + b"A.1 " * (size // 4) + b"\n", 0
    yield "order_of_gaps", ["check"], b"A.1 call s.add(1)\n%%\n" + b" " * size + b"\n", 0
    yield "order_of_digits", ["check"], b"A.1 call s.add(1)\n%%\nA." + b"1" * size + b"\n", 0


def parts():
    for command in ("compile", "replay", "source", "live", "check"):
        two = 0 if command in ("compile", "live", "check") else 80
        yield f"cut_alone_{command}", [command], b"%%\n", 21 if two == 0 and command != "check" else two
        yield f"nothing_{command}", [command], b"", 80
        yield f"cuts_{command}", [command], b"%%\n" * 5_000_000, 80
        yield f"lines_{command}", [command], b"\n" * 16_000_000, 80
        yield f"carriage_returns_{command}", [command], b"\r\n%%\r\nsetup { }\r\n", 80
    yield "carriage_returns_inside", ["compile"], b"class C { }\r\n%%\nsetup { }\r\n", 0
    yield "not_text_at_the_first", ["compile"], b"\xff" + EMPTY, 81
    yield "not_text_in_the_middle", ["compile"], b"/* \xc3 */" + EMPTY, 81
    yield "not_text_at_the_last", ["compile"], EMPTY + b"\xe2\x80", 81
    yield "much_that_is_not_text", ["compile"], b"a" * 64_000_000 + b"\xff", 81


def copies():
    """Blocks of `finally` with many exits: the code is far too long, and its text is not."""
    exit = b"if (b) return; "
    for exits, size in ((100, 1000), (400, 4000), (4000, 40_000)):
        yield f"copies_{exits}_of_{size}", ["compile"], method(b"try { " + exit * exits + b"} finally { " + b"x=1;" * size + b" }") + EMPTY, 32
    for methods, exits, size, fault in ((65, 160, 400, 32), (113, 128, 128, 33)):
        many = b"".join(b"void f%d(boolean b) { try { " % i + b"if(b)return;" * exits + b"} finally { " + b"x=1;" * size + b" } } " for i in range(methods))
        yield f"copies_of_{methods}_methods", ["compile"], b"class C { int x; " + many + b"}" + EMPTY, fault
    long = b"void g() { try { " + exit * 400 + b"} finally { " + b"x=1;" * 4000 + b" } }"
    yield "too_many_copies_behind_too_long", ["compile"], method(b"try { " + exit * 4095 + b"} finally { }", before=long) + EMPTY, 31
    yield "copies_400_of_4000_that_do_nothing", ["compile"], method(b"try { " + exit * 400 + b"} finally { " + b";" * 4000 + b" }") + EMPTY, 0


def everything():
    for group in (openings, lists, names, towers, nested_calls, schedules, parts, copies, histories):
        for name, words, text, wanted in group():
            yield name, words, text, wanted if isinstance(wanted, tuple) else (wanted,)
