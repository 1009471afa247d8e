#!/usr/bin/env python3
"""refusals [--program P] [--seed N] [--count N]: class texts with one token or line changed; javac and `compile` must agree on each.

Where they don't, the difference is counted under what the one of them says that refuses. What the profile does otherwise on purpose is
listed in ALLOWED: the messages of javac on texts that `compile` takes, and the faults of `compile` on texts that javac takes.
Any other difference is kept in found. Ends with status 1 where there is one."""
import argparse
import os
import random
import re
import shutil
import subprocess
import sys
import tempfile
import time

import mutations
from bodies import class_text
from jvm import put
from shapes import drawn_world
from tool import PROGRAM, fault_of, joined, keep, run

AT_ONCE = 400
HEAD = 3
# What javac says of texts that the profile accepts: assignment and code that isn't reached aren't checked, modifiers have no effect,
# Lock and ReentrantLock are one type, initialisers may read any field. Modifiers may stand at a local, where javac's parser stops.
ALLOWED = ("might not have been initialized", "might already have been assigned", "unreachable statement", "modifier", "self-reference in initializer",
    "illegal forward reference", "ReentrantLock", "isHeldByCurrentThread", "cannot assign a value to final", "should be declared in a file named",
    "illegal combination")
PARSED = "illegal start of expression"
UNREACHED, MISSED = "unreachable statement", "missing return statement"


def changed(r, text):
    """The text with one token, or one line, changed in its classes."""
    lines = text.split("\n")
    head, body = "\n".join(lines[:HEAD]), "\n".join(lines[HEAD:]).encode()
    for _ in range(r.choice((1, 1, 1, 2))):
        body = r.choice((name_for_name, name_for_name, literal, line_left_out, line_twice, line_moved, mutations.swap, mutations.drop, sign))(r, body)
    return f"{head}\n{body.decode()}"


def name_for_name(r, body):
    """One name or word by another that stands in the text."""
    found = list(re.finditer(rb"[A-Za-z_$][A-Za-z0-9_$]*", body))
    one = r.choice(found)
    return body[:one.start()] + r.choice(found).group() + body[one.end():]


def literal(r, body):
    found = list(re.finditer(rb"\b(?:[0-9]+|true|false|null|this)\b", body))
    if not found:
        return body
    one = r.choice(found)
    return body[:one.start()] + r.choice((b"0", b"1", b"true", b"false", b"null", b"this", b"2147483648", b"(0)")) + body[one.end():]


def sign(r, body):
    found = list(re.finditer(rb" (?:[-+*/%<>]|[<>=!+]=|&&|\|\||=) |\+\+|--", body))
    if not found:
        return body
    one = r.choice(found)
    others = (b" + ", b" < ", b" == ", b" && ", b" = ", b" += ", b" != ", b" / ") if one.group().startswith(b" ") else (b"++", b"--", b" += 1", b" = 1", b"")
    return body[:one.start()] + r.choice(others) + body[one.end():]


def line_left_out(r, body):
    lines = body.split(b"\n")
    del lines[r.randrange(len(lines))]
    return b"\n".join(lines)


def line_twice(r, body):
    lines = body.split(b"\n")
    lines.insert(r.randrange(len(lines)), r.choice(lines))
    return b"\n".join(lines)


def line_moved(r, body):
    lines = body.split(b"\n")
    lines.insert(r.randrange(len(lines)), lines.pop(r.randrange(len(lines))))
    return b"\n".join(lines)


def follows(text, line, unreached):
    """Whether a `return` that javac misses at a line follows from a statement of that member that isn't reached, behind which javac goes on
    as if it were."""
    lines = text.split("\n")
    return any(not any(re.match(r"  \w.*\{$", it) for it in lines[at:line]) for at in unreached if at < line)


def refused_by_javac(texts):
    """What javac says first of each of the texts that it refuses, by package."""
    folder = tempfile.mkdtemp(prefix="listset-javac-")
    try:
        files = [put(folder, f"{package}/Classes.java", text) for package, text in texts.items()]
        listed = put(folder, "files", "\n".join(files) + "\n")
        words = ["javac", "-J-XX:+UseSerialGC", "-J-XX:TieredStopAtLevel=1", "-nowarn", "-proc:none", "-Xmaxerrs", "100000", "-XDshould-stop.ifError=FLOW",
            "-XDshould-stop.ifNoError=FLOW", "-d", f"{folder}/out", f"@{listed}"]
        errors = subprocess.run(words, capture_output=True, check=False).stderr.decode(errors="replace")
    finally:
        shutil.rmtree(folder)
    found = re.findall(r"/(p[0-9]+)/Classes\.java:([0-9]+): error: (.*(?:\n  (?:symbol|required|found).*)*)", errors)
    said, unreached = {}, {}
    for package, line, message in found:
        if UNREACHED in message:
            unreached.setdefault(package, []).append(int(line))
    for package, line, message in found:
        if not (MISSED in message and follows(texts[package], int(line), unreached.get(package, []))):
            said.setdefault(package, []).append(message)
    return said


def refused_alone(program, texts, said):
    """What javac says of the texts that `compile` refuses and javac seemed to take: beside others that are wrong it doesn't look at all."""
    left = {package: text for package, text in texts.items() if package not in said}
    left = {package: text for package, text in left.items() if run(program, ["compile"], joined(text.encode(), b"setup { }\n")).status}
    more = refused_by_javac(left) if left else {}
    return {**more, **refused_alone(program, left, more)} if more else {}


def is_left_out(text, fault):
    """Whether `compile` refuses what the profile leaves out: the diamond, unary plus, assignments, `++` and `--` as values, a `;` alone among
    members, a block among members, a label on what isn't a loop, comparing a Lock with a thing of a class, monitors of locks and the like."""
    at, _, end = fault.split(" at ")[1].strip().partition("-")
    if end:
        return re.search(r"[=!]= ", text[int(at):int(end)]) is not None or text[:int(at)].endswith("synchronized (")
    before, behind = text[:int(at)], text[int(at):]
    labels = re.search(r"\w *: *$", before) is not None and not behind.startswith(("while", "for"))
    blocks = behind.startswith("{") and before.rstrip().endswith((";", "{", "}")) and before.count("{") == before.count("}") + 1
    return labels or blocks or before.endswith("<") or behind.startswith(("+ ", "= ", "+= ", "++", "--", ";\n"))


def difference(program, package, text, said):
    """How javac and `compile` part on a text, or None."""
    done = run(program, ["compile"], joined(text.encode(), b"setup { }\n"))
    if done.status == 0 and package in said:
        first = said[package][0].split("\n")[0]
        allowed = first == PARSED or all(any(word in message for word in ALLOWED) for message in said[package])
        return ("allowed: " if allowed else "javac alone refuses: ") + re.sub(r"(?<=variable )[\w$]+", "..", first)
    if done.status != 0 and package not in said and fault_of(done) not in (30, 31, 32, 33):
        fault = done.errors.decode()
        return ("left out: " if is_left_out(text, fault) else "compile alone refuses: ") + fault.split(" at ")[0]
    return None


def main():
    parser = argparse.ArgumentParser(description=__doc__)
    parser.add_argument("--program", default=PROGRAM)
    parser.add_argument("--seed", type=int, default=1)
    parser.add_argument("--count", type=int, default=1200)
    given = parser.parse_args()
    program, start, counts, failed = os.path.abspath(given.program), time.time(), {}, 0
    for first in range(given.seed, given.seed + given.count, AT_ONCE):
        texts = {}
        for seed in range(first, min(first + AT_ONCE, given.seed + given.count)):
            r = random.Random(seed)
            texts[f"p{seed}"] = changed(r, class_text(drawn_world(r, False), f"p{seed}"))
        said = refused_by_javac(texts)
        said |= refused_alone(program, texts, said)
        for package, text in texts.items():
            kind = difference(program, package, text, said) or ("both refuse" if package in said else "both accept")
            counts[kind] = counts.get(kind, 0) + 1
            if "alone" in kind:
                failed += 1
                if counts[kind] <= 2:
                    wanted = "; ".join(said.get(package, ["javac accepts it"]))
                    keep(f"refusal_{package}", ["compile"], joined(text.encode(), b"setup { }\n"), kind, wanted)
                    print(f"{package}: {kind}", flush=True)
    print("\n".join(f"{count} {kind}" for kind, count in sorted(counts.items(), key=lambda pair: -pair[1])))
    print(f"{given.count} texts, {failed} differences that aren't allowed, {time.time() - start:.0f} s")
    return 1 if failed else 0


if __name__ == "__main__":
    sys.exit(main())
