"""The program as a process: one run of it, what its faults are, and where an input that goes wrong is kept."""
import os
import re
import subprocess

TOP = os.path.dirname(os.path.dirname(os.path.abspath(__file__)))
PROGRAM = f"{TOP}/crates/listset/out/listset"
FOUND = f"{TOP}/fuzz/found"
PLACE = r"0|[1-9][0-9]*"

# Each fault's number, name and place, as docs/FAULTS.md and the printed lines have them.
PLAIN = """1 Memory,2 TooLong,24 ProgramLimit,30 TooManyLocals,31 TooManyCopies,32 CodeTooLong,33 CodeTooLong,35 BadCells,
42 TooManySteps,44 ResultTooLong,51 BadLimit,52 NoThread,54 Disagree,60 BadCount,80 WrongParts,81 NotText,82 ReadFailed,
83 WriteFailed"""
PLACED = """3 BadByte,4 OpenComment,5 BadNumber,6 Syntax,7 TooDeep,21 BadProgram,22 UnknownThing,23 ReferenceResult,40 BadItem,
41 UnknownThread,43 DoesNotFit,53 TurnsSpent,77 BadHistory,78 BadOrder"""
SPANNED = """10 UnknownName,11 TwiceDeclared,12 UnknownType,13 WrongType,14 WrongArguments,15 NotAssignable,16 NoLoop,
17 UnknownLabel,18 MissingReturn,19 ReservedClass,20 Limit"""


def listed(text):
    return "|".join(name.strip() for name in text.split(","))


FAULT = re.compile(rf"fault (({listed(PLAIN)})|({listed(PLACED)}) at ({PLACE})|({listed(SPANNED)}) at ({PLACE})-({PLACE}))\n")


class Done:
    """What one run gave. The status is None where it took too long, and below 0 where a signal ended it."""

    def __init__(self, out, errors, status):
        self.out, self.errors, self.status = out, errors, status

    def told(self):
        return f"status {self.status}, {len(self.out)} bytes {self.out[-200:]!r}, errors {self.errors[:300]!r}"

    def same(self, other):
        return (self.out, self.errors, self.status) == (other.out, other.errors, other.status)


def run(program, words, text, seconds=10):
    """Runs the program once on words and an input."""
    try:
        done = subprocess.run([program, *words], input=text, capture_output=True, timeout=seconds, check=False)
    except subprocess.TimeoutExpired:
        return Done(b"", b"", None)
    return Done(done.stdout, done.stderr, done.returncode)


def joined(*parts):
    """The parts as one input, each cut from the next by a line `%%`."""
    ended = [part if part.endswith(b"\n") or not part else part + b"\n" for part in parts]
    return b"%%\n".join(ended)


def fault_of(done):
    """The number of the fault that a run ended with, or 0."""
    line = FAULT.fullmatch(done.errors.decode("latin-1"))
    return int(line.group(1).split()[0]) if line and done.status == 1 else 0


def span_is_forward(line):
    return line.group(6) is None or int(line.group(6)) <= int(line.group(7))


def keep(name, words, text, came, wanted):
    """Stores an input that goes wrong: the words, the input, what came and what should come."""
    folder = f"{FOUND}/{name}"
    os.makedirs(folder, exist_ok=True)
    notes = {"args": "".join(f"{word}\n" for word in words), "came": f"{came}\n", "wanted": f"{wanted}\n"}
    for file, note in notes.items():
        with open(f"{folder}/{file}", "w", encoding="utf-8", errors="backslashreplace") as out:
            out.write(note)
    with open(f"{folder}/stdin", "wb") as out:
        out.write(text)
    return folder
