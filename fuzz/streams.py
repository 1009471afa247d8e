"""Streams that fail: a reader that is a directory or closed, a writer that is full, closed or shut by its reader.

82 is what a reader that fails gives, 83 a writer that fails, each with status 1; where the writer of faults fails too, the status
stays. What a closed descriptor is to a program hangs on its start, so there either the fault or the usual answer is taken."""
import os
import subprocess

TEXT = b"class C { int f() { return 1; } }\n%%\nsetup { s = new C(); } thread A { s.f(); }\n%%\nsetup*99 A*99\n"
CALLS = b"".join(b"s.f(); " for _ in range(250))
MANY = b" ".join(b"thread A%d { %b}" % (i, CALLS) for i in range(16))
LONG = b"class C { int f() { return 1; } }\n%%\nsetup { s = new C(); } " + MANY + b"\n%%\nsetup*99 all*9999\n"


def shell(program, words, redirections, text):
    """Runs the program with redirections of a shell; answers status, output and errors."""
    line = f'exec "$0" {words} {redirections}'
    done = subprocess.run(["sh", "-c", line, program], input=text, capture_output=True, timeout=20, check=False)
    return done.returncode, done.stdout, done.stderr


def redirected(program):
    """Streams that a shell can spoil, as (name, what came, what may come)."""
    read, write = (1, b"", b"fault 82 ReadFailed\n"), (1, b"", b"fault 83 WriteFailed\n")
    history = shell(program, "source", "", TEXT)
    faults = shell(program, "compile", "", b"x")
    yield "directory_as_reader", shell(program, "source", "< /", TEXT), [read]
    yield "closed_reader", shell(program, "source", "<&-", TEXT), [read, (1, b"", b"fault 80 WrongParts\n")]
    yield "reader_for_writing", shell(program, "source", "0> /dev/null", TEXT), [read, (1, b"", b"fault 80 WrongParts\n")]
    yield "nothing_as_reader", shell(program, "source", "< /dev/null", TEXT), [(1, b"", b"fault 80 WrongParts\n")]
    yield "full_writer", shell(program, "source", "> /dev/full", TEXT), [write]
    yield "full_writer_of_much", shell(program, "source", "> /dev/full", LONG), [write]
    yield "full_writer_of_a_schedule", shell(program, "translate --to machine", "> /dev/full", TEXT), [write]
    yield "closed_writer", shell(program, "source", ">&-", TEXT), [write, (0, b"", b"")]
    yield "writer_for_reading", shell(program, "source", "1< /dev/null", TEXT), [write]
    yield "full_writer_of_faults", shell(program, "compile", "2> /dev/full", b"x"), [(1, b"", b"")]
    yield "closed_writer_of_faults", shell(program, "compile", "2>&-", b"x"), [(1, b"", b"")]
    yield "both_writers_full", shell(program, "source", "> /dev/full 2> /dev/full", TEXT), [(1, b"", b"")]
    yield "full_writer_of_faults_unused", shell(program, "source", "2> /dev/full", TEXT), [history]
    yield "bad_line_full", shell(program, "source --x", "2> /dev/full", TEXT), [(2, b"", b"")]
    yield "help_full", shell(program, "--help", "> /dev/full", TEXT), [shell(program, "--help", "", TEXT)]
    yield "directory_before_a_bad_line", shell(program, "source --x", "< /", TEXT), [shell(program, "source --x", "", TEXT)]
    yield "fault_and_full_writer", shell(program, "compile", "> /dev/full", b"x"), [faults]


def shut(program, bytes_read):
    """The writer is a pipe whose reader goes away after so many bytes; answers status, what was read, errors."""
    child = subprocess.Popen([program, "source"], stdin=subprocess.PIPE, stdout=subprocess.PIPE, stderr=subprocess.PIPE)
    begun = b""
    if not bytes_read:
        child.stdout.close()
    child.stdin.write(LONG)
    child.stdin.close()
    if bytes_read:
        begun = os.read(child.stdout.fileno(), bytes_read)
        child.stdout.close()
    errors = child.stderr.read()
    return child.wait(20), begun, errors


def checked(program):
    """Gives each stream's name and what is wrong with it, or None."""
    whole = shell(program, "source", "", LONG)[1]
    for name, came, wanted in redirected(program):
        yield name, None if came in wanted else f"came {came!r}, wanted {wanted!r}"
    for size in (0, 1, 1000):
        status, begun, errors = shut(program, size)
        right = status == 1 and errors == b"fault 83 WriteFailed\n" and whole.startswith(begun)
        yield f"reader_gone_after_{size}", None if right else f"status {status}, errors {errors!r}, {len(begun)} of {len(whole)} bytes"
