"""What ./listset shows that the program doesn't print: help laid out for 80 columns, and the page round the data of a run."""
import os
import re

WIDTH = 80
# Behind which words of a help page the parts are such files. Of several that stand there the last one holds.
FILES = (
    ("three parts", "my.java my.program my.schedule"),
    ("three or four parts", "my.java my.program my.schedule my.order"),
    ("two parts, class", "my.java my.program"),
    ("two parts, a history", "my.history my.order"),
    ("input is a history", "my.history"),
    ("input has a history, or class", "my.java my.program my.history"),
    ("nput is a class text", "my.java my.menu"),
    ("program and targets", "my.java my.program my.targets"),
    ("input is tallies", "my.tally more.tally"),
)
NAMED = """
The parts can be named as files, in this order; one file may have several, - is
standard input, and after -- each word is a file:
  listset {command} {files}
"""
JAVA = """
The file can be named, and then its name stands before what is said of it:
  listset java My.java > my.java
"""
MENU = """
A line of the menu can be a word, and so can one of the setup alone:
  listset find --menu 'lock(#); inc(); unlock(#)' --menu 'get()' my.java
  listset find --setup-menu 'fill(2)' my.java
"""
LIKE = """
The other class text can be a word:
  listset {command} --spec Reference.java {files}
"""
PAGE = """
The page is put round what the program prints:
  listset page my.java my.program my.schedule > run.html
Without a schedule one chooses on the page who steps next:
  listset page my.java my.program > play.html
With --data the data are printed alone.
"""


def column(line):
    """Returns below which column a broken line goes on: where what is said of an option or a command begins, or two past the indent."""
    found = re.match(r" +[^ ]+( <[A-Z]+>)?(, --[a-z]+)? ( |$)+", line)
    indent = len(line) - len(line.lstrip(" "))
    return len(found[0]) if found else indent + 2 * (indent > 0)


def broken(line):
    """Returns a line as lines that end at the last column at the latest, where it can be broken at a space."""
    indent, lines = " " * column(line), []
    while len(line) > WIDTH and (at := line.rfind(" ", len(indent) + 1, WIDTH + 1)) > 0:
        lines.append(line[:at])
        line = indent + line[at + 1 :]
    return "".join(f"{it}\n" for it in [*lines, line])


def shell_lines(text):
    """Returns a help page with a line for each command of a pipe."""
    return re.sub(r"(?m)^  (?:printf|listset) .*", lambda it: it[0].replace(" | ", " |\n    "), text)


def help_text(text, own, installed):
    """Returns a help page of the program laid out, with how files are named. The script is called by its own name, and is installed or
    stands in a checkout."""
    command = re.search(r"(?m)^Usage: listset ([a-z]*)", text)[1]
    more = " [FILE]..." if command else " [OPTIONS] [FILE]..."
    text = shell_lines(re.sub(r"(?m)^Usage: listset .*", lambda it: it[0] + more, text))
    shown = "".join(map(broken, text.splitlines()))
    if not command:
        prove = "" if installed else f"Besides these, '{own} prove' proves and builds the program.\n"
        return f"{shown}\n{prove}Parts can be named as files: '{own} source my.java my.program my.schedule'.\n"
    files = [names for words, names in FILES if words in text][-1:] or [""]
    shown += (JAVA if command == "java" else NAMED) + (MENU if command == "find" else "") + (LIKE if re.search("(?m)^ +--spec ", text) else "")
    shown = shown.replace("{command}", command).replace("{files}", files[0])
    if command == "page":
        shown += PAGE + ("" if installed else "scripts/make/page puts the page round them.\n")
    return shown


def whole(path):
    """Returns the file of a page, in which a line `@@ FILE` stands for that file of the same folder."""
    with open(path, "rb") as file:
        text = file.read()
    names = {it: f"{os.path.dirname(path)}/{it.decode()}" for it in re.findall(rb"(?m)^@@ (.*)$", text)}
    return re.sub(rb"(?m)^@@ (.*)\n", lambda it: kept(names[it[1]]), text)


def kept(path):
    with open(path, "rb") as file:
        return file.read()


def halves(path):
    """Returns what stands before the line of the data in the file of a page, and what stands after it."""
    head, _, tail = whole(path).partition(b"\n@@\n")
    return head + b"\n", tail
