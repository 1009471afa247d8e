"""Runs listset where it is installed, as one does who has nothing but the packages that it asks for."""
import glob
import os
import pty
import re
import shutil
import subprocess

TOP = os.path.dirname(os.path.dirname(os.path.dirname(os.path.abspath(__file__))))
SYSTEM = "/usr/bin:/bin"
# The commands that the installed scripts call. Each is in each Debian system.
FEW = "cat date mktemp readlink rm sleep tail wc".split()
# Where the completions of a shell stand.
COMPLETIONS = {
    "bash": "bash-completion/completions/listset",
    "zsh": "zsh/*s/_listset",
    "fish": "fish/vendor_completions.d/listset.fish",
}


def few(room):
    """Returns a folder, to be the PATH, that has the few commands."""
    os.mkdir(f"{room}/few")
    for name in FEW:
        os.symlink(os.path.realpath(shutil.which(name, path=SYSTEM)), f"{room}/few/{name}")
    return f"{room}/few"


def run(words, folder, path, **more):
    """Returns the status of a command, what it prints and what it says. It has no environment but a PATH, and more if that is given."""
    how = {"cwd": folder, "env": {"PATH": path, **more}, "stdin": subprocess.DEVNULL}
    done = subprocess.run(words, capture_output=True, check=False, encoding="utf-8", timeout=60, **how)
    return done.returncode, done.stdout, done.stderr


def at_terminal(words, folder, path, **more):
    """Returns the same of a command whose errors go to a terminal; what is said there isn't returned."""
    ours, theirs = pty.openpty()
    how = {"cwd": folder, "env": {"PATH": path, **more}, "stdin": subprocess.DEVNULL}
    done = subprocess.run(words, stdout=subprocess.PIPE, stderr=theirs, check=False, encoding="utf-8", timeout=60, **how)
    os.close(theirs)
    os.close(ours)
    return done.returncode, done.stdout, ""


def text_of(path):
    with open(path, encoding="utf-8") as file:
        return file.read()


def shown():
    """Returns the class of README.md, and what `find` prints of it there."""
    text = text_of(f"{TOP}/README.md")
    return re.search(r"(?ms)^```file Counter.java\n(.*?)^```", text)[1], re.search(r"(?ms)^\$ cat found.txt\n(.*?)^```", text)[1]


def commands(listset, told, folder, path):
    """Yields what is tried of the commands, in a folder: each try with whether it passed."""
    java, found = shown()
    for name, text in (("Counter.java", java), ("found.txt", found)):
        with open(f"{folder}/{name}", "w", encoding="utf-8") as file:
            file.write(text)
    temporary = f"{folder}/temporary"
    os.mkdir(temporary)
    more = {} if path == SYSTEM else {"TMPDIR": temporary}
    yield "find", run([listset, "find", "Counter.java"], folder, path, **more) == (0, found, "")
    words = [listset, "find", "--menu", "inc()", "--menu", "get()", "Counter.java"]
    yield "find --menu", run(words, folder, path, **more)[1].splitlines()[2:] == found.splitlines()[2:]
    status, page, said = run([listset, "page", "Counter.java", "found.txt"], folder, path, **more)
    whole = re.fullmatch(r'(?s)<!DOCTYPE html>.*\n\{"listset":2,"from":1,"to":22,.*\}\n.*</html>\n', page) is not None
    yield "page", (status, said, whole, "\n@@" in page) == (0, "", True, False)
    inputs = f"{told}/examples"
    history = text_of(f"{inputs}/lost_update.history")
    yield "source", run([listset, "source", f"{inputs}/lost_update.txt"], folder, path, **more) == (0, history, "")
    status, order, said = run([listset, "order", "--explain", f"{inputs}/five_lists/coarse_list.history"], folder, path, **more)
    yield "order --explain", status == 0 and order and said.startswith("listset: in this order each call answers")
    tally = f"{inputs}/recorded_runs/add_lost_sampled.tally"
    yield "merge", run([listset, "merge", tally], folder, path, **more) == (0, text_of(tally), "")
    words = [listset, "explore", "--verdict", "Counter.java", "found.txt"]
    yield "explore at a terminal", at_terminal(words, folder, path, **more)[:2] == run(words, folder, path, **more)[:2]
    yield "nothing left where files are kept for a moment", os.listdir(temporary) == []


def told_of(listset, prefix, path, version):
    """Yields what is tried of the help, the manual page and the completions."""
    yield "--version", run([listset, "--version"], "/", path) == (0, f"listset {version}\n", "")
    status, text, said = run([listset, "help"], "/", path)
    yield "help", (status, said, "Usage: listset <COMMAND> " in text, " prove" in text) == (0, "", True, False)
    yield "help find", run([listset, "help", "find"], "/", path)[1].startswith(text_of(f"{TOP}/docs/help/find.txt")[:40])
    yield "an unknown command", run([listset, "fnd"], "/", path)[0] == 2
    manual = next(f"{prefix}/share/man/man1/{it}" for it in os.listdir(f"{prefix}/share/man/man1"))
    if path == SYSTEM and shutil.which("lexgrog", path=SYSTEM):
        yield "lexgrog", "listset - " in run(["lexgrog", manual], "/", path)[1]
    if path == SYSTEM and shutil.which("man", path=SYSTEM):
        status, text, said = run(["man", "--warnings", "-l", manual], "/", path, LC_ALL="C.UTF-8", MANWIDTH="100")
        yield "man", (status, said) == (0, "") and text.startswith("LISTSET(1)") and "listset find" in text
    for shell, place in COMPLETIONS.items():
        files = glob.glob(f"{glob.escape(prefix)}/share/{place}")
        reads = path == SYSTEM and shutil.which(shell)
        yield f"completions of {shell}", len(files) == 1 and (not reads or run([reads, "-n", *files], "/", path) == (0, "", ""))


def sessions(prefix, path, folder, version):
    """Yields what is tried where listset is installed below a folder: each try with whether it passed."""
    listset = f"{prefix}/bin/listset"
    for what, holds in [*told_of(listset, prefix, path, version), *commands(listset, f"{prefix}/share/doc/listset", folder, path)]:
        yield f"{what}, {os.path.basename(prefix)}, PATH={path}", holds
