"""The data of a page, put together from what other commands print: what `page` must print."""
import re
import subprocess


class Refused(Exception):
    """A command ended with another status than 0."""


class Listset:
    """The program at a path."""

    def __init__(self, program):
        self.program = program

    def run(self, command, parts, *options):
        words = [self.program, command, *options]
        done = subprocess.run(words, input=joined(parts).encode(), capture_output=True, check=False)
        if done.returncode:
            raise Refused(done.stderr.decode())
        return done.stdout.decode()

    def threads(self, classes, program):
        """The names of the threads, the setup's first."""
        lines = self.run("state", [classes, program, ""]).splitlines()
        return [re.match(r"[\w$]+", line)[0] for line in lines if not re.match(r"[\w$]+ = ", line)]


def joined(parts):
    """Parts as one input. No part but the last has the line feed before the line that cuts it from the next."""
    return "\n%%\n".join(parts)


def cut(text):
    """The parts of an input, at lines that are exactly %%."""
    parts, part = [], []
    for line in text.split("\n"):
        if line == "%%":
            parts.append("\n".join(part))
            part = []
        else:
            part.append(line)
    return [*parts, "\n".join(part)]


def quoted(text):
    """A text as a JSON string that may stand in an element `script`, since no `<` is in it."""
    def one(found):
        it = found[0]
        return "\\" + it if it in '"\\' else f"\\u{ord(it):04x}"
    return '"' + re.sub(r'[\x00-\x1f\x7f"\\<]', one, text) + '"'


def steps_of(schedule, threads):
    """The steps of a schedule, as names."""
    version = re.match(r"\s*@2(?=[\s(]|$)", schedule)
    text = schedule[version.end():] if version else schedule
    open_groups = [[]]
    for name, times, close, again in re.findall(r"([A-Za-z_$][\w$]*)(?:\*([0-9]+))?|([()])(?:\*([0-9]+))?", text):
        if name:
            each = threads[1:] if name == "all" else [name]
            open_groups[-1] += each * int(times or 1) if each else []
        elif close == "(":
            open_groups.append([])
        else:
            group = open_groups.pop()
            open_groups[-1] += group * int(again or 1) if group else []
    return open_groups[0]


def schedule_of(steps):
    """A schedule with these steps."""
    items, at = [], 0
    while at < len(steps):
        end = at
        while end < len(steps) and steps[end] == steps[at]:
            end += 1
        items.append(f"{steps[at]}*{end - at}")
        at = end
    return " ".join(items)


def changes(trace):
    """The lines of a trace, without those that say what the line before says."""
    lines = trace.splitlines(keepends=True)
    said = [None] + [line.split(" ", 1)[1] for line in lines]
    return "".join(line for line, words, before in zip(lines, said[1:], said) if words != before)


def data_of(tool, parts, first=1, last=None):
    """The line that `page --from FIRST --to LAST` prints of three parts, or of four."""
    classes, program, schedule = parts[:3]
    steps = steps_of(schedule, tool.threads(classes, program))

    def after(count):
        return [classes, program, schedule_of(steps[:count])]

    end = len(steps) if last is None else min(last, len(steps))
    told = ["--from", str(first)] + ([] if last is None else ["--to", str(last)])
    pairs = [("classes", classes), ("program", program), ("schedule", schedule)]
    pairs += [("past", tool.run("source", after(first - 1))), ("before", tool.run("state", after(first - 1)))]
    pairs += [("trace", changes(tool.run("trace", parts[:3], *told))), ("after", tool.run("state", after(end)))]
    if len(parts) > 3:
        history = tool.run("source", after(end))
        pairs += [("order", parts[3]), ("verdict", tool.run("check", [history, parts[3]]))]
    told = ",".join(f'"{key}":{quoted(text)}' for key, text in pairs)
    return f'{{"listset":2,"from":{first},"to":{end},{told}}}\n'
