"""What must hold of every run, whatever its input: each claim answers None, or what is wrong."""
import re

from tool import FAULT, fault_of, joined, run, span_is_forward

TEXTS = {*range(1, 8), *range(10, 21), *range(21, 25), 30, 31, 32, 33, 80, 81}
MAY = {"compile": TEXTS, "source": TEXTS | {40, 41, 42}, "replay": TEXTS | {35, 40, 41, 42, 52, 53},
    "translate": TEXTS | {35, 40, 41, 42, 43, 44}, "live": TEXTS | {35, 51, 52}, "batch": TEXTS | {35, 60}, "check": {1, 77, 78, 80, 81}}
PARTS = {"compile": 2, "live": 2, "batch": 2, "check": 2, "replay": 3, "source": 3, "translate": 3}
NAME = rb"[A-Za-z_$][A-Za-z0-9_$]*"
ITEM = rb"%b(?:\*(?:[2-9]|[1-9][0-9]+))?" % NAME
SCHEDULE = re.compile(rb"@2(?: %b)*\n" % ITEM)
EVENT = rb"%b\.[1-9][0-9]*(?: call [^\n]*| return(?: -?[0-9]+| true| false)?| trap [A-Za-z]+)\n" % NAME
HISTORY = re.compile(rb"(?:%b)*" % EVENT)
TALLY = re.compile(rb"(?:seed [0-9]+ count [1-9][0-9]*\n(?:%b)*\n)*" % EVENT)
SHAPES = {"compile": re.compile(rb"classes [0-9]+\nmethods [0-9]+\nthreads [0-9]+\n"), "replay": HISTORY, "source": HISTORY,
    "translate": SCHEDULE, "live": re.compile(rb"@2[^\n]*\n(?:%b)*" % EVENT), "batch": TALLY,
    "check": re.compile(rb"legal\n|broken 7[1-6] %b\.[1-9][0-9]*\n" % NAME)}


def parts_of(text):
    """The parts of an input, cut at lines that are exactly `%%`."""
    parts, lines = [], []
    for line in text.split(b"\n"):
        if line == b"%%":
            parts.append(b"\n".join(lines))
            lines = []
        else:
            lines.append(line)
    return parts + [b"\n".join(lines)]


def command_of(words):
    return words[0] if words and words[0] in PARTS else None


def status_is_known(case, done):
    if done.status is None:
        return "over 10 s"
    return None if done.status in (0, 1, 2) else f"status {done.status}"


def streams_fit(case, done):
    """Status 0 has no errors, 1 no output and one fault line, 2 no output and a text."""
    if done.status == 0:
        return "errors with status 0" if done.errors else None
    if done.out:
        return f"output with status {done.status}"
    if done.status == 2:
        return None if done.errors else "status 2 without a text"
    line = FAULT.fullmatch(done.errors.decode("latin-1"))
    return None if line and span_is_forward(line) else "no documented fault line"


def fault_fits(case, done):
    """The command may give that fault, and its place is in the part that it counts in."""
    command, fault = command_of(case.words), fault_of(done)
    if not fault or not command:
        return None
    if fault not in MAY[command]:
        return f"{command} gave fault {fault}"
    return place_fits(case, done, fault, command)


def place_fits(case, done, fault, command):
    part = 0 if 3 <= fault <= 20 or fault == 77 else 1 if fault in (21, 22, 23, 78) else 2 if fault in (40, 41) else None
    if part is None:
        return None
    last = int(re.findall(rb"[0-9]+", done.errors)[-1])
    size = len(parts_of(case.text)[part])
    return f"place {last} of {size} bytes" if last > size else None


def output_fits(case, done):
    """The output has the form of its command's, and the input as many parts as that reads."""
    command = command_of(case.words)
    if done.status == 0 and command:
        if len(parts_of(case.text)) != PARTS[command]:
            return "another number of parts was taken"
        if not SHAPES[command].fullmatch(done.out):
            return "output of another form"
    return None


def counted_right(case, done):
    """80 comes exactly where the number of parts is another, behind 81."""
    command, fault = command_of(case.words), fault_of(done)
    if not command or done.status == 2:
        return None
    text = is_text(case.text)
    if (fault == 81) != (not text):
        return "81 on a text" if text else "no 81"
    if text and (fault == 80) != (len(parts_of(case.text)) != PARTS[command]):
        return f"{len(parts_of(case.text))} parts"
    return None


def is_text(text):
    try:
        text.decode("utf-8")
    except UnicodeDecodeError:
        return False
    return True


ALONE = (status_is_known, streams_fit, fault_fits, output_fits, counted_right)


def same_twice(program, case, done):
    if command_of(case.words) == "live":
        return None
    again = run(program, case.words, case.text)
    return None if again.same(done) else f"then {again.told()}"


def cells_of(words):
    """The words that give cells, as they were given."""
    given = [[word, words[place + 1]] for place, word in enumerate(words[:-1]) if word == "--cells"]
    return (given + [[word] for word in words if word.startswith("--cells=")] + [[]])[0]


def history_is_read(program, case, done):
    """A printed history is read by `check`, with an empty order."""
    check = run(program, ["check"], joined(done.out, b""))
    return None if check.status == 0 or check.errors == b"fault 1 Memory\n" else f"check: {check.told()}"


def translation_agrees(program, case, done):
    """The schedule of the other side has the same history there."""
    side, other = ("source", "source") if case.words[0] == "replay" else ("machine", "replay")
    cells = cells_of(case.words) if case.words[0] == "replay" else []
    translated = run(program, ["translate", "--to", side, *cells], case.text)
    if side == "machine" and fault_of(translated) in (43, 44):
        return None
    if translated.status != 0:
        return f"translate: {translated.told()}"
    again = run(program, [other], joined(*parts_of(case.text)[:2], translated.out))
    return None if again.same(done) else f"there: {again.told()}"


def beginning_agrees(program, case, done):
    """The history of the schedule without its last items is a beginning of the history."""
    parts = parts_of(case.text)
    items = parts[2].split()
    if b"(" in parts[2]:
        return None
    shorter = b" ".join(items[:len(items) // 2]) + b"\n"
    before = run(program, case.words, joined(parts[0], parts[1], shorter))
    return None if before.status == 0 and done.out.startswith(before.out) else f"beginning: {before.told()}"


def gaps_agree(program, case, done):
    """Other gaps between the tokens change nothing."""
    parts = parts_of(case.text)
    if b"//" in parts[0] + parts[1]:
        return None
    other = [part.replace(b"\n", b"\r\n /**/").replace(b" ", b"\t ") for part in parts[:2]] + [b"\r\n".join(part.split()) for part in parts[2:]]
    if any(len(part) > 262_144 for part in other) or b"/*" in parts[0] + parts[1]:
        return None
    again = run(program, case.words, joined(*other))
    return None if again.same(done) else f"other gaps: {again.told()}"


def cells_agree(program, case, done):
    """With fewer cells the history is a beginning of it, or the cells are too few for the names."""
    fewer = run(program, ["replay", "--cells", "7"], case.text)
    if fault_of(fewer) == 35:
        return None
    same = done.out.startswith(fewer.out) or fewer.out.startswith(done.out)
    return None if fewer.status == 0 and same else f"7 cells: {fewer.told()}"


def record_replays(program, case, done):
    record, _, history = done.out.partition(b"\n")
    again = run(program, ["replay", *cells_of(case.words)], joined(*parts_of(case.text), record + b"\n"))
    return None if again.status == 0 and again.out == history else f"replayed: {again.told()}"


def schedule_is_whole(program, case, done):
    """A printed schedule joins neighbours, and its own translation back and forth is itself."""
    names = [item.split(b"*")[0] for item in done.out.split()[1:]]
    if any(one == two for one, two in zip(names, names[1:])) or b"all" in names:
        return "neighbours of one thread aren't joined"
    return None


BEHIND = {"replay": (history_is_read, translation_agrees, beginning_agrees, gaps_agree, cells_agree),
    "source": (history_is_read, translation_agrees, beginning_agrees, gaps_agree), "live": (record_replays,),
    "translate": (schedule_is_whole, gaps_agree), "compile": (gaps_agree,), "batch": (gaps_agree,), "check": ()}


def wrong_with(program, case, thorough):
    """Runs a case and answers the claim that fails, with what came; None where all hold."""
    done = run(program, case.words, case.text)
    for claim in ALONE:
        wrong = claim(case, done)
        if wrong:
            return claim.__name__, f"{wrong}: {done.told()}", done
    claims = [same_twice] + (list(BEHIND.get(command_of(case.words), ())) if done.status == 0 and thorough else [])
    for claim in claims:
        wrong = claim(program, case, done)
        if wrong:
            return claim.__name__, f"{wrong}, first {done.told()}", done
    return None, None, done
