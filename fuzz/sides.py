"""Comparisons of one program's runs with one another. Each answers None, or what `keep` stores of the run that is wrong."""
from readers import read_schedule
from tool import fault_of, joined, run

NO_TRANSLATION = (33, 43, 44)


def there_and_back(program, parts, schedule, tally, command, side, other):
    """A schedule's history against that of its translation on the other side."""
    text = joined(*parts, schedule)
    history = run(program, [command], text)
    if history.status != 0:
        return [command], text, history.told(), "a history"
    translated = run(program, ["translate", "--to", side], text)
    if translated.status != 0 and fault_of(translated) in NO_TRANSLATION:
        tally.add(f"no translation, fault {fault_of(translated)}")
        return None
    again = run(program, [other], joined(*parts, translated.out))
    if translated.status != 0 or not again.same(history):
        return ["translate", "--to", side], text, f"{translated.told()}\nthere {again.told()}", f"the history {history.told()}"
    tally.add(f"to the {side}")
    return None


def to_machine(program, parts, schedule, random, tally):
    return there_and_back(program, parts, schedule, tally, "source", "machine", "replay")


def to_source(program, parts, schedule, random, tally):
    return there_and_back(program, parts, schedule, tally, "replay", "source", "source")


def by_turns(program, parts, schedule, random, tally):
    """Live threads in the schedule's turns give what one machine gives."""
    text = joined(*parts, schedule)
    history, live = run(program, ["replay"], text), run(program, ["replay", "--live"], text, 60)
    if fault_of(live) in (52, 53):
        tally.add(f"by turns, fault {fault_of(live)}")
        return None
    tally.add("by turns")
    return None if live.same(history) else (["replay", "--live"], text, live.told(), history.told())


def live_record(program, parts, schedule, random, tally):
    """What live threads recorded, replayed."""
    words = ["live", "--limit", str(random.choice((0, 1, 50, 2000)))]
    live = run(program, words, joined(*parts), 60)
    record, _, history = live.out.partition(b"\n")
    again = run(program, ["replay"], joined(*parts, record + b"\n"))
    tally.add("live records")
    if live.status == 0 and again.status == 0 and again.out == history:
        return None
    return words, joined(*parts), f"{live.told()}\nreplayed {again.told()}", "the record's history"


def twice(program, parts, schedule, random, tally):
    """A translation translated back and once more is as it was, and has the same history."""
    first = run(program, ["translate", "--to", "machine"], joined(*parts, schedule))
    if first.status != 0:
        return None
    back = run(program, ["translate", "--to", "source"], joined(*parts, first.out))
    again = run(program, ["translate", "--to", "machine"], joined(*parts, back.out))
    tally.add("translated back")
    if again.same(first):
        return None
    return ["translate", "--to", "machine"], joined(*parts, back.out), again.told(), first.told()


def words_of(seed):
    """The words of SplitMix64 from a seed."""
    mask = 2**64 - 1
    while True:
        seed = (seed + 0x9E3779B97F4A7C15) & mask
        word = ((seed ^ (seed >> 30)) * 0xBF58476D1CE4E5B9) & mask
        word = ((word ^ (word >> 27)) * 0x94D049BB133111EB) & mask
        yield word ^ (word >> 31)


def sampled(seed, names, steps):
    """The schedule that a seed stands for, behind the setup's."""
    chosen = [names[word % len(names)] for word, _ in zip(words_of(seed), range(steps))] if names else []
    return (" ".join(["setup*100000", *chosen]) + "\n").encode()


def names_of(parts):
    words = parts[1].decode().split()
    return [words[place + 1] for place, word in enumerate(words) if word == "thread"]


def tallied(program, parts, schedule, random, tally):
    """A tally against the replays of its seeds, one after the other."""
    first, count, steps = random.choice((0, 7, 2**64 - 3, random.randrange(2**64 - 9))), 3, random.choice((0, 40, 300))
    words = ["batch", "--seed", str(first), "--count", str(count), "--steps", str(steps)]
    batch = run(program, words, joined(*parts))
    histories = {}
    for seed in range(first, first + count):
        done = run(program, ["replay"], joined(*parts, sampled(seed, names_of(parts), steps)))
        histories.setdefault(done.out.decode(), []).append(seed)
    wanted = "".join(f"seed {seeds[0]} count {len(seeds)}\n{history}\n" for history, seeds in histories.items())
    tally.add("tallies")
    return None if batch.status == 0 and batch.out.decode() == wanted else (words, joined(*parts), batch.told(), wanted)


def few_cells(program, parts, schedule, random, tally):
    """In few cells: 43 names the first step that has no room, and what is translated has the source's history there."""
    cells = ["--cells", str(random.choice((3, 5, 8, 12, 20, 40, 100)))]
    translated = run(program, ["translate", "--to", "machine", *cells], joined(*parts, schedule))
    if fault_of(translated) == 35:
        return None
    names = ["setup", *names_of(parts)]
    steps = [names[step] for step in read_schedule(schedule.decode(), names[1:])]
    tally.add(f"in few cells, fault {fault_of(translated)}")
    if fault_of(translated) == 43:
        return too_few(program, parts, steps, cells, translated)
    source = run(program, ["source"], joined(*parts, schedule))
    there = run(program, ["replay", *cells], joined(*parts, translated.out))
    return None if there.same(source) or translated.status else (cells, joined(*parts, schedule), there.told(), source.told())


def too_few(program, parts, steps, cells, translated):
    """The steps before the one that is named fit; with it they don't."""
    words, place = ["translate", "--to", "machine", *cells], int(translated.errors.split()[-1])
    before = run(program, words, joined(*parts, " ".join(steps[:place]).encode() + b"\n"))
    behind = run(program, words, joined(*parts, " ".join(steps[:place + 1]).encode() + b"\n"))
    if before.status == 0 and behind.same(translated):
        return None
    return words, joined(*parts, " ".join(steps).encode() + b"\n"), f"before {before.told()}, with it {behind.told()}", translated.told()


def stopped(program, parts, schedule, random, tally):
    """A machine that may stop for want of cells, played by the source as far as it came."""
    cells = ["--cells", str(random.choice((3, 5, 8, 12, 20, 40, 100)))]
    text = joined(*parts, schedule)
    history, translated = run(program, ["replay", *cells], text), run(program, ["translate", "--to", "source", *cells], text)
    if fault_of(history) == fault_of(translated) == 35:
        return None
    there = run(program, ["source"], joined(*parts, translated.out))
    tally.add("stopped or not, to the source")
    return None if there.same(history) else (["replay", *cells], text, history.told(), there.told())


CHECKS = (to_machine, to_source, by_turns, live_record, twice, tallied, few_cells, stopped)
