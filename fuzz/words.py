"""Command lines: those of a command with values that are in range, and any others."""

COMMANDS = ("compile", "replay", "source", "translate", "live", "batch", "check")
OPTIONS = {"compile": (), "source": (), "check": (), "replay": ("--cells", "--live"), "translate": ("--to", "--cells"),
    "live": ("--cells", "--limit"), "batch": ("--seed", "--count", "--steps", "--cells")}
GREATEST = {"--cells": 4_194_304, "--limit": 1_000_000, "--seed": 2**64 - 1, "--count": 100_000, "--steps": 900_000}
SMALL = {"--cells": (1, 2, 3, 5, 10, 100, 65536, 4_194_304), "--limit": (0, 1, 7, 300, 5000), "--seed": (0, 7, 2**63),
    "--count": (1, 2, 5), "--steps": (0, 1, 30, 300)}
ODD = ("0", "1", "-1", str(2**64), str(2**64 - 1), str(2**63), "x", "", " 1", "1 ", "1.5", "1e3", "0x10", "+1", "01", "٣", "９",
    "1,000", "1_000", "--", "-", "9" * 500, "source", "SOURCE", "mach")


def in_range(r, option):
    if option == "--to":
        return r.choice(("source", "machine"))
    return str(r.choice(SMALL[option]))


def good(r, command, turns=True):
    """A command line that is read, with each needed option and some of the others."""
    words = [command]
    for option in OPTIONS[command]:
        needed = option == "--to" or command == "batch" and option != "--cells"
        if option == "--live":
            words += [option] if turns and r.random() < 0.2 else []
        elif needed or r.random() < 0.3:
            words += given(r, option, in_range(r, option))
    return words


def given(r, option, value):
    return [f"{option}={value}"] if r.random() < 0.2 else [option, value]


def odd_value(r, option):
    """A value at or past the ends of what an option takes."""
    edge = GREATEST.get(option, 1)
    return r.choice((*ODD, str(edge), str(edge + 1), str(edge - 1)))


def odd(r):
    """A command line that is likely wrong: odd values, options twice, missing, or of another command."""
    command = r.choice(COMMANDS)
    words = good(r, command, False)
    everything = [option for options in OPTIONS.values() for option in options] + ["--help", "-h", "--version", "-V", "--nothing", "--"]
    for _ in range(r.choice((1, 1, 2, 3))):
        kind = r.randrange(6)
        if kind == 0 and len(words) > 1:
            del words[r.randrange(len(words))]
        elif kind == 1:
            words.insert(r.randrange(len(words) + 1), r.choice(everything))
        elif kind == 2:
            words.insert(r.randrange(len(words) + 1), r.choice((*ODD, *COMMANDS, "help")))
        else:
            option = r.choice(OPTIONS[command] or ("--cells",))
            words += given(r, option, odd_value(r, option))
    return words


def value_of(words, option, default):
    """The number that an option is last given, or the default."""
    for place, word in enumerate(words):
        if word == option and place + 1 < len(words) and words[place + 1].isdigit():
            default = int(words[place + 1])
        elif word.startswith(f"{option}=") and word[len(option) + 1:].isdigit():
            default = int(word[len(option) + 1:])
    return default


def takes_long(words):
    """Whether a tally of so many steps, or a record of so many, would take more than a second or two."""
    if "batch" in words:
        return value_of(words, "--count", 0) * (2000 + value_of(words, "--steps", 0)) > 3_000_000
    return "live" in words and value_of(words, "--limit", 0) > 100_000
