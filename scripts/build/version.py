"""The version of the program. CHANGELOG.md says it, in its first heading; all else that names the version must name the same."""
import re

# What else names it, and how.
NAMED = {
    "listset": r"(?m)^top=.* version=(\S+)$",
    "crates/ls_command_line/src/line.rt": r'\.version\("([^"]*)"\)',
    "CITATION.cff": r"(?m)^version: (\S+)$",
}


def text_of(path):
    with open(path, encoding="utf-8") as file:
        return file.read()


def version(top):
    """Returns the version."""
    return re.search(r"(?m)^## (\d+\.\d+\.\d+)\b", text_of(f"{top}/CHANGELOG.md"))[1]


def others(top):
    """Says which files name another version, or none."""
    for path, how in NAMED.items():
        found = re.findall(how, text_of(f"{top}/{path}"))
        if found != [version(top)]:
            yield f"{path}: its version is {' and '.join(found) or 'nowhere'}, and CHANGELOG.md begins with {version(top)}"
