"""What the scripts share that write a crate's text as plain Rust."""
import re

MANIFEST = """[package]
name = "{name}"
version = "0.1.0"
edition = "2024"

[profile.release]
opt-level = 3
"""


def on_one_line(text):
    """Puts each clause and each ghost member that is broken over lines on one line."""
    lines, open_clause = [], False
    for line in text.splitlines():
        if open_clause:
            lines[-1] += f" {line.strip()}"
        else:
            lines.append(line)
        begins = re.match(r" *(?:(?:pub(?:\(crate\))? )?ghost|requires|ensures)\b", lines[-1])
        open_clause = bool(begins) and lines[-1].count("{") > lines[-1].count("}")
    return "\n".join([*lines, ""])


def without_blocks(text, start):
    """Leaves out each top-level item that begins so and ends at a closing brace in the first column."""
    return re.sub(start + r".*?\n}\n", "", text, flags=re.S | re.M)


def derived(match):
    """The list of derives without those that plain Rust hasn't, with Clone where Copy needs it."""
    names = [name.strip() for name in match.group(1).split(",")]
    kept = ["Clone"] if "Copy" in names and "Clone" not in names else []
    kept += [name for name in names if name not in ("Drop", "Error")]
    return f"#[derive({', '.join(kept)})]" if kept else ""


def write(path, text):
    """Writes a file, with the folders that it stands in."""
    path.parent.mkdir(parents=True, exist_ok=True)
    path.write_text(text)
