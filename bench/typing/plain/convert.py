#!/usr/bin/env python3
"""Writes the same parser and checker in plain Rust, as a Cargo project, from the crates' own text: clauses and ghost items
are left out, and an allocation can't fail. Usage: convert.py FOLDER"""
import pathlib
import re
import sys

sys.dont_write_bytecode = True

sys.path.insert(0, str(pathlib.Path(__file__).resolve().parents[2]))
from plain_rust import MANIFEST, derived, on_one_line, write

HERE = pathlib.Path(__file__).resolve().parent
CRATES = HERE.parents[2] / "crates"
OUT = pathlib.Path(sys.argv[1])
NAMES = ("ls_lexer", "ls_events", "ls_tree", "ls_parser_tokens", "ls_parser_expressions", "ls_parser_declarations",
         "ls_parser_statements", "ls_parser", "ls_checked", "ls_types_elaboration", "ls_types_tables",
         "ls_together", "ls_types_expressions", "ls_types_statements", "ls_types_checked", "ls_types_files")
# crates whose code stands in their root
ROOTS = ("ls_together",)
KEPT = {"ls_events": ("value",), "ls_checked": ("tree",), "ls_types_checked": ("checked",)}


def plain(text):
    text = on_one_line(text)
    text = re.sub(r"^ *#!?\[(tactic|cycle).*\n", "", text, flags=re.M)
    text = re.sub(r"^impl(<[^\n]*>)? (Clone for|From<AllocFailed).*?\n}\n", "", text, flags=re.S | re.M)
    text = re.sub(r"^ghost use [^;]*;\n", "", text, flags=re.M)
    text = re.sub(r"^( *///.*\n)+( *pub ghost )", r"\2", text, flags=re.M)
    text = re.sub(r"^ *(pub(\(crate\))? )?ghost .*\n", "", text, flags=re.M)
    text = re.sub(r"^ *(requires|ensures)\b.*\n", "", text, flags=re.M)
    text = re.sub(r"(fn fmt)<W: Write>(\(&self, f: &mut Formatter)<W>", r"\1\2<'_>", text)
    text = re.sub(r"^use (std::alloc|thiserror|ls_types_laws).*\n", "", text, flags=re.M)
    text = re.sub(r"^ *elaborates_well_typed\(\);\n", "", text, flags=re.M)
    text = re.sub(r"^ *#\[error.*\n", "", text, flags=re.M)
    text = re.sub(r"#\[derive\((.*?)\)\]", derived, text)
    text = re.sub(r": Drop\b", "", text)
    text = re.sub(r"\bBox::into_inner\(", "*(", text)
    text = without_mark(text, r"\.(?:push|insert|extend_from_slice)\(|\b(?:Box::new|Vec::from_slice|String::from_str)\(")
    text = re.sub(r"\b(Vec|IndexMap|IndexSet)::new\([\w.]*alloc\)", r"\1::new()", text)
    text = re.sub(r"\bBox::new\(\s*[\w.]*alloc,\s*", "Box::new(", text)
    text = re.sub(r"\bVec::from_slice\(\s*[\w.]*alloc,\s*", "<[_]>::to_vec(", text)
    return re.sub(r"\bString::from_str\(\s*[\w.]*alloc,\s*", "String::from(", text)


def without_mark(text, calls):
    """Leaves out the question mark behind each of these calls."""
    for call in reversed(list(re.finditer(calls, text))):
        end, depth = call.end(), 1
        while depth:
            depth += {"(": 1, ")": -1}.get(text[end], 0)
            end += 1
        mark = re.match(r"\s*\?", text[end:])
        if mark:
            text = text[:end] + text[end + mark.end():]
    return text


def placed(text, crate):
    text = text.replace("crate::", f"crate::{crate}::").replace("//!", "//")
    text = re.sub(r"\buse (ls_\w+|indexmap)::", r"use crate::\1::", text)
    return "#[allow(unused_imports)]\nuse crate::memory::*;\n" + text


def main():
    for crate in NAMES:
        paths = sorted((CRATES / crate / "src").glob("*.rt"))
        files = [path for path in paths if (path.stem not in ("lib", "tests", "laws", "spelling") or crate in ROOTS) and path.stem in KEPT.get(crate, [path.stem])]
        for path in files:
            write(OUT / f"src/{crate}/{path.stem}.rs", placed(plain(path.read_text()), crate))
        write(OUT / f"src/{crate}/mod.rs", "".join(f"pub mod {path.stem};\n" for path in files) + "pub use lib::*;\n" * (crate in ROOTS))
    for path in HERE.glob("*.rs"):
        write(OUT / f"src/{path.name}", path.read_text())
    write(OUT / "Cargo.toml", MANIFEST.format(name="plain_typing"))


main()
