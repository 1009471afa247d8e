#!/usr/bin/env python3
"""Writes the same source stepper in plain Rust, as a Cargo project, from the crates' own text: clauses and ghost items are
left out, and an allocation can't fail (its error has no value, and no room is made ahead). The trees that the proved
program reads from texts are made by hand, in trees.rs. Usage: convert.py FOLDER"""
import pathlib
import re
import sys

sys.dont_write_bytecode = True

sys.path.insert(0, str(pathlib.Path(__file__).resolve().parents[3] / "bench"))
from plain_rust import MANIFEST, derived, on_one_line, without_blocks, write

HERE = pathlib.Path(__file__).resolve().parent
CRATES = HERE.parents[1]
OUT = pathlib.Path(sys.argv[1])
FILES = {
    "ls_events": ("action", "event", "kind", "value"),
    "ls_checked": ("program", "tree"),
    "ls_meaning": ("completion", "sort", "step"),
    "ls_source_store": ("lookups", "store", "thing", "value"),
    "ls_source_pending": ("calls", "expressions", "onward", "operands", "pending", "stack", "tables", "work"),
    "ls_source_moves": ("endings", "moves", "settling", "statements"),
    "ls_source": ("next", "playing", "run", "store_and_events", "thread"),
}


def plain(text):
    text = on_one_line(text)
    text = re.sub(r"^ *#!?\[(tactic|cycle).*\n", "", text, flags=re.M)
    text = without_blocks(text, r"^impl(<[^\n]*>)? Clone for ")
    text = re.sub(r"^( *///.*\n)+( *pub ghost )", r"\2", text, flags=re.M)
    text = re.sub(r"^ *(pub )?ghost .*\n", "", text, flags=re.M)
    text = re.sub(r"^ *(requires|ensures)\b.*\n", "", text, flags=re.M)
    text = re.sub(r"^use std::alloc.*\n", "", text, flags=re.M)
    text = re.sub(r"#\[derive\((.*?)\)\]", derived, text)
    text = re.sub(r"^ *\S*\.reserve\(\d\)\?;\n", "", text, flags=re.M)
    text = re.sub(r"\b(Vec|BTreeMap)::new\(alloc\)", r"\1::new()", text)
    text = re.sub(r"(\.(?:push|insert|extend_from_slice)\([^;]*?\))\?;", r"\1;", text)
    text = re.sub(r"match (\w+\.push\(\w+\)) \{", r"match Ok::<(), AllocError>(\1) {", text)
    text = text.replace("return Err(AllocError);", "unreachable!();")
    text = text.replace("=> Err(AllocError),", "=> unreachable!(),")
    text = re.sub(r"^( *)Err\(AllocError\)$", r"\1unreachable!()", text, flags=re.M)
    return text


def placed(text, crate):
    text = text.replace("crate::", f"crate::{crate}::" if crate else "crate::")
    text = re.sub(r"\buse (ls_\w+)::", r"use crate::\1::", text)
    return "use crate::{AllocError, Global};\n" + text


def main():
    for crate, files in FILES.items():
        for file in files:
            text = (CRATES / crate / f"src/{file}.rt").read_text()
            write(OUT / f"src/{crate}/{file}.rs", placed(plain(text), crate))
        write(OUT / f"src/{crate}/mod.rs", "".join(f"pub mod {file};\n" for file in files))
    timing = (CRATES / "bench_source/src/timing.rt").read_text()
    write(OUT / "src/timing.rs", placed(plain(timing), ""))
    for name in ("main.rs", "trees.rs"):
        write(OUT / f"src/{name}", (HERE / name).read_text())
    write(OUT / "Cargo.toml", MANIFEST.format(name="plain_source"))


main()
