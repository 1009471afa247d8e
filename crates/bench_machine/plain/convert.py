#!/usr/bin/env python3
"""Writes the same interpreter in plain Rust, as a Cargo project, from the crates' own text: clauses and ghost items are
left out, and an allocation can't fail. Usage: convert.py FOLDER"""
import pathlib
import re
import sys

sys.dont_write_bytecode = True

sys.path.insert(0, str(pathlib.Path(__file__).resolve().parents[3] / "bench"))
from plain_rust import MANIFEST, derived, on_one_line, without_blocks, write

CRATES = pathlib.Path(__file__).resolve().parents[2]
OUT = pathlib.Path(sys.argv[1])
# tests, and what keeps states for explorations, which no comparison runs
LEFT_OUT = ("tests", "saving")


def plain(text, crate):
    text = on_one_line(text)
    text = text.replace("#![tactic(auto)]\n", "")
    # nothing that is timed saves a machine
    text = re.sub(r"^pub (mod saving|use machine::saving)\b.*\n", "", text, flags=re.M)
    text = text.replace(".to_vec(alloc)?", ".to_vec()")
    text = text.replace(".push_reserved(", ".push(")
    text = re.sub(r"^#\[tactic.*\n", "", text, flags=re.M)
    text = without_blocks(text, r"^impl Model for ")
    text = without_blocks(text, r"^impl From<AllocError> for LoadFault")
    text = without_blocks(text, r"^impl(<[^\n]*>)? Clone for ")
    text = re.sub(r"^ *ghost .*\n", "", text, flags=re.M)
    text = re.sub(r"^ *(requires|ensures)\b.*\n", "", text, flags=re.M)
    text = re.sub(r"^use (std::alloc|std::marker|thiserror).*\n", "", text, flags=re.M)
    text = re.sub(r"^ *#\[error.*\n", "", text, flags=re.M)
    text = re.sub(r"#\[derive\((.*?)\)\]", derived, text)
    text = re.sub(r"let Ok\(\(\)\) = (.*?) else \{\s*unreachable!\(\)\s*\};", r"\1;", text, flags=re.S)
    text = text.replace("Vec::new(alloc)", "Vec::new()")
    text = re.sub(r"Vec::with_capacity\(alloc, (\w+)\)\?", r"Vec::with_capacity(\1)", text)
    text = re.sub(r"vec!\[in alloc; (.*?)\]\?", r"vec![\1]", text)
    text = text.replace(".collect(alloc)?", ".collect()").replace(".to_vec(alloc)?", ".to_vec()")
    text = re.sub(r"^( +)(\S.*)\.collect\(alloc\)$", r"\1Ok(\2.collect())", text, flags=re.M)
    text = re.sub(r"(\.(?:push|resize)\([^;]*?\))\?;", r"\1;", text)
    text = text.replace("crate::", f"crate::{crate}::")
    text = re.sub(r"\buse (ls_\w+)::", r"use crate::\1::", text)
    if re.search(r"\bAllocError\b|\bGlobal\b", text):
        text = text.replace("\n\n", "\n\nuse crate::{AllocError, Global};\n", 1)
    return text


def main():
    for crate in ("ls_events", "ls_code", "ls_machine_moves", "ls_machine_threads", "ls_machine"):
        source = CRATES / crate / "src"
        for file in sorted(source.rglob("*.rt")):
            if file.stem in ("tests", "saving"):
                continue
            name = "mod" if file.stem == "lib" else file.relative_to(source).with_suffix("")
            text = plain(file.read_text(), crate).replace("//!", "//")
            text = re.sub(r"^#\[cfg\(test\)\]\nmod tests;\n|^pub (mod saving|use machine::saving::.*);\n", "", text, flags=re.M)
            write(OUT / f"src/{crate}/{name}.rs", text)
    images = plain((CRATES / "bench_machine/src/images.rt").read_text(), "bench_machine")
    write(OUT / "src/images.rs", images)
    main_text = plain((CRATES / "bench_machine/src/main.rt").read_text(), "bench_machine").replace("//!", "//")
    body = main_text[main_text.index("/// How the steps are taken."):main_text.index("fn main(")]
    write(OUT / "src/main.rs", HEAD + body + MAIN)
    write(OUT / "Cargo.toml", MANIFEST.format(name="plain_machine"))


HEAD = """#![allow(dead_code, unused_imports, unused_variables)]
mod images;
mod ls_code;
mod ls_events;
mod ls_machine;
mod ls_machine_moves;
mod ls_machine_threads;
use images::{Part, SHORT_STEPS, image};
use ls_code::code::Code;
use ls_events::schedule::Schedule;
use ls_machine::{LoadFault, Machine};

#[derive(Debug)]
pub struct AllocError;
#[derive(Clone, Copy)]
pub struct Global;
impl From<AllocError> for ls_machine::LoadFault {
    fn from(_: AllocError) -> Self {
        ls_machine::LoadFault::Memory
    }
}

"""

MAIN = """fn main() {
    let words: Vec<String> = std::env::args().collect();
    let way = way_of(&words[1]).expect("a way");
    let part = part_of(&words[2]).expect("a part");
    let steps: u64 = words[3].parse().expect("steps");
    let code = Code::new(image(Global, part).expect("memory")).expect("small");
    let number = timed(Global, &code, part, steps, way).expect("loaded");
    println!("{steps} steps, and the machine's number is {number}");
}
"""

main()
