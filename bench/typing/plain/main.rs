// Reads a class text, parses it and, with the word `check`, checks it.
#![allow(dead_code, unused_imports, unused_variables, unused_mut)]

mod indexmap;
mod ls_checked;
mod ls_types_statements;
mod ls_types_elaboration;
mod ls_events;
mod ls_types_expressions;
mod ls_lexer;
mod ls_parser;
mod ls_parser_declarations;
mod ls_parser_statements;
mod ls_parser_expressions;
mod ls_parser_tokens;
mod ls_together;
mod ls_tree;
mod ls_types_checked;
mod ls_types_files;
mod ls_types_tables;
mod memory;

use memory::Global;
use std::io::Read;

fn main() {
    let mut text = String::new();
    std::io::stdin().read_to_string(&mut text).expect("a text");
    let check = std::env::args().nth(1).as_deref() == Some("check");
    let parsed = match ls_parser::parsing::parse_text(Global, &text) {
        Ok(parsed) => parsed,
        Err(fault) => return println!("{fault:?}"),
    };
    if !check {
        return println!("parsed");
    }
    match ls_types_files::checking::check(Global, parsed) {
        Ok(_) => println!("accepted"),
        Err(fault) => println!("{fault:?}"),
    }
}
