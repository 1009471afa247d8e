// A plain recursive-descent parser of the same grammar, to be timed beside the proved one: `plain_parser PART BYTES TURNS`,
// where the part is lex or parse. With the word `fault` alone it reads a text and prints its fault and place.
// The trees, the spans, the limits and the refusals are the same.
#![allow(dead_code)]

mod classes;
mod expressions;
mod lexer;
mod parser;
mod statements;
mod tree;

use crate::lexer::lex;
use crate::parser::parse_text;
use std::io::Read;

// The classes again and again, and spaces behind the last.
fn text_of(bytes: usize) -> String {
    let classes = include_str!("../../../examples/classes/LockFreeList.java");
    let mut text = String::new();
    while text.len() + classes.len() <= bytes {
        text.push_str(classes);
    }
    while text.len() < bytes {
        text.push(' ');
    }
    text
}

fn fault() {
    let mut text = String::new();
    std::io::stdin().read_to_string(&mut text).unwrap();
    match parse_text(&text) {
        Ok(_) => println!("accepted"),
        Err(fault) => println!("{fault:?}"),
    }
}

fn main() {
    let words: Vec<String> = std::env::args().collect();
    if words[1] == "fault" {
        return fault();
    }
    let text = text_of(words[2].parse().unwrap());
    let mut found = 0;
    for _ in 0..words[3].parse::<u64>().unwrap() {
        found = if words[1] == "lex" {
            lex(&text).unwrap().len()
        } else {
            parse_text(&text).ok().unwrap().classes.len()
        };
    }
    println!("{found} of {} bytes", text.len());
}
