// Steps of the same source run in plain Rust, to be timed: `plain_source PART STEPS`.
#![allow(dead_code, unused_imports, unused_labels, unused_variables, unreachable_code)]
mod ls_checked;
mod ls_events;
mod ls_meaning;
mod ls_source_moves;
mod ls_source_pending;
mod ls_source_store;
mod ls_source;
mod timing;
mod trees;

// An allocation can't fail.
#[derive(Debug)]
pub enum AllocError {}

#[derive(Clone, Copy)]
pub struct Global;

mod part {
    #[derive(Clone, Copy, PartialEq, Eq)]
    pub enum Part {
        Arithmetic,
        Fields,
        Calls,
        Locks,
        Turns,
    }
}

use part::Part;

fn main() {
    let words: Vec<String> = std::env::args().collect();
    let (part, method) = match words[1].as_str() {
        "arithmetic" => (Part::Arithmetic, 0),
        "fields" => (Part::Fields, 1),
        "calls" => (Part::Calls, 2),
        "locks" => (Part::Locks, 4),
        "turns" => (Part::Turns, 0),
        _ => panic!("no part"),
    };
    let steps: u64 = words[2].parse().expect("steps");
    let file = trees::file();
    let program = trees::program(method);
    let Ok(taken) = timing::take_steps(Global, &file, &program, part, steps);
    let timing::Taken { acted, sum } = taken;
    println!("{acted} of {steps} steps acted, and were answered ints that come to {sum}");
}
