//! Live threads over one machine behind a `std::sync::Mutex`: `plain_machine THREADS LIMIT`.
#![allow(dead_code, unused_imports, unused_variables)]
mod images;
mod ls_code;
mod ls_events;
mod ls_machine;
mod ls_machine_moves;
mod ls_machine_threads;
use images::{Part, image};
use ls_code::code::Code;
use ls_code::step::ThreadState;
use ls_machine::Machine;
use std::sync::Mutex;

#[derive(Debug)]
pub struct AllocError;
#[derive(Clone, Copy)]
pub struct Global;
impl From<AllocError> for ls_machine::LoadFault {
    fn from(_: AllocError) -> Self {
        ls_machine::LoadFault::Memory
    }
}

/// So many threads that add one to a local for ever.
fn code_of(threads: usize) -> Code {
    let mut parts = image(Global, Part::Arithmetic).expect("memory");
    for _ in 1..threads {
        let start = parts.starts[1].copied(Global).expect("memory");
        parts.starts.push(start);
    }
    Code::new(parts).expect("small")
}

/// The machine and the schedule of its steps so far, in memory for the most that there may be.
struct Book {
    machine: Machine,
    schedule: Vec<usize>,
    limit: usize,
}

enum More {
    Over,
    Full,
    Later,
    Did,
}

impl Book {
    fn step(&mut self, thread: usize) -> More {
        match self.machine.state_of(thread) {
            ThreadState::Ended | ThreadState::Trapped | ThreadState::Stopped => return More::Over,
            _ if self.schedule.len() >= self.limit => return More::Full,
            ThreadState::NotStarted => return More::Later,
            ThreadState::Running => {}
        }
        let _ = self.machine.step(thread);
        self.schedule.push(thread);
        More::Did
    }
}

fn main() {
    let words: Vec<String> = std::env::args().collect();
    let threads: usize = words[1].parse().expect("threads");
    let limit: usize = words[2].parse().expect("a limit");
    let code = code_of(threads);
    let machine = Machine::load(Global, &code, 65_536).expect("memory");
    let book = Mutex::new(Book { machine, schedule: Vec::with_capacity(limit), limit });
    std::thread::scope(|scope| {
        for thread in 0..=threads {
            let book = &book;
            scope.spawn(move || loop {
                let more = book.lock().expect("no thread panics").step(thread);
                match more {
                    More::Over | More::Full => return,
                    More::Later => std::thread::yield_now(),
                    More::Did => {}
                }
            });
        }
    });
    println!("{} steps", book.into_inner().expect("no thread panics").schedule.len());
}
