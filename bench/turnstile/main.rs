//! Live threads that take turns along a tape, by an `AtomicU64`: `plain_machine THREADS RUN STEPS`. The setup has 100 steps; then
//! each thread in turn has RUN steps.
#![allow(dead_code, unused_imports, unused_variables)]
mod images;
mod ls_code;
mod ls_events;
mod ls_machine;
mod ls_machine_moves;
mod ls_machine_threads;
use images::{Part, image};
use ls_code::code::Code;
use ls_machine::Machine;
use std::cell::UnsafeCell;
use std::sync::atomic::AtomicU64;
use std::sync::atomic::Ordering::SeqCst;

#[derive(Debug)]
pub struct AllocError;
#[derive(Clone, Copy)]
pub struct Global;
impl From<AllocError> for ls_machine::LoadFault {
    fn from(_: AllocError) -> Self {
        ls_machine::LoadFault::Memory
    }
}

/// So many threads that add one to a local for ever.
fn code_of(threads: usize) -> Code {
    let mut parts = image(Global, Part::Arithmetic).expect("memory");
    for _ in 1..threads {
        let start = parts.starts[1].copied(Global).expect("memory");
        parts.starts.push(start);
    }
    Code::new(parts).expect("small")
}

/// The machine, which the thread of the next entry has.
struct Turnstile {
    machine: UnsafeCell<Machine>,
    next: AtomicU64,
    tape: Vec<usize>,
}

// A thread uses the machine only where the next entry of the tape is its own.
unsafe impl Sync for Turnstile {}

/// After so many looks at another's turn a thread lets others run.
const LOOKS: u32 = 1000;

fn work(turnstile: &Turnstile, thread: usize) {
    let mut looks = 0_u32;
    loop {
        let place = turnstile.next.load(SeqCst) as usize;
        if place >= turnstile.tape.len() {
            return;
        }
        if turnstile.tape[place] == thread {
            let machine = unsafe { &mut *turnstile.machine.get() };
            let _ = machine.step(thread);
            turnstile.next.store(place as u64 + 1, SeqCst);
        } else {
            looks += 1;
            if looks % LOOKS == 0 {
                std::thread::yield_now();
            }
        }
    }
}

fn main() {
    let words: Vec<String> = std::env::args().collect();
    let threads: usize = words[1].parse().expect("threads");
    let run: usize = words[2].parse().expect("a run");
    let steps: usize = words[3].parse().expect("steps");
    let code = code_of(threads);
    let machine = Machine::load(Global, &code, 65_536).expect("memory");
    let mut tape = vec![0; 100];
    while tape.len() < steps {
        let thread = 1 + (tape.len() - 100) / run % threads;
        tape.push(thread);
    }
    let turnstile = Turnstile { machine: UnsafeCell::new(machine), next: AtomicU64::new(0), tape };
    std::thread::scope(|scope| {
        for thread in 0..=threads {
            let turnstile = &turnstile;
            scope.spawn(move || work(turnstile, thread));
        }
    });
    println!("{} steps", turnstile.next.load(SeqCst));
}
