//! Samples of schedules, one after the other on one machine: `plain_machine COUNT STEPS [load]`. With the last word a machine is
//! loaded for each seed. Two threads add one to a local for ever.
#![allow(dead_code, unused_imports, unused_variables)]
mod images;
mod ls_code;
mod ls_events;
mod ls_machine;
mod ls_machine_moves;
mod ls_machine_threads;
use images::{Part, image};
use ls_code::code::Code;
use ls_code::step::ThreadState;
use ls_events::event::Event;
use ls_machine::Machine;

#[derive(Debug)]
pub struct AllocError;
#[derive(Clone, Copy)]
pub struct Global;
impl From<AllocError> for ls_machine::LoadFault {
    fn from(_: AllocError) -> Self {
        ls_machine::LoadFault::Memory
    }
}

/// The next word of SplitMix64.
fn mix(state: &mut u64) -> u64 {
    *state = state.wrapping_add(0x9e37_79b9_7f4a_7c15);
    let mut word = *state;
    word = (word ^ (word >> 30)).wrapping_mul(0xbf58_476d_1ce4_e5b9);
    word = (word ^ (word >> 27)).wrapping_mul(0x94d0_49bb_1331_11eb);
    word ^ (word >> 31)
}

fn run(machine: &mut Machine, threads: u64, seed: u64, steps: usize) -> Vec<Event> {
    for _ in 0..100_000 {
        if !matches!(machine.state_of(0), ThreadState::NotStarted | ThreadState::Running) {
            break;
        }
        let _ = machine.step(0);
    }
    let mut state = seed;
    for _ in 0..steps {
        let _ = machine.step(1 + (mix(&mut state) % threads) as usize);
    }
    machine.history().to_vec()
}

fn main() {
    let words: Vec<String> = std::env::args().collect();
    let code = Code::new(image(Global, Part::Turns).expect("memory")).expect("small");
    let count: u64 = words[1].parse().expect("a count");
    let steps: usize = words[2].parse().expect("steps");
    let loads = words.len() > 3;
    let threads = code.starts().len() as u64 - 1;
    let mut machine = Machine::load(Global, &code, 65_536).expect("memory");
    let mut tally: Vec<(Vec<Event>, u64, u64)> = Vec::new();
    for seed in 1..=count {
        if loads {
            machine = Machine::load(Global, &code, 65_536).expect("memory");
        } else {
            machine.set_back();
        }
        let history = run(&mut machine, threads, seed, steps);
        match tally.iter_mut().find(|entry| entry.0 == history) {
            Some(entry) => entry.1 += 1,
            None => tally.push((history, 1, seed)),
        }
    }
    for (history, count, seed) in &tally {
        println!("seed {seed} count {count}: {} events", history.len());
    }
}
