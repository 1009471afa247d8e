//! Runs compiled code under a schedule text and prints the history: `flat IMAGE CELLS <SCHEDULE`. IMAGE is a file
//! that image/main.rt.txt prints. This is the measure of what can be written: from the definitions and for speed, with no
//! text of the crates. Each thread has one flat stack of words; the arguments of a call become locals where they
//! stand. The code is compiled code, so no thread is stuck: what would be stuck is a panic. With `--cfg unchecked`
//! places aren't checked.
use std::io::{Read, Write};

mod image;
mod schedule;

use image::{Answer, Image, Op, Row};
use schedule::Run;

/// The word at a place.
macro_rules! at {
    ($words:expr, $place:expr) => {{
        #[cfg(unchecked)]
        let word = unsafe { *$words.get_unchecked($place) };
        #[cfg(not(unchecked))]
        let word = $words[$place];
        word
    }};
}

/// Puts a word at a place.
macro_rules! put {
    ($words:expr, $place:expr, $word:expr) => {{
        let (place, word) = ($place, $word);
        #[cfg(unchecked)]
        unsafe {
            *$words.get_unchecked_mut(place) = word
        };
        #[cfg(not(unchecked))]
        {
            $words[place] = word
        };
    }};
}

const ARITHMETIC: u64 = 1;
const NULL_POINTER: u64 = 2;
const ARRAY_INDEX: u64 = 3;
const NEGATIVE_SIZE: u64 = 4;
const ILLEGAL_MONITOR: u64 = 5;
const STACK_OVERFLOW: u64 = 6;
const ERROR: u64 = 7;
const KINDS: [&str; 7] = [
    "ArithmeticException",
    "NullPointerException",
    "ArrayIndexOutOfBoundsException",
    "NegativeArraySizeException",
    "IllegalMonitorStateException",
    "StackOverflowError",
    "Error",
];
const DEEPEST: u64 = 64;

/// Where a thread stands: its place in the code, and where the locals and the operands of its innermost frame begin,
/// and where these end. The two words before the operands say where its caller stands, and how many callers there
/// are.
#[derive(Clone, Copy, Default)]
struct Place {
    pc: u32,
    base: u32,
    floor: u32,
    top: u32,
}

#[derive(Clone, Copy)]
enum Happening {
    Called,
    Returned(u64),
    Trapped(u64),
}

struct Event {
    thread: u32,
    call: u32,
    happening: Happening,
}

struct Machine<'a> {
    image: &'a Image,
    places: [Place; 256],
    /// Whether a thread goes on and has started.
    is_due: [bool; 256],
    ended: [u32; 256],
    /// The stacks of all threads, one after another.
    stacks: Vec<u64>,
    /// The word of address 1 is at place 1.
    cells: Vec<u64>,
    limit: usize,
    history: Vec<Event>,
}

/// The two words that a frame keeps of its caller.
fn kept(caller: Place, depth: u64) -> [u64; 2] {
    [caller.base as u64 | depth << 32, caller.pc as u64 | (caller.floor as u64) << 32]
}

/// Where the caller of a frame stands, whose operands end where the frame begins.
fn caller(stack: &[u64], frame: Place) -> Place {
    let (low, high) = (at!(stack, frame.floor as usize - 2), at!(stack, frame.floor as usize - 1));
    Place { pc: high as u32, base: low as u32, floor: (high >> 32) as u32, top: frame.base }
}

/// Where a throw is caught: by the first row that holds the place of the innermost frame, or else of its caller, and
/// so on.
#[cold]
fn caught(rows: &[Row], stack: &mut [u64], mut frame: Place, kind: u64) -> Place {
    loop {
        if let Some(row) = rows.iter().find(|row| row.from <= frame.pc && frame.pc < row.to) {
            let top = frame.floor + row.depth;
            stack[top as usize] = kind;
            return Place { pc: row.handler, top: top + 1, ..frame };
        }
        assert!(stack[frame.floor as usize - 2] >> 32 > 0, "a throw is caught");
        frame = caller(stack, frame);
    }
}

/// The word of a lock after one more hold of a thread: none if another owns it, or an error if it is held too often.
fn held(word: u64, thread: usize) -> Result<Option<u64>, ()> {
    let owner = (thread as u64 + 1) << 32;
    match word {
        0 => Ok(Some(owner + 1)),
        _ if word >> 32 != owner >> 32 => Ok(None),
        _ if word as u32 >= i32::MAX as u32 => Err(()),
        _ => Ok(Some(word + 1)),
    }
}

impl<'a> Machine<'a> {
    fn new(image: &'a Image, cells: usize) -> Machine<'a> {
        let deep = image.methods.iter().map(|it| it.arguments + it.more + it.need + 2).max().unwrap_or(0);
        let (mut places, mut end) = ([Place::default(); 256], 0);
        for (thread, start) in image.starts.iter().enumerate() {
            places[thread] = Place { pc: start.place, base: end, floor: end + 2, top: end + 2 };
            end += 3 + start.need + DEEPEST as u32 * deep;
        }
        let mut words = Vec::with_capacity(cells + 1);
        words.resize(image.names + 1, 0);
        let mut is_due = [false; 256];
        is_due[0] = true;
        let stacks = vec![0; end as usize];
        Machine { image, places, is_due, ended: [0; 256], stacks, cells: words, limit: cells + 1, history: Vec::new() }
    }

    /// The steps of a schedule. It ends if the cells have run out.
    fn play(&mut self, runs: &[Run]) {
        let Machine { image, places, is_due, ended, stacks, cells, limit, history } = self;
        let (ops, stack, limit) = (image.ops.as_slice(), stacks.as_mut_slice(), *limit);
        let (mut pc, mut base, mut floor, mut top): (usize, usize, u32, usize);
        macro_rules! place {
            () => {
                Place { pc: pc as u32, base: base as u32, floor, top: top as u32 }
            };
        }
        macro_rules! stand {
            ($place:expr) => {{
                let place = $place;
                (pc, base, floor, top) = (place.pc as usize, place.base as usize, place.floor, place.top as usize);
            }};
        }
        macro_rules! throw {
            ($kind:expr) => {{
                let kind = $kind;
                stand!(caught(&image.rows, stack, place!(), kind));
                continue;
            }};
        }
        macro_rules! unary {
            ($a:ident => $value:expr) => {{
                let $a = at!(stack, top - 1);
                put!(stack, top - 1, $value);
            }};
        }
        macro_rules! binary {
            ($a:ident, $b:ident => $value:expr) => {{
                let ($a, $b) = (at!(stack, top - 2), at!(stack, top - 1));
                put!(stack, top - 2, $value);
                top -= 1;
            }};
        }
        macro_rules! push {
            ($word:expr) => {{
                put!(stack, top, $word);
                top += 1;
            }};
        }
        macro_rules! make {
            ($size:expr, $first:expr) => {{
                let (address, size) = (cells.len(), $size);
                if address + size > limit {
                    return;
                }
                cells.resize(address + size, 0);
                if size > 0 {
                    cells[address] = $first;
                }
                address as u64
            }};
        }
        'runs: for run in runs {
            let number = run.thread();
            if !is_due[number] {
                continue;
            }
            stand!(places[number]);
            let mut left = run.steps();
            while left > 0 {
                left -= 1;
                match at!(ops, pc) {
                    Op::Push(x) => push!(x as u64),
                    Op::Load(x) => push!(at!(stack, base + x as usize)),
                    Op::Store(x) => {
                        top -= 1;
                        put!(stack, base + x as usize, at!(stack, top));
                    }
                    Op::Pop => top -= 1,
                    Op::Dup => push!(at!(stack, top - 1)),
                    Op::Add => binary!(a, b => (a as u32).wrapping_add(b as u32) as u64),
                    Op::Sub => binary!(a, b => (a as u32).wrapping_sub(b as u32) as u64),
                    Op::Mul => binary!(a, b => (a as u32).wrapping_mul(b as u32) as u64),
                    Op::Div | Op::Rem if at!(stack, top - 1) as u32 == 0 => throw!(ARITHMETIC),
                    Op::Div => binary!(a, b => (a as i32).wrapping_div(b as i32) as u32 as u64),
                    Op::Rem => binary!(a, b => (a as i32).wrapping_rem(b as i32) as u32 as u64),
                    Op::Neg => unary!(a => (a as u32).wrapping_neg() as u64),
                    Op::Lt => binary!(a, b => ((a as i32) < b as i32) as u64),
                    Op::Le => binary!(a, b => (a as i32 <= b as i32) as u64),
                    Op::Gt => binary!(a, b => (a as i32 > b as i32) as u64),
                    Op::Ge => binary!(a, b => (a as i32 >= b as i32) as u64),
                    Op::Eq => binary!(a, b => (a == b) as u64),
                    Op::Ne => binary!(a, b => (a != b) as u64),
                    Op::Not => unary!(a => (a == 0) as u64),
                    Op::Jump(x) | Op::Turn(x) => {
                        pc = x as usize;
                        continue;
                    }
                    Op::JumpIfFalse(x) => {
                        top -= 1;
                        if at!(stack, top) == 0 {
                            pc = x as usize;
                            continue;
                        }
                    }
                    Op::JumpIfTrue(x) => {
                        top -= 1;
                        if at!(stack, top) == 1 {
                            pc = x as usize;
                            continue;
                        }
                    }
                    Op::GetField(x) => {
                        let object = at!(stack, top - 1) as usize;
                        if object == 0 {
                            throw!(NULL_POINTER);
                        }
                        put!(stack, top - 1, at!(cells, object + x as usize));
                    }
                    Op::PutField(x) => {
                        let object = at!(stack, top - 2) as usize;
                        if object == 0 {
                            throw!(NULL_POINTER);
                        }
                        put!(cells, object + x as usize, at!(stack, top - 1));
                        top -= 2;
                    }
                    Op::GetItem => {
                        let (array, index) = (at!(stack, top - 2) as usize, at!(stack, top - 1) as u32);
                        if array == 0 {
                            throw!(NULL_POINTER);
                        }
                        if index as u64 >= at!(cells, array) {
                            throw!(ARRAY_INDEX);
                        }
                        put!(stack, top - 2, at!(cells, array + index as usize + 1));
                        top -= 1;
                    }
                    Op::PutItem => {
                        let (array, index) = (at!(stack, top - 3) as usize, at!(stack, top - 2) as u32);
                        if array == 0 {
                            throw!(NULL_POINTER);
                        }
                        if index as u64 >= at!(cells, array) {
                            throw!(ARRAY_INDEX);
                        }
                        put!(cells, array + index as usize + 1, at!(stack, top - 1));
                        top -= 3;
                    }
                    Op::GetName(x) => push!(at!(cells, x as usize + 1)),
                    Op::PutName(x) => {
                        top -= 1;
                        put!(cells, x as usize + 1, at!(stack, top));
                    }
                    Op::NewObject(x) => push!(make!(image.sizes[x as usize] as usize, 0)),
                    Op::NewLock => push!(make!(1, 0)),
                    Op::NewMarkable => put!(stack, top - 1, make!(1, stack[top - 1])),
                    Op::NewArray => {
                        let count = at!(stack, top - 1) as i32;
                        if count < 0 {
                            throw!(NEGATIVE_SIZE);
                        }
                        put!(stack, top - 1, make!(count as usize + 1, count as u64));
                    }
                    Op::See(x) => {
                        let lock = at!(stack, top - 1) as usize;
                        if lock == 0 {
                            throw!(NULL_POINTER);
                        }
                        let word = at!(cells, lock);
                        if (x == 3 || x == 5) && word >> 32 != number as u64 + 1 {
                            throw!(ILLEGAL_MONITOR);
                        }
                        push!(word);
                    }
                    Op::Take => {
                        let (lock, word) = (at!(stack, top - 2) as usize, at!(stack, top - 1));
                        let won = match held(word, number) {
                            Err(()) => throw!(ERROR),
                            Ok(Some(next)) if at!(cells, lock) == word => {
                                put!(cells, lock, next);
                                1
                            }
                            Ok(_) => 0,
                        };
                        put!(stack, top - 1, won);
                    }
                    Op::DropLock => {
                        let (lock, word) = (at!(stack, top - 2) as usize, at!(stack, top - 1));
                        put!(cells, lock, if word as u32 <= 1 { 0 } else { word - 1 });
                        top -= 2;
                    }
                    Op::ReadPair => {
                        let markable = at!(stack, top - 1) as usize;
                        if markable == 0 {
                            throw!(NULL_POINTER);
                        }
                        put!(stack, top - 1, at!(cells, markable));
                    }
                    Op::ReferenceOf => unary!(a => a / 2),
                    Op::MarkOf => unary!(a => a % 2),
                    Op::Pack => binary!(a, b => a.wrapping_mul(2).wrapping_add(b)),
                    Op::SetPair => {
                        let markable = at!(stack, top - 2) as usize;
                        if markable == 0 {
                            throw!(NULL_POINTER);
                        }
                        put!(cells, markable, at!(stack, top - 1));
                        top -= 2;
                    }
                    Op::SwapPair => {
                        let markable = at!(stack, top - 3) as usize;
                        if markable == 0 {
                            throw!(NULL_POINTER);
                        }
                        let won = at!(cells, markable) == at!(stack, top - 2);
                        if won {
                            put!(cells, markable, at!(stack, top - 1));
                        }
                        put!(stack, top - 3, won as u64);
                        top -= 2;
                    }
                    Op::AttemptMark => {
                        let markable = at!(stack, top - 3) as usize;
                        if markable == 0 {
                            throw!(NULL_POINTER);
                        }
                        let (reference, mark) = (at!(stack, top - 2), at!(stack, top - 1));
                        let won = at!(cells, markable) / 2 == reference;
                        if won {
                            put!(cells, markable, reference.wrapping_mul(2).wrapping_add((mark == 1) as u64));
                        }
                        put!(stack, top - 3, won as u64);
                        top -= 2;
                    }
                    Op::Enter(x) => {
                        let method = &image.methods[x as usize];
                        let first = top - method.arguments as usize;
                        if at!(stack, first) == 0 {
                            throw!(NULL_POINTER);
                        }
                        let depth = at!(stack, floor as usize - 2) >> 32;
                        if depth == DEEPEST {
                            throw!(STACK_OVERFLOW);
                        }
                        for _ in 0..method.more {
                            push!(0);
                        }
                        let [low, high] = kept(place!(), depth + 1);
                        push!(low);
                        push!(high);
                        (pc, base, floor) = (method.start as usize, first, top as u32);
                        continue;
                    }
                    Op::Leave => stand!(caller(stack, place!())),
                    Op::LeaveWith => {
                        let word = at!(stack, top - 1);
                        stand!(caller(stack, place!()));
                        push!(word);
                    }
                    Op::Throw => throw!(at!(stack, top - 1)),
                    Op::Call(x) => history.push(Event { thread: number as u32, call: x, happening: Happening::Called }),
                    Op::Result(x) => {
                        let mut word = 0;
                        if image.starts[number].calls[x as usize - 1].answer != Answer::Nothing {
                            top -= 1;
                            word = at!(stack, top);
                        }
                        ended[number] = x;
                        history.push(Event { thread: number as u32, call: x, happening: Happening::Returned(word) });
                    }
                    Op::Trap => {
                        is_due[number] = false;
                        let (call, happening) = (ended[number] + 1, Happening::Trapped(at!(stack, top - 1)));
                        history.push(Event { thread: number as u32, call, happening });
                        continue 'runs;
                    }
                    Op::Halt => {
                        is_due[number] = false;
                        if number == 0 {
                            is_due[1..image.starts.len()].fill(true);
                        }
                        continue 'runs;
                    }
                }
                pc += 1;
            }
            places[number] = place!();
        }
    }

    /// The lines of the history.
    fn lines(&self) -> String {
        let mut out = String::new();
        for event in &self.history {
            let thread = &self.image.starts[event.thread as usize];
            let call = &thread.calls[event.call as usize - 1];
            out += &format!("{}.{} ", thread.name, event.call);
            match (event.happening, call.answer) {
                (Happening::Called, _) => out += &call.words,
                (Happening::Returned(_), Answer::Nothing) => out += "return",
                (Happening::Returned(word), Answer::Int) => out += &format!("return {}", word as i32),
                (Happening::Returned(word), Answer::Boolean) => out += &format!("return {}", word == 1),
                (Happening::Trapped(kind), _) => out += &format!("trap {}", KINDS[kind as usize - 1]),
            }
            out.push('\n');
        }
        out
    }
}

fn main() {
    let words: Vec<String> = std::env::args().collect();
    let image = Image::read(&std::fs::read_to_string(&words[1]).expect("an image"));
    let cells = words[2].parse().expect("how many cells");
    let mut text = Vec::new();
    std::io::stdin().read_to_end(&mut text).expect("a schedule");
    let names: Vec<&str> = image.starts.iter().map(|it| it.name.as_str()).collect();
    let runs = schedule::read(&text, &names).expect("a schedule");
    let mut machine = Machine::new(&image, cells);
    machine.play(&runs);
    std::io::stdout().write_all(machine.lines().as_bytes()).expect("written");
}
