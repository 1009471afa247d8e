//! What the machine runs, read from the lines that image/main.rt.txt prints.

#[derive(Clone, Copy, Debug)]
pub enum Op {
    Halt,
    Push(u32),
    Load(u32),
    Store(u32),
    Pop,
    Dup,
    Add,
    Sub,
    Mul,
    Div,
    Rem,
    Neg,
    Lt,
    Le,
    Gt,
    Ge,
    Eq,
    Ne,
    Not,
    Jump(u32),
    JumpIfFalse(u32),
    JumpIfTrue(u32),
    Turn(u32),
    GetField(u32),
    PutField(u32),
    GetItem,
    PutItem,
    GetName(u32),
    PutName(u32),
    NewObject(u32),
    NewLock,
    NewMarkable,
    NewArray,
    See(u32),
    Take,
    DropLock,
    ReadPair,
    ReferenceOf,
    MarkOf,
    Pack,
    SetPair,
    SwapPair,
    AttemptMark,
    Enter(u32),
    Leave,
    LeaveWith,
    Throw,
    Call(u32),
    Result(u32),
    Trap,
}

/// A throw at a place from `from` to below `to` keeps `depth` operands and goes on at `handler`.
pub struct Row {
    pub from: u32,
    pub to: u32,
    pub handler: u32,
    pub depth: u32,
}

pub struct Method {
    pub start: u32,
    pub arguments: u32,
    pub more: u32,
    pub need: u32,
}

#[derive(Clone, Copy, PartialEq)]
pub enum Answer {
    Nothing,
    Int,
    Boolean,
}

pub struct Call {
    pub answer: Answer,
    pub words: String,
}

pub struct Start {
    pub place: u32,
    pub need: u32,
    pub name: String,
    pub calls: Vec<Call>,
}

#[derive(Default)]
pub struct Image {
    pub names: usize,
    pub ops: Vec<Op>,
    pub rows: Vec<Row>,
    pub methods: Vec<Method>,
    pub sizes: Vec<u32>,
    pub starts: Vec<Start>,
}

/// The instruction of a code word: its opcode is in bits 0 to 7, its operand in bits 8 to 39.
fn decoded(word: u64) -> Op {
    let x = (word >> 8) as u32;
    match word & 0xff {
        0 => Op::Halt,
        1 => Op::Push(x),
        2 => Op::Load(x),
        3 => Op::Store(x),
        4 => Op::Pop,
        5 => Op::Dup,
        6 => Op::Add,
        7 => Op::Sub,
        8 => Op::Mul,
        9 => Op::Div,
        10 => Op::Rem,
        11 => Op::Neg,
        12 => Op::Lt,
        13 => Op::Le,
        14 => Op::Gt,
        15 => Op::Ge,
        16 => Op::Eq,
        17 => Op::Ne,
        18 => Op::Not,
        19 => Op::Jump(x),
        20 => Op::JumpIfFalse(x),
        21 => Op::JumpIfTrue(x),
        22 => Op::Turn(x),
        23 => Op::GetField(x),
        24 => Op::PutField(x),
        25 => Op::GetItem,
        26 => Op::PutItem,
        27 => Op::GetName(x),
        28 => Op::PutName(x),
        29 => Op::NewObject(x),
        30 => Op::NewLock,
        31 => Op::NewMarkable,
        32 => Op::NewArray,
        37 => Op::See(x),
        38 => Op::Take,
        39 => Op::DropLock,
        40 => Op::ReadPair,
        41 => Op::ReferenceOf,
        42 => Op::MarkOf,
        43 => Op::Pack,
        44 => Op::SetPair,
        45 => Op::SwapPair,
        46 => Op::AttemptMark,
        47 => Op::Enter(x),
        48 => Op::Leave,
        49 => Op::LeaveWith,
        50 => Op::Throw,
        51 => Op::Call(x),
        52 => Op::Result(x),
        53 => Op::Trap,
        code => panic!("compiled code has no instruction {code}"),
    }
}

impl Image {
    /// The image of the lines.
    pub fn read(text: &str) -> Image {
        let mut image = Image::default();
        for line in text.lines() {
            let (head, rest) = line.split_once(' ').expect("a word and more");
            match head {
                "call" => image.add_call(rest),
                "thread" => image.add_thread(rest),
                _ => image.add_numbers(head, &rest.split(' ').map(|it| it.parse().expect("a number")).collect::<Vec<u64>>()),
            }
        }
        image
    }

    fn add_call(&mut self, rest: &str) {
        let (answer, words) = rest.split_once(' ').expect("an answer and words");
        let answer = match answer {
            "int" => Answer::Int,
            "boolean" => Answer::Boolean,
            _ => Answer::Nothing,
        };
        let thread = self.starts.last_mut().expect("a thread");
        thread.calls.push(Call { answer, words: words.to_string() });
    }

    fn add_thread(&mut self, rest: &str) {
        let words: Vec<&str> = rest.split(' ').collect();
        let number = |at: usize| words[at].parse().expect("a number");
        self.starts.push(Start { place: number(0), need: number(1), name: words[2].to_string(), calls: Vec::new() });
    }

    fn add_numbers(&mut self, head: &str, numbers: &[u64]) {
        let at = |place: usize| numbers[place] as u32;
        match head {
            "names" => self.names = at(0) as usize,
            "word" => self.ops.push(decoded(numbers[0])),
            "handler" => self.rows.push(Row { from: at(0), to: at(1), handler: at(2), depth: at(3) }),
            "method" => self.methods.push(Method { start: at(0), arguments: at(1), more: at(2), need: at(3) }),
            "size" => self.sizes.push(at(0)),
            _ => panic!("no line begins with {head}"),
        }
    }
}
