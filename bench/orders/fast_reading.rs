//! The history of a text, read in one pass over its lines, with names as numbers.

/// The names of a text, each with a number.
pub struct Names<'a> {
    pub slots: Vec<u32>,
    pub names: Vec<&'a [u8]>,
}

pub const NO_NAME: u32 = u32::MAX;

pub fn hash_of(name: &[u8]) -> usize {
    let mix = |hash: u64, b: &u8| (hash ^ u64::from(*b)).wrapping_mul(0x9e37_79b9_7f4a_7c15).rotate_left(23);
    let hash = name.iter().fold(0, mix);
    (hash ^ (hash >> 32)) as usize
}

impl<'a> Names<'a> {
    pub fn new() -> Names<'a> {
        Names { slots: vec![NO_NAME; 64], names: Vec::new() }
    }

    /// The slot of the name, or the free slot where it goes.
    fn slot_of(&self, name: &[u8]) -> usize {
        let mask = self.slots.len() - 1;
        let mut slot = hash_of(name) & mask;
        while self.slots[slot] != NO_NAME && self.names[self.slots[slot] as usize] != name {
            slot = (slot + 1) & mask;
        }
        slot
    }

    pub fn get(&self, name: &[u8]) -> Option<usize> {
        let number = self.slots[self.slot_of(name)];
        (number != NO_NAME).then_some(number as usize)
    }

    fn put(&mut self, name: &'a [u8]) -> usize {
        if 2 * self.names.len() >= self.slots.len() {
            self.slots = vec![NO_NAME; 2 * self.slots.len()];
            for number in 0..self.names.len() {
                let slot = self.slot_of(self.names[number]);
                self.slots[slot] = number as u32;
            }
        }
        let slot = self.slot_of(name);
        self.slots[slot] = self.names.len() as u32;
        self.names.push(name);
        self.names.len() - 1
    }
}

#[derive(Clone, Copy, PartialEq)]
pub enum Operation {
    Add,
    Remove,
    Contains,
}

#[derive(Clone, Copy, PartialEq)]
pub enum Reply {
    None,
    No,
    Yes,
    Other,
}

pub const NO_PLACE: u32 = u32::MAX;

/// A set call. Without an end its place is `NO_PLACE`.
#[derive(Clone, Copy)]
pub struct Call {
    pub called: u32,
    pub end: u32,
    pub item: u32,
    pub thread: u32,
    pub number: u32,
    pub operation: Operation,
    pub reply: Reply,
}

#[derive(Clone, Copy, PartialEq)]
pub enum Last {
    Nothing,
    Making,
    Calling,
    Returned,
    Trapped,
}

/// A thread: the number of its last call, what came last, and the numbers of its set calls, from 0, by their own.
pub struct Thread {
    pub number: u32,
    pub last: Last,
    pub calls: Vec<u32>,
}

pub struct History<'a> {
    pub threads: Names<'a>,
    pub states: Vec<Thread>,
    pub calls: Vec<Call>,
    pub items: usize,
    pub foreign: Option<(u32, u32)>,
}

pub fn is_letter(b: u8) -> bool {
    b.is_ascii_alphabetic() || b == b'_' || b == b'$'
}

pub fn is_name(name: &[u8]) -> bool {
    const RESERVED: &str = " abstract assert boolean break byte case catch char class const continue default do double \
        else enum extends final finally float for goto if implements import instanceof int interface long native new \
        package private protected public return short static strictfp super switch synchronized this throw throws \
        transient try void volatile while true false null ";
    !name.is_empty()
        && is_letter(name[0])
        && name.iter().all(|b| is_letter(*b) || b.is_ascii_digit())
        && !RESERVED.as_bytes().split(|b| *b == b' ').any(|word| word == name)
}

/// A line, and how far it is read.
pub struct Line<'a> {
    pub text: &'a [u8],
    pub at: usize,
}

impl<'a> Line<'a> {
    pub fn peek(&self) -> u8 {
        self.text.get(self.at).copied().unwrap_or(b'\n')
    }

    pub fn take(&mut self, word: &[u8]) -> Option<()> {
        self.text[self.at..].starts_with(word).then(|| self.at += word.len())
    }

    /// What comes before the next byte that isn't in a name.
    pub fn word(&mut self) -> &'a [u8] {
        let from = self.at;
        while is_letter(self.peek()) || self.peek().is_ascii_digit() {
            self.at += 1;
        }
        &self.text[from..self.at]
    }

    fn digits(&mut self) -> Option<u64> {
        let from = self.at;
        let mut number = 0u64;
        while self.peek().is_ascii_digit() {
            number = number.checked_mul(10)?.checked_add(u64::from(self.peek() - b'0'))?;
            self.at += 1;
        }
        let len = self.at - from;
        (len == 1 || len > 1 && self.text[from] != b'0').then_some(number)
    }

    /// An int, or none for a boolean.
    fn value(&mut self) -> Option<Option<i32>> {
        match self.peek() {
            b't' => self.take(b"true").map(|()| None),
            b'f' => self.take(b"false").map(|()| None),
            b'-' => {
                self.at += 1;
                let number = self.digits()?;
                (number > 0 && number <= 1 << 31).then_some(Some((-(number as i64)) as i32))
            }
            _ => i32::try_from(self.digits()?).ok().map(Some),
        }
    }

    fn ends(&mut self) -> Option<()> {
        self.take(b"\n")
    }
}

/// What is known of names and items while lines are read.
pub struct Reader<'a> {
    history: History<'a>,
    object: Option<&'a [u8]>,
    names: Names<'a>,
    items: std::collections::HashMap<i32, u32, std::hash::BuildHasherDefault<ItemHasher>>,
}

#[derive(Default)]
pub struct ItemHasher(u64);

impl std::hash::Hasher for ItemHasher {
    fn write(&mut self, _: &[u8]) {}
    fn write_i32(&mut self, item: i32) {
        self.0 = (item as u32 as u64 + 1).wrapping_mul(0x9e37_79b9_7f4a_7c15);
    }
    fn finish(&self) -> u64 {
        self.0
    }
}

impl<'a> Reader<'a> {
    fn known(&mut self, name: &'a [u8]) -> Option<()> {
        if self.names.get(name).is_none() {
            is_name(name).then_some(())?;
            self.names.put(name);
        }
        Some(())
    }

    fn thread(&mut self, name: &'a [u8]) -> Option<usize> {
        if let Some(thread) = self.history.threads.get(name) {
            return Some(thread);
        }
        (is_name(name) && name != b"all").then_some(())?;
        self.history.states.push(Thread { number: 0, last: Last::Nothing, calls: Vec::new() });
        Some(self.history.threads.put(name))
    }

    /// Up to the end of the line: how many values, and the only one.
    fn values(&mut self, line: &mut Line<'a>) -> Option<Option<i32>> {
        let mut only = None;
        let mut count = 0;
        if line.peek() != b')' {
            only = line.value()?;
            count = 1;
            while line.take(b", ").is_some() {
                line.value()?;
                count += 1;
            }
        }
        line.take(b")")?;
        Some(only.filter(|_| count == 1))
    }

    fn call(&mut self, line: &mut Line<'a>, thread: usize, number: u32, place: u32) -> Option<Last> {
        let object = line.word();
        if Some(object) != self.object {
            self.known(object)?;
        }
        let foreign = self.history.foreign;
        if line.take(b".").is_none() {
            line.take(b" = new ")?;
            let class = line.word();
            self.known(class)?;
            line.take(b"(")?;
            self.values(line)?;
            (self.history.threads.names[thread] == b"setup").then_some(())?;
            self.history.states[thread].calls.push(NO_PLACE);
            if self.object.is_some() {
                self.history.foreign = foreign.or(Some((thread as u32, number)));
            }
            return Some(Last::Making);
        }
        let method = line.word();
        let operation = match method {
            b"add" => Some(Operation::Add),
            b"remove" => Some(Operation::Remove),
            b"contains" => Some(Operation::Contains),
            _ => self.known(method).map(|()| None)?,
        };
        line.take(b"(")?;
        let item = self.values(line)?;
        match operation.zip(item) {
            Some((operation, item)) if self.object.is_none() || self.object == Some(object) => {
                self.object = Some(object);
                let next = self.items.len() as u32;
                let item = *self.items.entry(item).or_insert(next);
                self.history.states[thread].calls.push(self.history.calls.len() as u32);
                let (thread, end, reply) = (thread as u32, NO_PLACE, Reply::None);
                self.history.calls.push(Call { called: place, end, item, thread, number, operation, reply });
            }
            _ => {
                self.history.states[thread].calls.push(NO_PLACE);
                self.history.foreign = foreign.or(Some((thread as u32, number)));
            }
        }
        Some(Last::Calling)
    }

    fn end(&mut self, thread: usize, place: u32, reply: Reply) {
        let call = self.history.states[thread].calls.last().copied().unwrap_or(NO_PLACE);
        if let Some(call) = self.history.calls.get_mut(call as usize) {
            (call.end, call.reply) = (place, reply);
        }
    }

    fn event(&mut self, line: &mut Line<'a>, place: u32) -> Option<()> {
        let name = line.word();
        let thread = self.thread(name)?;
        line.take(b".")?;
        let number = line.digits()?;
        line.take(b" ")?;
        let (last, before) = (self.history.states[thread].last, self.history.states[thread].number);
        if line.take(b"call ").is_some() {
            (matches!(last, Last::Nothing | Last::Returned) && number == u64::from(before) + 1).then_some(())?;
            self.history.states[thread].last = self.call(line, thread, before + 1, place)?;
            self.history.states[thread].number = before + 1;
            return line.ends();
        }
        (matches!(last, Last::Making | Last::Calling) && number == u64::from(before)).then_some(())?;
        if line.take(b"return").is_some() {
            let mut reply = Reply::Other;
            if line.take(b" ").is_some() {
                (last == Last::Calling).then_some(())?;
                reply = match line.peek() {
                    b't' => Reply::Yes,
                    b'f' => Reply::No,
                    _ => Reply::Other,
                };
                line.value()?;
            }
            self.end(thread, place, reply);
            self.history.states[thread].last = Last::Returned;
            return line.ends();
        }
        line.take(b"trap ")?;
        let kinds = ["Arithmetic", "NullPointer", "ArrayIndexOutOfBounds", "NegativeArraySize", "IllegalMonitorState"];
        match line.word() {
            b"StackOverflowError" | b"Error" => {}
            word => kinds.iter().any(|kind| word.strip_suffix(b"Exception") == Some(kind.as_bytes())).then_some(())?,
        }
        self.end(thread, place, Reply::None);
        self.history.states[thread].last = Last::Trapped;
        line.ends()
    }
}

pub fn read_history(text: &[u8]) -> Option<(History<'_>, usize)> {
    let history = History { threads: Names::new(), states: Vec::new(), calls: Vec::new(), items: 0, foreign: None };
    let mut reader = Reader { history, object: None, names: Names::new(), items: Default::default() };
    let mut line = Line { text, at: 0 };
    let mut place = 0;
    while line.at < text.len() {
        reader.event(&mut line, place)?;
        place += 1;
    }
    reader.history.items = reader.items.len();
    Some((reader.history, place as usize))
}
