//! Schedule texts, read in one pass into runs of steps of one thread.

const MOST_STEPS: usize = 1_000_000;
/// No thread has this number.
const NONE: u8 = 255;
const ALL: u8 = 254;

/// A run of steps of one thread: its number in bits 0 to 7, and how many in the others.
#[derive(Clone, Copy, Debug)]
pub struct Run(u32);

impl Run {
    fn new(thread: u8, steps: usize) -> Run {
        Run(thread as u32 | (steps as u32) << 8)
    }

    pub fn thread(self) -> usize {
        (self.0 & 255) as usize
    }

    pub fn steps(self) -> u32 {
        self.0 >> 8
    }
}

#[derive(Debug)]
#[allow(dead_code, reason = "a fault is shown")]
pub enum Fault {
    BadItem(usize),
    UnknownThread(usize),
    TooManySteps,
}

struct Reader<'a> {
    text: &'a [u8],
    at: usize,
    names: &'a [&'a str],
    /// The threads whose names have one byte.
    short: [u8; 256],
    runs: Vec<Run>,
    steps: usize,
    has_groups: bool,
}

fn is_gap(byte: u8) -> bool {
    matches!(byte, b' ' | b'\t' | b'\r' | b'\n')
}

impl Reader<'_> {
    #[inline(always)]
    fn byte(&self) -> u8 {
        *self.text.get(self.at).unwrap_or(&b' ')
    }

    fn skip(&mut self) {
        while self.at < self.text.len() && is_gap(self.byte()) {
            self.at += 1;
        }
    }

    /// The count after an item or a group that begins at a place: 1 if there is none.
    #[inline(always)]
    fn count(&mut self, start: usize) -> Result<usize, Fault> {
        if self.byte() != b'*' {
            return Ok(1);
        }
        self.at += 1;
        let (first, mut count) = (self.at, 0);
        while self.byte().is_ascii_digit() {
            count = (10 * count + (self.byte() - b'0') as usize).min(2 * MOST_STEPS);
            self.at += 1;
        }
        if first == self.at || count == 0 { Err(Fault::BadItem(start)) } else { Ok(count) }
    }

    #[inline(always)]
    fn add(&mut self, thread: u8, steps: usize) -> Result<(), Fault> {
        self.steps += steps;
        if self.steps > MOST_STEPS {
            return Err(Fault::TooManySteps);
        }
        match self.runs.last_mut() {
            Some(last) if last.thread() == thread as usize => last.0 += (steps as u32) << 8,
            _ => self.runs.push(Run::new(thread, steps)),
        }
        Ok(())
    }

    /// The number of a longer name, or of one that isn't a thread's.
    fn search(&self, name: &[u8]) -> u8 {
        match self.names.iter().position(|it| it.as_bytes() == name) {
            Some(thread) => thread as u8,
            None if name == b"all" => ALL,
            None => NONE,
        }
    }

    fn item(&mut self) -> Result<(), Fault> {
        let start = self.at;
        while !matches!(self.byte(), b'*' | b'(' | b')') && !is_gap(self.byte()) {
            self.at += 1;
        }
        let name = &self.text[start..self.at];
        let thread = match name {
            [] => return Err(Fault::BadItem(start)),
            [byte] => self.short[*byte as usize],
            _ => self.search(name),
        };
        let count = self.count(start)?;
        match thread {
            NONE => Err(Fault::UnknownThread(start)),
            ALL => self.add_all(count),
            _ => self.add(thread, count),
        }
    }

    fn add_all(&mut self, rounds: usize) -> Result<(), Fault> {
        for _ in 0..rounds {
            for thread in 1..self.names.len() {
                self.add(thread as u8, 1)?;
            }
        }
        Ok(())
    }

    fn group(&mut self) -> Result<(), Fault> {
        let (start, first, before) = (self.at, self.runs.len(), self.steps);
        self.at += 1;
        self.has_groups = true;
        // what is repeated must not be joined to what stands before it
        self.runs.push(Run::new(NONE, 0));
        self.items(true)?;
        if self.byte() != b')' || self.at >= self.text.len() || self.steps == before {
            return Err(Fault::BadItem(start));
        }
        self.at += 1;
        let (count, once) = (self.count(start)?, self.steps - before);
        if before + count * once > MOST_STEPS {
            return Err(Fault::TooManySteps);
        }
        let last = self.runs.len();
        for _ in 1..count {
            self.runs.extend_from_within(first..last);
        }
        self.runs.push(Run::new(NONE, 0));
        self.steps = before + count * once;
        Ok(())
    }

    /// Items of one byte with a gap of one byte after them, the shortest that there are. Answers whether there is one.
    #[inline(always)]
    fn single_steps(&mut self) -> Result<bool, Fault> {
        let mut count = 0;
        for pair in self.text[self.at..].chunks_exact(2) {
            let thread = self.short[pair[0] as usize];
            if thread == NONE || !is_gap(pair[1]) {
                break;
            }
            match self.runs.last_mut() {
                Some(last) if last.thread() == thread as usize => last.0 += 1 << 8,
                _ => self.runs.push(Run::new(thread, 1)),
            }
            count += 1;
        }
        self.at += 2 * count;
        self.steps += count;
        if self.steps > MOST_STEPS { Err(Fault::TooManySteps) } else { Ok(count > 0) }
    }

    fn items(&mut self, is_group: bool) -> Result<(), Fault> {
        loop {
            self.skip();
            if self.single_steps()? {
                continue;
            }
            if self.at >= self.text.len() || (is_group && self.byte() == b')') {
                return Ok(());
            }
            if self.byte() == b'(' { self.group()? } else { self.item()? }
            if !is_gap(self.byte()) && !(is_group && self.byte() == b')') {
                return Err(Fault::BadItem(self.at));
            }
        }
    }
}

/// The runs of a schedule text, whose threads have these names. A run of thread 255 has no steps.
pub fn read(text: &[u8], names: &[&str]) -> Result<Vec<Run>, Fault> {
    let mut short = [NONE; 256];
    for (number, name) in names.iter().enumerate() {
        if let [byte] = name.as_bytes() {
            short[*byte as usize] = number as u8;
        }
    }
    let mut reader = Reader { text, at: 0, names, short, runs: Vec::new(), steps: 0, has_groups: false };
    reader.skip();
    if text[reader.at..].starts_with(b"@2") {
        reader.at += 2;
    }
    reader.items(false)?;
    if reader.has_groups {
        reader.runs.retain(|run| run.steps() > 0);
    }
    Ok(reader.runs)
}
