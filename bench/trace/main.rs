// Writes what `trace` prints of the runs of compare.py, in plain Rust: `main PART STEPS`. The run itself is a few states of each thread.
use std::fmt::Write;
use std::io::Write as _;

#[derive(Clone, Copy)]
enum Label {
    Class(usize),
    Lock,
}

#[derive(Clone, Copy)]
enum Value {
    Int(i32),
    Reference(usize),
}

#[derive(Clone, Copy)]
enum Action {
    Call,
    Return,
    New(usize),
    NewLock,
    Enter(Option<usize>),
    ReadName(usize),
    WriteName(usize, Value),
    ReadField(usize, usize),
    WriteField(usize, usize, Value),
    Lock(usize),
    Unlock(usize),
    Turn,
}

struct Names {
    classes: Vec<String>,
    fields: Vec<Vec<String>>,
    methods: Vec<String>,
    setup: Vec<String>,
    threads: Vec<String>,
}

struct Teller {
    names: Names,
    labels: Vec<Label>,
    calls: Vec<usize>,
    out: String,
}

impl Teller {
    fn object(&mut self, object: usize) {
        match self.labels[object - 1] {
            Label::Class(class) => self.out.push_str(&self.names.classes[class]),
            Label::Lock => self.out.push_str("ReentrantLock"),
        }
        write!(self.out, "#{object}").unwrap();
    }

    fn value(&mut self, value: Value) {
        match value {
            Value::Int(n) => write!(self.out, "{n}").unwrap(),
            Value::Reference(object) => self.object(object),
        }
    }

    fn field(&mut self, object: usize, field: usize) {
        self.object(object);
        self.out.push('.');
        if let Label::Class(class) = self.labels[object - 1] {
            self.out.push_str(&self.names.fields[class][field]);
        }
    }

    fn call(&mut self, thread: usize) {
        if thread == 0 {
            write!(self.out, "call {} = new {}()", self.names.setup[0], self.names.classes[0]).unwrap();
        } else {
            write!(self.out, "call {}.{}()", self.names.setup[0], self.names.methods[0]).unwrap();
        }
    }

    fn action(&mut self, thread: usize, action: Action) {
        match action {
            Action::Call => self.call(thread),
            Action::Return => self.out.push_str("return"),
            Action::New(class) => write!(self.out, "makes {}", self.names.classes[class]).unwrap(),
            Action::NewLock => self.out.push_str("makes ReentrantLock"),
            Action::Enter(None) => write!(self.out, "enters new {}", self.names.classes[0]).unwrap(),
            Action::Enter(Some(m)) => write!(self.out, "enters {}.{}", self.names.classes[0], self.names.methods[m]).unwrap(),
            Action::ReadName(n) => write!(self.out, "reads {}", self.names.setup[n]).unwrap(),
            Action::WriteName(n, value) => {
                write!(self.out, "writes {}: ", self.names.setup[n]).unwrap();
                self.value(value);
            }
            Action::ReadField(object, field) => {
                self.out.push_str("reads ");
                self.field(object, field);
            }
            Action::WriteField(object, field, value) => {
                self.out.push_str("writes ");
                self.field(object, field);
                self.out.push_str(": ");
                self.value(value);
            }
            Action::Lock(lock) => {
                self.out.push_str("locks ");
                self.object(lock);
            }
            Action::Unlock(lock) => {
                self.out.push_str("unlocks ");
                self.object(lock);
            }
            Action::Turn => self.out.push_str("goes round a loop"),
        }
    }

    fn head(&mut self, number: usize, thread: usize) {
        write!(self.out, "{number} {}.{} ", self.names.threads[thread], self.calls[thread]).unwrap();
    }

    fn acted(&mut self, number: usize, thread: usize, action: Action, answer: Option<Value>) {
        match action {
            Action::Call => self.calls[thread] += 1,
            Action::New(class) => self.labels.push(Label::Class(class)),
            Action::NewLock => self.labels.push(Label::Lock),
            _ => {}
        }
        self.head(number, thread);
        self.action(thread, action);
        if let Some(value) = answer {
            self.out.push_str(": ");
            self.value(value);
        }
        self.out.push('\n');
    }

    fn waits(&mut self, number: usize, thread: usize, lock: usize, owner: usize) {
        self.head(number, thread);
        self.out.push_str("waits for ");
        self.object(lock);
        writeln!(self.out, ", which {} owns", self.names.threads[owner]).unwrap();
    }

    fn ended(&mut self, number: usize, thread: usize) {
        writeln!(self.out, "{number} {} has ended", self.names.threads[thread]).unwrap();
    }
}

// What a run is so far: each thread's place, the field that it read last, the field, and the lock's owner.
struct Run {
    part: usize,
    places: [usize; 3],
    read: [i32; 3],
    v: i32,
    owner: Option<usize>,
}

impl Run {
    fn setup(&mut self, teller: &mut Teller, number: usize) {
        let w = Value::Reference(1);
        let l = Value::Reference(2);
        let (action, answer) = match self.places[0] {
            0 => (Action::Call, None),
            1 => (Action::New(0), Some(w)),
            2 => (Action::Enter(None), None),
            3 => (Action::NewLock, Some(l)),
            4 => (Action::WriteField(1, 1, l), None),
            5 => (Action::WriteName(0, w), None),
            6 => (Action::Return, None),
            _ => return teller.ended(number, 0),
        };
        self.places[0] += 1;
        teller.acted(number, 0, action, answer);
    }

    // A turn of `v = v + 1`, of `l.lock(); l.unlock();` or of `l.lock()`.
    fn turn(&mut self, teller: &mut Teller, number: usize, thread: usize, place: usize) -> usize {
        let l = Some(Value::Reference(2));
        let (action, answer) = match (self.part, place) {
            (0, 3) => {
                self.read[thread] = self.v;
                (Action::ReadField(1, 0), Some(Value::Int(self.v)))
            }
            (0, 4) => {
                self.v = self.read[thread].wrapping_add(1);
                (Action::WriteField(1, 0, Value::Int(self.v)), None)
            }
            (_, 3) | (1, 5) => (Action::ReadField(1, 1), l),
            (_, 4) => {
                if let Some(owner) = self.owner.filter(|owner| *owner != thread) {
                    teller.waits(number, thread, 2, owner);
                    return place;
                }
                self.owner = Some(thread);
                (Action::Lock(2), None)
            }
            (1, 6) => {
                self.owner = None;
                (Action::Unlock(2), None)
            }
            _ => (Action::Turn, None),
        };
        teller.acted(number, thread, action, answer);
        if matches!(action, Action::Turn) { 3 } else { place + 1 }
    }

    fn step(&mut self, teller: &mut Teller, number: usize, thread: usize) {
        let place = self.places[thread];
        match place {
            0 => teller.acted(number, thread, Action::Call, None),
            1 => teller.acted(number, thread, Action::ReadName(0), Some(Value::Reference(1))),
            2 => teller.acted(number, thread, Action::Enter(Some(0)), None),
            _ => {
                self.places[thread] = self.turn(teller, number, thread, place);
                return;
            }
        }
        self.places[thread] = place + 1;
    }
}

fn main() {
    let words: Vec<usize> = std::env::args().skip(1).map(|word| word.parse().expect("a number")).collect();
    let (part, steps) = (words[0], words[1]);
    let texts = |all: &[&str]| all.iter().map(|text| text.to_string()).collect::<Vec<_>>();
    let names = Names {
        classes: texts(&["W"]),
        fields: vec![texts(&["v", "l"])],
        methods: texts(&["f"]),
        setup: texts(&["w"]),
        threads: texts(&["setup", "A", "B"]),
    };
    let mut teller = Teller { names, labels: Vec::new(), calls: vec![0; 3], out: String::new() };
    let mut run = Run { part, places: [0; 3], read: [0; 3], v: 0, owner: None };
    for number in 1..=steps {
        match number {
            1..=10 => run.setup(&mut teller, number),
            11..=30 => run.step(&mut teller, number, 1),
            _ => run.step(&mut teller, number, 1 + (number + 1) % 2),
        }
    }
    std::io::stdout().write_all(teller.out.as_bytes()).unwrap();
}
