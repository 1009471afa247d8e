//! `listset check` in plain Rust: the same answers, but that a refusal says no place. With the word `order` it is `listset order`, by the
//! same search, for histories of one set without trapped calls.

use std::collections::{BTreeSet, HashMap, HashSet};
use std::io::{Read, Write};

#[derive(Clone, Copy, PartialEq)]
enum Value {
    Int(i32),
    Boolean(bool),
}

enum Occurrence {
    #[allow(dead_code)]
    Made { object: String, class: String, arguments: Vec<Value> },
    Called { object: String, method: String, arguments: Vec<Value> },
    Returned(Option<Value>),
    Trapped,
}

struct Event {
    thread: String,
    call: usize,
    occurrence: Occurrence,
}

#[derive(Clone, Copy)]
enum Operation {
    Add,
    Remove,
    Contains,
}

#[derive(Clone, Copy)]
enum End {
    Pending,
    Trapped(usize),
    Returned(usize, Option<bool>),
}

#[derive(Clone, Copy)]
struct SetCall {
    called: usize,
    operation: Operation,
    item: i32,
    end: End,
}

fn is_reserved(text: &str) -> bool {
    matches!(
        text,
        "abstract" | "assert" | "boolean" | "break" | "byte" | "case" | "catch" | "char" | "class" | "const" | "continue"
            | "default" | "do" | "double" | "else" | "enum" | "extends" | "final" | "finally" | "float" | "for" | "goto"
            | "if" | "implements" | "import" | "instanceof" | "int" | "interface" | "long" | "native" | "new" | "package"
            | "private" | "protected" | "public" | "return" | "short" | "static" | "strictfp" | "super" | "switch"
            | "synchronized" | "this" | "throw" | "throws" | "transient" | "try" | "void" | "volatile" | "while" | "true"
            | "false" | "null"
    )
}

fn is_letter(b: u8) -> bool {
    b.is_ascii_alphabetic() || b == b'_' || b == b'$'
}

fn is_name(text: &str) -> bool {
    let bytes = text.as_bytes();
    !bytes.is_empty()
        && is_letter(bytes[0])
        && bytes.iter().all(|b| is_letter(*b) || b.is_ascii_digit())
        && !is_reserved(text)
}

/// A number as it is printed: digits, and no zero in front.
fn number_in(text: &str) -> Option<usize> {
    if text.starts_with('+') || (text.starts_with('0') && text != "0") {
        return None;
    }
    text.parse().ok()
}

fn int_in(text: &str) -> Option<i32> {
    let digits = text.strip_prefix('-').unwrap_or(text);
    if text.starts_with('+') || (digits.starts_with('0') && text != "0") {
        return None;
    }
    text.parse().ok()
}

fn value_in(text: &str) -> Option<Value> {
    match text {
        "true" => Some(Value::Boolean(true)),
        "false" => Some(Value::Boolean(false)),
        _ => int_in(text).map(Value::Int),
    }
}

fn values_in(text: &str) -> Option<Vec<Value>> {
    if text.is_empty() {
        return Some(Vec::new());
    }
    text.split(", ").map(value_in).collect()
}

fn named(text: &str) -> Option<String> {
    is_name(text).then(|| text.to_string())
}

fn call_in(text: &str) -> Option<Occurrence> {
    let (head, rest) = text.split_once('(')?;
    let arguments = values_in(rest.strip_suffix(')')?)?;
    match head.split_once('.') {
        Some((object, method)) => Some(Occurrence::Called { object: named(object)?, method: named(method)?, arguments }),
        None => {
            let (object, class) = head.split_once(" = new ")?;
            Some(Occurrence::Made { object: named(object)?, class: named(class)?, arguments })
        }
    }
}

fn is_kind(text: &str) -> bool {
    matches!(
        text,
        "ArithmeticException" | "NullPointerException" | "ArrayIndexOutOfBoundsException" | "NegativeArraySizeException"
            | "IllegalMonitorStateException" | "StackOverflowError" | "Error"
    )
}

fn occurrence_in(text: &str) -> Option<Occurrence> {
    if text == "return" {
        return Some(Occurrence::Returned(None));
    }
    match text.split_once(' ')? {
        ("call", rest) => call_in(rest),
        ("return", rest) => Some(Occurrence::Returned(Some(value_in(rest)?))),
        ("trap", rest) => is_kind(rest).then_some(Occurrence::Trapped),
        _ => None,
    }
}

fn event_in(line: &str) -> Option<Event> {
    let (thread, rest) = line.split_once('.')?;
    let (number, text) = rest.split_once(' ')?;
    if thread == "all" {
        return None;
    }
    Some(Event { thread: named(thread)?, call: number_in(number)?, occurrence: occurrence_in(text)? })
}

fn may_follow(last: Option<&Event>, event: &Event) -> bool {
    let is_call = |o: &Occurrence| matches!(o, Occurrence::Made { .. } | Occurrence::Called { .. });
    let is_placed = !matches!(event.occurrence, Occurrence::Made { .. }) || event.thread == "setup";
    match last {
        None => is_call(&event.occurrence) && event.call == 1 && is_placed,
        Some(last) if is_call(&event.occurrence) => {
            matches!(last.occurrence, Occurrence::Returned(_)) && event.call == last.call + 1 && is_placed
        }
        Some(last) => {
            let gives = matches!(event.occurrence, Occurrence::Returned(Some(_)));
            is_call(&last.occurrence) && event.call == last.call && !(matches!(last.occurrence, Occurrence::Made { .. }) && gives)
        }
    }
}

fn read_history(text: &str) -> Option<Vec<Event>> {
    let mut events: Vec<Event> = Vec::new();
    let mut places: HashMap<String, usize> = HashMap::new();
    let mut rest = text;
    while let Some((line, after)) = rest.split_once('\n') {
        let event = event_in(line)?;
        let place = events.len();
        match places.get_mut(event.thread.as_str()) {
            Some(last) => {
                if !may_follow(events.get(*last), &event) {
                    return None;
                }
                *last = place;
            }
            None => {
                if !may_follow(None, &event) {
                    return None;
                }
                places.insert(event.thread.clone(), place);
            }
        }
        events.push(event);
        rest = after;
    }
    rest.is_empty().then_some(events)
}

fn is_call_text(text: &str) -> bool {
    match text.split_once('.') {
        Some((name, number)) => {
            is_name(name) && !number.is_empty() && !number.starts_with('0') && number.bytes().all(|b| b.is_ascii_digit())
        }
        None => false,
    }
}

fn read_order(text: &str) -> Option<Vec<String>> {
    let items = text.split([' ', '\t', '\r', '\n']).filter(|item| !item.is_empty());
    items.map(|item| is_call_text(item).then(|| item.to_string())).collect()
}

fn asked_of(occurrence: &Occurrence) -> Option<(Operation, i32)> {
    let Occurrence::Called { method, arguments, .. } = occurrence else {
        return None;
    };
    let [Value::Int(item)] = arguments[..] else {
        return None;
    };
    match method.as_str() {
        "add" => Some((Operation::Add, item)),
        "remove" => Some((Operation::Remove, item)),
        "contains" => Some((Operation::Contains, item)),
        _ => None,
    }
}

fn first_foreign(events: &[Event]) -> Option<&Event> {
    let mut first: Option<&str> = None;
    for event in events {
        match &event.occurrence {
            Occurrence::Made { .. } if first.is_some() => return Some(event),
            Occurrence::Called { object, .. } => {
                if asked_of(&event.occurrence).is_none() || first.is_some_and(|first| first != object) {
                    return Some(event);
                }
                first = Some(object);
            }
            _ => {}
        }
    }
    None
}

fn set_calls(events: &[Event]) -> Vec<SetCall> {
    let mut calls: Vec<SetCall> = Vec::new();
    let mut open: HashMap<&str, usize> = HashMap::new();
    for (at, event) in events.iter().enumerate() {
        let end = match &event.occurrence {
            Occurrence::Returned(Some(Value::Boolean(reply))) => End::Returned(at, Some(*reply)),
            Occurrence::Returned(_) => End::Returned(at, None),
            Occurrence::Trapped => End::Trapped(at),
            _ => {
                if let Some((operation, item)) = asked_of(&event.occurrence) {
                    open.insert(&event.thread, calls.len());
                    calls.push(SetCall { called: at, operation, item, end: End::Pending });
                }
                continue;
            }
        };
        if let Some(call) = open.remove(event.thread.as_str()) {
            calls[call].end = end;
        }
    }
    calls
}

fn name_of(event: &Event) -> String {
    format!("{}.{}", event.thread, event.call)
}

fn check(events: &[Event], order: &[String]) -> String {
    if let Some(event) = first_foreign(events) {
        return format!("broken NotASetCall {}", name_of(event));
    }
    let calls = set_calls(events);
    let named: HashMap<String, SetCall> = calls.iter().map(|call| (name_of(&events[call.called]), *call)).collect();
    let mut ordered = Vec::new();
    for name in order {
        match named.get(name) {
            Some(call) => ordered.push(*call),
            None => return format!("broken UnknownCall {name}"),
        }
    }
    let broken = |rule: &str, call: &SetCall| format!("broken {rule} {}", name_of(&events[call.called]));
    let mut places = HashSet::new();
    let mut repeated = None;
    for call in ordered.iter().rev() {
        if !places.insert(call.called) {
            repeated = Some(call);
        }
    }
    if let Some(call) = repeated {
        return broken("Repeated", call);
    }
    for call in &calls {
        if matches!(call.end, End::Returned(..)) && !places.contains(&call.called) {
            return broken("Missing", call);
        }
    }
    let mut latest = 0;
    for call in &ordered {
        if matches!(call.end, End::Trapped(at) | End::Returned(at, _) if at < latest) {
            return broken("AgainstTime", call);
        }
        latest = latest.max(call.called);
    }
    let mut set = BTreeSet::new();
    for call in &ordered {
        let was = set.contains(&call.item);
        let answer = if matches!(call.operation, Operation::Add) { !was } else { was };
        if matches!(call.end, End::Returned(_, reply) if reply != Some(answer)) {
            return broken("WrongReply", call);
        }
        match call.operation {
            Operation::Add => {
                set.insert(call.item);
            }
            Operation::Remove => {
                set.remove(&call.item);
            }
            Operation::Contains => {}
        }
    }
    "legal".to_string()
}

/// Whether the item has to be present before the call. None: it stands nowhere.
fn want(call: &SetCall) -> Option<bool> {
    match (call.end, call.operation) {
        (End::Returned(_, None), _) | (End::Pending | End::Trapped(_), Operation::Contains) => None,
        (End::Returned(_, Some(reply)), Operation::Add) => Some(!reply),
        (End::Returned(_, Some(reply)), _) => Some(reply),
        (_, Operation::Add) => Some(false),
        (_, Operation::Remove) => Some(true),
    }
}

fn end_of(call: &SetCall) -> Option<usize> {
    match call.end {
        End::Pending => None,
        End::Trapped(at) | End::Returned(at, _) => Some(at),
    }
}

/// The place of a call that changes nothing, or else of the first to end of those that change the set.
fn choose(pool: &[SetCall], item: i32, was: bool) -> Option<usize> {
    let fits = |call: &SetCall| call.item == item && want(call) == Some(was);
    let changes = |call: &SetCall| match call.operation {
        Operation::Add => !was,
        Operation::Remove => was,
        Operation::Contains => false,
    };
    if let Some(place) = pool.iter().position(|call| fits(call) && !changes(call)) {
        return Some(place);
    }
    let changers = (0..pool.len()).filter(|place| fits(&pool[*place]));
    changers.min_by_key(|place| end_of(&pool[*place]).unwrap_or(usize::MAX))
}

fn find_order(events: &[Event]) -> Option<Vec<SetCall>> {
    let calls = set_calls(events);
    let (mut set, mut pool, mut placed, mut next) = (BTreeSet::new(), Vec::new(), Vec::with_capacity(calls.len()), 0);
    for at in 0..events.len() {
        while next < calls.len() && calls[next].called <= at {
            pool.push(calls[next]);
            next += 1;
        }
        while let Some(ends) = pool.iter().find(|call| end_of(call) == Some(at)) {
            let item = ends.item;
            let call = pool.remove(choose(&pool, item, set.contains(&item))?);
            placed.push(call);
            match call.operation {
                Operation::Add => {
                    set.insert(call.item);
                }
                Operation::Remove => {
                    set.remove(&call.item);
                }
                Operation::Contains => {}
            }
        }
    }
    Some(placed)
}

fn names_of(events: &[Event], order: &[SetCall]) -> String {
    order.iter().map(|call| name_of(&events[call.called])).collect::<Vec<_>>().join(" ")
}

fn order(text: &str, events: &[Event]) -> String {
    if let Some(event) = first_foreign(events) {
        return format!("broken 76 {}", name_of(event));
    }
    if let Some(order) = find_order(events) {
        return names_of(events, &order);
    }
    let (mut at, mut illegal, mut front) = (0, events.len(), Vec::new());
    while illegal - at > 1 {
        let middle = at + (illegal - at) / 2;
        match find_order(&events[..middle]) {
            Some(order) => (at, front) = (middle, order),
            None => illegal = middle,
        }
    }
    format!("hopeless {} {}\n{}", at + 1, text.split('\n').nth(at).unwrap(), names_of(events, &front))
}

fn main() {
    let mut bytes = Vec::new();
    std::io::stdin().read_to_end(&mut bytes).unwrap();
    let text = String::from_utf8(bytes).unwrap();
    if std::env::args().any(|word| word == "order") {
        let answer = read_history(&text).map_or("no history".to_string(), |events| order(&text, &events));
        writeln!(std::io::stdout(), "{answer}").unwrap();
        return;
    }
    let (history, order) = text.split_once("%%\n").unwrap();
    let answer = match (read_history(history), read_order(order)) {
        (None, _) => "no history".to_string(),
        (_, None) => "no order".to_string(),
        (Some(events), Some(order)) => check(&events, &order),
    };
    writeln!(std::io::stdout(), "{answer}").unwrap();
}
