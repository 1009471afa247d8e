//! `listset check` and `listset order`, written for speed: one pass over the lines, names as numbers, flat arrays. A
//! text that is refused gets one word without a place. `order` is for histories of one set without trapped calls.

mod fast_reading;

use fast_reading::{is_name, read_history, Call, History, Line, Operation, Reply, NO_PLACE};
use std::io::{Read, Write};

/// The set calls of an order, by their numbers, or the first text that names none. None if the text is no order.
fn read_order<'a>(history: &History<'_>, text: &'a [u8]) -> Option<Result<Vec<u32>, &'a [u8]>> {
    let mut order = Vec::with_capacity(history.calls.len());
    let mut unknown = None;
    let mut line = Line { text, at: 0 };
    while line.at < text.len() {
        if matches!(line.peek(), b' ' | b'\t' | b'\r' | b'\n') {
            line.at += 1;
            continue;
        }
        let from = line.at;
        let name = line.word();
        let thread = history.threads.get(name);
        (thread.is_some() || is_name(name)).then_some(())?;
        line.take(b".")?;
        (line.peek() != b'0' && line.peek().is_ascii_digit()).then_some(())?;
        let mut number = 0usize;
        while line.peek().is_ascii_digit() {
            number = number.saturating_mul(10).saturating_add(usize::from(line.peek() - b'0'));
            line.at += 1;
        }
        (line.at == text.len() || matches!(line.peek(), b' ' | b'\t' | b'\r' | b'\n')).then_some(())?;
        let call = thread.and_then(|thread| history.states[thread].calls.get(number - 1).copied());
        match call {
            Some(call) if call != NO_PLACE => order.push(call),
            _ => unknown = unknown.or(Some(&text[from..line.at])),
        }
    }
    Some(unknown.map_or(Ok(order), Err))
}

fn name_of(history: &History<'_>, thread: u32, number: u32) -> String {
    format!("{}.{number}", String::from_utf8_lossy(history.threads.names[thread as usize]))
}

fn name_in(history: &History<'_>, call: u32) -> String {
    let call = &history.calls[call as usize];
    name_of(history, call.thread, call.number)
}

fn answer_of(call: &Call, was: bool) -> Reply {
    if was != (call.operation == Operation::Add) { Reply::Yes } else { Reply::No }
}

fn apply(set: &mut [bool], call: &Call) {
    match call.operation {
        Operation::Add => set[call.item as usize] = true,
        Operation::Remove => set[call.item as usize] = false,
        Operation::Contains => {}
    }
}

fn check(history: &History<'_>, order: &[u32]) -> Option<(u32, u32)> {
    let mut counts = vec![0u8; history.calls.len()];
    for call in order {
        counts[*call as usize] = counts[*call as usize].saturating_add(1);
    }
    if let Some(call) = order.iter().find(|call| counts[**call as usize] > 1) {
        return Some((72, *call));
    }
    let is_missing = |place: &usize| counts[*place] == 0 && history.calls[*place].reply != Reply::None;
    if let Some(call) = (0..history.calls.len()).find(is_missing) {
        return Some((73, call as u32));
    }
    let mut latest = 0;
    for call in order {
        let call_at = &history.calls[*call as usize];
        if call_at.end < latest {
            return Some((74, *call));
        }
        latest = latest.max(call_at.called);
    }
    let mut set = vec![false; history.items];
    for call in order {
        let call_at = &history.calls[*call as usize];
        if call_at.reply != Reply::None && call_at.reply != answer_of(call_at, set[call_at.item as usize]) {
            return Some((75, *call));
        }
        apply(&mut set, call_at);
    }
    None
}

/// Whether the call can come next, and whether it changes the set.
fn fits(call: &Call, was: bool) -> Option<bool> {
    let changes = match call.operation {
        Operation::Add => !was,
        Operation::Remove => was,
        Operation::Contains => false,
    };
    match call.reply {
        Reply::None => changes.then_some(true),
        reply => (reply == answer_of(call, was)).then_some(changes),
    }
}

/// An order of the calls of the first events, or none.
fn find_order(history: &History<'_>, events: usize) -> Option<Vec<u32>> {
    let count = history.calls.partition_point(|call| (call.called as usize) < events);
    let calls = &history.calls[..count];
    let end_of = |call: &Call| if (call.end as usize) < events { call.end } else { NO_PLACE };
    let seen = |call: &Call| match end_of(call) {
        NO_PLACE => Call { end: NO_PLACE, reply: Reply::None, ..*call },
        _ => *call,
    };
    let mut ends: Vec<u32> = vec![NO_PLACE; events];
    for (number, call) in calls.iter().enumerate() {
        if end_of(call) != NO_PLACE {
            ends[call.end as usize] = number as u32;
        }
    }
    let mut is_placed = vec![false; count];
    let mut pools: Vec<Vec<u32>> = vec![Vec::new(); history.items];
    let (mut set, mut placed, mut next) = (vec![false; history.items], Vec::with_capacity(count), 0);
    for (at, ended) in ends.iter().enumerate() {
        if next < count && calls[next].called as usize == at {
            pools[calls[next].item as usize].push(next as u32);
            next += 1;
        }
        while *ended != NO_PLACE && !is_placed[*ended as usize] {
            let item = calls[*ended as usize].item as usize;
            let pool = &mut pools[item];
            let mut chosen = None;
            for (i, number) in pool.iter().enumerate() {
                let call = seen(&calls[*number as usize]);
                match fits(&call, set[item]) {
                    Some(false) => {
                        chosen = Some((i, 0));
                        break;
                    }
                    Some(true) if chosen.map_or(true, |(_, end)| call.end < end) => chosen = Some((i, call.end)),
                    _ => {}
                }
            }
            let call = pool.remove(chosen?.0);
            is_placed[call as usize] = true;
            placed.push(call);
            apply(&mut set, &calls[call as usize]);
        }
    }
    Some(placed)
}

fn line_of(history: &History<'_>, order: &[u32]) -> String {
    let mut text = String::with_capacity(8 * order.len());
    for (i, call) in order.iter().enumerate() {
        if i > 0 {
            text.push(' ');
        }
        let call = &history.calls[*call as usize];
        text.push_str(std::str::from_utf8(history.threads.names[call.thread as usize]).unwrap());
        text.push('.');
        text.push_str(&call.number.to_string());
    }
    text + "\n"
}

fn order(text: &str, history: &History<'_>, events: usize) -> String {
    if let Some((thread, number)) = history.foreign {
        return format!("broken 76 {}\n", name_of(history, thread, number));
    }
    if let Some(order) = find_order(history, events) {
        return line_of(history, &order);
    }
    let (mut at, mut illegal, mut front) = (0, events, Vec::new());
    while illegal - at > 1 {
        let middle = at + (illegal - at) / 2;
        match find_order(history, middle) {
            Some(order) => (at, front) = (middle, order),
            None => illegal = middle,
        }
    }
    format!("hopeless {} {}\n{}", at + 1, text.split('\n').nth(at).unwrap(), line_of(history, &front))
}

fn checked(history: &[u8], order: &[u8]) -> Option<String> {
    let (history, _) = read_history(history)?;
    let order = read_order(&history, order)?;
    if let Some((thread, number)) = history.foreign {
        return Some(format!("broken 76 {}\n", name_of(&history, thread, number)));
    }
    match order {
        Err(name) => Some(format!("broken 71 {}\n", String::from_utf8_lossy(name))),
        Ok(order) => Some(match check(&history, &order) {
            None => "legal\n".to_string(),
            Some((rule, call)) => format!("broken {rule} {}\n", name_in(&history, call)),
        }),
    }
}

fn main() {
    let mut bytes = Vec::new();
    std::io::stdin().read_to_end(&mut bytes).unwrap();
    let text = String::from_utf8(bytes).unwrap();
    let answer = if std::env::args().any(|word| word == "order") {
        read_history(text.as_bytes()).map(|(history, events)| order(&text, &history, events))
    } else {
        let (history, order) = match text.strip_prefix("%%\n") {
            Some(order) => ("", order),
            None => {
                let at = text.find("\n%%\n").expect("two parts");
                (&text[..at + 1], &text[at + 4..])
            }
        };
        checked(history.as_bytes(), order.as_bytes())
    };
    std::io::stdout().write_all(answer.unwrap_or("refused\n".to_string()).as_bytes()).unwrap();
}
