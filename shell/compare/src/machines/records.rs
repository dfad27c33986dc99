//! A run as the program `machines` takes it and writes it; docs/REPLAY.md has the form.

use std::fmt::Write;

use world::bus::{Allocation, AttributeCall, Resource};
use world::trace::{Event, Trace};

/// The longest body that the program takes.
const BODY: usize = 8192;

/// The kinds of an answer.
pub(crate) const WORD: u64 = 0;
pub(crate) const DWORD: u64 = 1;
const QWORD: u64 = 2;
pub(crate) const DONE: u64 = 3;
const FAILED: u64 = 4;
const HANDLE: u64 = 5;
const MAPPED: u64 = 6;
pub(crate) const LIST: u64 = 7;

/// A question as a line, and its answer: kind, two values, and the bytes of a list.
#[derive(Clone, PartialEq, Eq, Debug)]
pub(crate) struct Turn {
    pub line: String,
    pub kind: u64,
    pub a: u64,
    pub b: u64,
    pub list: Vec<u8>,
}

/// Turns, each with how often it and the one before it stand there in turn.
pub(crate) type Turns = Vec<(Turn, u64)>;

pub(crate) fn turn(line: String, kind: u64, a: u64) -> Turn {
    Turn { line, kind, a, b: 0, list: Vec::new() }
}

fn value<T: Into<u64>>(line: String, kind: u64, answer: Option<T>) -> Turn {
    answer.map_or(turn(line.clone(), FAILED, 0), |v| turn(line, kind, v.into()))
}

fn done(line: String, good: bool) -> Turn {
    turn(line, if good { DONE } else { FAILED }, 0)
}

fn operation(call: AttributeCall) -> u8 {
    match call {
        AttributeCall::Get => 0,
        AttributeCall::Set => 1,
        AttributeCall::Enable => 2,
        AttributeCall::Supported => 4,
    }
}

/// The turn of an event; `None` for one that is no question.
pub(crate) fn of_event(event: Event) -> Option<Turn> {
    Some(match event {
        Event::ConfigRead { bits, offset, answer } => {
            value(format!("config_read{bits} {offset:x}"), if bits == 16 { WORD } else { DWORD }, answer)
        }
        Event::ConfigWrite { bits, offset, value, good } => {
            done(format!("config_write{bits} {offset:x} {value:x}"), good)
        }
        Event::RegisterRead { bar, offset, answer } => value(format!("reg_read {bar:x} {offset:x}"), DWORD, answer),
        Event::RegisterWrite { bar, offset, value, good } => {
            done(format!("reg_write {bar:x} {offset:x} {value:x}"), good)
        }
        Event::Attributes { call, value: v, answer } => {
            value(format!("attributes {:x} {v:x}", operation(call)), QWORD, answer)
        }
        Event::Resource { index, answer } => of_list(format!("resource {index:x}"), answer),
        Event::Stall { us } => turn(format!("stall {us:x}"), DONE, 0),
        Event::Allocate { pages, answer } => of_allocation(format!("allocate {pages:x}"), answer),
        Event::Map { handle, bytes, answer } => {
            let line = format!("map {:x} {bytes:x}", handle.0);
            answer.map_or(turn(line.clone(), FAILED, 0), |m| Turn { b: m.bytes, ..turn(line, MAPPED, m.address) })
        }
        Event::Unmap { handle, good } => done(format!("unmap {:x}", handle.0), good),
        Event::Free { handle, pages, good } => done(format!("free {:x} {pages:x}", handle.0), good),
        Event::FreePool { .. } | Event::Post(_) => return None,
    })
}

/// A null list and null pages are what a shell tells as failed.
fn of_list(line: String, answer: Resource) -> Turn {
    match answer {
        Resource::Failed | Resource::Null => turn(line, FAILED, 0),
        Resource::List(list) => Turn { b: list.len() as u64, list, ..turn(line, LIST, 0) },
    }
}

fn of_allocation(line: String, answer: Allocation) -> Turn {
    match answer {
        Allocation::Failed | Allocation::Null => turn(line, FAILED, 0),
        Allocation::Pages(h) => turn(line, HANDLE, h.0),
    }
}

/// The turns of a trace, a pair that comes again and again once.
fn folded(trace: &Trace) -> Turns {
    let mut all: Turns = Vec::new();
    for new in trace.events().filter_map(of_event) {
        all.push((new, 1));
        fold(&mut all);
    }
    all
}

/// Where the last two turns are those before them, they are counted there. Only a stall ends a pair.
pub(crate) fn fold(all: &mut Turns) {
    let Some([a, b, c, d]) = all.last_chunk() else {
        return;
    };
    if d.0.line.starts_with("stall") && a.0 == c.0 && b.0 == d.0 && a.1 == 1 {
        let times = b.1 + 1;
        all.truncate(all.len() - 2);
        all.last_mut().expect("the pair before").1 = times;
    }
}

/// The program's input for one run, and what it must write.
#[derive(Clone, PartialEq, Eq, Debug)]
pub struct Record {
    pub input: Vec<u8>,
    pub output: String,
}

/// How a run ended: document 01's number, or 0, and up to four values.
#[derive(Clone, Copy, PartialEq, Eq, Debug)]
pub struct End {
    pub number: u64,
    pub values: [u64; 4],
}

/// The record of a run: which machine, the words it starts with, the Rust's calls with their answers, and its result.
pub fn record(machine: u16, start: &[u64], trace: &Trace, end: End) -> Record {
    let turns = folded(trace);
    let lists: Vec<u8> = turns.iter().flat_map(|(t, _)| t.list.clone()).collect();
    let head = [machine, start.len() as u16, turns.len() as u16, lists.len() as u16];
    let mut input: Vec<u8> = head.iter().flat_map(|n| n.to_be_bytes()).collect();
    let mut words = start.to_vec();
    let mut listed = 0;
    for (t, times) in &turns {
        let at = if t.kind == LIST { listed } else { t.a };
        listed += t.list.len() as u64;
        words.extend([t.kind + 256 * times, at, t.b]);
    }
    input.extend(words.iter().flat_map(|w| w.to_be_bytes()));
    input.extend(lists);
    assert!(input.len() <= BODY + 8, "a record that the program takes");
    Record { input, output: output(&turns, end) }
}

fn output(turns: &Turns, end: End) -> String {
    let mut s = String::new();
    for (t, times) in turns {
        s.push_str(&t.line);
        s.push('\n');
        if *times > 1 {
            let _ = writeln!(s, "times {times:x}");
        }
    }
    let [a, b, c, d] = end.values;
    let _ = writeln!(s, "ended {:x} {a:x} {b:x} {c:x} {d:x}", end.number);
    s
}
