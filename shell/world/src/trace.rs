//! What a driver asked and what it was answered, one line for each event.
//!
//! Numbers are hexadecimal, except page counts, microseconds, BAR indexes,
//! handles and repeats. A failed call ends in `fail`, a good one without a
//! value in `ok`.
//!
//! ```text
//! cfgr16 04 -> 0006                 config read (cfgr32 likewise)
//! cfgw16 04 0406 -> ok              config write (cfgw32 likewise)
//! regr 0 80698 -> 00000000          register read: BAR, offset, value as the CPU sees it
//! regw 0 8069c 00000000 -> ok       register write
//! attr get 0 -> 7                   attribute call: get, set, enable, supported; value
//! bar 2 -> 8a2b00..                 BAR resource: index, the list's bytes, or null
//! free_pool 2                       the list of that index given back
//! stall 1000                        µs
//! alloc 2 -> h1                     pages, handle; or null
//! map h1 2000 -> 40000000 2000      bytes asked; device address, bytes mapped
//! unmap h1 -> ok
//! free h1 2 -> ok                   pages
//! post fff 0 1 40000000 0 inbox 00  stands before each write at 0x80698: opcode, opcode
//!                                   modifier, input modifier, in and out parameter; then
//!                                   the inbox without its trailing zero bytes if the in
//!                                   parameter is its address, else -
//! x999 regr 0 80698 -> 00008000; stall 1
//!                                   a read followed by a stall, 999 times (folded form only)
//! ```
//!
//! Fences are not written down. A trace keeps repeated waits folded, so the
//! 600,990 stalls of a Timeout take two entries; `full` writes every line.

use std::fmt::{self, Write};

use crate::bus::{Allocation, AttributeCall, Handle, Mapping, Resource};

/// A command at the moment it is posted.
#[derive(Clone, PartialEq, Eq, Debug)]
pub struct Post {
    pub op: u16,
    pub op_mod: u8,
    pub in_mod: u32,
    pub in_param: u64,
    pub out_param: u64,
    /// The inbox, if it lies at `in_param`, without its trailing zero bytes.
    pub inbox: Option<Vec<u8>>,
}

#[derive(Clone, PartialEq, Eq, Debug)]
pub enum Event {
    ConfigRead { bits: u8, offset: u32, answer: Option<u32> },
    ConfigWrite { bits: u8, offset: u32, value: u32, good: bool },
    RegisterRead { bar: u8, offset: u64, answer: Option<u32> },
    RegisterWrite { bar: u8, offset: u64, value: u32, good: bool },
    Attributes { call: AttributeCall, value: u64, answer: Option<u64> },
    Resource { index: u8, answer: Resource },
    FreePool { index: u8 },
    Stall { us: u64 },
    Allocate { pages: u64, answer: Allocation },
    Map { handle: Handle, bytes: u64, answer: Option<Mapping> },
    Unmap { handle: Handle, good: bool },
    Free { handle: Handle, pages: u64, good: bool },
    Post(Box<Post>),
}

impl Event {
    /// A bus call that can fail; these are the calls that a fault counts.
    pub fn is_call(&self) -> bool {
        !matches!(self, Event::FreePool { .. } | Event::Stall { .. } | Event::Post(_))
    }

    pub fn failed(&self) -> bool {
        match self {
            Event::ConfigRead { answer, .. } | Event::RegisterRead { answer, .. } => answer.is_none(),
            Event::ConfigWrite { good, .. }
            | Event::RegisterWrite { good, .. }
            | Event::Unmap { good, .. }
            | Event::Free { good, .. } => !good,
            Event::Attributes { answer, .. } => answer.is_none(),
            Event::Resource { answer, .. } => *answer == Resource::Failed,
            Event::Allocate { answer, .. } => *answer == Allocation::Failed,
            Event::Map { answer, .. } => answer.is_none(),
            Event::FreePool { .. } | Event::Stall { .. } | Event::Post(_) => false,
        }
    }

    fn is_read(&self) -> bool {
        matches!(self, Event::ConfigRead { .. } | Event::RegisterRead { .. })
    }
}

impl fmt::Display for Event {
    fn fmt(&self, f: &mut fmt::Formatter<'_>) -> fmt::Result {
        match self {
            Event::ConfigRead { bits, offset, answer } => {
                write!(f, "cfgr{bits} {offset:02x} -> {}", Value(*answer, usize::from(bits / 4)))
            }
            Event::ConfigWrite { bits, offset, value, good } => {
                write!(
                    f,
                    "cfgw{bits} {offset:02x} {value:0width$x} -> {}",
                    outcome(*good),
                    width = usize::from(bits / 4)
                )
            }
            Event::RegisterRead { bar, offset, answer } => write!(f, "regr {bar} {offset:x} -> {}", Value(*answer, 8)),
            Event::RegisterWrite { bar, offset, value, good } => {
                write!(f, "regw {bar} {offset:x} {value:08x} -> {}", outcome(*good))
            }
            Event::Attributes { call, value, answer } => {
                write!(f, "attr {} {value:x} -> {}", name(*call), Value(*answer, 1))
            }
            Event::Resource { index, answer } => write!(f, "bar {index} -> {}", list(answer)),
            Event::FreePool { index } => write!(f, "free_pool {index}"),
            Event::Stall { us } => write!(f, "stall {us}"),
            Event::Allocate { pages, answer } => write!(f, "alloc {pages} -> {}", allocation(*answer)),
            Event::Map { handle, bytes, answer: Some(m) } => {
                write!(f, "map {handle} {bytes:x} -> {:x} {:x}", m.address, m.bytes)
            }
            Event::Map { handle, bytes, answer: None } => write!(f, "map {handle} {bytes:x} -> fail"),
            Event::Unmap { handle, good } => write!(f, "unmap {handle} -> {}", outcome(*good)),
            Event::Free { handle, pages, good } => write!(f, "free {handle} {pages} -> {}", outcome(*good)),
            Event::Post(p) => write!(f, "{p}"),
        }
    }
}

impl fmt::Display for Post {
    fn fmt(&self, f: &mut fmt::Formatter<'_>) -> fmt::Result {
        let Post { op, op_mod, in_mod, in_param, out_param, inbox } = self;
        write!(f, "post {op:03x} {op_mod:x} {in_mod:x} {in_param:x} {out_param:x} inbox ")?;
        match inbox {
            Some(bytes) if bytes.is_empty() => f.write_str("00"),
            Some(bytes) => f.write_str(&hex(bytes)),
            None => f.write_str("-"),
        }
    }
}

/// A value at least so many digits wide, or `fail`.
struct Value<T>(Option<T>, usize);

impl<T: fmt::LowerHex> fmt::Display for Value<T> {
    fn fmt(&self, f: &mut fmt::Formatter<'_>) -> fmt::Result {
        match &self.0 {
            Some(v) => write!(f, "{v:0width$x}", width = self.1),
            None => f.write_str("fail"),
        }
    }
}

fn outcome(good: bool) -> &'static str {
    if good {
        "ok"
    } else {
        "fail"
    }
}

fn name(call: AttributeCall) -> &'static str {
    match call {
        AttributeCall::Get => "get",
        AttributeCall::Set => "set",
        AttributeCall::Enable => "enable",
        AttributeCall::Supported => "supported",
    }
}

fn list(answer: &Resource) -> String {
    match answer {
        Resource::Failed => "fail".into(),
        Resource::Null => "null".into(),
        Resource::List(bytes) => hex(bytes),
    }
}

fn allocation(answer: Allocation) -> String {
    match answer {
        Allocation::Failed => "fail".into(),
        Allocation::Null => "null".into(),
        Allocation::Pages(h) => h.to_string(),
    }
}

/// Bytes as lower-case hexadecimal digits.
pub fn hex(bytes: &[u8]) -> String {
    bytes.iter().fold(String::new(), |mut s, b| {
        let _ = write!(s, "{b:02x}");
        s
    })
}

/// One event, or a read and the stall after it, so many times.
#[derive(Clone, PartialEq, Eq, Debug)]
enum Entry {
    One(Event),
    Wait { read: Event, us: u64, times: u64 },
}

/// The events of a run, in order. Equal traces have the same events.
#[derive(Clone, Default, Debug)]
pub struct Trace {
    entries: Vec<Entry>,
    /// A read that a stall may follow.
    read: Option<Event>,
}

impl PartialEq for Trace {
    fn eq(&self, other: &Trace) -> bool {
        self.entries == other.entries && self.read == other.read
    }
}

impl Trace {
    pub fn push(&mut self, event: Event) {
        match (self.read.take(), event) {
            (Some(read), Event::Stall { us }) => self.wait(read, us),
            (read, event) => {
                self.entries.extend(read.map(Entry::One));
                if event.is_read() {
                    self.read = Some(event);
                } else {
                    self.entries.push(Entry::One(event));
                }
            }
        }
    }

    fn wait(&mut self, event: Event, wait: u64) {
        match self.entries.last_mut() {
            Some(Entry::Wait { read, us, times }) if *read == event && *us == wait => *times += 1,
            _ => self.entries.push(Entry::Wait { read: event, us: wait, times: 1 }),
        }
    }

    /// Every event, repeats written out.
    pub fn events(&self) -> impl Iterator<Item = Event> + '_ {
        let all = self.entries.iter().flat_map(|e| {
            let (pair, times) = match e {
                Entry::One(e) => (vec![e.clone()], 1),
                Entry::Wait { read, us, times } => (vec![read.clone(), Event::Stall { us: *us }], *times),
            };
            (0..times).flat_map(move |_| pair.clone())
        });
        all.chain(self.read.clone())
    }

    /// The commands posted, in order.
    pub fn posts(&self) -> impl Iterator<Item = &Post> {
        self.entries.iter().filter_map(|e| match e {
            Entry::One(Event::Post(p)) => Some(p.as_ref()),
            _ => None,
        })
    }

    /// The stalls: how many, and their sum in µs.
    pub fn stalls(&self) -> (u64, u64) {
        self.entries.iter().fold((0, 0), |(n, sum), e| match e {
            Entry::Wait { us, times, .. } => (n + times, sum + us * times),
            Entry::One(Event::Stall { us }) => (n + 1, sum + us),
            Entry::One(_) => (n, sum),
        })
    }

    /// One line for each event.
    pub fn full(&self) -> String {
        self.events().fold(String::new(), |mut s, e| {
            let _ = writeln!(s, "{e}");
            s
        })
    }

    /// As `full`, with repeated waits in one line.
    pub fn folded(&self) -> String {
        let mut s = String::new();
        for entry in &self.entries {
            let _ = match entry {
                Entry::One(e) => writeln!(s, "{e}"),
                Entry::Wait { read, us, times: 1 } => writeln!(s, "{read}\n{}", Event::Stall { us: *us }),
                Entry::Wait { read, us, times } => writeln!(s, "x{times} {read}; {}", Event::Stall { us: *us }),
            };
        }
        if let Some(read) = &self.read {
            let _ = writeln!(s, "{read}");
        }
        s
    }
}
