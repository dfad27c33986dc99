//! The command register: what a command writes, when it is pending, how long it waits, how it ends.

use oracle::parts::{self, Command, End, Shows};
use world::plan::NEVER;
use world::prng::Prng;

use crate::ffi::{self, Answer};
use crate::{Input, Leaf};

pub const LEAVES: &[Leaf] = &[
    Leaf {
        name: "pending",
        input: |r| Input::words(&[status_dword(r), r.below(2)]),
        rust: |i| Some(Answer::words(&[parts::pending(i.words[0] as u32, i.words[1] == 1).into()])),
        proved: |i| Answer::words(&[ffi::pending(i.words[0] as u32, i.words[1] == 1).into()]),
    },
    Leaf { name: "writes", input: command, rust: writes, proved: proved_writes },
    Leaf {
        name: "swap",
        input: |r| Input::words(&[u64::from(r.next_u64() as u32)]),
        rust: swap,
        proved: |i| Answer::words(&[ffi::swap(i.words[0] as u32).into()]),
    },
];

/// Those that are not in the stored list.
pub const MORE: &[Leaf] = &[
    Leaf {
        name: "swap_read",
        input: |r| Input::words(&[u64::from(r.next_u64() as u32), u64::from(r.next_u64() as u32)]),
        rust: swap_read,
        proved: |i| Answer::words(&[ffi::swap(i.words[0] as u32).into(), ffi::swap(i.words[1] as u32).into()]),
    },
    Leaf {
        name: "status",
        input: |r| Input::words(&[u64::from(r.next_u64() as u32) >> r.pick(&[0, 0, 8])]),
        rust: status,
        proved: |i| Answer::words(&[ffi::status(i.words[0] as u32).into()]),
    },
    Leaf {
        name: "first_toggle",
        input: |r| Input::words(&[status_dword(r)]),
        rust: |i| Some(Answer::words(&[parts::first_toggle(i.words[0] as u32).into()])),
        proved: |i| Answer::words(&[ffi::first_toggle(i.words[0] as u32).into()]),
    },
    Leaf {
        name: "go_word",
        input: |r| Input::words(&[r.below(2), r.below(256), r.below(1 << 16)]),
        rust: go_word,
        proved: |i| {
            let word = ffi::go_word(i.words[0] == 1, i.words[1] as u8, i.words[2] as u16);
            Answer::words(&[ffi::swap(word).into()])
        },
    },
    Leaf { name: "stall", input: |r| Input::words(&[r.below(STALLS)]), rust: stall, proved: proved_stall },
    Leaf { name: "waited", input: wait, rust: waited, proved: proved_waited },
];

/// The stalls of a command that never ends.
pub const STALLS: u64 = 600_990;

/// A status dword: GO, T and the status, and now and then any bits.
fn status_dword(r: &mut Prng) -> u64 {
    let some = (r.below(2) << 23) | (r.below(2) << 21) | (r.below(256) << 24);
    if r.one_in(2) {
        some
    } else {
        some ^ (r.next_u64() & 0xff5f_ffff)
    }
}

/// Toggle, opcode, modifier, input modifier, input and output parameter.
fn command(r: &mut Prng) -> Input {
    let op = if r.one_in(4) { r.below(1 << 16) } else { r.below(1 << 12) };
    Input::words(&[r.below(2), op, r.below(256), r.next_u64() & 0xffff_ffff, r.next_u64(), r.next_u64() >> r.below(64)])
}

fn writes(i: &Input) -> Option<Answer> {
    let w = &i.words;
    let c = Command {
        toggle: w[0] == 1,
        op: w[1] as u16,
        op_mod: w[2] as u8,
        in_mod: w[3] as u32,
        in_param: w[4],
        out_param: w[5],
    };
    let writes = parts::post(c, Shows::default()).writes;
    let words = writes.into_iter().flat_map(|(offset, value)| [offset, value.into()]);
    Some(Answer { words: words.collect(), bytes: Vec::new() })
}

fn proved_writes(i: &Input) -> Answer {
    let w = &i.words;
    Answer::words(&ffi::writes(w[0] == 1, w[1] as u16, w[2] as u8, w[3] as u32, w[4], w[5]))
}

/// The dword as the bus carries it when it is an input modifier.
fn swap(i: &Input) -> Option<Answer> {
    let c = Command { in_mod: i.words[0] as u32, ..Command::default() };
    Some(Answer::words(&[parts::post(c, Shows::default()).writes[2].1.into()]))
}

/// The immediate's two dwords, from what the bus carries.
fn swap_read(i: &Input) -> Option<Answer> {
    let immediate = [i.words[0], i.words[1]].map(|w| u32::from_be(w as u32));
    match parts::post(Command::default(), Shows { immediate, ..Shows::default() }).end {
        End::Good(value) => Some(Answer::words(&[value >> 32, value & 0xffff_ffff])),
        end => panic!("a command that ended well: {end:?}"),
    }
}

/// The status is that of the read behind the end, whatever the poll before it showed.
fn status(i: &Input) -> Option<Answer> {
    let status = i.words[0] as u32;
    let shows = Shows { status, end: !status, ..Shows::default() };
    match parts::post(Command::default(), shows).end {
        End::Good(_) => Some(Answer::words(&[0])),
        End::Status(s) if s != 0 => Some(Answer::words(&[s.into()])),
        end => panic!("a command that ended: {end:?}"),
    }
}

/// The last of the seven writes.
fn go_word(i: &Input) -> Option<Answer> {
    let (toggle, op_mod, op) = (i.words[0] == 1, i.words[1] as u8, i.words[2] as u16);
    let c = Command { toggle, op_mod, op, ..Command::default() };
    Some(Answer::words(&[parts::post(c, Shows::default()).writes[6].1.into()]))
}

/// The stalls of a command that shows GO so often, in order, and how it ended.
pub fn waits(polls: u64) -> (Vec<u64>, End) {
    let posted = parts::post(Command::default(), Shows { polls, ..Shows::default() });
    (posted.stalls, posted.end)
}

thread_local! {
    /// The stalls of one command that never ended.
    static NEVER_ENDED: Vec<u64> = waits(NEVER).0;
}

fn stall(i: &Input) -> Option<Answer> {
    NEVER_ENDED.with(|stalls| stalls.get(i.words[0] as usize).map(|us| Answer::words(&[*us])))
}

fn proved_stall(i: &Input) -> Answer {
    Answer::words(&[ffi::stall(i.words[0] as u32).into()])
}

/// How often a command shows GO: mostly around the thousandth stall, where they become longer.
fn wait(r: &mut Prng) -> Input {
    let (few, near, any) = (r.below(10), 900 + r.below(200), r.below(2000));
    Input::words(&[r.pick(&[few, near, near, any])])
}

/// A wait of its own for every case: the stalls, their sum, and the last of them.
fn waited(i: &Input) -> Option<Answer> {
    let (stalls, end) = waits(i.words[0]);
    if end == End::Timeout {
        return None;
    }
    Some(Answer::words(&[stalls.len() as u64, stalls.iter().sum(), stalls.last().copied().unwrap_or(0)]))
}

fn proved_waited(i: &Input) -> Answer {
    let n = i.words[0] as u32;
    let last = n.checked_sub(1).map_or(0, ffi::stall);
    Answer::words(&[n.into(), ffi::waited(n), last.into()])
}
