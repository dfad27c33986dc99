//! Tasks with what the bus answers, by seed, around the boundaries that matter and within document 01's domain.

use oracle::leaves;
use oracle::machines::{Command, Part};
use world::bus::{Allocation, Handle, Resource};
use world::calls::Form;
use world::prng::Prng;
use world::resources::{Descriptor, ENDS};
use world::PAGE;

use super::script::{Faults, Plan, Sequence};
use super::tasks::Task;

/// A task, and the bus it runs over.
#[derive(Clone, Debug)]
pub struct Case {
    pub task: Task,
    pub plan: Plan,
}

const GO: u32 = 1 << 23;
const T: u32 = 1 << 21;
/// As much of configuration space as can be asked for.
const CONFIG: usize = 0x120;

/// Case `number` of a machine, by its number in `NAMES`.
pub fn case(machine: usize, seed: u64, number: u64) -> Case {
    let mut r = Prng::new(seed ^ (number << 8) ^ machine as u64);
    // The first numbers differ little.
    r.next_u64();
    let r = &mut r;
    let plan = plan(r);
    match machine {
        0 => command(r, plan),
        1 => Case { task: Task::Reset, plan: reset(r, plan) },
        2 => Case { task: Task::Making(bytes(r)), plan: memory(r, plan, 64) },
        3 => freeing(r, plan),
        4 => Case { task: Task::Attributes, plan: attributes(r, plan) },
        5 => Case { task: Task::Claim, plan: claim(r, plan) },
        6 => Case { task: Task::Parting(part(r)), plan },
        _ => Case { task: Task::FindBar, plan: find_bar(r, plan) },
    }
}

/// Any answers, and no faults.
fn plan(r: &mut Prng) -> Plan {
    Plan {
        status: Sequence::default(),
        semaphore: Sequence::of(&[(1, 0)]),
        vendor: Sequence::of(&[(1, 0x15b3)]),
        config: r.bytes(CONFIG),
        registers: Sequence::of(&[(1, r.next_u64() as u32), (1, r.next_u64() as u32), (1, r.next_u64() as u32)]),
        attributes: [r.next_u64(), r.next_u64(), r.next_u64(), r.next_u64()],
        lists: std::array::from_fn(|_| Resource::Failed),
        allocation: Allocation::Pages(Handle(1)),
        mapping: (PAGE, 0),
        faults: Faults::None,
    }
}

/// A status dword as the card has it: with or without GO and T, any other bits.
fn status(r: &mut Prng, go: bool, t: bool) -> u32 {
    let top = if r.one_in(2) { 0 } else { (r.next_u64() as u32) << 24 };
    let rest = (r.next_u64() as u32 & 0x00ff_ffff & !(GO | T)) | top;
    rest | if go { GO } else { 0 } | if t { T } else { 0 }
}

/// How often a command is seen pending, and whether all reads show the same then.
fn polls(r: &mut Prng) -> (u64, bool) {
    if r.one_in(2000) {
        return (r.pick(&[600_989, 600_990, 600_991, 600_992]), true);
    }
    if r.one_in(50) {
        return (r.pick(&[998, 999, 1_000, 1_001, 1_002, 1_500]), true);
    }
    (r.pick(&[0, 0, 0, 1, 1, 2, 3, 8, 20]), false)
}

/// Pending: GO, or T as the toggle is once the command is posted.
fn pending(r: &mut Prng, toggle: bool) -> u32 {
    let go = r.one_in(2);
    let t = if go { r.one_in(2) } else { !toggle };
    status(r, go, t)
}

fn command(r: &mut Prng, mut plan: Plan) -> Case {
    let toggle = r.one_in(2);
    let busy = r.one_in(12);
    let first = if busy { pending(r, !toggle) } else { status(r, false, !toggle) };
    let (polls, same) = polls(r);
    let mut list = vec![(1, first)];
    if same {
        list.push((polls, pending(r, toggle)));
    } else {
        list.extend((0..polls).map(|_| (1, pending(r, toggle))));
    }
    list.push((1, status(r, false, toggle)));
    // Of the last read only the top byte matters.
    let any = r.next_u64() as u32;
    list.push((1, if r.one_in(2) { any & 0x00ff_ffff } else { any }));
    plan.status = Sequence::of(&list.iter().filter(|(n, _)| *n > 0).map(|(n, v)| (*n, v.to_be())).collect::<Vec<_>>());
    let catas = (r.pick(&[0, 2, 4, 6, 1, 255]), r.next_u64() >> r.below(64));
    let task = Task::Command(Command {
        form: r.pick(&[Form::Imm, Form::WithIn, Form::WithOut, Form::InImm, Form::InOut]),
        op: r.below(0x1000) as u16,
        op_mod: r.next_u64() as u8,
        in_mod: r.next_u64() as u32,
        in_param: r.next_u64(),
        inbox: r.next_u64() & !(PAGE - 1),
        outbox: r.next_u64() & !(PAGE - 1),
        toggle,
        catas: (!r.one_in(3)).then_some(catas),
        silent: r.one_in(4),
    });
    Case { task, plan }
}

/// Commands that are seen pending so often, at both ends of a short wait and of a Timeout: the buffer that is read after a
/// Timeout known, unknown, and known to a silent command.
pub fn waits() -> Vec<(u64, Case)> {
    let polls = [0, 1, 999, 1_000, 1_001, 600_989, 600_990, 600_991];
    let registers = [(Some((2, 0x1234)), false), (None, false), (Some((2, 0x1234)), true)];
    let all = polls.iter().flat_map(|n| registers.map(|(catas, silent)| (*n, wait(*n, catas, silent))));
    all.collect()
}

fn wait(polls: u64, catas: Option<(u8, u64)>, silent: bool) -> Case {
    let mut r = Prng::new(polls);
    let mut plan = plan(&mut r);
    let list = [(1, 0), (polls, GO), (2, T)];
    plan.status = Sequence::of(&list.map(|(n, v): (u64, u32)| (n, v.to_be())));
    let task = Task::Command(Command {
        form: Form::Imm,
        op: 0x3b,
        op_mod: 1,
        in_mod: 7,
        in_param: 0x1122_3344_5566_7788,
        inbox: 0,
        outbox: 0,
        toggle: true,
        catas,
        silent,
    });
    Case { task, plan }
}

/// Resets whose semaphore is held, or whose vendor is away, for so many reads.
pub fn limits() -> Vec<Case> {
    let held = [0, 1, 9_999, 10_000, 10_001].map(|n| (n, 0, Some(0xffff)));
    let away = [1, 1_998, 1_999, 2_000].iter().flat_map(|n| [(0, *n, Some(0xffff)), (0, *n, None)]);
    held.into_iter().chain(away).map(|(held, away, vendor)| limit(held, away, vendor)).collect()
}

fn limit(held: u64, away: u64, vendor: Option<u32>) -> Case {
    let mut r = Prng::new(held ^ away);
    let mut plan = plan(&mut r);
    chain(&mut plan.config, 0x40, 2);
    plan.config[0x34] = 0x40;
    plan.semaphore = Sequence::of(&[(held, 0x0100_0000), (1, 0)]);
    plan.vendor = Sequence(vec![(away, vendor), (1, Some(0x15b3))]);
    Case { task: Task::Reset, plan }
}

/// A list of capabilities: any bytes, no list, one with PCI Express at its end, or one that goes round.
fn capabilities(r: &mut Prng, config: &mut [u8]) {
    let step = 4 * r.pick(&[1, 1, 2, 3]);
    let start = r.pick(&[0x04, 0x40, 0x48, 0x80, 0xfc]) as u8;
    match r.below(6) {
        0 => {}
        1 => config[0x34] = r.pick(&[0, 1, 2, 3]),
        2 => {
            // Every place points to itself or to one behind it.
            config[0x34] = start;
            for at in (0..0x100).step_by(4) {
                config[at] = r.pick(&[0x01, 0x05, 0x11, 0x0f]);
                config[at + 1] = (at as u8).wrapping_add(step as u8) | r.pick(&[0, 0, 3]);
            }
        }
        _ => {
            config[0x34] = start | r.pick(&[0, 0, 1, 2, 3]);
            let count = r.pick(&[0, 1, 2, 5, 46, 47, 48, 49]);
            chain(config, start, count);
        }
    }
}

/// So many capabilities from `start` on, then PCI Express.
fn chain(config: &mut [u8], start: u8, count: u8) {
    let mut at = start;
    for _ in 0..count {
        config[usize::from(at)] = 0x01;
        let next = at.wrapping_add(4).max(4);
        config[usize::from(at) + 1] = next;
        at = next;
    }
    config[usize::from(at)] = 0x10;
}

/// Some reads that say "not yet", then the one that goes on; `long` are the counts at the limit.
fn waited(r: &mut Prng, long: &[u64], not_yet: impl Fn(&mut Prng) -> Option<u32>, good: u32) -> Sequence {
    let mut list = Vec::new();
    if r.one_in(150) {
        list.push((r.pick(long), not_yet(r)));
    } else {
        let count = r.pick(&[0, 0, 0, 1, 2, 12]);
        list.extend((0..count).map(|_| (1, not_yet(r))));
    }
    list.push((1, Some(good)));
    Sequence(list)
}

fn reset(r: &mut Prng, mut plan: Plan) -> Plan {
    capabilities(r, &mut plan.config);
    let held = |r: &mut Prng| Some(1 + r.pick(&[0, 0x00ff_ffff, 0x7fff_ffff, 0xffff_fffe]));
    plan.semaphore = waited(r, &[9_999, 10_000, 10_001, 10_002], held, 0);
    let away = |r: &mut Prng| (!r.one_in(3)).then_some(0xffff);
    let back = r.pick(&[0, 0x15b3, 0xfffe, 0x7fff, 0xff]);
    plan.vendor = waited(r, &[1_998, 1_999, 2_000, 2_001], away, back);
    plan
}

/// Within document 01's domain: no more than 2^64 - 4,096.
fn bytes(r: &mut Prng) -> u64 {
    let any = r.below(64 * PAGE + 1);
    let many = r.next_u64() >> r.below(52);
    let list = [0, 1, 4095, 4096, 4097, 8192, 64 * PAGE, 64 * PAGE + 1, any, any, many, u64::MAX - PAGE + 1];
    r.pick(&list).min(u64::MAX - PAGE + 1)
}

/// Pages handed over or not, mapped at a page multiple that they fit behind, whole or not.
fn memory(r: &mut Prng, mut plan: Plan, pages: u64) -> Plan {
    let handle = r.pick(&[0, 1, 2, u64::MAX, r.clone().next_u64()]);
    plan.allocation = if r.one_in(10) { Allocation::Null } else { Allocation::Pages(Handle(handle)) };
    let last = 0u64.wrapping_sub(pages * PAGE);
    let any = r.next_u64() & !(PAGE - 1);
    let address = r.pick(&[0, PAGE, 1 << 32, last, any]).min(last);
    plan.mapping = (address, r.pick(&[0, 0, 0, 0, 1, -1, 4096, -4096]));
    plan
}

/// Any buffer that was made.
fn freeing(r: &mut Prng, plan: Plan) -> Case {
    let bytes = r.below(64 * PAGE + 1);
    let mut plan = memory(r, plan, 64);
    plan.mapping.1 = 0;
    if plan.allocation == Allocation::Null {
        plan.allocation = Allocation::Pages(Handle(r.next_u64()));
    }
    Case { task: Task::Freeing(bytes), plan }
}

/// The claim behind them fails.
fn attributes(r: &mut Prng, mut plan: Plan) -> Plan {
    const DUAL: u64 = 0x8000;
    let any = r.next_u64();
    plan.attributes[1] = r.pick(&[0, DUAL, !DUAL, u64::MAX, 0x600, any, any]);
    plan.registers = Sequence(vec![(1, None)]);
    plan
}

fn claim(r: &mut Prng, mut plan: Plan) -> Plan {
    let any = r.next_u64() as u32;
    plan.registers = Sequence::of(&[(1, r.pick(&[0, 0, 0, 1, 0x0100_0000, 0x8000_0000, any]))]);
    let command = r.pick(&[0, 0x0400, 0xfbff, 0xffff, any as u16]);
    plan.config[4..6].copy_from_slice(&command.to_le_bytes());
    plan
}

fn part(r: &mut Prng) -> Part {
    let any = r.next_u64();
    r.pick(&[Part::Release, Part::Restore(any), Part::Restore(0), Part::QuiesceTail, Part::QuiesceTail])
}

/// A BAR dword: its type bits matter, and its address bits at both ends.
fn dword(r: &mut Prng) -> u32 {
    let any = r.next_u64() as u32 & !0xf;
    let address = r.pick(&[0, 0, 0x10, 0xffff_fff0, 0xe000_0000, 0x8000_0000, any]);
    address | r.pick(&[0, 4, 4, 12, 8, 1, 2, 3, 7, 15])
}

fn find_bar(r: &mut Prng, mut plan: Plan) -> Plan {
    let dwords: [u32; 6] = std::array::from_fn(|_| dword(r));
    for (i, d) in dwords.iter().enumerate() {
        plan.config[0x10 + 4 * i..0x14 + 4 * i].copy_from_slice(&d.to_le_bytes());
    }
    let want = leaves::base(&dwords, 2).expect("a register");
    plan.lists = std::array::from_fn(|_| list(r, want));
    plan
}

/// Nothing, or one memory range that is the one wanted or not: what the Rust reads as the documents do.
fn list(r: &mut Prng, want: u64) -> Resource {
    match r.below(8) {
        0 | 1 => return Resource::Failed,
        2 => return Resource::Null,
        _ => {}
    }
    let any = r.next_u64();
    let base = r.pick(&[want, want, 0, want ^ 0x10, any]);
    let size = r.pick(&[0, 1, 0x1000, 0x80_0000, u64::MAX]);
    let more = r.pick(&[0, 0, 1, 18]);
    let mut bytes = Descriptor { more, ..Descriptor::memory(base, size) }.bytes();
    bytes.extend(r.pick(&ENDS));
    Resource::List(bytes)
}
