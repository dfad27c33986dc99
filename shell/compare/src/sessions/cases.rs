//! What is run: chosen plans with one thing changed in turn, and plans by seed.

use session::LIST_BYTES;
use world::bus::Resource;
use world::plan::{put_be16, put_be64, Addresses, Behaviour, Fault, Plan, Which, NEVER};
use world::prng::Prng;
use world::registers::*;
use world::results::Undo;

use crate::lists;

/// A session: the world's plan, the read of the status dword that shows GO whatever the card shows, the undo records that
/// are pushed on the open session, and whether it is closed.
#[derive(Clone, Debug)]
pub struct Case {
    pub name: String,
    pub plan: Plan,
    pub go_at: Option<u64>,
    pub undo: Vec<Undo>,
    pub close: bool,
}

impl Case {
    pub fn new(name: impl Into<String>, plan: Plan) -> Case {
        Case { name: name.into(), plan, go_at: None, undo: three_records(), close: true }
    }

    fn named(&self, more: impl std::fmt::Display) -> Case {
        Case { name: format!("{}, {more}", self.name), ..self.clone() }
    }

    /// One bus call is reported failed.
    pub fn with_fault(&self, call: u64, taken: bool) -> Case {
        let mut case = self.named(format!("call {call} fails, {}", if taken { "taken" } else { "not taken" }));
        case.plan.faults.push(Fault { call, taken });
        case
    }

    /// One command, counted from 0 among those taken, ends so.
    pub fn with_command(&self, number: u64, behaviour: Behaviour) -> Case {
        let mut case = self.named(format!("command {number} {behaviour:?}"));
        case.plan.card.commands.insert(0, (Which::Number(number), behaviour));
        case
    }

    /// One read of the status dword shows GO.
    pub fn with_go(&self, read: u64) -> Case {
        Case { go_at: Some(read), ..self.named(format!("status read {read} shows GO")) }
    }
}

fn three_records() -> Vec<Undo> {
    vec![
        Undo { op: QUERY_FW, op_mod: 0, in_mod: 0, in_param: 0 },
        Undo { op: 0x020, op_mod: 1, in_mod: 2, in_param: 3 },
        Undo { op: 0xff5, op_mod: 0xff, in_mod: u32::MAX, in_param: u64::MAX },
    ]
}

/// A card that does as it is told, and says something in every reply.
pub fn obedient() -> Plan {
    let mut plan = Plan::obedient();
    plan.card.replies.ports = [(1..65).collect(), (128..192).collect()];
    plan.card.replies.func = (0..64).collect();
    plan.card.replies.adapter = (0..=255).collect();
    plan
}

fn revision_2() -> Plan {
    let mut plan = obedient();
    put_be16(&mut plan.card.replies.fw, 0x0a, 2);
    plan
}

fn two_ports() -> Plan {
    let mut plan = obedient();
    plan.card.replies.cap[0x37] = 2;
    plan.card.usual = Behaviour::after(2);
    plan.card.start.t = true;
    plan
}

fn system_eqs() -> Plan {
    let mut plan = obedient();
    put_be16(&mut plan.card.replies.cap, 0x26, 0x20);
    plan
}

/// No resource list for any BAR.
fn no_size() -> Plan {
    let mut plan = obedient();
    plan.resources.odd = (0..6).map(|i| (i, Resource::Failed)).collect();
    plan.card.replies.cap[0x49] = 0x2b;
    plan
}

/// Device addresses that share no alignment with the card's, and tables of more than 256 pages: several mailboxes for one
/// range.
fn fragmented() -> Plan {
    let mut plan = obedient();
    plan.host.addresses = Addresses::Rising { from: 0x7fff_f000 };
    put_be16(&mut plan.card.replies.fw, 0x00, 301);
    plan.card.replies.aux_pages = 257;
    put_be16(&mut plan.card.replies.cap, 0x82, 4096);
    put_be64(&mut plan.card.replies.cap, 0xa0, u64::MAX);
    plan
}

/// The plans that are changed in turn.
pub fn variants() -> Vec<Case> {
    vec![
        Case::new("obedient", obedient()),
        Case::new("revision 2", revision_2()),
        Case::new("two ports", two_ports()),
        Case::new("system EQs", system_eqs()),
        Case::new("BAR size unknown", no_size()),
        Case::new("several mailboxes", fragmented()),
        Case { undo: Vec::new(), ..Case::new("no undo records", obedient()) },
        Case { close: false, ..Case::new("left open", obedient()) },
    ]
}

/// The ends of a command that are tried on each.
pub const STATUSES: [u8; 6] = [1, 2, 8, 0x50, 0x7f, 0xff];

/// A Timeout.
pub const ENDLESS: Behaviour = Behaviour { polls: NEVER, status: 0 };

/// The reply of a query with bytes changed.
fn with_bytes(op: u16, bytes: &[(usize, u8)]) -> Plan {
    let mut plan = obedient();
    let reply = if op == QUERY_FW { &mut plan.card.replies.fw } else { &mut plan.card.replies.cap };
    bytes.iter().for_each(|(at, v)| reply[*at] = *v);
    plan
}

/// Replies that are refused, each with its number.
pub fn refused_replies() -> Vec<(u32, Case)> {
    let of = |number: u32, op: u16, bytes: &[(usize, u8)]| {
        (number, Case::new(format!("reply {op:#x} {bytes:x?}"), with_bytes(op, bytes)))
    };
    let mut primary = Case::new("not primary", obedient());
    primary.plan.card.commands = vec![(Which::Opcode(QUERY_FW), Behaviour::status(0x50))];
    let mut small = Case::new("small BAR", obedient());
    small.plan.resources.sizes[2] = 0xf_ffff;
    let mut all = vec![(10, primary), (15, small)];
    for revision in [0, 1, 4, 0x102, 0xffff] {
        let [high, low] = u16::to_be_bytes(revision);
        all.push(of(11, QUERY_FW, &[(0x0a, high), (0x0b, low)]));
    }
    all.extend([13, 14, 0x8c, 0xff].map(|v| of(12, QUERY_DEV_CAP, &[(0x4b, v)])));
    all.extend([0, 3, 4, 15, 0xf0].map(|v| of(13, QUERY_DEV_CAP, &[(0x37, v)])));
    all.extend([44, 45, 63, 0x6c, 0xff].map(|v| of(14, QUERY_DEV_CAP, &[(0x49, v)])));
    all.extend([4, 43, 0x44].map(|v| of(15, QUERY_DEV_CAP, &[(0x49, v)])));
    all.extend((0x80..0x94).step_by(2).map(|at| of(16, QUERY_DEV_CAP, &[(at, 0), (at + 1, 24)])));
    all.extend((0x80..0x94).step_by(2).map(|at| of(16, QUERY_DEV_CAP, &[(at, 0), (at + 1, 0)])));
    all.push(of(17, QUERY_DEV_CAP, &[(0xa6, 0x0f), (0xa7, 0xff)]));
    all.push(of(17, QUERY_DEV_CAP, &[(0xa3, 0)]));
    all
}

/// An opcode that an undo record may have. No query: as an immediate it names no outbox, and this card would write its
/// reply at device address 0, where a mailbox may be mapped.
fn opcode(r: &mut Prng) -> u16 {
    let op = r.below(0x1000) as u16;
    let query = [QUERY_FW, QUERY_DEV_CAP, QUERY_PORT, QUERY_FUNC, QUERY_ADAPTER].contains(&op);
    if query || RESERVED.contains(&op) {
        0x020
    } else {
        op
    }
}

fn undo(r: &mut Prng) -> Undo {
    Undo { op: opcode(r), op_mod: r.next_u64() as u8, in_mod: r.next_u64() as u32, in_param: r.next_u64() }
}

/// The session of a seed: the world's plan of that seed, now and then with a fault more, at any place of opening and close.
pub fn seeded(seed: u64) -> Case {
    let mut r = Prng::new(seed ^ 0x7365_7373);
    let mut plan = Plan::seeded(seed);
    if r.one_in(3) {
        plan.faults.push(Fault { call: r.below(1_400), taken: r.one_in(2) });
    }
    // One that is longer would be cut on its way to the session.
    if let Some(list) = r.one_in(100).then(|| lists::damaged(&mut r)).filter(|l| l.len() <= LIST_BYTES) {
        plan.resources.odd.insert(0, (r.below(6) as u8, Resource::List(list)));
    }
    let go_at = r.one_in(40).then(|| r.below(200));
    let records = r.pick(&[0, 0, 1, 2, 3, 5, 20]);
    let undo = (0..records).map(|_| undo(&mut r)).collect();
    Case { name: format!("seed {seed}"), plan, go_at, undo, close: !r.one_in(8) }
}
