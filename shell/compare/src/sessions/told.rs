//! What a session tells, as the plain data that the Rust's results are given in.

use session::{Books, Outcome, Setup, UndoList};
use world::bus::Handle;
use world::results::{Buffer, Closing, Layout, Opened, Refusal, State, Table, Undo};

use crate::order;

pub fn closing(c: session::Closing) -> Closing {
    match c {
        session::Closing::Clean => Closing::Clean,
        session::Closing::Reset => Closing::Reset,
        session::Closing::Kept => Closing::Kept,
    }
}

pub(crate) fn values(r: session::Refusal) -> Vec<u64> {
    use session::Refusal::*;
    match r {
        Attributes | Owner | Reset | Bar | Memory | NotPrimary | Address | Reserved | Undo | List => Vec::new(),
        Busy => vec![0],
        Status { status, us } => vec![status.into(), us],
        Timeout { us } | Bus { us } => vec![us],
        Revision(v) => vec![v.into()],
        MinPage(v) | Ports(v) | Uar(v) | Entry(v) => vec![v.into()],
        UarArea(v) | Total(v) => vec![v],
    }
}

/// The refusal of a failed opening; none where it did not fail.
pub fn refusal(outcome: Outcome) -> Option<Refusal> {
    match outcome {
        Outcome::Failed(r, c) => Some(Refusal { closing: Some(closing(c)), ..Refusal::new(r.number(), &values(r)) }),
        _ => None,
    }
}

/// By index; they are told in the order of their bases.
fn layout(s: &Setup) -> Layout {
    assert!(s.tables.is_sorted_by_key(|t| t.base), "tables in the order of their bases");
    let mut tables = [Table::default(); 11];
    for t in &s.tables {
        tables[usize::from(t.index)] = Table { entry: t.entry, count: t.count, bytes: t.bytes, base: t.base };
    }
    let layout = Layout { tables, total: s.total, base_sqpn: s.base_sqpn, first_free_mtt: s.first_free_mtt };
    assert_eq!(u64::from(s.comparisons), order::of_layout(&layout), "the comparisons that put the tables in order");
    layout
}

pub fn opened(s: &Setup) -> Opened {
    Opened {
        cap: world::capabilities_of!(&s.cap),
        layout: layout(s),
        ports: s.ports().iter().map(|p| world::port_of!(p)).collect(),
        rev3: s.rev3,
        uar_bar: s.uar.index,
        uar_size: s.uar.length,
    }
}

pub(crate) fn buffer(b: session::Buffer) -> Buffer {
    Buffer { handle: Handle(b.handle), address: b.address, pages: b.pages }
}

/// The books of an open session.
pub fn state(b: &Books, undo: &UndoList) -> State {
    let record = |u: &session::Undo| Undo { op: u.op, op_mod: u.op_mod, in_mod: u.in_mod, in_param: u.in_param };
    State {
        toggle: b.toggle.into(),
        broken: b.broken,
        silent: b.silent,
        started: b.started,
        catas: b.catas,
        original: b.original,
        inbox: buffer(b.inbox.expect("an open session has its inbox")),
        outbox: buffer(b.outbox.expect("an open session has its outbox")),
        fa: b.fa.map(buffer),
        aux: b.aux.map(buffer),
        icm: b.ranges().iter().map(|r| (r.virt, buffer(r.buffer))).collect(),
        mtt: b.mtt_mem().and_then(|m| b.ranges().iter().position(|r| r.buffer == m)),
        lent: b.lent().iter().copied().map(buffer).collect(),
        undo: undo.records().iter().map(record).collect(),
    }
}

/// How a closed session ended.
pub fn closed(outcome: Outcome) -> Closing {
    match outcome {
        Outcome::Closed(c) => closing(c),
        other => panic!("a close ends closed: {other:?}"),
    }
}

/// A record for the session's undo list.
pub fn record(u: &Undo) -> session::Undo {
    session::Undo { op: u.op, op_mod: u.op_mod, in_mod: u.in_mod, in_param: u.in_param }
}
