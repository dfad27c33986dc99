//! What is printed of a session.

use std::io::{self, Write};

use session::{Books, Buffer, Mailbox, Outcome, Port, Range, Refused, Setup, Uar};
use world::trace::hex;
use world::Holdings;

use crate::follow::{Command, End};
use crate::uses::Use;
use crate::words;

/// So much of a reply is shown.
const REPLY: usize = 16;

/// What stands above a call, and above its commands where it has any.
pub fn head(out: &mut impl Write, call: &str, commands: bool) -> io::Result<()> {
    writeln!(out, "\n{call}")?;
    if commands {
        writeln!(out, "{:>5}  {:<14}  {:>10}  {:>8}  status", "", "command", "modifier", "µs")?;
    }
    Ok(())
}

pub fn command(out: &mut impl Write, number: u64, c: &Command) -> io::Result<()> {
    write!(out, "{number:>5}  {:<14}  {:>10}  {:>8}  ", words::command(c.op), c.in_mod, c.us)?;
    match c.end {
        End::Status(s) => write!(out, "{s:#04x} {}", words::status(s))?,
        End::Timeout => write!(out, "never ended")?,
        End::Bus => write!(out, "none: the bus failed")?,
    }
    match c.op_mod {
        0 => writeln!(out),
        m => writeln!(out, ", opcode modifier {m}"),
    }
}

/// What an opening or a close came to.
pub fn result(out: &mut impl Write, outcome: Result<Outcome, Refused>) -> io::Result<()> {
    match outcome {
        Ok(Outcome::Open) => writeln!(out, "\nresult: open"),
        Ok(Outcome::Failed(r, c)) => {
            writeln!(out, "\nresult: refused {}: {}", r.number(), words::refusal(r))?;
            writeln!(out, "closed: {}", words::closing(c))
        }
        Ok(Outcome::Closed(c)) => writeln!(out, "\nclosed: {}", words::closing(c)),
        other => writeln!(out, "\nresult: {other:?}, which no call should end with"),
    }
}

/// What a call on the open session came to, with so many undo records left.
pub fn used(
    out: &mut impl Write,
    it: &Use,
    outcome: Result<Outcome, Refused>,
    undo: usize,
    outbox: &Mailbox,
) -> io::Result<()> {
    let records = if undo == 1 { "record is" } else { "records are" };
    match (outcome, it) {
        (Err(r), _) => {
            let (number, why) = words::refused(r);
            writeln!(out, "result: not taken, {number}: {why}")
        }
        (Ok(Outcome::CallFailed(r)), _) => writeln!(out, "result: failed, {}: {}", r.number(), words::refusal(r)),
        (Ok(Outcome::Lent(Buffer { handle, address, pages })), _) => {
            writeln!(out, "result: lent h{handle}, {} at {address:x}", words::pages(pages))
        }
        (Ok(Outcome::Done { immediate, us }), Use::Imm(..) | Use::InImm(..)) => {
            writeln!(out, "result: good, immediate {immediate:#x}, {us} µs")
        }
        (Ok(Outcome::Done { us, .. }), Use::WithOut(_) | Use::InOut(..)) => {
            writeln!(out, "result: good, the reply begins with {}, {us} µs", hex(&outbox[..REPLY]))
        }
        (Ok(Outcome::Done { us, .. }), _) => writeln!(out, "result: good, {us} µs"),
        (Ok(_), Use::Quiesce) => writeln!(out, "result: quiesced, {undo} {records} on the undo list"),
        (Ok(_), _) => writeln!(out, "result: good, {undo} {records} on the undo list"),
    }
}

fn uar(out: &mut impl Write, u: &Uar) -> io::Result<()> {
    let length = u.length.map_or("length unknown".into(), words::size);
    writeln!(out, "\nUAR BAR: index {}, {length} ({})", u.index, words::how(u.how))
}

fn port(out: &mut impl Write, p: &Port) -> io::Result<()> {
    let mac = p.mac.map(|b| format!("{b:02x}")).join(":");
    let link = if p.link_up { "up" } else { "down" };
    writeln!(out, "port {}: link {link}, speed code {:#04x}, MTU {}, MAC {mac}", p.num, p.speed, p.mtu_cap)
}

/// Which table an address lies in.
fn table_at(s: &Setup, virt: u64) -> &'static str {
    let within = |t: &&session::Table| virt.checked_sub(t.base).is_some_and(|o| o < t.bytes);
    s.tables.iter().find(within).map_or("none", |t| words::table(t.index))
}

fn range(out: &mut impl Write, s: &Setup, r: &Range) -> io::Result<()> {
    let Range { virt, buffer: Buffer { handle, address, pages } } = r;
    writeln!(out, "  {:<6}  {virt:>12x}  {pages:>6}  {address:>16x}  h{handle}", table_at(s, *virt))
}

/// What an opening has found out and mapped.
pub fn opened(out: &mut impl Write, s: &Setup, b: &Books) -> io::Result<()> {
    uar(out, &s.uar)?;
    s.ports().iter().try_for_each(|p| port(out, p))?;
    writeln!(out, "\nlayout: name, entry, count, bytes and base in hexadecimal")?;
    for t in &s.tables {
        writeln!(out, "  {} {} {} {:x} {:x}", words::table(t.index), t.entry, t.count, t.bytes, t.base)?;
    }
    writeln!(out, "  total {:x}", s.total)?;
    writeln!(out, "  put in order by {} comparisons", s.comparisons)?;
    writeln!(out, "\nmapped: table, card address, pages, device address, handle")?;
    b.ranges().iter().try_for_each(|r| range(out, s, r))
}

fn held_by_session(out: &mut impl Write, b: &Books) -> io::Result<()> {
    let of = |name: &'static str, held: Option<Buffer>| held.map(|h| (name, h));
    let single = [of("inbox", b.inbox), of("outbox", b.outbox), of("firmware area", b.fa), of("auxiliary area", b.aux)];
    let ranges = b.ranges().iter().map(|r| ("ICM range", r.buffer));
    let lent = b.lent().iter().map(|l| ("lent", *l));
    for (name, b) in single.into_iter().flatten().chain(ranges).chain(lent) {
        let at = if b.mapped() { format!("at {:x}", b.address) } else { "not mapped".into() };
        writeln!(out, "  {name}: h{}, {} {at}", b.handle, words::pages(b.pages))?;
    }
    Ok(())
}

/// What is still held, by the session's books and by the world's.
pub fn held(out: &mut impl Write, b: &Books, h: &Holdings) -> io::Result<()> {
    let (buffers, blocks) = (b.buffers().count(), h.card.fa.len() + h.card.aux.len() + h.card.icm.len());
    let pending = if h.pending { ", a command pending" } else { "" };
    if buffers == 0 && h.in_use.is_empty() && blocks == 0 && !h.pending {
        return writeln!(out, "held: nothing, by the session, by the host's books, or by the card");
    }
    let in_use = h.in_use.len();
    writeln!(
        out,
        "held: {buffers} buffers by the session, {in_use} by the host's books; {blocks} blocks by the card{pending}"
    )?;
    held_by_session(out, b)
}
