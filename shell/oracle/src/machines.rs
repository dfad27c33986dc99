//! The driver's tasks one at a time, over any bus: one command, the reset, a buffer, attributes, claim, release, the
//! UAR BAR.

use std::cell::RefCell;
use std::rc::Rc;

use world::bus::{Bus, Handle};
use world::calls::Form;

use crate::bars::How;
use crate::console::{Kind, Line};
use crate::dma::oracle_access as dma_access;
use crate::dma::{DmaBuf, PAGE};
use crate::fw;
use crate::fw::oracle_access as access;
use crate::glue::{self, Context};
use crate::hcr::oracle_access as hcr_access;
use crate::hcr::{CmdError, Hcr, Op};
use crate::pci::PciIo;

/// The bus that a task runs over.
pub type SharedBus = Rc<RefCell<dyn Bus>>;

/// A command, and how the command register stands before it.
#[derive(Clone, Copy, PartialEq, Eq, Debug)]
pub struct Command {
    pub form: Form,
    pub op: u16,
    pub op_mod: u8,
    pub in_mod: u32,
    /// For `Form::Imm`.
    pub in_param: u64,
    /// Where the device sees the mailboxes.
    pub inbox: u64,
    pub outbox: u64,
    pub toggle: bool,
    pub catas: Option<(u8, u64)>,
    pub silent: bool,
}

/// What a command comes to.
#[derive(Clone, Copy, PartialEq, Eq, Debug)]
pub enum Commanded {
    /// The immediate, where the form gives it.
    Done(Option<u64>),
    Status(u8),
    Timeout,
    Busy,
    Bus,
}

/// In which part a reset failed; at the semaphore its last value, 0 where it could not be read.
#[derive(Clone, Copy, PartialEq, Eq, Debug)]
pub enum ResetEnd {
    Good,
    Save,
    Semaphore(u32),
    Write,
    Vendor,
}

/// A buffer: the handle of its pages, its device address, and how many pages.
#[derive(Clone, Copy, PartialEq, Eq, Debug)]
pub struct Buffer {
    pub handle: Handle,
    pub dev: u64,
    pub pages: u64,
}

/// The end of a session, in three parts.
#[derive(Clone, Copy, PartialEq, Eq, Debug)]
pub enum Part {
    Release,
    Restore(u64),
    /// What `quiesce` does once the firmware is stopped.
    QuiesceTail,
}

/// The index that was picked, its size, and how it was chosen.
#[derive(Clone, Copy, PartialEq, Eq, Debug)]
pub struct Picked {
    pub index: u8,
    pub size: Option<u64>,
    pub how: How,
}

/// Runs a task on a bus; gives its result and what it said.
fn run<T>(bus: &SharedBus, task: impl FnOnce(&mut PciIo) -> T) -> (T, Rc<Context>) {
    let context = Context::new(bus.clone());
    let mut pci = glue::pci_io();
    let result = glue::call(&context, || task(&mut pci)).expect("no panic");
    (result, context)
}

/// A register between two commands, its mailboxes seen at these addresses; and their bytes.
fn register(at: [u64; 2], toggle: bool, catas: Option<(u8, u64)>, silent: bool) -> (Hcr, [Vec<u8>; 2]) {
    let mut bytes = [vec![0; PAGE], vec![0; PAGE]];
    let [inbox, outbox] = &mut bytes;
    let (inbox, outbox) = (dma_access::buffer_over(inbox, at[0]), dma_access::buffer_over(outbox, at[1]));
    (hcr_access::register(toggle, inbox, outbox, catas, silent), bytes)
}

/// `Hcr::imm`, `with_in`, `with_out`, `in_imm` or `in_out`; what it comes to, and the toggle after it.
pub fn command(bus: &SharedBus, c: &Command) -> (Commanded, bool) {
    let (mut hcr, _bytes) = register([c.inbox, c.outbox], c.toggle, c.catas, c.silent);
    let op = Op(c.op, "op");
    let (result, _) = run(bus, |pci| match c.form {
        Form::Imm => hcr.imm(pci, op, c.op_mod, c.in_mod, c.in_param).map(Some),
        Form::WithIn => hcr.with_in(pci, op, c.op_mod, c.in_mod).map(|()| None),
        Form::WithOut => hcr.with_out(pci, op, c.op_mod, c.in_mod).map(|()| None),
        Form::InImm => hcr.in_imm(pci, op, c.op_mod, c.in_mod).map(Some),
        Form::InOut => hcr.in_out(pci, op, c.op_mod, c.in_mod).map(|()| None),
    });
    let end = match result {
        Ok(v) => Commanded::Done(v),
        Err(CmdError::Status(s)) => Commanded::Status(s),
        Err(CmdError::Timeout) => Commanded::Timeout,
        Err(CmdError::Busy) => Commanded::Busy,
        Err(CmdError::Pci) => Commanded::Bus,
    };
    (end, hcr_access::toggle(&hcr) == 1)
}

/// `reset`, with the part that its alarm names.
pub fn reset(bus: &SharedBus) -> ResetEnd {
    let (result, context) = run(bus, access::reset);
    match result {
        Ok(()) => ResetEnd::Good,
        Err(_) => reset_failed(&context.lines()),
    }
}

fn reset_failed(lines: &[Line]) -> ResetEnd {
    const STILL: &str = "reset: hardware semaphore still ";
    let alarm = lines.iter().find(|l| l.kind == Kind::Alarm).expect("a failure has an alarm").text.trim_start();
    if let Some(value) = alarm.strip_prefix(STILL) {
        return ResetEnd::Semaphore(u32::from_str_radix(&value[..8], 16).expect("eight digits"));
    }
    let ends = [
        ("reset: save config", ResetEnd::Save),
        ("reset: semaphore read", ResetEnd::Semaphore(0)),
        ("reset: write", ResetEnd::Write),
        ("reset: the device did not come back", ResetEnd::Vendor),
    ];
    ends.iter().find(|(text, _)| alarm.starts_with(text)).expect("an alarm of the reset").1
}

fn facts(context: &Context, b: &DmaBuf) -> Buffer {
    let handle = context.handle(dma_access::host(b).cast());
    Buffer { handle, dev: b.dev, pages: b.pages as u64 }
}

/// `DmaBuf::new`.
pub fn make(bus: &SharedBus, bytes: u64) -> Option<Buffer> {
    let (made, context) = run(bus, |pci| DmaBuf::new(pci, bytes as usize).ok());
    made.map(|b| facts(&context, &b))
}

/// `DmaBuf::new`, then `between`, then `DmaBuf::free`; none where there is no buffer.
pub fn make_and_free(bus: &SharedBus, bytes: u64, between: impl FnOnce()) -> Option<Buffer> {
    let context = Context::new(bus.clone());
    let mut pci = glue::pci_io();
    let made = glue::call(&context, || DmaBuf::new(&mut pci, bytes as usize).ok()).expect("no panic")?;
    let buffer = facts(&context, &made);
    between();
    // SAFETY: no device has seen the buffer.
    glue::call(&context, || unsafe { made.free(&mut pci) }).expect("no panic");
    Some(buffer)
}

/// `open`, whose first calls are for the attributes. Whether it was good.
pub fn open(bus: &SharedBus) -> bool {
    run(bus, |pci| fw::open(pci).is_ok()).0
}

/// `claim`: whether it was good.
pub fn claim(bus: &SharedBus) -> bool {
    run(bus, |pci| access::claim(pci).is_ok()).0
}

/// `release`, `restore`, or `quiesce` of a session that is broken, which sends no command.
pub fn part(bus: &SharedBus, part: Part) {
    match part {
        Part::Release => run(bus, access::release).0,
        Part::Restore(original) => run(bus, |pci| access::restore(pci, original)).0,
        Part::QuiesceTail => quiesce(bus),
    }
}

fn quiesce(bus: &SharedBus) {
    let (hcr, _bytes) = register([0, 0], true, None, false);
    let mut hca = access::hca(hcr, 0, None);
    run(bus, |pci| access::quiesce_broken(&mut hca, pci));
}

/// `PciIo::find_bar` for register 2; none where a BAR dword cannot be read.
pub fn find_bar(bus: &SharedBus) -> Option<Picked> {
    const UAR: usize = 2;
    let (pick, _) = run(bus, |pci| pci.find_bar(UAR).ok());
    pick.map(|p| Picked { index: p.index, size: p.size, how: p.how })
}
