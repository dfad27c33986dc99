//! Whole calls of the driver over a bus, with results as plain data.
//!
//! A panic in the driver is `Stop::Outside`, as is a call without an open
//! session: for those the Rust has no answer. The Rust gives no microseconds;
//! here they are the sum of the command's stalls.

use std::cell::RefCell;
use std::rc::Rc;

use world::bus::Bus;
use world::calls::{Call, Command, Form, List};
use world::plan::Plan;
use world::results::{
    Buffer, Capabilities, Closing, Done, Given, Layout, Opened, Outcome, Port, Refusal, State, Stop, Table, Undo,
};
use world::traced::Traced;
use world::World;

use crate::dma::{self, DmaBuf, Mem};
use crate::fw::{self, DevCap, Hca, PortInfo, Profile, Setup};
use crate::glue::{self, Context};
use crate::hcr::{self, CmdError, Op};
use crate::pci::PciIo;
use crate::refusal;

/// The unchanged driver over a bus, before, during and after a session.
pub struct Driver {
    context: Rc<Context>,
    pci: PciIo,
    hca: Option<Hca>,
    /// The first good allocation of the last opening: the inbox; the next one
    /// is the outbox.
    first: usize,
}

/// A traced world that a driver and its owner both reach.
pub type SharedWorld = Rc<RefCell<Traced<World>>>;

/// A world of that plan, and a driver over it.
pub fn in_world(plan: Plan) -> (SharedWorld, Driver) {
    let world = Rc::new(RefCell::new(Traced::new(World::new(plan))));
    (world.clone(), Driver::new(world))
}

impl Driver {
    pub fn new(bus: Rc<RefCell<dyn Bus>>) -> Driver {
        Driver { context: Context::new(bus), pci: glue::pci_io(), hca: None, first: 0 }
    }

    /// What the last opening's inbox and outbox hold now, where it had them;
    /// also when they were given back.
    pub fn mailboxes(&self) -> [Option<Vec<u8>>; 2] {
        [self.first, self.first + 1].map(|n| self.context.allocation(n).map(|h| self.context.page(h)))
    }

    /// The console lines of the last call.
    pub fn console(&self) -> Vec<String> {
        self.context.lines().into_iter().map(|l| l.text).collect()
    }

    /// What the open session holds.
    pub fn state(&self) -> Option<State> {
        let hca = self.hca.as_ref()?;
        let books = fw::oracle_access::books(hca);
        let buffer = |b: &DmaBuf| self.buffer(&b.mem(), b.pages);
        let record = |u: &fw::Undo| Undo { op: u.op.0, op_mod: u.op_mod, in_mod: u.in_mod, in_param: u.in_param };
        Some(State {
            toggle: hcr::oracle_access::toggle(&hca.hcr),
            broken: hca.broken(),
            silent: hca.hcr.silent,
            started: books.open,
            catas: hca.hcr.catas,
            original: books.original,
            inbox: buffer(&hca.hcr.inbox),
            outbox: buffer(&hca.hcr.outbox),
            fa: books.fa.map(buffer),
            aux: books.aux.map(buffer),
            icm: books.icm.iter().map(|(virt, b)| (*virt, buffer(b))).collect(),
            mtt: books.mtt,
            lent: books.lent.iter().map(buffer).collect(),
            undo: books.undo.iter().map(record).collect(),
        })
    }

    fn buffer(&self, mem: &Mem, pages: usize) -> Buffer {
        let host = dma::oracle_access::host(mem);
        Buffer { handle: self.context.handle(host.cast()), address: mem.dev, pages: pages as u64 }
    }

    /// Run a call on the open session.
    fn with_hca<T>(&mut self, f: impl FnOnce(&mut Hca, &mut PciIo) -> T) -> Outcome<T> {
        let Some(hca) = self.hca.as_mut() else {
            return Err(Stop::Outside("no session is open".into()));
        };
        let result = glue::call(&self.context, || f(hca, &mut self.pci));
        if result.is_err() {
            self.hca = None;
        }
        result.map_err(Stop::Outside)
    }

    fn command<T>(&mut self, f: impl FnOnce(&mut Hca, &mut PciIo) -> Result<T, CmdError>) -> Outcome<(T, u64)> {
        let result = self.with_hca(|hca, pci| {
            let r = f(hca, pci);
            let error = r.as_ref().err().copied();
            hca.cmd(r).map_err(|_| error)
        })?;
        let us = self.context.stalled();
        result
            .map(|v| (v, us))
            .map_err(|e| Stop::Refused(refusal::of_command(e.expect("a failed command has an error"), us)))
    }
}

pub fn open(d: &mut Driver) -> Outcome<Opened> {
    if d.hca.is_some() {
        return Err(Stop::Outside("a session is open already".into()));
    }
    d.first = d.context.allocations();
    let result = glue::call(&d.context, || fw::open(&mut d.pci)).map_err(Stop::Outside)?;
    match result {
        Ok((hca, setup)) => {
            let opened = opened(&hca, &setup);
            d.hca = Some(hca);
            Ok(opened)
        }
        Err(_) => {
            let [_, outbox] = d.mailboxes();
            let uar_field = refusal::uar_field(&outbox.unwrap_or_default());
            Err(Stop::Refused(refusal::of_opening(&d.context.lines(), uar_field)))
        }
    }
}

pub fn close(d: &mut Driver) -> Outcome<Closing> {
    let Some(hca) = d.hca.take() else {
        return Err(Stop::Outside("no session is open".into()));
    };
    let clean = glue::call(&d.context, || fw::close(hca, &mut d.pci)).map_err(Stop::Outside)?;
    let closing = refusal::closing(&d.context.lines());
    assert_eq!(clean, closing == Closing::Clean, "the console and the result of close agree");
    Ok(closing)
}

/// An opening with nothing but the driver's own call inside `around`; whether it was good.
pub fn open_within(d: &mut Driver, around: impl FnOnce(&mut dyn FnMut())) -> bool {
    let (mut result, pci) = (None, &mut d.pci);
    glue::call(&d.context, || around(&mut || result = Some(fw::open(pci)))).expect("no panic");
    d.hca = result.and_then(Result::ok).map(|(hca, _)| hca);
    d.hca.is_some()
}

/// A close likewise; whether it was clean.
pub fn close_within(d: &mut Driver, around: impl FnOnce(&mut dyn FnMut())) -> bool {
    let (mut clean, mut hca, pci) = (false, d.hca.take(), &mut d.pci);
    let mut close = || clean = hca.take().is_some_and(|hca| fw::close(hca, pci));
    glue::call(&d.context, || around(&mut close)).expect("no panic");
    clean
}

pub fn quiesce(d: &mut Driver) -> Outcome<()> {
    d.with_hca(fw::quiesce)
}

pub fn lend(d: &mut Driver, bytes: u64) -> Outcome<Buffer> {
    let lent = d.with_hca(|hca, pci| hca.lend(pci, "lent", bytes as usize))?;
    let mem = lent.map_err(|_| Stop::Refused(Refusal::new(5, &[])))?;
    Ok(d.buffer(&mem, mem.len() / dma::PAGE))
}

pub fn push_undo(d: &mut Driver, u: Undo) -> Outcome<()> {
    d.with_hca(|hca, _| hca.push_undo(client(u.op), u.op_mod, u.in_mod, u.in_param))
}

pub fn undo_to(d: &mut Driver, mark: u64) -> Outcome<()> {
    let undone = d.with_hca(|hca, pci| hca.undo_to(pci, mark as usize))?;
    undone.map_err(|_| Stop::Refused(Refusal::new(23, &[])))
}

pub fn imm(d: &mut Driver, op: u16, op_mod: u8, in_mod: u32, in_param: u64) -> Outcome<Done> {
    let (value, us) = d.command(|hca, pci| hca.hcr.imm(pci, client(op), op_mod, in_mod, in_param))?;
    Ok(Done { immediate: Some(value), outbox: None, us })
}

pub fn with_in(d: &mut Driver, op: u16, op_mod: u8, in_mod: u32, input: &[u8]) -> Outcome<Done> {
    let ((), us) = d.command(|hca, pci| {
        fill(hca, input);
        hca.hcr.with_in(pci, client(op), op_mod, in_mod)
    })?;
    Ok(Done { immediate: None, outbox: None, us })
}

pub fn in_imm(d: &mut Driver, op: u16, op_mod: u8, in_mod: u32, input: &[u8]) -> Outcome<Done> {
    let (value, us) = d.command(|hca, pci| {
        fill(hca, input);
        hca.hcr.in_imm(pci, client(op), op_mod, in_mod)
    })?;
    Ok(Done { immediate: Some(value), outbox: None, us })
}

pub fn with_out(d: &mut Driver, op: u16, op_mod: u8, in_mod: u32) -> Outcome<Done> {
    let (outbox, us) = d.command(|hca, pci| {
        hca.hcr.with_out(pci, client(op), op_mod, in_mod)?;
        Ok(outbox(hca))
    })?;
    Ok(Done { immediate: None, outbox: Some(outbox), us })
}

pub fn in_out(d: &mut Driver, op: u16, op_mod: u8, in_mod: u32, input: &[u8]) -> Outcome<Done> {
    let (outbox, us) = d.command(|hca, pci| {
        fill(hca, input);
        hca.hcr.in_out(pci, client(op), op_mod, in_mod)?;
        Ok(outbox(hca))
    })?;
    Ok(Done { immediate: None, outbox: Some(outbox), us })
}

/// One call of a list.
pub fn call(d: &mut Driver, call: &Call) -> Outcome<Given> {
    match call {
        Call::Open => open(d).map(|o| Given::Opened(Box::new(o))),
        Call::Command(c) => command(d, c).map(Given::Done),
        Call::Lend { bytes } => lend(d, *bytes).map(Given::Lent),
        Call::PushUndo(u) => push_undo(d, *u).map(|()| Given::Nothing),
        Call::UndoTo { mark } => undo_to(d, *mark).map(|()| Given::Nothing),
        Call::Quiesce => quiesce(d).map(|()| Given::Nothing),
        Call::Close => close(d).map(Given::Closed),
    }
}

/// A list of calls, up to an opening that fails; each with what it gave.
pub fn list(world: &SharedWorld, d: &mut Driver, list: &List, mut each: impl FnMut(&Call, Outcome<Given>)) {
    for c in &list.calls {
        let given = call(d, c);
        let (opening, good) = (*c == Call::Open, given.is_ok());
        each(c, given);
        if opening && !good {
            return;
        }
        if opening {
            world.borrow_mut().bus.schedule(list.later.clone());
        }
    }
}

fn command(d: &mut Driver, c: &Command) -> Outcome<Done> {
    match c.form {
        Form::Imm => imm(d, c.op, c.op_mod, c.in_mod, c.in_param),
        Form::WithIn => with_in(d, c.op, c.op_mod, c.in_mod, &c.input),
        Form::WithOut => with_out(d, c.op, c.op_mod, c.in_mod),
        Form::InImm => in_imm(d, c.op, c.op_mod, c.in_mod, &c.input),
        Form::InOut => in_out(d, c.op, c.op_mod, c.in_mod, &c.input),
    }
}

fn client(op: u16) -> Op {
    Op(op, "CLIENT")
}

/// A client's input: the inbox is zeroed, then written from byte 0.
fn fill(hca: &Hca, input: &[u8]) {
    hca.hcr.inbox.zero();
    hca.hcr.inbox.write(0, input);
}

fn outbox(hca: &Hca) -> Vec<u8> {
    let mut bytes = vec![0; hca.hcr.outbox.len()];
    hca.hcr.outbox.read(0, &mut bytes);
    bytes
}

fn opened(hca: &Hca, setup: &Setup) -> Opened {
    Opened {
        cap: capabilities(&setup.cap),
        layout: layout(&setup.prof),
        ports: setup.ports.iter().map(port).collect(),
        rev3: setup.rev3,
        uar_bar: hca.uar_bar,
        uar_size: fw::oracle_access::books(hca).uar_size,
    }
}

/// A profile as plain data.
pub(crate) fn layout(p: &Profile) -> Layout {
    let table = |t: &fw::Table| Table { entry: t.entry, count: t.count, bytes: t.bytes, base: t.base };
    Layout {
        tables: core::array::from_fn(|i| table(&p.t[i])),
        total: fw::oracle_access::total(p),
        base_sqpn: p.base_sqpn,
        first_free_mtt: p.first_free_mtt,
    }
}

pub(crate) fn capabilities(c: &DevCap) -> Capabilities {
    world::capabilities_of!(c)
}

pub(crate) fn port(p: &PortInfo) -> Port {
    world::port_of!(p)
}
