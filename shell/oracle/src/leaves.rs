//! The driver's functions that need no session.

use std::cell::RefCell;
use std::rc::Rc;

use world::plan::Plan;
use world::results::{Capabilities, Layout, Outcome, Port, Refusal, Stop};
use world::trace::Post;
use world::traced::Traced;
use world::World;

use crate::bars::{self, Answer, How};
use crate::dma;
use crate::fw::oracle_access as access;
use crate::fw::{DevCap, Fail, Hca, Profile};
use crate::glue::{self, Context};
use crate::hcr::oracle_access as hcr_access;
use crate::hcr::{Hcr, Op};
use crate::pci::PciIo;
use crate::refusal;
use crate::run::{self, SharedWorld};

/// A block: card address, device address, exponent.
#[derive(Clone, Copy, PartialEq, Eq, Debug)]
pub struct Block {
    pub virt: u64,
    pub phys: u64,
    pub log: u32,
}

/// `dma::blocks`.
pub fn blocks(virt: Option<u64>, phys: u64, size: u64) -> impl Iterator<Item = Block> {
    dma::blocks(virt, phys, size).map(|b| Block { virt: b.virt, phys: b.phys, log: b.log })
}

/// `bars::base`.
pub fn base(regs: &[u32; 6], reg: usize) -> Outcome<u64> {
    glue::caught(|| bars::base(regs, reg)).map_err(Stop::Outside)
}

/// `bars::candidates`.
pub fn candidates(regs: &[u32; 6], reg: usize) -> Outcome<[u8; 2]> {
    glue::caught(|| bars::candidates(regs, reg)).map_err(Stop::Outside)
}

/// What `bars::choose` picks, and the indexes it asked for, in order.
#[derive(Clone, PartialEq, Eq, Debug)]
pub struct Choice {
    pub index: u8,
    pub size: Option<u64>,
    pub how: How,
    pub asked: Vec<u8>,
}

/// `bars::choose`, with base and length that each index answers.
pub fn choose(regs: &[u32; 6], reg: usize, answers: &[Answer; 6]) -> Outcome<Choice> {
    let mut asked = Vec::new();
    let ask = |i: u8| {
        asked.push(i);
        answers[usize::from(i)]
    };
    let pick = glue::caught(|| bars::choose(regs, reg, ask)).map_err(Stop::Outside)?;
    Ok(Choice { index: pick.index, size: pick.size, how: pick.how, asked })
}

/// A driver between QUERY_DEV_CAP and INIT_HCA on an obedient card, kept so
/// that a step of bring-up costs one command and no opening.
struct Bench {
    world: SharedWorld,
    context: Rc<Context>,
    pci: PciIo,
    hca: Hca,
}

impl Bench {
    fn new() -> Bench {
        let world = Rc::new(RefCell::new(Traced::new(World::new(Plan::obedient()))));
        let context = Context::new(world.clone());
        let mut pci = glue::pci_io();
        let hcr = glue::call(&context, || Hcr::new(&mut pci).ok()).ok().flatten().expect("an obedient host");
        Bench { world, context, pci, hca: access::hca(hcr, 0, None) }
    }

    /// `query_dev_cap`, then `profile`, on a reply that is filled up with zeros.
    fn decode(&mut self, reply: &[u8], uar_size: Option<u64>) -> Outcome<(DevCap, Profile)> {
        let reply = &reply[..reply.len().min(dma::PAGE)];
        self.world.borrow_mut().bus.replies().cap = reply.to_vec();
        access::set_uar_size(&mut self.hca, uar_size);
        let (hca, pci) = (&mut self.hca, &mut self.pci);
        let result = glue::call(&self.context, || -> Result<_, Fail> {
            let cap = access::query_dev_cap(hca, pci)?;
            let prof = access::profile(&cap)?;
            Ok((cap, prof))
        });
        self.world.borrow_mut().take();
        let refused = |_| Stop::Refused(refusal::of_reply(&self.context.lines(), refusal::uar_field(reply)));
        result.map_err(Stop::Outside)?.map_err(refused)
    }

    /// `query_dev_cap` alone.
    fn dev_cap(&mut self, reply: &[u8], uar_size: Option<u64>) -> Outcome<DevCap> {
        let reply = &reply[..reply.len().min(dma::PAGE)];
        self.world.borrow_mut().bus.replies().cap = reply.to_vec();
        access::set_uar_size(&mut self.hca, uar_size);
        let (hca, pci) = (&mut self.hca, &mut self.pci);
        let result = glue::call(&self.context, || access::query_dev_cap(hca, pci));
        self.world.borrow_mut().take();
        let refused = |_| Stop::Refused(refusal::of_reply(&self.context.lines(), refusal::uar_field(reply)));
        result.map_err(Stop::Outside)?.map_err(refused)
    }

    /// `query_fw`, and what it said on the console.
    fn query_fw(&mut self, reply: &[u8], uar_bar: u8) -> Outcome<Firmware> {
        self.world.borrow_mut().bus.replies().fw = reply[..reply.len().min(dma::PAGE)].to_vec();
        self.hca.uar_bar = uar_bar;
        let (hca, pci) = (&mut self.hca, &mut self.pci);
        let result = glue::call(&self.context, || access::query_fw(hca, pci)).map_err(Stop::Outside)?;
        self.world.borrow_mut().take();
        let lines = self.context.lines();
        let refusal = result.err().map(|_| refusal::of_reply(&lines, 0));
        let numbers = |start: &str| lines.iter().find_map(|l| l.text.strip_prefix(start)).map(numbers_in);
        let version = numbers("  firmware ").expect("the firmware's version");
        let area = numbers("  FW area ").expect("the firmware's area");
        Ok(Firmware { refusal, version, area, catas: self.hca.hcr.catas.expect("set before the revision is tested") })
    }

    /// The inboxes that a step posts.
    fn posted<T>(&mut self, step: impl FnOnce(&mut Hca, &mut PciIo) -> T) -> Outcome<Vec<Mailbox>> {
        let (hca, pci) = (&mut self.hca, &mut self.pci);
        glue::call(&self.context, || step(hca, pci)).map_err(Stop::Outside)?;
        let trace = self.world.borrow_mut().take();
        Ok(trace.posts().filter_map(mailbox).collect())
    }
}

/// The reply to QUERY_FW: the refusal of its revision; what the console says of the version (major, minor, subminor,
/// revision, PPF, log of the commands) and of the areas (pages, BAR, offset, dwords); and the catastrophic buffer.
#[derive(Clone, PartialEq, Eq, Debug)]
pub struct Firmware {
    pub refusal: Option<Refusal>,
    pub version: Vec<u64>,
    pub area: Vec<u64>,
    pub catas: (u8, u64),
}

/// The numbers in a text, decimal, or hexadecimal after 0x.
fn numbers_in(text: &str) -> Vec<u64> {
    let parse = |t: &str| match t.strip_prefix("0x") {
        Some(hex) => u64::from_str_radix(hex, 16).ok(),
        None => t.parse().ok(),
    };
    text.split(|c: char| !c.is_ascii_alphanumeric()).filter_map(parse).collect()
}

/// A posted inbox, 4,096 bytes, and the input modifier: in a page mailbox the
/// number of entries.
#[derive(Clone, PartialEq, Eq, Debug)]
pub struct Mailbox {
    pub entries: u32,
    pub page: Vec<u8>,
}

fn mailbox(post: &Post) -> Option<Mailbox> {
    let mut page = post.inbox.clone()?;
    page.resize(dma::PAGE, 0);
    Some(Mailbox { entries: post.in_mod, page })
}

/// An opcode that the card answers without holding the blocks.
const PAGE_LIST: Op = Op(0, "page list");

thread_local! {
    static BENCH: RefCell<Bench> = RefCell::new(Bench::new());
}

/// Runs a part of the driver on the bench's command register.
pub(crate) fn with_hcr<T>(part: impl FnOnce(&mut Hcr) -> T) -> T {
    BENCH.with_borrow_mut(|b| {
        let toggle = hcr_access::toggle(&b.hca.hcr);
        let result = part(&mut b.hca.hcr);
        hcr_access::set_toggle(&mut b.hca.hcr, toggle == 1);
        result
    })
}

/// The layout of a capability reply, or its refusal (12 to 17).
pub fn profile(reply: &[u8], uar_size: Option<u64>) -> Outcome<Layout> {
    BENCH.with_borrow_mut(|b| b.decode(reply, uar_size)).map(|(_, prof)| run::layout(&prof))
}

/// The fields of a capability reply that is not refused.
pub fn capabilities(reply: &[u8], uar_size: Option<u64>) -> Outcome<Capabilities> {
    BENCH.with_borrow_mut(|b| b.decode(reply, uar_size)).map(|(cap, _)| run::capabilities(&cap))
}

/// The fields of a capability reply, or its refusal (12 to 15); no layout is made.
pub fn dev_cap(reply: &[u8], uar_size: Option<u64>) -> Outcome<Capabilities> {
    BENCH.with_borrow_mut(|b| b.dev_cap(reply, uar_size)).map(|cap| run::capabilities(&cap))
}

/// `query_fw`, with the index of the UAR BAR.
pub fn query_fw(reply: &[u8], uar_bar: u8) -> Outcome<Firmware> {
    BENCH.with_borrow_mut(|b| b.query_fw(reply, uar_bar))
}

/// `port_info` on an outbox that starts with these bytes, 4,096 at most.
pub fn port_info(reply: &[u8], port: u8) -> Port {
    BENCH.with_borrow(|b| {
        b.hca.hcr.outbox.zero();
        b.hca.hcr.outbox.write(0, reply);
        run::port(&access::port_info(&b.hca, port))
    })
}

/// The INIT_HCA mailbox, 4,096 bytes, for a capability reply that is not refused.
pub fn init_hca(reply: &[u8]) -> Outcome<Vec<u8>> {
    BENCH.with_borrow_mut(|b| {
        let (cap, prof) = b.decode(reply, None)?;
        let mut posted = b.posted(|hca, pci| access::init_hca(hca, pci, &cap, &prof))?;
        Ok(posted.remove(0).page)
    })
}

/// The page mailboxes of a buffer of `pages` pages at `phys`, with card
/// address `virt` for MAP_ICM.
pub fn mailboxes(virt: Option<u64>, phys: u64, pages: usize) -> Outcome<Vec<Mailbox>> {
    let buf = dma::oracle_access::without_memory(phys, pages);
    BENCH.with_borrow_mut(|b| b.posted(|hca, pci| access::map_pages(hca, pci, PAGE_LIST, virt, &buf)))
}
