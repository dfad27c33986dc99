//! The smaller parts of the driver: bytes of a mailbox, a resource list, a buffer, the command register.

use crate::dma::oracle_access::over;
use crate::dma::DmaBuf;
use crate::fw::{self, DevCap};
use crate::glue;
use crate::hcr::oracle_access as hcr;
use crate::hcr::{CmdError, Hcr, Op};
use crate::leaves;
use crate::script::{over_script, Script};

/// `fw::pow2`.
pub fn pow2(x: u64) -> u64 {
    fw::pow2(x)
}

/// `fw::log2`.
pub fn log2(x: u64) -> u32 {
    fw::log2(x)
}

fn with_flags(flags: u64) -> DevCap {
    DevCap {
        rsvd_qps: 0,
        rsvd_srqs: 0,
        rsvd_cqs: 0,
        rsvd_eqs: 0,
        max_eqs: 0,
        rsvd_mtts: 0,
        rsvd_mpts: 0,
        rsvd_uars: 0,
        rsvd_pds: 0,
        log_max_qp_wqes: 0,
        log_max_cqes: 0,
        num_sys_eqs: 0,
        ports: 0,
        flags,
        flags2: 0,
        bmme: 0,
        eth_prot_ctrl: false,
        eth_backpl_an_rep: false,
        uar_bytes: 0,
        entry: [0; 11],
        max_icm: 0,
    }
}

/// `DevCap::flag`.
pub fn flag(flags: u64, number: u32) -> bool {
    with_flags(flags).flag(number)
}

/// `DevCap::b0`.
pub fn b0(flags: u64) -> bool {
    with_flags(flags).b0()
}

/// The big-endian field of 1, 2, 4 or 8 bytes at `off`, which lies within the bytes.
pub fn read(bytes: &mut [u8], off: usize, width: usize) -> u64 {
    let m = over(bytes);
    match width {
        1 => m.u8(off).into(),
        2 => m.be16(off).into(),
        4 => m.be32(off).into(),
        8 => m.be64(off),
        _ => unreachable!("a width that `Mem` has"),
    }
}

/// Writes such a field.
pub fn write(bytes: &mut [u8], off: usize, width: usize, v: u64) {
    let m = over(bytes);
    match width {
        1 => m.set_u8(off, v as u8),
        2 => m.set_be16(off, v as u16),
        4 => m.set_be32(off, v as u32),
        8 => m.set_be64(off, v),
        _ => unreachable!("a width that `Mem` has"),
    }
}

/// `Mem::zero`.
pub fn zero(bytes: &mut [u8]) {
    over(bytes).zero();
}

/// `PciIo::bar_range` on a list of 46 bytes or more.
pub fn resource(list: &[u8]) -> Option<(u64, u64)> {
    let script = Script { list: list.to_vec(), ..Script::default() };
    over_script(script, || glue::pci_io().bar_range(0).ok()).0
}

/// What `DmaBuf::new` asks for: the pages of its allocation, and the bytes of its map where the host granted the pages.
#[derive(Clone, Copy, PartialEq, Eq, Debug)]
pub struct Asked {
    pub pages: u64,
    pub mapped: Option<u64>,
    /// The pages of the buffer that it gives.
    pub given: Option<u64>,
}

/// `DmaBuf::new` on a host that grants so many pages and no more.
pub fn buffer(bytes: u64, grant: u64) -> Asked {
    let script = Script { grant, ..Script::default() };
    let part = || DmaBuf::new(&mut glue::pci_io(), bytes as usize).ok().map(|b| b.pages as u64);
    let (given, s) = over_script(script, part);
    let [pages] = s.asked[..] else { panic!("a buffer is one allocation") };
    Asked { pages, mapped: s.maps.first().copied(), given }
}

/// `Hcr::pending` where the status dword reads so.
pub fn pending(status: u32, toggle: bool) -> bool {
    let script = Script { reads: [(status, 1)].into(), ..Script::default() };
    let part = |h: &mut Hcr| hcr::pending(h, &mut glue::pci_io()).ok().expect("one read");
    leaves::with_hcr(|h| {
        hcr::set_toggle(h, toggle);
        over_script(script, || part(h)).0
    })
}

/// A command as `Hcr::post` takes it.
#[derive(Clone, Copy, Debug, Default)]
pub struct Command {
    pub toggle: bool,
    pub op: u16,
    pub op_mod: u8,
    pub in_mod: u32,
    pub in_param: u64,
    pub out_param: u64,
}

/// How a command ended.
#[derive(Clone, Copy, PartialEq, Eq, Debug)]
pub enum End {
    /// Good, with its immediate.
    Good(u64),
    Status(u8),
    Timeout,
    Busy,
    /// A register was not read or not written.
    Failed,
}

impl End {
    fn of(result: Result<u64, CmdError>) -> End {
        match result {
            Ok(immediate) => End::Good(immediate),
            Err(CmdError::Status(s)) => End::Status(s),
            Err(CmdError::Timeout) => End::Timeout,
            Err(CmdError::Busy) => End::Busy,
            Err(CmdError::Pci) => End::Failed,
        }
    }
}

/// What a command did: its register writes as the bus saw them, its stalls, and how it ended.
pub struct Posted {
    pub writes: Vec<(u64, u32)>,
    pub stalls: Vec<u64>,
    pub end: End,
}

/// What the card shows to a command, as its own dwords.
#[derive(Clone, Copy, Debug, Default)]
pub struct Shows {
    /// The polls that show GO.
    pub polls: u64,
    /// The bits beside GO and T of the poll that shows the end.
    pub end: u32,
    /// The status dword, read once more when the end was seen.
    pub status: u32,
    /// The immediate's two dwords.
    pub immediate: [u32; 2],
}

const GO: u32 = 1 << 23;
const T: u32 = 1 << 21;

fn t(on: bool) -> u32 {
    if on {
        T
    } else {
        0
    }
}

/// `Hcr::post` on such a card.
pub fn post(c: Command, shows: Shows) -> Posted {
    // Before the command T is not the toggle; once it is done, T is the toggle that it was posted with.
    let done = t(c.toggle) | shows.end & !(GO | T);
    let [high, low] = shows.immediate;
    let reads = [(t(!c.toggle), 1), (GO, shows.polls), (done, 1), (shows.status, 1), (high, 1), (low, 1)];
    let script = Script { reads: reads.into(), ..Script::default() };
    leaves::with_hcr(|h| {
        hcr::set_toggle(h, c.toggle);
        let params = [c.in_param, c.out_param];
        let part = || hcr::post(h, &mut glue::pci_io(), Op(c.op, "op"), c.op_mod, c.in_mod, params);
        let (result, s) = over_script(script, part);
        Posted { writes: s.writes, stalls: s.stalls, end: End::of(result) }
    })
}

/// `Hcr::new` where the status dword reads so, then a command on a card that shows this T: the dwords that were written.
fn first_command(status: u32, shown: bool) -> Vec<(u64, u32)> {
    let reads = [(status, 1), (t(shown), 1), (t(!shown), 2), (0, 2)];
    let script = Script { reads: reads.into(), grant: 1, ..Script::default() };
    let part = || {
        let mut pci = glue::pci_io();
        let mut hcr = Hcr::new(&mut pci).ok().expect("both mailboxes are granted");
        End::of(hcr.imm(&mut pci, Op(4, "op"), 0, 0, 0))
    };
    let (end, s) = over_script(script, part);
    assert_eq!(end == End::Busy, s.writes.is_empty(), "a command that is not Busy is posted");
    s.writes
}

/// The toggle that `Hcr::new` chooses where the status dword reads so: T of the first command. Only where the card shows
/// the other T is there a command.
pub fn first_toggle(status: u32) -> bool {
    let posted = [false, true].map(|shown| first_command(status, shown).last().map(|w| u32::from_be(w.1) & T != 0));
    match posted {
        [Some(toggle), None] | [None, Some(toggle)] => toggle,
        _ => panic!("a toggle is 0 or 1"),
    }
}
