//! What an opening has found out.

use core::array;

use crate::abi::Words;

/// How the index of the UAR BAR was chosen.
#[derive(Clone, Copy, PartialEq, Eq, Debug)]
pub enum How {
    /// Its list has the base in configuration space.
    BaseMatches,
    /// All indexes were asked, and this one has that base.
    Scan,
    /// It is the only one of the two candidates with a list.
    OnlyAnswer,
    /// No list has that base: it is the number of the register.
    NoMatch,
    /// There is no list: it is the number of the register.
    NoAnswer,
}

impl How {
    fn of(word: u64) -> Option<How> {
        let all = [How::BaseMatches, How::Scan, How::OnlyAnswer, How::NoMatch, How::NoAnswer];
        all.get(usize::try_from(word).ok()?).copied()
    }
}

/// The BAR of the UAR area.
#[derive(Clone, Copy, PartialEq, Eq, Debug)]
pub struct Uar {
    /// The index that PCI I/O has for it.
    pub index: u8,
    /// Its length, where PCI I/O told one.
    pub length: Option<u64>,
    /// How it was chosen.
    pub how: How,
}

/// The capabilities, with the reserved EQs, the EQs and the reserved UARs as QUERY_FUNC gives them where it was sent.
#[derive(Clone, Copy, PartialEq, Eq, Debug)]
pub struct Capabilities {
    /// Reserved QPs.
    pub rsvd_qps: u64,
    /// Reserved SRQs.
    pub rsvd_srqs: u64,
    /// Reserved CQs.
    pub rsvd_cqs: u64,
    /// Reserved EQs.
    pub rsvd_eqs: u64,
    /// EQs.
    pub max_eqs: u64,
    /// Reserved MTTs.
    pub rsvd_mtts: u64,
    /// Reserved MPTs.
    pub rsvd_mpts: u64,
    /// Reserved UARs.
    pub rsvd_uars: u64,
    /// Reserved PDs.
    pub rsvd_pds: u64,
    /// System EQs; 0 where the card has none.
    pub num_sys_eqs: u64,
    /// Ports: 1 or 2.
    pub ports: u8,
    /// The logarithm of the most entries of a QP.
    pub log_max_qp_wqes: u8,
    /// The logarithm of the most entries of a CQ.
    pub log_max_cqes: u8,
    /// The logarithm of the least page.
    pub log_min_page: u8,
    /// The capability flags.
    pub flags: u64,
    /// The extended flags 2.
    pub flags2: u32,
    /// The BMME flags.
    pub bmme: u32,
    /// The PTYS register may be used.
    pub eth_prot_ctrl: bool,
    /// Backplane autonegotiation is reported.
    pub eth_backpl_an_rep: bool,
    /// The bytes of the UAR area.
    pub uar_bytes: u64,
    /// The most bytes that the tables may have.
    pub max_icm: u64,
    /// Entry sizes by table index.
    pub entry: [u64; 11],
}

/// What QUERY_PORT said about a port.
#[derive(Clone, Copy, PartialEq, Eq, Debug)]
pub struct Port {
    /// Its number, 1 or 2.
    pub num: u8,
    /// The link is up.
    pub link_up: bool,
    /// Byte 0: the types of link that it supports, the one suggested, and whether it senses by default.
    pub b0: u8,
    /// The largest MTU.
    pub mtu_cap: u16,
    /// The logarithm of its MAC addresses.
    pub log_macs: u8,
    /// Autonegotiation is on.
    pub autoneg: bool,
    /// Autonegotiation is complete.
    pub an_complete: bool,
    /// The code of the link speed; it means something only while the link is up.
    pub speed: u8,
    /// The transceiver's type, above 24 bits of its vendor.
    pub xcvr: u32,
    /// The transceiver's wavelength.
    pub wavelength: u16,
    /// The transceiver's code.
    pub xcvr_code: u64,
    /// The MAC address.
    pub mac: [u8; 6],
}

/// A table of the layout.
#[derive(Clone, Copy, PartialEq, Eq, Debug)]
pub struct Table {
    /// QPC, RDMARC, ALTC, AUXC, SRQC, CQC, EQC, dMPT, cMPT, MTT, MCG, from 0.
    pub index: u8,
    /// The bytes of an entry.
    pub entry: u64,
    /// How many entries.
    pub count: u64,
    /// Its bytes, all of them card addresses from `base` on.
    pub bytes: u64,
    /// Its first card address.
    pub base: u64,
}

/// What an opening has found out.
#[derive(Clone, PartialEq, Eq, Debug)]
pub struct Setup {
    /// The BAR of the UAR area.
    pub uar: Uar,
    /// Reserved EQs, EQs and reserved UARs by QUERY_FUNC, or the capabilities' own where it was not sent.
    pub func: [u64; 3],
    /// The command interface is of revision 3; else 2.
    pub rev3: bool,
    /// The capabilities.
    pub cap: Capabilities,
    ports: [Port; 2],
    asked: usize,
    /// The bytes of all tables.
    pub total: u64,
    /// The first special QP.
    pub base_sqpn: u64,
    /// The first MTT behind the reserved ones.
    pub first_free_mtt: u64,
    /// The tables in the order of their bases.
    pub tables: [Table; 11],
    /// How many comparisons of two tables put them in that order.
    pub comparisons: u32,
}

impl Setup {
    /// The ports that were asked about, at revision 3.
    pub fn ports(&self) -> &[Port] {
        &self.ports[..self.asked]
    }

    pub(crate) fn of(w: &Words) -> Option<Setup> {
        let table = |i: usize| table(w, 78 + 5 * i);
        let none = Table { index: 0, entry: 0, count: 0, bytes: 0, base: 0 };
        let mut tables = [none; 11];
        for (i, t) in tables.iter_mut().enumerate() {
            *t = table(i)?;
        }
        Some(Setup {
            uar: uar(w)?,
            func: [w.at(4), w.at(5), w.at(6)],
            rev3: w.flag(7),
            cap: capabilities(w)?,
            ports: [port(w, 40)?, port(w, 57)?],
            asked: usize::try_from(w.at(74)).ok().filter(|n| *n <= 2)?,
            total: w.at(75),
            base_sqpn: w.at(76),
            first_free_mtt: w.at(77),
            tables,
            comparisons: w.at(133).try_into().ok()?,
        })
    }
}

fn uar(w: &Words) -> Option<Uar> {
    let length = (!w.flag(1)).then_some(w.at(2));
    Some(Uar { index: w.at(0).try_into().ok()?, length, how: How::of(w.at(3))? })
}

fn capabilities(w: &Words) -> Option<Capabilities> {
    Some(Capabilities {
        rsvd_qps: w.at(8),
        rsvd_srqs: w.at(9),
        rsvd_cqs: w.at(10),
        rsvd_eqs: w.at(11),
        max_eqs: w.at(12),
        rsvd_mtts: w.at(13),
        rsvd_mpts: w.at(14),
        rsvd_uars: w.at(15),
        rsvd_pds: w.at(16),
        num_sys_eqs: w.at(17),
        ports: w.at(18).try_into().ok()?,
        log_max_qp_wqes: w.at(19).try_into().ok()?,
        log_max_cqes: w.at(20).try_into().ok()?,
        log_min_page: w.at(21).try_into().ok()?,
        flags: w.at(22),
        flags2: w.at(23).try_into().ok()?,
        bmme: w.at(24).try_into().ok()?,
        eth_prot_ctrl: w.flag(25),
        eth_backpl_an_rep: w.flag(26),
        uar_bytes: w.at(27),
        max_icm: w.at(28),
        entry: array::from_fn(|i| w.at(29 + i)),
    })
}

fn port(w: &Words, at: usize) -> Option<Port> {
    let mut mac = [0; 6];
    for (i, m) in mac.iter_mut().enumerate() {
        *m = w.at(at + 11 + i).try_into().ok()?;
    }
    Some(Port {
        num: w.at(at).try_into().ok()?,
        link_up: w.flag(at + 1),
        b0: w.at(at + 2).try_into().ok()?,
        mtu_cap: w.at(at + 3).try_into().ok()?,
        log_macs: w.at(at + 4).try_into().ok()?,
        autoneg: w.flag(at + 5),
        an_complete: w.flag(at + 6),
        speed: w.at(at + 7).try_into().ok()?,
        xcvr: w.at(at + 8).try_into().ok()?,
        wavelength: w.at(at + 9).try_into().ok()?,
        xcvr_code: w.at(at + 10),
        mac,
    })
}

fn table(w: &Words, at: usize) -> Option<Table> {
    let index = w.at(at).try_into().ok()?;
    Some(Table { index, entry: w.at(at + 1), count: w.at(at + 2), bytes: w.at(at + 3), base: w.at(at + 4) })
}
