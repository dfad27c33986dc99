//! What a call gives, as plain data that two drivers can be compared by.

use std::fmt;

use crate::bus::Handle;

/// How a closing ended.
#[derive(Clone, Copy, PartialEq, Eq, Debug)]
pub enum Closing {
    Clean,
    Reset,
    Kept,
}

/// A refusal of document 01's table, with the values beside its number.
#[derive(Clone, PartialEq, Eq, Debug)]
pub struct Refusal {
    pub number: u32,
    pub values: Vec<u64>,
    /// At a failed opening.
    pub closing: Option<Closing>,
}

impl Refusal {
    pub fn new(number: u32, values: &[u64]) -> Refusal {
        Refusal { number, values: values.to_vec(), closing: None }
    }
}

impl fmt::Display for Refusal {
    fn fmt(&self, f: &mut fmt::Formatter<'_>) -> fmt::Result {
        write!(f, "refused {}", self.number)?;
        for v in &self.values {
            write!(f, " {v}")?;
        }
        match self.closing {
            Some(c) => write!(f, " {c:?}"),
            None => Ok(()),
        }
    }
}

/// Why a call gave no result.
#[derive(Clone, PartialEq, Eq, Debug)]
pub enum Stop {
    Refused(Refusal),
    /// Outside the domain of document 01; the text says why.
    Outside(String),
}

impl fmt::Display for Stop {
    fn fmt(&self, f: &mut fmt::Formatter<'_>) -> fmt::Result {
        match self {
            Stop::Refused(r) => write!(f, "{r}"),
            Stop::Outside(why) => write!(f, "outside the domain: {why}"),
        }
    }
}

pub type Outcome<T> = Result<T, Stop>;

/// The names of the tables, by index.
pub const NAMES: [&str; 11] = ["QPC", "RDMARC", "ALTC", "AUXC", "SRQC", "CQC", "EQC", "dMPT", "cMPT", "MTT", "MCG"];

#[derive(Clone, Copy, PartialEq, Eq, Debug, Default)]
pub struct Table {
    pub entry: u64,
    pub count: u64,
    pub bytes: u64,
    pub base: u64,
}

#[derive(Clone, PartialEq, Eq, Debug)]
pub struct Layout {
    pub tables: [Table; 11],
    pub total: u64,
    pub base_sqpn: u64,
    pub first_free_mtt: u64,
}

/// The layout listing of document 01.
impl fmt::Display for Layout {
    fn fmt(&self, f: &mut fmt::Formatter<'_>) -> fmt::Result {
        let mut order: Vec<usize> = (0..self.tables.len()).collect();
        order.sort_by_key(|i| self.tables[*i].base);
        for i in order {
            let t = &self.tables[i];
            writeln!(f, "{} {} {} {:x} {:x}", NAMES[i], t.entry, t.count, t.bytes, t.base)?;
        }
        writeln!(f, "total {:x}", self.total)
    }
}

/// The capability fields of a good opening.
#[derive(Clone, PartialEq, Eq, Debug)]
pub struct Capabilities {
    pub rsvd_qps: u64,
    pub rsvd_srqs: u64,
    pub rsvd_cqs: u64,
    pub rsvd_eqs: u64,
    pub max_eqs: u64,
    pub rsvd_mtts: u64,
    pub rsvd_mpts: u64,
    pub rsvd_uars: u64,
    pub rsvd_pds: u64,
    pub log_max_qp_wqes: u8,
    pub log_max_cqes: u8,
    pub num_sys_eqs: u64,
    pub ports: u8,
    pub flags: u64,
    pub flags2: u32,
    pub bmme: u32,
    pub eth_prot_ctrl: bool,
    pub eth_backpl_an_rep: bool,
    pub uar_bytes: u64,
    pub entry: [u64; 11],
    pub max_icm: u64,
}

/// What QUERY_PORT said about one port.
#[derive(Clone, PartialEq, Eq, Debug)]
pub struct Port {
    pub num: u8,
    pub link_up: bool,
    pub b0: u8,
    pub mtu_cap: u16,
    pub log_macs: u8,
    pub mac: [u8; 6],
    pub autoneg: bool,
    pub an_complete: bool,
    pub speed: u8,
    pub xcvr: u32,
    pub wavelength: u16,
    pub xcvr_code: u64,
}

/// A result with the fields of the same names that another value has.
#[macro_export]
macro_rules! result_of {
    ($of:expr, $kind:ident: $($field:ident)*) => {{
        let of = $of;
        $crate::results::$kind { $($field: of.$field),* }
    }};
}

/// The capabilities of a value that has them under the same names.
#[macro_export]
macro_rules! capabilities_of {
    ($of:expr) => {
        $crate::result_of!($of, Capabilities:
            rsvd_qps rsvd_srqs rsvd_cqs rsvd_eqs max_eqs rsvd_mtts rsvd_mpts rsvd_uars rsvd_pds log_max_qp_wqes log_max_cqes
            num_sys_eqs ports flags flags2 bmme eth_prot_ctrl eth_backpl_an_rep uar_bytes entry max_icm)
    };
}

/// The port of a value that has it under the same names.
#[macro_export]
macro_rules! port_of {
    ($of:expr) => {
        $crate::result_of!($of, Port:
            num link_up b0 mtu_cap log_macs mac autoneg an_complete speed xcvr wavelength xcvr_code)
    };
}

/// A good opening.
#[derive(Clone, PartialEq, Eq, Debug)]
pub struct Opened {
    pub cap: Capabilities,
    pub layout: Layout,
    pub ports: Vec<Port>,
    pub rev3: bool,
    pub uar_bar: u8,
    pub uar_size: Option<u64>,
}

/// A good client command.
#[derive(Clone, PartialEq, Eq, Debug)]
pub struct Done {
    /// The immediate, where the form has one.
    pub immediate: Option<u64>,
    /// The outbox, where the form has one.
    pub outbox: Option<Vec<u8>>,
    /// The microseconds waited.
    pub us: u64,
}

#[derive(Clone, Copy, PartialEq, Eq, Debug)]
pub struct Buffer {
    pub handle: Handle,
    pub address: u64,
    pub pages: u64,
}

/// What one call of a list gave.
#[derive(Clone, PartialEq, Eq, Debug)]
pub enum Given {
    Opened(Box<Opened>),
    Done(Done),
    Lent(Buffer),
    Closed(Closing),
    Nothing,
}

/// A command that takes an object back.
#[derive(Clone, Copy, PartialEq, Eq, Debug)]
pub struct Undo {
    pub op: u16,
    pub op_mod: u8,
    pub in_mod: u32,
    pub in_param: u64,
}

/// What an open session holds.
#[derive(Clone, PartialEq, Eq, Debug)]
pub struct State {
    pub toggle: u32,
    pub broken: bool,
    pub silent: bool,
    /// INIT_HCA was good, so CLOSE_HCA is owed.
    pub started: bool,
    /// The catastrophic buffer: BAR and offset.
    pub catas: Option<(u8, u64)>,
    pub original: u64,
    pub inbox: Buffer,
    pub outbox: Buffer,
    pub fa: Option<Buffer>,
    pub aux: Option<Buffer>,
    /// Card address and buffer, in mapping order.
    pub icm: Vec<(u64, Buffer)>,
    /// Which of `icm` backs the MTT table.
    pub mtt: Option<usize>,
    pub lent: Vec<Buffer>,
    pub undo: Vec<Undo>,
}
