//! What has become of a session.

use crate::abi::Words;
use crate::books::Buffer;

/// Why an opening or a call on the open session failed, with the values beside document 01's number.
#[derive(Clone, Copy, PartialEq, Eq, Debug)]
pub enum Refusal {
    /// 1: the attributes could not be read or enabled.
    Attributes,
    /// 2: the card has an owner, or that cannot be read.
    Owner,
    /// 3: the reset failed.
    Reset,
    /// 4: a BAR dword could not be read.
    Bar,
    /// 5: pages could not be allocated or mapped.
    Memory,
    /// 6: a command ended with a status, after so many microseconds.
    Status {
        /// What the card said.
        status: u8,
        /// The microseconds waited.
        us: u64,
    },
    /// 7: a command did not end.
    Timeout {
        /// The microseconds waited: 60 s.
        us: u64,
    },
    /// 8: the command register was busy before a command.
    Busy,
    /// 9: the bus failed within a command.
    Bus {
        /// The microseconds waited until then.
        us: u64,
    },
    /// 10: not the primary function.
    NotPrimary,
    /// 11: the revision of the command interface.
    Revision(u16),
    /// 12: the exponent of the least page.
    MinPage(u8),
    /// 13: how many ports.
    Ports(u8),
    /// 14: the UAR exponent field.
    Uar(u8),
    /// 15: the UAR area, in bytes, is larger than its BAR.
    UarArea(u64),
    /// 16: the index of a table whose entry is no power of two.
    Entry(u8),
    /// 17: the bytes of all tables, more than the card has.
    Total(u64),
    /// 18: a device address is no page multiple, or a size overflows.
    Address,
    /// 22: an undo record has got an opcode that no client may send since the call began.
    Reserved,
    /// 23: an undo command failed, or one was wanted on a broken session.
    Undo,
    /// 27: the firmware's resource list of a BAR is damaged or cut.
    List,
}

impl Refusal {
    /// Document 01's number.
    pub fn number(self) -> u32 {
        match self {
            Refusal::Attributes => 1,
            Refusal::Owner => 2,
            Refusal::Reset => 3,
            Refusal::Bar => 4,
            Refusal::Memory => 5,
            Refusal::Status { .. } => 6,
            Refusal::Timeout { .. } => 7,
            Refusal::Busy => 8,
            Refusal::Bus { .. } => 9,
            Refusal::NotPrimary => 10,
            Refusal::Revision(_) => 11,
            Refusal::MinPage(_) => 12,
            Refusal::Ports(_) => 13,
            Refusal::Uar(_) => 14,
            Refusal::UarArea(_) => 15,
            Refusal::Entry(_) => 16,
            Refusal::Total(_) => 17,
            Refusal::Address => 18,
            Refusal::Reserved => 22,
            Refusal::Undo => 23,
            Refusal::List => 27,
        }
    }

    fn of(number: u64, a: u64, b: u64) -> Option<Refusal> {
        Some(match number {
            1 => Refusal::Attributes,
            2 => Refusal::Owner,
            3 => Refusal::Reset,
            4 => Refusal::Bar,
            5 => Refusal::Memory,
            6 => Refusal::Status { status: a.try_into().ok()?, us: b },
            7 => Refusal::Timeout { us: a },
            8 => Refusal::Busy,
            9 => Refusal::Bus { us: a },
            10 => Refusal::NotPrimary,
            11 => Refusal::Revision(a.try_into().ok()?),
            12 => Refusal::MinPage(a.try_into().ok()?),
            13 => Refusal::Ports(a.try_into().ok()?),
            14 => Refusal::Uar(a.try_into().ok()?),
            15 => Refusal::UarArea(a),
            16 => Refusal::Entry(a.try_into().ok()?),
            17 => Refusal::Total(a),
            18 => Refusal::Address,
            22 => Refusal::Reserved,
            23 => Refusal::Undo,
            27 => Refusal::List,
            _ => return None,
        })
    }
}

/// How a closing went.
#[derive(Clone, Copy, PartialEq, Eq, Debug)]
pub enum Closing {
    /// By commands alone, or none was needed.
    Clean,
    /// The card was reset.
    Reset,
    /// The reset failed: the card may still use what the books hold, and none of it may ever be given back.
    Kept,
}

impl Closing {
    fn of(word: u64) -> Option<Closing> {
        match word {
            0 => Some(Closing::Clean),
            1 => Some(Closing::Reset),
            2 => Some(Closing::Kept),
            _ => None,
        }
    }
}

/// What has become of a session, and what its last call gave.
#[derive(Clone, Copy, PartialEq, Eq, Debug)]
pub enum Outcome {
    /// Not opened yet.
    Fresh,
    /// A call is running.
    Running,
    /// The session is open, and its last call gave nothing: an opening, `undo_to` or `quiesce`.
    Open,
    /// The opening failed, and was closed as it says.
    Failed(Refusal, Closing),
    /// Closed, as it says.
    Closed(Closing),
    /// The session is open, and its last call was a good command: its immediate, 0 where the form has none, and the
    /// microseconds waited.
    Done {
        /// The immediate out.
        immediate: u64,
        /// The microseconds waited.
        us: u64,
    },
    /// The session is open, and its last call lent this buffer.
    Lent(Buffer),
    /// The session is open, and its last call failed.
    CallFailed(Refusal),
}

impl Outcome {
    /// The session is open, whatever its last call gave.
    pub fn is_open(self) -> bool {
        matches!(self, Outcome::Open | Outcome::Done { .. } | Outcome::Lent(_) | Outcome::CallFailed(_))
    }

    pub(crate) fn of(w: &Words) -> Option<Outcome> {
        Some(match w.at(0) {
            0 => Outcome::Fresh,
            1 => Outcome::Running,
            2 => Outcome::Open,
            3 => Outcome::Failed(Refusal::of(w.at(1), w.at(2), w.at(3))?, Closing::of(w.at(4))?),
            4 => Outcome::Closed(Closing::of(w.at(4))?),
            5 => Outcome::Done { immediate: w.at(1), us: w.at(2) },
            6 => Outcome::Lent(Buffer { handle: w.at(1), address: w.at(2), pages: w.at(3) }),
            7 => Outcome::CallFailed(Refusal::of(w.at(1), w.at(2), w.at(3))?),
            _ => return None,
        })
    }
}
