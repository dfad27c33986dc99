//! The calls of a session.

use crate::abi;
use crate::ffi::Called;

/// A client command without its parameters. Its opcode is none that bring-up or closing sends, queries excepted.
#[derive(Clone, Copy, PartialEq, Eq, Debug, Default)]
pub struct Command {
    /// The opcode.
    pub op: u16,
    /// The opcode modifier.
    pub op_mod: u8,
    /// The input modifier.
    pub in_mod: u32,
}

/// A call. The five forms of a client command give `Outcome::Done`, or `Outcome::CallFailed` with `Status`, `Timeout`, `Busy`
/// or `Bus`, of which the last three break the session: its closing will reset the card.
#[derive(Clone, Copy, PartialEq, Eq, Debug)]
pub enum Call<'a> {
    /// Brings the card up. Gives `Outcome::Open` or `Outcome::Failed`.
    Open,
    /// A client command with an immediate in, and one out.
    Imm {
        /// What is sent.
        command: Command,
        /// The immediate in.
        in_param: u64,
    },
    /// A client command with an inbox: zeros, and `input` from its first byte on. The inbox is so whatever the command comes
    /// to.
    WithIn {
        /// What is sent.
        command: Command,
        /// 4,096 bytes at most.
        input: &'a [u8],
    },
    /// A client command with an outbox, which is zeroed first whatever the command comes to; `Session::outbox` has the reply.
    WithOut {
        /// What is sent.
        command: Command,
    },
    /// A client command with an inbox as in `WithIn`, and an immediate out.
    InImm {
        /// What is sent.
        command: Command,
        /// 4,096 bytes at most.
        input: &'a [u8],
    },
    /// A client command with an inbox as in `WithIn` and an outbox as in `WithOut`.
    InOut {
        /// What is sent.
        command: Command,
        /// 4,096 bytes at most.
        input: &'a [u8],
    },
    /// Pages of so many bytes, one page at least, that the card may use until the session is closed. Gives `Outcome::Lent`, or
    /// `Outcome::CallFailed` with `Memory` or `Address`, where nothing is lent.
    Lend {
        /// How many; they are made up to whole pages.
        bytes: u64,
    },
    /// Sends the undo records, newest first, until no more than `mark` are on the list. Gives `Outcome::Open`, or
    /// `Outcome::CallFailed` with `Undo` where one fails, which breaks the session, or where it is broken and one is wanted;
    /// or with `Reserved` where one has become so meanwhile. The records that were sent are off the list.
    UndoTo {
        /// So many records stay on the list: what `UndoList::mark` gave.
        mark: usize,
    },
    /// Stops the firmware by the commands of a closing and turns the card's bus mastering off, whatever fails on the way.
    /// Nothing is freed, so that it can be called where no memory may be. Gives `Outcome::Open`; the session is broken, and
    /// its closing will reset the card.
    Quiesce,
    /// Takes back what is on the undo list, and gives up the card with all that it holds. Gives `Outcome::Closed`.
    Close,
}

impl<'a> Call<'a> {
    /// As it crosses C linkage.
    pub fn called(self) -> Called<'a> {
        let of = |kind: u32, c: Command, value: u64, input: &'a [u8]| Called {
            kind,
            op: c.op,
            op_mod: c.op_mod,
            in_mod: c.in_mod,
            value,
            input,
        };
        match self {
            Call::Open => Called::OPEN,
            Call::Imm { command, in_param } => of(abi::IMM, command, in_param, &[]),
            Call::WithIn { command, input } => of(abi::WITH_IN, command, 0, input),
            Call::WithOut { command } => of(abi::WITH_OUT, command, 0, &[]),
            Call::InImm { command, input } => of(abi::IN_IMM, command, 0, input),
            Call::InOut { command, input } => of(abi::IN_OUT, command, 0, input),
            Call::Lend { bytes } => Called::of(abi::LEND, bytes),
            Call::UndoTo { mark } => Called::of(abi::UNDO_TO, mark as u64),
            Call::Quiesce => Called::QUIESCE,
            Call::Close => Called::CLOSE,
        }
    }
}
