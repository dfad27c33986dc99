//! The commands among the bus calls.

use world::registers::*;
use world::trace::{Event, Post};

/// A command that is still shown as running after so long has a Timeout.
const TIMEOUT: u64 = 60_000_000;

/// How a command ended.
#[derive(Clone, Copy, PartialEq, Eq, Debug)]
pub enum End {
    Status(u8),
    Timeout,
    /// A bus call within it failed.
    Bus,
}

/// A command that was posted and has ended.
#[derive(Clone, Copy, PartialEq, Eq, Debug)]
pub struct Command {
    pub op: u16,
    pub op_mod: u8,
    pub in_mod: u32,
    /// The sum of its stalls.
    pub us: u64,
    pub end: End,
}

/// What is read next of a command.
#[derive(Clone, Copy, PartialEq, Eq, Debug)]
enum Phase {
    /// The status dword, until it shows this T without GO.
    Poll { t: u32 },
    /// The status dword, for its status.
    Status,
    /// The immediate: so many dwords.
    Immediate(u8),
}

struct Running {
    op: u16,
    op_mod: u8,
    in_mod: u32,
    us: u64,
    phase: Phase,
}

impl Running {
    fn new(p: &Post) -> Running {
        Running { op: p.op, op_mod: p.op_mod, in_mod: p.in_mod, us: 0, phase: Phase::Poll { t: 0 } }
    }

    fn ended(&self, end: End) -> Command {
        let Running { op, op_mod, in_mod, us, .. } = *self;
        Command { op, op_mod, in_mod, us, end }
    }

    /// A read of a command register, as the bus carries it; how the command ended, if it did by it.
    fn read(&mut self, offset: u64, answer: Option<u32>) -> Option<End> {
        let Some(value) = answer.map(u32::from_be) else {
            return Some(End::Bus);
        };
        match (self.phase, offset) {
            (Phase::Poll { t }, GO_WRITE) if value & GO == 0 && value >> T_SHIFT & 1 == t => self.phase = Phase::Status,
            (Phase::Poll { .. }, GO_WRITE) => return (self.us >= TIMEOUT).then_some(End::Timeout),
            (Phase::Status, GO_WRITE) if value >> STATUS_SHIFT == 0 => self.phase = Phase::Immediate(2),
            (Phase::Status, GO_WRITE) => return Some(End::Status((value >> STATUS_SHIFT) as u8)),
            (Phase::Immediate(2), _) => self.phase = Phase::Immediate(1),
            (Phase::Immediate(_), _) => return Some(End::Status(0)),
            _ => {}
        }
        None
    }
}

/// Follows the bus calls.
#[derive(Default)]
pub struct Follow {
    running: Option<Running>,
}

impl Follow {
    /// Takes in what was asked and answered; the command that has ended by it.
    pub fn event(&mut self, event: &Event) -> Option<Command> {
        if let Event::Post(post) = event {
            self.running = Some(Running::new(post));
            return None;
        }
        let running = self.running.as_mut()?;
        let end = match *event {
            Event::Stall { us } => {
                running.us += us;
                None
            }
            Event::RegisterWrite { bar: BAR_DCS, offset: GO_WRITE, value, good } => {
                running.phase = Phase::Poll { t: u32::from_be(value) >> T_SHIFT & 1 };
                (!good).then_some(End::Bus)
            }
            Event::RegisterRead { bar: BAR_DCS, offset, answer } if (HCR..=GO_WRITE).contains(&offset) => {
                running.read(offset, answer)
            }
            _ => None,
        };
        end.and_then(|end| self.running.take().map(|r| r.ended(end)))
    }

    /// The command that is waited for: its opcode, and how long so far.
    pub fn waiting(&self) -> Option<(u16, u64)> {
        self.running.as_ref().map(|r| (r.op, r.us))
    }
}
