//! A use of a card, from its opening to its close.

use session::{Call, Closing, Command, Outcome, Refused, Setup, Undo};

use crate::card::Card;

const QUERY_FW: Command = Command { op: 0x004, op_mod: 0, in_mod: 0 };
const MGID_HASH: Command = Command { op: 0x027, op_mod: 0, in_mod: 0 };
/// Port 1 is started; and the record that stops it again.
const INIT_PORT: Command = Command { op: 0x009, op_mod: 0, in_mod: 1 };
const CLOSE_PORT: Undo = Undo { op: 0x00a, op_mod: 0, in_mod: 1, in_param: 0 };
/// What is lent.
const RING: u64 = 8192;
/// A multicast group, of port 1, as MGID_HASH takes it.
const GROUP: [u8; 16] = [0, 0, 0, 0, 0, 1, 0, 0, 0, 0, 0x01, 0x00, 0x5e, 0x00, 0x00, 0x01];

/// What each call on the open session gave.
#[derive(Clone, Debug)]
pub struct Used {
    /// What the opening has found out.
    pub setup: Setup,
    /// A command with a reply.
    pub firmware: Outcome,
    /// The first bytes of its reply.
    pub reply: [u8; 16],
    /// A command with input and an immediate out.
    pub hashed: Outcome,
    /// Pages that the card may use until the close.
    pub lent: Outcome,
    /// A command that is an immediate alone.
    pub started: Outcome,
    /// Its undo record sent.
    pub undone: Outcome,
    /// The command once more; its record is left to the close.
    pub again: Outcome,
    /// How many records are on the list then.
    pub records: usize,
    /// The close.
    pub closed: Outcome,
}

/// What came of the opening, and of the rest where the session was opened.
#[derive(Clone, Debug)]
pub struct Visit {
    /// The opening.
    pub opened: Outcome,
    /// The rest; none where the opening failed.
    pub used: Option<Used>,
}

impl Visit {
    /// Opened, every call good, and closed clean.
    pub fn is_clean(&self) -> bool {
        let clean = |u: &Used| {
            let calls = [u.firmware, u.hashed, u.lent, u.started, u.undone, u.again];
            calls.into_iter().all(is_good) && u.closed == Outcome::Closed(Closing::Clean)
        };
        self.used.as_ref().is_some_and(clean)
    }
}

/// The call was taken, and ended well.
fn is_good(o: Outcome) -> bool {
    o.is_open() && !matches!(o, Outcome::CallFailed(_))
}

/// Starts a port, and puts what stops it on the undo list.
fn start_port(card: &mut Card) -> Result<Outcome, Refused> {
    let started = card.call(Call::Imm { command: INIT_PORT, in_param: 0 })?;
    if is_good(started) {
        card.push_undo(CLOSE_PORT)?;
    }
    Ok(started)
}

/// Opens the card, uses it a little, and closes it. A call that fails on the way is told, and the close comes all the same.
pub fn visit(card: &mut Card) -> Result<Visit, Refused> {
    let opened = card.call(Call::Open)?;
    if !opened.is_open() {
        return Ok(Visit { opened, used: None });
    }
    let setup = card.setup()?;
    let firmware = card.call(Call::WithOut { command: QUERY_FW })?;
    let reply = core::array::from_fn(|i| card.session().outbox()[i]);
    let hashed = card.call(Call::InImm { command: MGID_HASH, input: &GROUP })?;
    let lent = card.call(Call::Lend { bytes: RING })?;
    let mark = card.undo().mark();
    let started = start_port(card)?;
    let undone = card.call(Call::UndoTo { mark })?;
    let again = start_port(card)?;
    let records = card.undo().len();
    let closed = card.call(Call::Close)?;
    let used = Used { setup, firmware, reply, hashed, lent, started, undone, again, records, closed };
    Ok(Visit { opened, used: Some(used) })
}
