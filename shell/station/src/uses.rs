//! What is called on the open session, as the command line says it.

use session::{Call, Command, Undo};

use crate::options::{number, opcode};
use crate::words;

/// One call, or a record that is put on the undo list.
#[derive(Clone, PartialEq, Eq, Debug)]
pub enum Use {
    Imm(Command, u64),
    WithIn(Command, Vec<u8>),
    WithOut(Command),
    InImm(Command, Vec<u8>),
    InOut(Command, Vec<u8>),
    Lend(u64),
    Push(Undo),
    UndoTo(usize),
    Quiesce,
}

impl Use {
    /// That of an option and its value; none for another option.
    pub fn parse(option: &str, value: &mut dyn FnMut() -> Result<String, String>) -> Result<Option<Use>, String> {
        Ok(Some(match option {
            "--imm" => imm(option, &value()?, Use::Imm)?,
            "--with-in" => input(option, &value()?, Use::WithIn)?,
            "--with-out" => Use::WithOut(alone(option, &value()?)?),
            "--in-imm" => input(option, &value()?, Use::InImm)?,
            "--in-out" => input(option, &value()?, Use::InOut)?,
            "--lend" => Use::Lend(number(option, &value()?)?),
            "--undo" => imm(option, &value()?, |c, in_param| {
                Use::Push(Undo { op: c.op, op_mod: c.op_mod, in_mod: c.in_mod, in_param })
            })?,
            "--undo-to" => Use::UndoTo(number(option, &value()?)? as usize),
            "--quiesce" => Use::Quiesce,
            _ => return Ok(None),
        }))
    }

    /// The session's call; none for a record.
    pub fn call(&self) -> Option<Call<'_>> {
        Some(match self {
            Use::Imm(command, in_param) => Call::Imm { command: *command, in_param: *in_param },
            Use::WithIn(command, input) => Call::WithIn { command: *command, input },
            Use::WithOut(command) => Call::WithOut { command: *command },
            Use::InImm(command, input) => Call::InImm { command: *command, input },
            Use::InOut(command, input) => Call::InOut { command: *command, input },
            Use::Lend(bytes) => Call::Lend { bytes: *bytes },
            Use::Push(_) => return None,
            Use::UndoTo(mark) => Call::UndoTo { mark: *mark },
            Use::Quiesce => Call::Quiesce,
        })
    }

    /// What is called, in words.
    pub fn name(&self) -> String {
        let of = |form: &str, op: u16| format!("client command {}, {form}", words::command(op));
        match self {
            Use::Imm(c, in_param) => of(&format!("in parameter {in_param:#x}"), c.op),
            Use::WithIn(c, input) => of(&format!("an inbox of {}", words::bytes(input.len())), c.op),
            Use::WithOut(c) => of("an outbox", c.op),
            Use::InImm(c, input) => of(&format!("an inbox of {}, immediate out", words::bytes(input.len())), c.op),
            Use::InOut(c, input) => of(&format!("an inbox of {}, an outbox", words::bytes(input.len())), c.op),
            Use::Lend(bytes) => format!("lending {bytes} bytes"),
            Use::Push(u) => format!("undo record {}, modifier {}, {:#x}", words::command(u.op), u.in_mod, u.in_param),
            Use::UndoTo(mark) => format!("undoing to mark {mark}"),
            Use::Quiesce => "quiescing".into(),
        }
    }
}

/// OP or OP/M, and what follows it behind commas: the input modifier, and one thing more.
fn parts<'a>(option: &str, text: &'a str) -> Result<(Command, Option<&'a str>), String> {
    let mut parts = text.splitn(3, ',');
    let op = parts.next().unwrap_or_default();
    let (op, op_mod) = op.split_once('/').map_or((op, "0"), |(op, m)| (op, m));
    let narrow = |what: &str| format!("{option}: {what} is too large");
    let op_mod = u8::try_from(number(option, op_mod)?).map_err(|_| narrow("an opcode modifier"))?;
    let in_mod = parts.next().map_or(Ok(0), |m| number(option, m))?;
    let in_mod = u32::try_from(in_mod).map_err(|_| narrow("an input modifier"))?;
    Ok((Command { op: opcode(option, op)?, op_mod, in_mod }, parts.next()))
}

fn imm(option: &str, text: &str, of: impl FnOnce(Command, u64) -> Use) -> Result<Use, String> {
    let (command, more) = parts(option, text)?;
    Ok(of(command, more.map_or(Ok(0), |p| number(option, p))?))
}

fn input(option: &str, text: &str, of: impl FnOnce(Command, Vec<u8>) -> Use) -> Result<Use, String> {
    let (command, more) = parts(option, text)?;
    Ok(of(command, more.map_or(Ok(Vec::new()), |h| hex(option, h))?))
}

fn alone(option: &str, text: &str) -> Result<Command, String> {
    match parts(option, text)? {
        (command, None) => Ok(command),
        (_, Some(more)) => Err(format!("{option}: nothing may follow the input modifier, not {more}")),
    }
}

/// Bytes as pairs of hexadecimal digits.
pub fn hex(option: &str, text: &str) -> Result<Vec<u8>, String> {
    let digit = |b: &u8| char::from(*b).to_digit(16).map(|d| d as u8);
    let pair = |p: &[u8]| Some(digit(p.first()?)? << 4 | digit(p.get(1)?)?);
    let bytes: Option<Vec<u8>> = text.as_bytes().chunks(2).map(pair).collect();
    bytes.ok_or_else(|| format!("{option}: not bytes in hexadecimal: {text}"))
}
