//! The command line.

use world::plan::{Behaviour, Fault, Which, NEVER};

use crate::uses::{hex, Use};
use crate::words::COMMANDS;

pub const USAGE: &str = "\
station [OPTIONS]

Opens, uses and closes a session on a simulated ConnectX-3 card, and prints its commands, the UAR BAR, the layout, the
ranges that are mapped, and the results.

  --seed N          a card, a host and faults by that seed, in place of a card that does as it is told
  --fail N          bus call N, from 1, is reported failed and has no effect; stalls and fences are not counted
  --fail N:taken    the same, and it has its effect all the same
  --status OP=S     the command OP ends with status S
  --timeout OP      the command OP never ends
  --list BAR=HEX    the firmware's resource list of that BAR index, in place of its own
  --trace           every bus call, with its number, as it is made
  --picture FILE    the layout with its mapped ranges as an SVG; FILE - is a picture of text
  --help            this text

On the open session, in the order in which they are given:

  --imm OP[,MOD[,PARAM]]       a client command with an immediate in and out
  --with-in OP[,MOD[,HEX]]     with an inbox that begins with these bytes
  --with-out OP[,MOD]          with an outbox
  --in-imm OP[,MOD[,HEX]]      with an inbox, and an immediate out
  --in-out OP[,MOD[,HEX]]      with an inbox and an outbox
  --lend BYTES                 pages for the card, kept until the close
  --undo OP[,MOD[,PARAM]]      puts a record on the undo list, which an undoing, a quiesce and the close send
  --undo-to MARK               sends undo records until so many are left
  --quiesce                    stops the firmware and its bus mastering, and frees nothing

OP is a name such as MAP_FA, or an opcode; of a client command or a record also OP/M, with an opcode modifier. MOD is the
input modifier. Numbers are decimal, or hexadecimal after 0x; HEX is pairs of digits. A value stands behind its option, or
after = in the same word. Options other than --seed, --trace and --picture may be given several times.

The exit status is 0 if the session was opened, every call on it was good, and it was closed clean, or by a reset behind a
quiesce; 2 if an option is bad; else 1.
";

/// Where a picture goes.
#[derive(Clone, PartialEq, Eq, Debug)]
pub enum Picture {
    Text,
    Svg(String),
}

#[derive(Clone, Default, Debug)]
pub struct Options {
    pub seed: Option<u64>,
    pub faults: Vec<Fault>,
    /// The commands that end otherwise; the last one given for an opcode counts.
    pub commands: Vec<(u16, Behaviour)>,
    /// Resource lists by BAR index; the last one given for an index counts.
    pub lists: Vec<(u8, Vec<u8>)>,
    pub trace: bool,
    pub picture: Option<Picture>,
    /// What is called on the open session.
    pub uses: Vec<Use>,
}

impl Options {
    /// The commands as a plan has them, where the first one that fits counts.
    pub fn behaviours(&self) -> impl Iterator<Item = (Which, Behaviour)> + '_ {
        self.commands.iter().rev().map(|(op, b)| (Which::Opcode(*op), *b))
    }
}

/// What is asked for.
#[derive(Clone, Debug)]
pub enum Asked {
    Help,
    Session(Options),
}

/// Reads the arguments; one line that says what is wrong with them.
pub fn parse(args: impl IntoIterator<Item = String>) -> Result<Asked, String> {
    let mut options = Options::default();
    let mut args = args.into_iter();
    while let Some(arg) = args.next() {
        let (name, with) = arg.split_once('=').map_or((arg.as_str(), None), |(n, v)| (n, Some(v.to_string())));
        if with.is_some() && matches!(name, "--trace" | "--help" | "--quiesce") {
            return Err(format!("{name} takes no value"));
        }
        let mut value = || with.clone().map_or_else(|| following(name, args.next()), Ok);
        match name {
            "--help" | "-h" => return Ok(Asked::Help),
            "--trace" if options.trace => return Err(twice(name)),
            "--trace" => options.trace = true,
            "--seed" => once(name, &mut options.seed, number(name, &value()?)?)?,
            "--fail" => options.faults.push(fault(&value()?)?),
            "--status" => options.commands.push(status(&value()?)?),
            "--timeout" => options.commands.push((opcode(name, &value()?)?, Behaviour { polls: NEVER, status: 0 })),
            "--list" => options.lists.push(list(&value()?)?),
            "--picture" => once(name, &mut options.picture, picture(value()?)?)?,
            _ => match Use::parse(name, &mut value)? {
                Some(it) => options.uses.push(it),
                None => return Err(format!("no such option: {arg}")),
            },
        }
    }
    Ok(Asked::Session(options))
}

/// The value of an option that was given without one: the next argument, unless that is an option itself.
fn following(option: &str, next: Option<String>) -> Result<String, String> {
    match next {
        Some(text) if text.starts_with("--") => Err(format!("{option} needs a value, and {text} is an option")),
        Some(text) => Ok(text),
        None => Err(format!("{option} needs a value")),
    }
}

fn twice(option: &str) -> String {
    format!("{option} is given twice")
}

fn once<T>(option: &str, place: &mut Option<T>, value: T) -> Result<(), String> {
    place.replace(value).map_or(Ok(()), |_| Err(twice(option)))
}

pub fn number(option: &str, text: &str) -> Result<u64, String> {
    if text.is_empty() {
        return Err(format!("{option}: a number is missing"));
    }
    let (digits, radix) = text.strip_prefix("0x").map_or((text, 10), |digits| (digits, 16));
    if digits.is_empty() || !digits.chars().all(|c| c.is_digit(radix)) {
        return Err(format!("{option}: not a number: {text}"));
    }
    u64::from_str_radix(digits, radix).map_err(|_| format!("{option}: too large, 2^64 or more: {text}"))
}

fn fault(text: &str) -> Result<Fault, String> {
    let (digits, taken) = match text.split_once(':') {
        Some((digits, "taken")) => (digits, true),
        Some((_, more)) => return Err(format!("--fail: only ':taken' may follow the number, not ':{more}'")),
        None => (text, false),
    };
    let call = number("--fail", digits)?.checked_sub(1).ok_or("--fail: calls are counted from 1")?;
    Ok(Fault { call, taken })
}

fn status(text: &str) -> Result<(u16, Behaviour), String> {
    let (op, status) = text.split_once('=').ok_or_else(|| format!("--status: not OP=S: {text}"))?;
    let narrow = |_| format!("--status: a status is below 256, not {status}");
    let status = u8::try_from(number("--status", status)?).map_err(narrow)?;
    Ok((opcode("--status", op)?, Behaviour { polls: 1, status }))
}

fn list(text: &str) -> Result<(u8, Vec<u8>), String> {
    let (bar, bytes) = text.split_once('=').ok_or_else(|| format!("--list: not BAR=HEX: {text}"))?;
    let bar = number("--list", bar)?;
    let small = u8::try_from(bar).ok().filter(|b| *b < 6);
    Ok((small.ok_or_else(|| format!("--list: a BAR index is below 6, not {bar}"))?, hex("--list", bytes)?))
}

pub fn opcode(option: &str, text: &str) -> Result<u16, String> {
    if let Some((op, _)) = COMMANDS.iter().find(|(_, name)| name.eq_ignore_ascii_case(text)) {
        return Ok(*op);
    }
    if text.is_empty() {
        return Err(format!("{option}: a command is missing"));
    }
    let named = !text.starts_with(|c: char| c.is_ascii_digit());
    let op =
        number(option, text).map_err(|why| if named { format!("{option}: no such command: {text}") } else { why })?;
    let small = u16::try_from(op).ok().filter(|op| *op < 0x1000);
    small.ok_or_else(|| format!("{option}: an opcode is below 0x1000, not {text}"))
}

fn picture(file: String) -> Result<Picture, String> {
    match file.as_str() {
        "" => Err("--picture needs a value".into()),
        "-" => Ok(Picture::Text),
        _ => Ok(Picture::Svg(file)),
    }
}
