//! Which refusal of document 01 stands behind a failure. The Rust gives
//! `Fail` without a number; what happened stands on its console.

use world::results::{Closing, Refusal, NAMES};

use crate::console::{Kind, Line};
use crate::hcr::CmdError;

/// The status at which QUERY_FW says "not the primary function".
const STATUS_MULTI_FUNC: u64 = 0x50;

/// How each alarm without a command begins, and its number.
const ALARMS: [(&str, u32); 14] = [
    ("PCI attributes: ", 1),
    ("enable memory space and bus master: ", 1),
    ("ownership read: ", 2),
    ("ownership semaphore reads ", 2),
    ("reset: ", 3),
    ("UAR BAR: config read: ", 4),
    ("mailbox: ", 5),
    ("FW area: ", 5),
    ("aux pages: ", 5),
    ("cMPT ", 5),
    ("command interface revision ", 11),
    ("minimum page 2^", 12),
    ("UAR area has ", 14),
    ("UAR area ", 15),
];

/// The refusal of a failed opening. The one value that no line has is that of
/// 14, the UAR field of the last reply.
pub fn of_opening(lines: &[Line], uar_field: u64) -> Refusal {
    Refusal { closing: Some(closing(lines)), ..of_reply(lines, uar_field) }
}

/// The refusal of a capability reply with this UAR field.
pub fn of_reply(lines: &[Line], uar_field: u64) -> Refusal {
    let alarms = lines.iter().filter(|l| l.kind == Kind::Alarm);
    alarms.filter_map(|l| of_alarm(l, uar_field)).next().expect("a failure has an alarm")
}

/// The UAR field of a capability reply.
pub fn uar_field(reply: &[u8]) -> u64 {
    reply.get(0x49).map_or(0, |b| u64::from(b & 0x3f))
}

/// How a closing ended. Where none ran it says nothing: clean.
pub fn closing(lines: &[Line]) -> Closing {
    let said = |text: &str| lines.iter().any(|l| l.text.contains(text));
    if said("its memory stays allocated") {
        Closing::Kept
    } else if said("teardown by command failed") {
        Closing::Reset
    } else {
        Closing::Clean
    }
}

/// The refusal of a client command that waited so long.
pub fn of_command(error: CmdError, us: u64) -> Refusal {
    match error {
        CmdError::Status(s) => Refusal::new(6, &[s.into(), us]),
        CmdError::Timeout => Refusal::new(7, &[us]),
        CmdError::Busy => Refusal::new(8, &[us]),
        CmdError::Pci => Refusal::new(9, &[us]),
    }
}

/// `None` for the one alarm that is passed over, a status of MOD_STAT_CFG.
fn of_alarm(line: &Line, uar_field: u64) -> Option<Refusal> {
    let text = line.text.trim_start();
    let command = text.split_once("): ").and_then(|(head, error)| Some((head.split_once(" (0x")?.0, error)));
    if let Some((op, error)) = command {
        return of_command_alarm(op, error, line.waited);
    }
    Some(of_text(text, uar_field).unwrap_or_else(|| panic!("an alarm without a refusal: {text}")))
}

fn of_command_alarm(op: &str, error: &str, us: u64) -> Option<Refusal> {
    let status = error.strip_prefix("status ").map(number);
    match (op, status) {
        ("MOD_STAT_CFG", Some(_)) => None,
        ("QUERY_FW", Some(STATUS_MULTI_FUNC)) => Some(Refusal::new(10, &[])),
        (_, Some(status)) => Some(Refusal::new(6, &[status, us])),
        _ if error.starts_with("timed out") => Some(Refusal::new(7, &[us])),
        _ if error.starts_with("HCR still pending") => Some(Refusal::new(8, &[us])),
        _ => Some(Refusal::new(9, &[us])),
    }
}

fn of_text(text: &str, uar_field: u64) -> Option<Refusal> {
    if let Some((name, _)) = text.split_once(" entry size ") {
        return Some(Refusal::new(16, &[index(name)? as u64]));
    }
    if text.contains(" ports reported") {
        return Some(Refusal::new(13, &[number(text)]));
    }
    if let Some(total) = text.strip_prefix("ICM total ") {
        return Some(Refusal::new(17, &[number(total)]));
    }
    if let Some((start, n)) = ALARMS.iter().find(|(start, _)| text.starts_with(start)) {
        return Some(Refusal::new(*n, &values(*n, &text[start.len()..], uar_field)));
    }
    // The buffer of a whole table: its name and the status.
    index(text.split_once(": ")?.0).map(|_| Refusal::new(5, &[]))
}

fn values(n: u32, rest: &str, uar_field: u64) -> Vec<u64> {
    match n {
        11 | 12 | 15 => vec![number(rest)],
        14 => vec![uar_field],
        _ => Vec::new(),
    }
}

fn index(name: &str) -> Option<usize> {
    NAMES.iter().position(|n| *n == name)
}

/// The number that a text begins with: decimal, or hexadecimal after 0x.
fn number(text: &str) -> u64 {
    let (digits, radix) = match text.strip_prefix("0x") {
        Some(hex) => (hex, 16),
        None => (text, 10),
    };
    let end = digits.find(|c: char| !c.is_digit(radix)).unwrap_or(digits.len());
    u64::from_str_radix(&digits[..end], radix).expect("the text has a number here")
}
