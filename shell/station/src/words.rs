//! What the numbers of the card and of a session mean.

use session::{Closing, How, Refusal, Refused};
use world::registers::*;

/// The commands of an opening and a close, and those of clients, by opcode.
pub const COMMANDS: [(u16, &str); 37] = [
    (QUERY_DEV_CAP, "QUERY_DEV_CAP"),
    (QUERY_FW, "QUERY_FW"),
    (QUERY_ADAPTER, "QUERY_ADAPTER"),
    (INIT_HCA, "INIT_HCA"),
    (CLOSE_HCA, "CLOSE_HCA"),
    (MOD_STAT_CFG, "MOD_STAT_CFG"),
    (QUERY_PORT, "QUERY_PORT"),
    (QUERY_FUNC, "QUERY_FUNC"),
    (RUN_FW, "RUN_FW"),
    (UNMAP_ICM, "UNMAP_ICM"),
    (MAP_ICM, "MAP_ICM"),
    (UNMAP_ICM_AUX, "UNMAP_ICM_AUX"),
    (MAP_ICM_AUX, "MAP_ICM_AUX"),
    (SET_ICM_SIZE, "SET_ICM_SIZE"),
    (UNMAP_FA, "UNMAP_FA"),
    (MAP_FA, "MAP_FA"),
    (0x009, "INIT_PORT"),
    (0x00a, "CLOSE_PORT"),
    (0x00c, "SET_PORT"),
    (0x00d, "SW2HW_MPT"),
    (0x00f, "HW2SW_MPT"),
    (0x012, "MAP_EQ"),
    (0x013, "SW2HW_EQ"),
    (0x014, "HW2SW_EQ"),
    (0x016, "SW2HW_CQ"),
    (0x017, "HW2SW_CQ"),
    (0x019, "RST2INIT_QP"),
    (0x01a, "INIT2RTR_QP"),
    (0x01b, "RTR2RTS_QP"),
    (0x021, "2RST_QP"),
    (0x023, "CONF_SPECIAL_QP"),
    (0x024, "MAD_IFC"),
    (0x025, "READ_MCG"),
    (0x026, "WRITE_MCG"),
    (0x027, "MGID_HASH"),
    (0x03b, "ACCESS_REG"),
    (0x048, "SET_MCAST_FLTR"),
];

/// A command's name, or its opcode where it has none here.
pub fn command(op: u16) -> String {
    let name = COMMANDS.iter().find(|(o, _)| *o == op);
    name.map_or_else(|| format!("{op:#05x}"), |(_, n)| n.to_string())
}

/// What a command's status says.
pub fn status(status: u8) -> &'static str {
    match status {
        0x00 => "good",
        0x01 => "internal error",
        0x02 => "bad opcode",
        0x03 => "bad parameter",
        0x04 => "bad system state",
        0x05 => "bad resource",
        0x06 => "resource busy",
        0x08 => "exceeds the device's limits",
        0x09 => "bad resource state",
        0x0a => "index out of range",
        0x0b => "firmware image corrupted",
        0x0c => "ICM error",
        0x10 => "bad QP state",
        0x20 => "bad segment parameters",
        0x21 => "memory region has windows bound",
        0x22 => "local memory not present",
        0x30 => "bad management packet",
        0x40 => "too many outstanding CQEs",
        0x50 => "support of several functions needed",
        _ => "unknown status",
    }
}

/// Why an opening or a call failed.
pub fn refusal(r: Refusal) -> String {
    match r {
        Refusal::Attributes => "the PCI attributes could not be read or enabled".into(),
        Refusal::Owner => "the card has an owner already, or its owner register cannot be read".into(),
        Refusal::Reset => "the reset failed".into(),
        Refusal::Bar => "a BAR dword could not be read".into(),
        Refusal::Memory => "pages could not be allocated or mapped".into(),
        Refusal::Status { status: s, us } => {
            format!("a command ended with status {s:#04x} ({}) after {us} µs", status(s))
        }
        Refusal::Timeout { us } => format!("a command did not end within {us} µs"),
        Refusal::Busy => "the command register was busy before a command".into(),
        Refusal::Bus { us } => format!("a bus call failed within a command, {us} µs after it was posted"),
        Refusal::NotPrimary => "not the primary function (QUERY_FW ended with status 0x50)".into(),
        Refusal::Revision(v) => format!("revision {v} of the command interface; 2 and 3 are known"),
        Refusal::MinPage(v) => format!("the least page is of 2^{v} bytes; 2^12 is the most"),
        Refusal::Ports(v) => format!("{v} ports; 1 and 2 are known"),
        Refusal::Uar(v) => format!("UAR exponent field {v}; 43 is the most"),
        Refusal::UarArea(v) => format!("the UAR area of {v} bytes is larger than its BAR"),
        Refusal::Entry(i) => format!("the entry size of table {} is no power of two", table(i)),
        Refusal::Total(v) => format!("the tables need {v:#x} bytes, more than the card has"),
        Refusal::Address => "a device address is no page multiple, or a size passes 2^64".into(),
        Refusal::Reserved => "an undo record has an opcode that no client may send".into(),
        Refusal::Undo => "an undo command failed, or the session was broken and a record was wanted".into(),
        Refusal::List => "the firmware's resource list of a BAR is damaged or cut".into(),
    }
}

/// Why a call was not taken: document 01's number, and what it means.
pub fn refused(r: Refused) -> (u32, &'static str) {
    match r {
        Refused::Bytes => (18, "so many bytes end above 2^64"),
        Refused::Full => (19, "no more buffers can be lent, or records be kept"),
        Refused::Wrong => (20, "a call at the wrong time"),
        Refused::Short => (21, "an input of more than 4096 bytes, or no room"),
        Refused::Reserved => (22, "an opcode that bring-up or closing sends"),
        Refused::Unknown => (0, "a number that no call gives"),
    }
}

/// A table's name.
pub fn table(index: u8) -> &'static str {
    world::results::NAMES.get(usize::from(index)).copied().unwrap_or("of no name")
}

pub fn closing(c: Closing) -> &'static str {
    match c {
        Closing::Clean => "clean: by commands alone, or none was needed",
        Closing::Reset => "by a reset of the card",
        Closing::Kept => "the reset failed: the card may still use what is held, and none of it may be given back",
    }
}

/// How the index of the UAR BAR was chosen.
pub fn how(h: How) -> &'static str {
    match h {
        How::BaseMatches => "its base is the one in configuration space",
        How::Scan => "found by asking all indexes for the base in configuration space",
        How::OnlyAnswer => "the only one of the two indexes with a list",
        How::NoMatch => "no list has the base in configuration space; taken by the register's number",
        How::NoAnswer => "no list; taken by the register's number",
    }
}

/// So many pages.
pub fn pages(n: u64) -> String {
    match n {
        1 => "1 page".into(),
        n => format!("{n} pages"),
    }
}

/// So many bytes.
pub fn bytes(n: usize) -> String {
    match n {
        1 => "1 byte".into(),
        n => format!("{n} bytes"),
    }
}

/// Bytes in the largest unit of 1,024 that leaves one digit before the point.
pub fn size(bytes: u64) -> String {
    let units = [(30, "GiB"), (20, "MiB"), (10, "KiB")];
    let Some((shift, unit)) = units.into_iter().find(|(s, _)| bytes >> s != 0) else {
        return format!("{bytes} B");
    };
    let tenths = (u128::from(bytes) * 10) >> shift;
    match tenths % 10 {
        0 => format!("{} {unit}", tenths / 10),
        t => format!("{}.{t} {unit}", tenths / 10),
    }
}
