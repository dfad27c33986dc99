//! The program `listing` on replies of every length and with every refusal that it can give. What it must print is document
//! 01's: its listing of input L, its bench values P1 to P6, and its order of refusals.

use std::fs::File;
use std::path::PathBuf;
use std::process::{Command, Stdio};
use std::sync::OnceLock;

use compare::program::proved;

const LISTING_OF_L: &str = "\
cMPT 64 67108864 100000000 0
RDMARC 32 16384 80000 100000000
QPC 256 1024 40000 100080000
MCG 1024 256 40000 1000c0000
ALTC 64 1024 10000 100100000
AUXC 32 1024 8000 100110000
EQC 128 128 4000 100118000
CQC 128 64 2000 10011c000
SRQC 128 2 1000 10011e000
dMPT 64 64 1000 10011f000
MTT 8 512 1000 100120000
total 100121000
";

const BYTES: usize = 168;
const LOG_UAR: usize = 0x49;
const LOG_MIN_PAGE: usize = 0x4b;
const PORTS: usize = 0x37;
const MTT_ENTRY: usize = 0x90;
const MAX_ICM: usize = 0xa0;

/// Input L, as document 01 has it: "zeros but ..".
fn input_l() -> Vec<u8> {
    let mut reply = vec![0; BYTES];
    reply[0x1f] = 7;
    reply[PORTS] = 1;
    reply[LOG_MIN_PAGE] = 12;
    for (at, entry) in (0x80..).step_by(2).zip([32u16, 256, 32, 64, 128, 128, 128, 64, 8, 64]) {
        reply[at..at + 2].copy_from_slice(&entry.to_be_bytes());
    }
    reply[MAX_ICM..].copy_from_slice(&0x1_0012_1000u64.to_be_bytes());
    reply
}

/// The same with some bytes changed.
fn with(changes: &[(usize, u8)]) -> Vec<u8> {
    let mut reply = input_l();
    for (at, byte) in changes {
        reply[*at] = *byte;
    }
    reply
}

/// The program, proved and built.
fn program() -> &'static PathBuf {
    static PROGRAM: OnceLock<PathBuf> = OnceLock::new();
    PROGRAM.get_or_init(|| proved("listing"))
}

/// What the program prints of a reply. It comes from a file: the program reads no more than 4,096 bytes, and a pipe would
/// tell the writer so.
fn listed(name: &str, reply: &[u8]) -> String {
    let path = std::env::temp_dir().join(format!("listing-{}-{name}", std::process::id()));
    std::fs::write(&path, reply).expect("a file of its own");
    let stdin = Stdio::from(File::open(&path).expect("the file"));
    let out = Command::new(program()).stdin(stdin).output().expect("the program that was built");
    std::fs::remove_file(&path).expect("the file");
    String::from_utf8(out.stdout).expect("text")
}

fn refused(number: u8) -> String {
    format!("refused {number}\n")
}

#[test]
fn of_168_bytes_and_more_the_layout_and_of_fewer_21() {
    assert_eq!(listed("whole", &input_l()), LISTING_OF_L);
    let mut long = input_l();
    long.resize(4_096, 0);
    assert_eq!(listed("mailbox", &long), LISTING_OF_L);
    // Beyond 4,096 bytes nothing is read.
    long.resize(5_168, 0xff);
    assert_eq!(listed("long", &long), LISTING_OF_L);
    assert_eq!(listed("none", &[]), refused(21));
    assert_eq!(listed("one", &input_l()[..1]), refused(21));
    assert_eq!(listed("short", &input_l()[..BYTES - 1]), refused(21));
}

#[test]
fn each_refusal_of_a_reply() {
    assert_eq!(listed("page", &with(&[(LOG_MIN_PAGE, 13)])), refused(12));
    assert_eq!(listed("no-port", &with(&[(PORTS, 0)])), refused(13));
    assert_eq!(listed("ports", &with(&[(PORTS, 3)])), refused(13));
    assert_eq!(listed("uar", &with(&[(LOG_UAR, 0x2c)])), refused(14));
    assert_eq!(listed("entry-0", &with(&[(MTT_ENTRY + 1, 0)])), refused(16));
    assert_eq!(listed("entry-24", &with(&[(MTT_ENTRY + 1, 24)])), refused(16));
    // One less than the total.
    assert_eq!(listed("total", &with(&[(MAX_ICM + 5, 0x12), (MAX_ICM + 6, 0x0f), (MAX_ICM + 7, 0xff)])), refused(17));
}

#[test]
fn what_is_just_good() {
    assert_eq!(listed("uar-43", &with(&[(LOG_UAR, 0x2b)])), LISTING_OF_L);
    // The field is the low six bits, the ports are the low four.
    assert_eq!(listed("uar-high", &with(&[(LOG_UAR, 0xeb)])), LISTING_OF_L);
    assert_eq!(listed("ports-high", &with(&[(PORTS, 0xf2)])), LISTING_OF_L);
    assert_eq!(listed("page-0", &with(&[(LOG_MIN_PAGE, 0)])), LISTING_OF_L);
}

/// 12, 13, 14, 16, 17; 15 needs a known BAR, and there is none here. Each is mended in turn.
#[test]
fn the_order_of_several() {
    let all = [(LOG_MIN_PAGE, 13), (PORTS, 3), (LOG_UAR, 0x2c), (MTT_ENTRY + 1, 24), (MAX_ICM + 3, 0)];
    for (at, number) in [12, 13, 14, 16, 17].into_iter().enumerate() {
        assert_eq!(listed(&format!("order-{at}"), &with(&all[at..])), refused(number));
    }
    assert_eq!(listed("order-short", &with(&all)[..BYTES - 1]), refused(21));
}
