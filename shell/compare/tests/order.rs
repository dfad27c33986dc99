//! The comparisons that put the tables of a reply in order, for replies whose tables come in a chosen order. A reply chooses
//! the bytes of ten tables; MCG, the last by index, always has 2^18. Whole replies by chance are the leaf `tables` of
//! random.rs and of `--bin long`.

use compare::{ffi, order};
use world::plan::{input_l, put_be16};

/// Exponents of the bytes of the ten tables before MCG, by index: QPC, RDMARC, ALTC, AUXC, SRQC, CQC, EQC, dMPT, cMPT, MTT.
type Logs = [u32; 10];

const MCG: u32 = 18;
/// Where a reply has the entry size of each table.
const ENTRY_AT: [usize; 10] = [0x82, 0x80, 0x86, 0x84, 0x8c, 0x8a, 0x88, 0x92, 0x8e, 0x90];
/// The exponents of their counts, for a reserve of 2^12 QPs, SRQs, CQs, MPTs and MTTs, and 4,095 system EQs.
const COUNT: Logs = [14, 18, 14, 14, 13, 13, 12, 13, 26, 13];

/// A reply whose tables have these bytes.
fn reply(logs: Logs) -> Vec<u8> {
    let mut l = input_l();
    (l[0x12], l[0x14], l[0x1a], l[0x20], l[0x22]) = (12, 12 << 4, 12, 12 << 4, 12);
    put_be16(&mut l, 0x26, 4095);
    for (k, at) in ENTRY_AT.into_iter().enumerate() {
        put_be16(&mut l, at, 1 << (logs[k] - COUNT[k]));
    }
    l[0xa0..0xa8].fill(0xff);
    l
}

/// The comparisons that the proved layout tells, held to those counted here; its tables have the bytes that were asked.
fn compared(logs: Logs) -> u64 {
    let words = ffi::layout(&reply(logs), None);
    assert_eq!(words[0], 0, "{logs:?}: refused");
    let all: Vec<u64> = logs.into_iter().chain([MCG]).map(|e| 1 << e).collect();
    for row in words[5..60].chunks_exact(5) {
        assert_eq!(row[3], all[row[0] as usize], "{logs:?}: the bytes of table {}", row[0]);
    }
    assert_eq!(words[88], order::comparisons(&all), "{logs:?}");
    words[88]
}

#[test]
fn falling_tables_take_ten() {
    assert_eq!(compared([28, 27, 26, 26, 26, 26, 26, 26, 26, 25]), 10);
}

#[test]
fn equal_tables_take_ten() {
    assert_eq!(compared([26; 10]), 10);
}

#[test]
fn rising_tables_are_compared_with_all_before() {
    // 0 + 1 + .. + 9 for the ten; then MCG passes QPC alone, and RDMARC, which has as many bytes, stops it.
    assert_eq!(compared([14, 18, 19, 20, 21, 22, 23, 24, 26, 27]), 45 + 2);
}

#[test]
fn pairs_of_equal_tables() {
    let falling = compared([28, 28, 27, 27, 27, 27, 26, 26, 26, 26]);
    let rising = compared([19, 19, 20, 20, 21, 21, 22, 22, 26, 26]);
    // Rising, each of the ten is compared with all before it: it passes them, or its equal stops it.
    assert_eq!((falling, rising), (10, 45 + 1));
}

#[test]
fn one_table_out_of_place() {
    let mut seen = Vec::new();
    for k in 0..8 {
        let mut logs = [26; 10];
        logs[k] = 27;
        seen.push(compared(logs));
    }
    // Each but the first passes all before it, where one comparison would have done.
    assert_eq!(seen, [10, 10, 11, 12, 13, 14, 15, 16]);
}
