//! P1 to P10 of document 01, from the Rust itself.

use oracle::leaves::{self, Block};
use world::plan::{input_l, put_be16, put_be64};
use world::results::{Outcome, Refusal, Stop};

const LISTING: &str = "\
cMPT 64 67108864 100000000 0
RDMARC 32 16384 80000 100000000
QPC 256 1024 40000 100080000
MCG 1024 256 40000 1000c0000
ALTC 64 1024 10000 100100000
AUXC 32 1024 8000 100110000
EQC 128 128 4000 100118000
CQC 128 64 2000 10011c000
SRQC 128 2 1000 10011e000
dMPT 64 64 1000 10011f000
MTT 8 512 1000 100120000
total 100121000
";

fn refused<T>(number: u32, values: &[u64]) -> Outcome<T> {
    Err(Stop::Refused(Refusal::new(number, values)))
}

fn l_with(change: impl FnOnce(&mut Vec<u8>)) -> Vec<u8> {
    let mut l = input_l();
    change(&mut l);
    l
}

#[test]
fn p1_input_l() {
    let layout = leaves::profile(&input_l(), None).unwrap();
    assert_eq!(layout.to_string(), LISTING);
    assert_eq!((layout.base_sqpn, layout.first_free_mtt), (512, 8));
}

#[test]
fn p2_total_above_max_icm() {
    let l = l_with(|l| put_be64(l, 0xa0, 0x1_0012_0fff));
    assert_eq!(leaves::profile(&l, None), refused(17, &[0x1_0012_1000]));
}

#[test]
fn p3_entry_not_a_power_of_two() {
    for entry in [0, 24] {
        let l = l_with(|l| put_be16(l, 0x90, entry));
        assert_eq!(leaves::profile(&l, None), refused(16, &[9]), "MTT entry {entry}");
    }
}

#[test]
fn p4_min_page_exponent() {
    assert_eq!(leaves::profile(&l_with(|l| l[0x4b] = 13), None), refused(12, &[13]));
}

#[test]
fn p5_ports() {
    for ports in [0, 3] {
        assert_eq!(leaves::profile(&l_with(|l| l[0x37] = ports), None), refused(13, &[ports.into()]));
    }
}

#[test]
fn p6_uar_field() {
    assert_eq!(leaves::profile(&l_with(|l| l[0x49] = 0x2c), None), refused(14, &[0x2c]));
    assert_eq!(leaves::profile(&l_with(|l| l[0x49] = 0x2b), None).unwrap().to_string(), LISTING);
}

#[test]
fn p7_blocks_by_alignment() {
    let blocks: Vec<Block> = leaves::blocks(None, 0x3000, 0x5000).take(3).collect();
    let block = |phys, log| Block { virt: 0, phys, log };
    assert_eq!(blocks, [block(0x3000, 12), block(0x4000, 14)]);
}

#[test]
fn p8_single_pages_and_two_mailboxes() {
    let blocks: Vec<Block> = leaves::blocks(Some(0x1000), 0x4000, 257 * 4096).take(258).collect();
    let expected = (0..257).map(|k| Block { virt: 0x1000 + k * 4096, phys: 0x4000 + k * 4096, log: 12 });
    assert_eq!(blocks, expected.collect::<Vec<_>>());
    let mailboxes = leaves::mailboxes(Some(0x1000), 0x4000, 257).unwrap();
    assert_eq!(mailboxes.iter().map(|m| m.entries).collect::<Vec<_>>(), [256, 1]);
    for (k, b) in blocks.iter().enumerate() {
        let entry = &mailboxes[k / 256].page[k % 256 * 16..][..16];
        assert_eq!(entry, [b.virt.to_be_bytes(), b.phys.to_be_bytes()].concat(), "entry {k}");
    }
    assert!(mailboxes[1].page[16..].iter().all(|b| *b == 0));
}

#[test]
fn p9_no_blocks() {
    assert_eq!(leaves::blocks(None, 0x3000, 0).next(), None);
}

#[test]
fn p10_bars() {
    let bars = [0xf000_0004, 0, 0xe000_000c, 0, 0, 0];
    assert_eq!(leaves::base(&bars, 2), Ok(0xe000_0000));
    assert_eq!(leaves::candidates(&bars, 2), Ok([2, 1]));
}
