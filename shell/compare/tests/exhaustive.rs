//! Leaves over all of a small input.

use compare::command::{waits, STALLS};
use compare::run::same;
use compare::{ffi, leaf, Input};
use oracle::parts::End;
use world::plan::{input_l, put_be16, NEVER};

fn all(name: &str, inputs: impl Iterator<Item = Input>) -> usize {
    let leaf = leaf(name);
    inputs.filter(|i| same(&leaf, i)).count()
}

/// The six dwords with these low four bits, and a register.
fn with_types(types: [u64; 6], high: u64, reg: u64) -> Input {
    let mut words = types.map(|t| high | t).to_vec();
    words.push(reg);
    Input { words, bytes: Vec::new() }
}

#[test]
fn base_and_candidates_for_every_register_and_type() {
    // The type bits that matter: I/O, 32-bit, 64-bit, with the prefetchable bit.
    const TYPES: [u64; 6] = [0x0, 0x1, 0x4, 0x5, 0xc, 0x6];
    let combination = |n: usize| core::array::from_fn(|k| TYPES[n / 6usize.pow(k as u32) % 6]);
    for high in [0, 0xe000_0010, 0xffff_fff0] {
        for reg in [0, 1, 2, 3, 4, 5, 6, 7, 1000, u64::MAX] {
            let inputs = || (0..6usize.pow(6)).map(|n| with_types(combination(n), high, reg));
            assert_eq!(all("base", inputs()), 46656);
            assert_eq!(all("candidates", inputs()), 46656);
        }
    }
}

#[test]
fn base_for_every_low_bits_of_one_dword() {
    let dword = |low: u64, reg: usize| {
        let mut words = vec![0x1234_5670; 6];
        words[reg] = 0xabcd_0000 | low;
        words.push(reg as u64);
        Input { words, bytes: Vec::new() }
    };
    let inputs = (0..6).flat_map(|reg| (0..0x1_0000).map(move |low| dword(low, reg)));
    assert_eq!(all("base", inputs), 6 * 0x1_0000);
}

/// Which of the six indices answer, and with the base wanted or another.
#[test]
fn choose_for_every_pattern_of_answers() {
    const BARS: [[u64; 6]; 4] = [
        [0xf000_0004, 0, 0xe000_000c, 0, 0, 0],
        [0xf000_0000, 0xe000_0000, 0xd000_0000, 1, 0, 0],
        [0xf000_0004, 0, 0xc, 0, 0, 0],
        [0, 0, 0, 0, 0, 0xc000_0004],
    ];
    let case = |bars: [u64; 6], reg: usize, pattern: usize| {
        let words = [&bars[..], &[reg as u64]].concat();
        let want = ffi::base(core::array::from_fn(|k| bars[k] as u32), reg)[1];
        let answer = |k: usize| match pattern / 3usize.pow(k as u32) % 3 {
            0 => [0, 0, 0],
            1 => [1, want, 0x1000 + k as u64],
            _ => [1, want ^ 0x100, 0x2000 + k as u64],
        };
        Input { words: [words, (0..6).flat_map(answer).collect()].concat(), bytes: Vec::new() }
    };
    for bars in BARS {
        for reg in 0..6 {
            assert_eq!(all("choose", (0..729).map(|p| case(bars, reg, p))), 729);
        }
    }
}

/// Input L with one byte set to every value.
#[test]
fn every_byte_of_the_capability_reply() {
    let cases = |bar: [u64; 2]| {
        (0..168 * 256).map(move |n| {
            let mut bytes = input_l();
            bytes[n / 256] = n as u8;
            Input { words: bar.to_vec(), bytes }
        })
    };
    for bar in [[0, 0], [1, 1 << 20]] {
        assert_eq!(all("dev_cap", cases(bar)), 168 * 256);
        assert_eq!(all("tables", cases(bar)), 168 * 256);
        // All but those whose tables need more memory than an opening has here; then all but the refused ones.
        assert!(all("layout", cases(bar)) > 42_000);
        assert!(all("init_hca", cases(bar)) > 30_000);
    }
}

#[test]
fn every_uar_field_against_every_known_size() {
    let case = |field: u64, size: u64| {
        let mut bytes = input_l();
        bytes[0x49] = field as u8;
        Input { words: vec![1, size], bytes }
    };
    let sizes = || (0..64).flat_map(|e| [(1u64 << e) - 1, 1 << e, (1 << e) + 1]);
    for field in 0..256 {
        assert_eq!(all("dev_cap", sizes().map(|s| case(field, s))), 192);
        assert_eq!(all("layout", sizes().map(|s| case(field, s))), 192);
        // Refused are the fields above 43, and the sizes below the area.
        let area = (field & 63) + 20;
        let fits = if area <= 63 { 1 + 3 * (63 - area as usize) + 1 } else { 0 };
        assert_eq!(all("init_hca", sizes().map(|s| case(field, s))), fits);
    }
}

/// Every entry size of one table, on a card that takes any total.
#[test]
fn every_entry_size() {
    let case = |table: usize, entry: usize| {
        let mut bytes = input_l();
        put_be16(&mut bytes, 0x80 + 2 * table, entry as u16);
        bytes[0xa0] = 0xff;
        Input { words: vec![0, 0], bytes }
    };
    for table in 0..10 {
        assert_eq!(all("tables", (0..1 << 16).map(|e| case(table, e))), 1 << 16);
    }
}

#[test]
fn every_nibble_of_the_counts() {
    // Reserved QPs, SRQs, CQs, EQs, most EQs, MTTs, MPTs: four bits each, low or high; then the system EQs.
    const PLACES: [usize; 7] = [0x12, 0x14, 0x1a, 0x1e, 0x1f, 0x20, 0x22];
    let case = |place: usize, value: usize, sys: u16| {
        let mut bytes = input_l();
        bytes[0xa0] = 0xff;
        bytes[place] = value as u8;
        put_be16(&mut bytes, 0x26, sys);
        Input { words: vec![0, 0], bytes }
    };
    for place in PLACES {
        for sys in [0, 1, 100, 0xfff, 0xf000] {
            assert_eq!(all("tables", (0..256).map(|v| case(place, v, sys))), 256);
        }
    }
    assert_eq!(all("layout", (0..=0xffff).map(|sys| case(0x12, 3, sys))), 0x1_0000);
}

#[test]
fn every_byte_of_the_other_replies() {
    for (name, length) in [("query_fw", 0x3d), ("query_port", 0x28), ("query_func", 0x0c)] {
        let case = |n: usize| {
            let mut bytes: Vec<u8> = (0..length).map(|k| 0x5b ^ k as u8).collect();
            bytes[0x0a % length] = 0;
            bytes[0x0b] = 3;
            bytes[n / 256] = n as u8;
            Input { words: vec![2], bytes }
        };
        assert_eq!(all(name, (0..length * 256).map(case)), length * 256);
    }
}

#[test]
fn every_flag_and_every_status() {
    let flags = (0..64u64).flat_map(|n| [1 << n, !(1 << n), 0, u64::MAX].map(|f| Input::words(&[f, n])));
    assert_eq!(all("flag", flags), 256);
    let steering = [0, 1 << 41, 1 << 42, 3 << 41].map(|f| Input::words(&[f]));
    assert_eq!(all("b0", steering.into_iter()), 4);
    let status = (0..1u64 << 16).flat_map(|top| [0, 1].map(|t| Input::words(&[top << 16, t])));
    assert_eq!(all("pending", status), 1 << 17);
}

/// Every upper half of a status dword, behind each of three lower halves.
#[test]
fn every_upper_half_of_the_status_dword() {
    let dwords = |low: u64| (0..1u64 << 16).map(move |top| Input::words(&[top << 16 | low]));
    for low in [0, 0x5a5a, 0xffff] {
        assert_eq!(all("first_toggle", dwords(low)), 1 << 16);
        assert_eq!(all("status", dwords(low)), 1 << 16);
    }
}

#[test]
fn every_opcode_and_every_modifier() {
    let words = |t: u64, m: u64, op: u64| Input::words(&[t, m, op]);
    for toggle in [0, 1] {
        assert_eq!(all("go_word", (0..1 << 16).map(|op| words(toggle, 0x5a, op))), 1 << 16);
        assert_eq!(all("go_word", (0..256).map(|m| words(toggle, m, 0xfff))), 256);
    }
}

/// All waits up to 3,000 stalls, and some of the longest that are no Timeout.
#[test]
fn waits_of_a_command() {
    let long = [10_000, 100_000, 600_000, STALLS - 1, STALLS];
    assert_eq!(all("waited", (0..3000).chain(long).map(|n| Input::words(&[n]))), 3005);
}

/// The stalls of a command that never ends, each of them and the sum at each.
#[test]
fn stalls_until_the_timeout() {
    for polls in [STALLS + 1, NEVER] {
        let (stalls, end) = waits(polls);
        assert_eq!((stalls.len() as u64, end), (STALLS, End::Timeout));
        let mut waited = 0;
        for (n, us) in (0..).zip(stalls) {
            assert_eq!((ffi::waited(n), u64::from(ffi::stall(n))), (waited, us));
            waited += us;
        }
        assert_eq!((ffi::waited(STALLS as u32), waited), (60_000_000, 60_000_000));
    }
    assert_eq!(all("stall", (0..STALLS).map(|n| Input::words(&[n]))), STALLS as usize);
}

/// Every number of bytes up to 40 pages, and those around each page multiple that is a power of two.
#[test]
fn pages_of_every_small_buffer() {
    assert_eq!(all("pages_of", (0..=40 * 4096).map(|n| Input::words(&[n]))), 40 * 4096 + 1);
    let near = (12..64).flat_map(|e| [(1u64 << e) - 1, 1 << e, (1 << e) + 1, 0u64.wrapping_sub(1 << e)]);
    assert_eq!(all("pages_of", near.map(|n| Input::words(&[n]))), 208);
}

#[test]
fn powers_and_their_neighbours() {
    let near = (0..64).flat_map(|e| [(1u64 << e) - 1, 1 << e, (1u64 << e) + 1, u64::MAX >> e]);
    let inputs: Vec<Input> = near.map(|x| Input::words(&[x])).collect();
    assert_eq!(all("pow2", inputs.clone().into_iter()), 256);
    assert_eq!(all("log2", inputs.into_iter()), 256);
}

/// Every offset and width around a slice of 0 to 20 bytes.
#[test]
fn every_place_of_a_field() {
    let at = |len: usize| (0..=len + 9).map(|o| o as u64).chain((0..12).map(|k| u64::MAX - k));
    for len in 0..=20usize {
        let bytes: Vec<u8> = (0..len).map(|k| 0xf1 ^ (k as u8 * 13)).collect();
        for off in at(len) {
            for width in (0..=10).chain([u64::MAX, u64::MAX - 7]) {
                for order in [0, 1] {
                    let i = Input { words: vec![order, off, width, 0x0102_0304_0506_0708], bytes: bytes.clone() };
                    assert!(same(&leaf("field"), &i) && same(&leaf("set_field"), &i));
                }
            }
            let i = Input { words: vec![off, 0x0102_0304_0506_0708], bytes: bytes.clone() };
            for name in ["byte", "be16", "be32", "be64", "le16", "le64"] {
                assert!(same(&leaf(name), &i) && same(&leaf(&format!("set_{name}")), &i));
            }
        }
    }
}

/// Ranges on every pair of alignments, with sizes around each power of two, some of them ending at 2^64.
#[test]
fn blocks_of_every_alignment() {
    let case = |has: u64, v: u32, p: u32, size: u64| {
        let (v, p) = (1u64.checked_shl(v).unwrap_or(0), 1u64.checked_shl(p).unwrap_or(0));
        Input::words(&[has, v, p, size])
    };
    for v in 12..=64 {
        for p in 12..=64 {
            let sizes = (0..64).flat_map(|e| [(1u64 << e) - 1, 1 << e]).chain([0u64.wrapping_sub(1 << 12)]);
            let inputs = sizes.flat_map(|s| [case(0, v, p, s), case(1, v, p, s)]);
            assert_eq!(all("blocks", inputs), 258);
        }
    }
}
