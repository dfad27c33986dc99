//! The functions of libleaves.a. Each answer is a number and big-endian words.

/// What a leaf gives: its words, and the bytes that it wrote elsewhere.
#[derive(Clone, PartialEq, Eq, Debug, Default)]
pub struct Answer {
    pub words: Vec<u64>,
    pub bytes: Vec<u8>,
}

impl Answer {
    pub fn words(words: &[u64]) -> Answer {
        Answer { words: words.to_vec(), bytes: Vec::new() }
    }
}

/// Why a leaf wrote no answer.
pub const SHORT: u32 = 21;

mod c {
    #[link(name = "leaves", kind = "static")]
    extern "C" {
        pub fn leaf_field(
            s: *const u8,
            n: usize,
            little: bool,
            off: usize,
            width: usize,
            out: *mut u8,
            m: usize,
        ) -> u32;
        pub fn leaf_byte(s: *const u8, n: usize, off: usize, out: *mut u8, m: usize) -> u32;
        pub fn leaf_be16(s: *const u8, n: usize, off: usize, out: *mut u8, m: usize) -> u32;
        pub fn leaf_be32(s: *const u8, n: usize, off: usize, out: *mut u8, m: usize) -> u32;
        pub fn leaf_be64(s: *const u8, n: usize, off: usize, out: *mut u8, m: usize) -> u32;
        pub fn leaf_le16(s: *const u8, n: usize, off: usize, out: *mut u8, m: usize) -> u32;
        pub fn leaf_le64(s: *const u8, n: usize, off: usize, out: *mut u8, m: usize) -> u32;
        pub fn leaf_set_field(s: *mut u8, n: usize, little: bool, off: usize, width: usize, v: u64) -> u32;
        pub fn leaf_set_byte(s: *mut u8, n: usize, off: usize, v: u8) -> u32;
        pub fn leaf_set_be16(s: *mut u8, n: usize, off: usize, v: u16) -> u32;
        pub fn leaf_set_be32(s: *mut u8, n: usize, off: usize, v: u32) -> u32;
        pub fn leaf_set_be64(s: *mut u8, n: usize, off: usize, v: u64) -> u32;
        pub fn leaf_set_le16(s: *mut u8, n: usize, off: usize, v: u16) -> u32;
        pub fn leaf_set_le64(s: *mut u8, n: usize, off: usize, v: u64) -> u32;
        pub fn leaf_zero(s: *mut u8, n: usize);
        pub fn leaf_base(a: u32, b: u32, c: u32, d: u32, e: u32, f: u32, reg: usize, out: *mut u8, m: usize) -> u32;
        pub fn leaf_candidates(
            a: u32,
            b: u32,
            c: u32,
            d: u32,
            e: u32,
            f: u32,
            reg: usize,
            out: *mut u8,
            m: usize,
        ) -> u32;
        pub fn leaf_resource(s: *const u8, n: usize, out: *mut u8, m: usize) -> u32;
        pub fn leaf_choose(a: u32, b: u32, c: u32, d: u32, e: u32, f: u32, reg: usize, out: *mut u8, m: usize) -> u32;
        pub fn leaf_choose_step(
            s: *const u8,
            n: usize,
            known: bool,
            base: u64,
            length: u64,
            out: *mut u8,
            m: usize,
        ) -> u32;
        pub fn leaf_pages_of(bytes: u64, out: *mut u8, m: usize) -> u32;
        pub fn leaf_accept(dev: u64, pages: u64) -> u32;
        pub fn leaf_blocks(has: bool, virt: u64, phys: u64, size: u64, out: *mut u8, m: usize) -> u32;
        pub fn leaf_cut(largest: u32, has: bool, virt: u64, phys: u64, left: u64, out: *mut u8, m: usize) -> u32;
        pub fn leaf_fill(
            inbox: *mut u8,
            n: usize,
            largest: u32,
            has: bool,
            virt: u64,
            phys: u64,
            left: u64,
            capacity: usize,
            out: *mut u8,
            m: usize,
        ) -> u32;
        pub fn leaf_dev_cap(s: *const u8, n: usize, known: bool, bar: u64, out: *mut u8, m: usize) -> u32;
        pub fn leaf_flag(flags: u64, number: u8) -> bool;
        pub fn leaf_b0(flags: u64) -> bool;
        pub fn leaf_query_fw(s: *const u8, n: usize, bar: u8, out: *mut u8, m: usize) -> u32;
        pub fn leaf_query_port(s: *const u8, n: usize, num: u8, out: *mut u8, m: usize) -> u32;
        pub fn leaf_query_func(s: *const u8, n: usize, out: *mut u8, m: usize) -> u32;
        pub fn leaf_pow2(x: u64) -> u64;
        pub fn leaf_log2(x: u64) -> u32;
        pub fn leaf_layout(s: *const u8, n: usize, known: bool, bar: u64, out: *mut u8, m: usize) -> u32;
        pub fn leaf_init_hca(s: *const u8, n: usize, known: bool, bar: u64, inbox: *mut u8, m: usize) -> u32;
        pub fn leaf_mod_stat_cfg(inbox: *mut u8, n: usize) -> u32;
        pub fn leaf_pending(status: u32, toggle: bool) -> bool;
        pub fn leaf_status(dword: u32) -> u8;
        pub fn leaf_first_toggle(status: u32) -> bool;
        pub fn leaf_go_word(toggle: bool, modifier: u8, op: u16) -> u32;
        pub fn leaf_swap(x: u32) -> u32;
        pub fn leaf_writes(
            toggle: bool,
            op: u16,
            op_mod: u8,
            in_mod: u32,
            in_param: u64,
            out_param: u64,
            out: *mut u8,
            m: usize,
        ) -> u32;
        pub fn leaf_stall(n: u32) -> u32;
        pub fn leaf_waited(n: u32) -> u64;
        pub fn leaf_reserved(op: u16) -> bool;
    }
}

/// Bytes that a leaf must not leave in an answer slice of its own length.
const STALE: u8 = 0x5a;

/// The words that `call` writes to a slice of `N` words. The slice is one byte longer, and that byte stays as it was.
fn words<const N: usize>(call: impl FnOnce(&mut [u8]) -> u32) -> [u64; N] {
    let mut out = [STALE; 1024];
    assert_eq!(call(&mut out[..N * 8]), 0, "there is room for the answer");
    assert!(out[N * 8..].iter().all(|b| *b == STALE), "a leaf wrote behind its answer");
    core::array::from_fn(|i| u64::from_be_bytes(out[i * 8..][..8].try_into().expect("eight bytes")))
}

/// A read of a field: number and value.
#[derive(Clone, Copy, PartialEq, Eq, Debug)]
pub enum Width {
    Byte,
    Be16,
    Be32,
    Be64,
    Le16,
    Le64,
}

// SAFETY (all calls below): each pointer is to as many bytes as the length behind it says, and no two of them overlap.

pub fn field(s: &[u8], little: bool, off: usize, width: usize) -> [u64; 2] {
    words(|out| unsafe { c::leaf_field(s.as_ptr(), s.len(), little, off, width, out.as_mut_ptr(), out.len()) })
}

pub fn read(s: &[u8], width: Width, off: usize) -> [u64; 2] {
    let f = match width {
        Width::Byte => c::leaf_byte,
        Width::Be16 => c::leaf_be16,
        Width::Be32 => c::leaf_be32,
        Width::Be64 => c::leaf_be64,
        Width::Le16 => c::leaf_le16,
        Width::Le64 => c::leaf_le64,
    };
    words(|out| unsafe { f(s.as_ptr(), s.len(), off, out.as_mut_ptr(), out.len()) })
}

pub fn set_field(s: &mut [u8], little: bool, off: usize, width: usize, v: u64) -> u32 {
    unsafe { c::leaf_set_field(s.as_mut_ptr(), s.len(), little, off, width, v) }
}

pub fn write(s: &mut [u8], width: Width, off: usize, v: u64) -> u32 {
    let (p, n) = (s.as_mut_ptr(), s.len());
    unsafe {
        match width {
            Width::Byte => c::leaf_set_byte(p, n, off, v as u8),
            Width::Be16 => c::leaf_set_be16(p, n, off, v as u16),
            Width::Be32 => c::leaf_set_be32(p, n, off, v as u32),
            Width::Be64 => c::leaf_set_be64(p, n, off, v),
            Width::Le16 => c::leaf_set_le16(p, n, off, v as u16),
            Width::Le64 => c::leaf_set_le64(p, n, off, v),
        }
    }
}

pub fn zero(s: &mut [u8]) {
    unsafe { c::leaf_zero(s.as_mut_ptr(), s.len()) }
}

pub fn base(d: [u32; 6], reg: usize) -> [u64; 2] {
    words(|out| unsafe { c::leaf_base(d[0], d[1], d[2], d[3], d[4], d[5], reg, out.as_mut_ptr(), out.len()) })
}

pub fn candidates(d: [u32; 6], reg: usize) -> [u64; 3] {
    words(|out| unsafe { c::leaf_candidates(d[0], d[1], d[2], d[3], d[4], d[5], reg, out.as_mut_ptr(), out.len()) })
}

pub fn resource(s: &[u8]) -> [u64; 3] {
    words(|out| unsafe { c::leaf_resource(s.as_ptr(), s.len(), out.as_mut_ptr(), out.len()) })
}

/// The words of a choice that begins or goes on: 0 and the index to ask, 1 and the pick, or the refusal's number.
pub type Step = [u64; 16];

pub fn choose(d: [u32; 6], reg: usize) -> Step {
    words(|out| unsafe { c::leaf_choose(d[0], d[1], d[2], d[3], d[4], d[5], reg, out.as_mut_ptr(), out.len()) })
}

pub fn choose_step(state: &Step, answer: Option<(u64, u64)>) -> Step {
    let bytes: Vec<u8> = state.iter().flat_map(|w| w.to_be_bytes()).collect();
    choose_step_in(&bytes, answer)
}

pub fn choose_step_in(state: &[u8], answer: Option<(u64, u64)>) -> Step {
    let (base, length) = answer.unwrap_or((0, 0));
    words(|out| unsafe {
        c::leaf_choose_step(state.as_ptr(), state.len(), answer.is_some(), base, length, out.as_mut_ptr(), out.len())
    })
}

pub fn pages_of(bytes: u64) -> [u64; 2] {
    words(|out| unsafe { c::leaf_pages_of(bytes, out.as_mut_ptr(), out.len()) })
}

pub fn accept(dev: u64, pages: u64) -> u32 {
    unsafe { c::leaf_accept(dev, pages) }
}

/// What is left of a range.
#[derive(Clone, Copy, PartialEq, Eq, Debug)]
pub struct Rest {
    pub virt: Option<u64>,
    pub phys: u64,
    pub left: u64,
}

impl Rest {
    fn from_words(w: &[u64]) -> Rest {
        Rest { virt: (w[0] == 1).then_some(w[1]), phys: w[2], left: w[3] }
    }
}

/// A range ready to be cut, or the refusal's number.
pub fn blocks(virt: Option<u64>, phys: u64, size: u64) -> Result<Rest, u64> {
    let (has, at) = (virt.is_some(), virt.unwrap_or(0));
    let w: [u64; 5] = words(|out| unsafe { c::leaf_blocks(has, at, phys, size, out.as_mut_ptr(), out.len()) });
    if w[0] == 0 {
        Ok(Rest::from_words(&w[1..]))
    } else {
        Err(w[0])
    }
}

/// The next block, its card address, device address and exponent, and what is left behind it.
pub fn cut(largest: u32, r: Rest) -> Option<([u64; 3], Rest)> {
    let (has, at) = (r.virt.is_some(), r.virt.unwrap_or(0));
    let w: [u64; 8] =
        words(|out| unsafe { c::leaf_cut(largest, has, at, r.phys, r.left, out.as_mut_ptr(), out.len()) });
    (w[0] == 1).then(|| ([w[1], w[2], w[3]], Rest::from_words(&w[4..])))
}

/// The entries of the next mailbox and what is left behind them, or the refusal's number.
pub fn fill(inbox: &mut [u8], largest: u32, r: Rest, capacity: usize) -> Result<(u64, Rest), u64> {
    let (has, at) = (r.virt.is_some(), r.virt.unwrap_or(0));
    let (p, n) = (inbox.as_mut_ptr(), inbox.len());
    let w: [u64; 6] = words(|out| unsafe {
        c::leaf_fill(p, n, largest, has, at, r.phys, r.left, capacity, out.as_mut_ptr(), out.len())
    });
    if w[0] == 0 {
        Ok((w[1], Rest::from_words(&w[2..])))
    } else {
        Err(w[0])
    }
}

pub fn dev_cap(s: &[u8], bar: Option<u64>) -> [u64; 34] {
    let size = bar.unwrap_or(0);
    words(|out| unsafe { c::leaf_dev_cap(s.as_ptr(), s.len(), bar.is_some(), size, out.as_mut_ptr(), out.len()) })
}

pub fn flag(flags: u64, number: u8) -> bool {
    unsafe { c::leaf_flag(flags, number) }
}

pub fn b0(flags: u64) -> bool {
    unsafe { c::leaf_b0(flags) }
}

pub fn query_fw(s: &[u8], bar: u8) -> [u64; 12] {
    words(|out| unsafe { c::leaf_query_fw(s.as_ptr(), s.len(), bar, out.as_mut_ptr(), out.len()) })
}

pub fn query_port(s: &[u8], num: u8) -> [u64; 18] {
    words(|out| unsafe { c::leaf_query_port(s.as_ptr(), s.len(), num, out.as_mut_ptr(), out.len()) })
}

pub fn query_func(s: &[u8]) -> [u64; 4] {
    words(|out| unsafe { c::leaf_query_func(s.as_ptr(), s.len(), out.as_mut_ptr(), out.len()) })
}

pub fn pow2(x: u64) -> u64 {
    unsafe { c::leaf_pow2(x) }
}

pub fn log2(x: u64) -> u32 {
    unsafe { c::leaf_log2(x) }
}

pub fn layout(s: &[u8], bar: Option<u64>) -> [u64; 89] {
    let size = bar.unwrap_or(0);
    words(|out| unsafe { c::leaf_layout(s.as_ptr(), s.len(), bar.is_some(), size, out.as_mut_ptr(), out.len()) })
}

/// The layout's own answer, in a slice of any length.
pub fn layout_in(s: &[u8], out: &mut [u8]) -> u32 {
    unsafe { c::leaf_layout(s.as_ptr(), s.len(), false, 0, out.as_mut_ptr(), out.len()) }
}

pub fn init_hca(s: &[u8], bar: Option<u64>, inbox: &mut [u8]) -> u32 {
    let size = bar.unwrap_or(0);
    unsafe { c::leaf_init_hca(s.as_ptr(), s.len(), bar.is_some(), size, inbox.as_mut_ptr(), inbox.len()) }
}

pub fn mod_stat_cfg(inbox: &mut [u8]) -> u32 {
    unsafe { c::leaf_mod_stat_cfg(inbox.as_mut_ptr(), inbox.len()) }
}

pub fn pending(status: u32, toggle: bool) -> bool {
    unsafe { c::leaf_pending(status, toggle) }
}

pub fn status(dword: u32) -> u8 {
    unsafe { c::leaf_status(dword) }
}

pub fn first_toggle(status: u32) -> bool {
    unsafe { c::leaf_first_toggle(status) }
}

pub fn go_word(toggle: bool, modifier: u8, op: u16) -> u32 {
    unsafe { c::leaf_go_word(toggle, modifier, op) }
}

pub fn swap(x: u32) -> u32 {
    unsafe { c::leaf_swap(x) }
}

pub fn writes(toggle: bool, op: u16, op_mod: u8, in_mod: u32, in_param: u64, out_param: u64) -> [u64; 14] {
    words(|out| unsafe { c::leaf_writes(toggle, op, op_mod, in_mod, in_param, out_param, out.as_mut_ptr(), out.len()) })
}

pub fn stall(n: u32) -> u32 {
    unsafe { c::leaf_stall(n) }
}

pub fn waited(n: u32) -> u64 {
    unsafe { c::leaf_waited(n) }
}

pub fn reserved(op: u16) -> bool {
    unsafe { c::leaf_reserved(op) }
}
