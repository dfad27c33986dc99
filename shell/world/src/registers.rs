//! The card's registers and opcodes, as document 01 numbers them.

/// The BAR of all registers below.
pub const BAR_DCS: u8 = 0;
/// The command registers: seven dwords, the last one is the status dword.
pub const HCR: u64 = 0x80680;
/// The status dword, whose write posts a command.
pub const GO_WRITE: u64 = HCR + 0x18;
/// The command dwords before the status dword.
pub const PARAMETERS: usize = 6;

/// Which of the `PARAMETERS` lies at an offset.
pub fn parameter(offset: u64) -> Option<usize> {
    (0..PARAMETERS).find(|i| HCR + 4 * *i as u64 == offset)
}

pub const OWNER: u64 = 0x8069c;
pub const RESET: u64 = 0xf0010;
pub const RESET_SEMAPHORE: u64 = 0xf03fc;

/// Bits of the status dword; the status is its top byte.
pub const GO: u32 = 1 << 23;
pub const T_SHIFT: u32 = 21;
pub const STATUS_SHIFT: u32 = 24;

pub const QUERY_DEV_CAP: u16 = 0x003;
pub const QUERY_FW: u16 = 0x004;
pub const QUERY_ADAPTER: u16 = 0x006;
pub const INIT_HCA: u16 = 0x007;
pub const CLOSE_HCA: u16 = 0x008;
pub const MOD_STAT_CFG: u16 = 0x034;
pub const QUERY_PORT: u16 = 0x043;
pub const QUERY_FUNC: u16 = 0x056;
pub const RUN_FW: u16 = 0xff6;
pub const UNMAP_ICM: u16 = 0xff9;
pub const MAP_ICM: u16 = 0xffa;
pub const UNMAP_ICM_AUX: u16 = 0xffb;
pub const MAP_ICM_AUX: u16 = 0xffc;
pub const SET_ICM_SIZE: u16 = 0xffd;
pub const UNMAP_FA: u16 = 0xffe;
pub const MAP_FA: u16 = 0xfff;

/// The queries of bring-up, which a client may send too.
pub const QUERIES: [u16; 5] = [QUERY_DEV_CAP, QUERY_FW, QUERY_ADAPTER, QUERY_PORT, QUERY_FUNC];

/// What bring-up and closing send, queries excepted: no client may send it.
pub const RESERVED: [u16; 11] = [
    INIT_HCA,
    CLOSE_HCA,
    MOD_STAT_CFG,
    RUN_FW,
    UNMAP_ICM,
    MAP_ICM,
    UNMAP_ICM_AUX,
    MAP_ICM_AUX,
    SET_ICM_SIZE,
    UNMAP_FA,
    MAP_FA,
];
