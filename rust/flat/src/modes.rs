//! Modes as small numbers.

pub const NL: u32 = 0;
pub const PW: u32 = 4;
pub const EX: u32 = 5;
pub const MODES: usize = 6;

/// For each mode, the set of modes compatible with it: bit m for mode m.
const WITH: [u8; MODES] = [0b11_1111, 0b01_1111, 0b00_0111, 0b00_1011, 0b00_0011, 0b00_0001];

/// Whether two modes are compatible.
#[inline]
pub const fn compatible(one: u32, other: u32) -> bool {
    WITH[one as usize] >> other & 1 != 0
}

/// Whether a conversion is down: the new mode is compatible with all that the old one is.
#[inline]
pub fn down(old: u32, new: u32) -> bool {
    WITH[old as usize] & !WITH[new as usize] == 0
}
