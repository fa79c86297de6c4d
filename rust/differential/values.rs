//! Numbers to try, and numbers in bytes: all low byte first.

pub const NAN: u64 = 0x7ff8_0000_0000_0000;

/// Numbers near a limit: of a byte, of two, of the crate's 4096 points that the oracle counts, of an i32.
pub const LIMITS: [i32; 32] = [
    0, 1, -1, 2, -2, 3, -3, 4, -4, 8, 127, 128, 255, 256, -256, 4095, 4096, 4097, 32767, 32768, 65535, 65536, -65536, 1 << 24, 1 << 30,
    -(1 << 30), i32::MAX, i32::MAX - 1, i32::MAX - 2, i32::MIN, i32::MIN + 1, i32::MIN + 2,
];
/// Zeros, the least doubles, infinities, NaNs (quiet, negative with a payload, signalling), the largest doubles, -10e38 and its neighbours, 1 and -1.
pub const DOUBLES: [u64; 16] = [
    0, 1 << 63, 1, (1 << 63) | 1, 0x7ff0_0000_0000_0000, 0xfff0_0000_0000_0000, NAN, 0xfff8_0000_0000_0001, 0x7ff0_0000_0000_0001,
    0x7fef_ffff_ffff_ffff, 0xffef_ffff_ffff_ffff, 0xc807_8287_f49c_4a1c, 0xc807_8287_f49c_4a1d, 0xc807_8287_f49c_4a1e, 0x3ff0_0000_0000_0000,
    0xbff0_0000_0000_0000,
];
/// The fourteen kinds, their neighbours, and what is between.
pub const KINDS: std::ops::RangeInclusive<i32> = -2..=33;
/// Those of whole files.
pub const WRITTEN: [i32; 12] = [1, 21, 11, 3, 23, 13, 5, 25, 15, 8, 28, 18];

pub fn ints(values: &[i32]) -> Vec<u8> {
    values.iter().flat_map(|n| n.to_le_bytes()).collect()
}

pub fn doubles(values: impl IntoIterator<Item = u64>) -> Vec<u8> {
    values.into_iter().flat_map(u64::to_le_bytes).collect()
}

pub fn int_at(s: &[u8], at: usize) -> i32 {
    i32::from_le_bytes(s[at..at + 4].try_into().unwrap())
}

pub fn double_at(s: &[u8], at: usize) -> f64 {
    f64::from_bits(u64::from_le_bytes(s[at..at + 8].try_into().unwrap()))
}

/// The i-th double of a filling: small numbers that differ, and each special one in turn.
pub fn filler(i: usize) -> u64 {
    if i % 2 == 0 { DOUBLES[i / 2 % DOUBLES.len()] } else { (i as f64 + 0.5).to_bits() }
}

/// Whether shapes of a kind of `WRITTEN` have z, and m.
pub fn has_z_m(kind: i32) -> (bool, bool) {
    (matches!(kind, 11 | 13 | 15 | 18), !matches!(kind, 1 | 3 | 5 | 8))
}

pub fn is_point(kind: i32) -> bool {
    matches!(kind, 1 | 11 | 21)
}

pub fn is_multipoint(kind: i32) -> bool {
    matches!(kind, 8 | 18 | 28)
}

/// The flags of a case: z, m, and that it is a multipoint.
pub fn flags_of(z: bool, m: bool, multipoint: bool) -> u8 {
    z as u8 + 2 * m as u8 + 4 * multipoint as u8
}

pub fn z_m_multipoint(flags: u8) -> (bool, bool, bool) {
    (flags % 2 == 1, flags / 2 % 2 == 1, flags / 4 == 1)
}
