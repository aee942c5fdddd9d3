//! The bytes that the requests lend, and the numbers that many of them name.

use model::LIMIT;

pub const MAX: u64 = u64::MAX;
pub const MOST: u64 = LIMIT as u64;

/// Words with no flag set, all flags, every second one, one at either end, few and many.
pub const WORDS: [u64; 10] = [
    0,
    MAX,
    0xAAAA_AAAA_AAAA_AAAA,
    0x5555_5555_5555_5555,
    1,
    1 << 63,
    0x0123_4567_89AB_CDEF,
    0x8000_0001_8000_0001,
    0xFFFF_FFFF,
    0xDEAD_BEEF_CAFE_F00D,
];

/// Places in a word and past it.
pub const PLACES: [u64; 14] = [0, 1, 7, 8, 9, 31, 32, 33, 63, 64, 65, 1 << 32, 1 << 63, MAX];

/// Returns byte `i` of a pattern: kind 0 is zeros, 1 ones, 2 the odd flags, 3 the even flags, and 4 or more bytes that look drawn.
pub fn byte(kind: u64, i: u64) -> u8 {
    match kind {
        0 => 0,
        1 => 0xFF,
        2 => 0xAA,
        3 => 0x55,
        _ => {
            let y = (i * 167 + kind * 59 + 1) * 2_654_435_761 % (1 << 32);
            ((y / 32768 + y % 32768) * 2_246_822_519 / 65536 % 256) as u8
        }
    }
}

/// Returns the first `size` bytes of a pattern.
pub fn paint(kind: u64, size: u64) -> Vec<u8> {
    (0..size).map(|i| byte(kind, i)).collect()
}

/// Returns the first `size` bytes of a pattern with one flag inverted; with none if the flag is past them.
pub fn turned(kind: u64, size: u64, flag: u64) -> Vec<u8> {
    let mut bytes = paint(kind, size);
    if let Some(byte) = bytes.get_mut(flag as usize / 8) {
        *byte ^= 1 << (flag % 8);
    }
    bytes
}

/// Returns bytes with runs of ones of many lengths, over bytes and words.
pub fn stripes(size: u64) -> Vec<u8> {
    const BYTES: [u8; 20] = [240, 255, 15, 0, 126, 0, 0, 192, 255, 255, 255, 255, 255, 255, 255, 255, 255, 255, 3, 129];
    BYTES.iter().copied().cycle().take(size as usize).collect()
}

/// Counts the zeros of a span.
pub fn zeros(bytes: &[u8], start: u64, length: u64) -> u64 {
    (start..start + length).filter(|&j| !model::flag_at(bytes, j as usize)).count() as u64
}

/// Returns how many bytes the frozen bytes of `length` flags take.
pub fn whole(length: u64) -> u64 {
    8 * length.div_ceil(64)
}

/// Returns the low `n` flags of a word.
pub fn low(word: u64, n: u64) -> u64 {
    if n < 64 { word % (1 << n) } else { word }
}
