//! The primitive words by a hash, and letters and digits eight bytes at a time.

pub const WORDS: [&[u8]; 23] = [
    b"id", b"tl", b"atom", b"null", b"eq", b"lt", b"length", b"add", b"sub", b"mul", b"div", b"and", b"or", b"not", b"apndl", b"tlr",
    b"reverse", b"rotl", b"rotr", b"apndr", b"distl", b"distr", b"trans",
];

/// A word of at most eight bytes as one number, the first lowest.
pub const fn word_key(w: &[u8]) -> u64 {
    let (mut k, mut i) = (0, 0);
    while i < w.len() {
        k |= (w[i] as u64) << (8 * i);
        i += 1;
    }
    k
}

/// A multiplier that sends each word to a slot of its own, and the slots.
pub const fn slots(multiplier: u64) -> Option<[(u64, u8); 64]> {
    let mut t = [(0, 0); 64];
    let mut i = 0;
    while i < 23 {
        let k = word_key(WORDS[i]);
        let h = (k.wrapping_mul(multiplier) >> 58) as usize;
        if t[h].0 != 0 {
            return None;
        }
        t[h] = (k, i as u8);
        i += 1;
    }
    Some(t)
}
pub const fn find_multiplier() -> (u64, [(u64, u8); 64]) {
    let mut m: u64 = 0x9e37_79b9_7f4a_7c15;
    loop {
        if let Some(t) = slots(m) {
            return (m, t);
        }
        m = m.wrapping_mul(6364136223846793005).wrapping_add(1442695040888963407) | 1;
    }
}
pub const FOUND: (u64, [(u64, u8); 64]) = find_multiplier();
pub const MULTIPLIER: u64 = FOUND.0;
pub static SLOTS: [(u64, u8); 64] = FOUND.1;

pub const TOPS: u64 = 0x8080_8080_8080_8080;
pub const fn all(b: u8) -> u64 {
    b as u64 * 0x0101_0101_0101_0101
}

/// The top bit of each byte that is a letter, and of each that is a digit.
#[inline(always)]
pub fn classes(x: u64) -> (u64, u64) {
    let t = x & !TOPS;
    let l = t | all(0x20);
    let letter = (l + all(0x80 - b'a')) & !(l + all(0x7f - b'z'));
    let digit = (t + all(0x80 - b'0')) & !(t + all(0x7f - b'9'));
    (letter & !x & TOPS, digit & !x & TOPS)
}

/// Eight letters and digits in base 37, the first lowest.
#[inline(always)]
pub fn pack_eight(x: u64, letter: u64, digit: u64) -> u64 {
    let l = (letter >> 7) * 0xff;
    let d = (digit >> 7) * 0xff;
    let v = (x & l & all(0x1f)) | (((x & all(0x0f)) + all(27)) & d);
    let v = (v & 0x00ff_00ff_00ff_00ff) + 37 * ((v >> 8) & 0x00ff_00ff_00ff_00ff);
    let v = (v & 0x0000_ffff_0000_ffff) + 1369 * ((v >> 16) & 0x0000_ffff_0000_ffff);
    (v & 0xffff_ffff) + 1_874_161 * (v >> 32)
}
pub const EIGHT_PLACES: u64 = 1_874_161 * 1_874_161;

/// The value of n digits, n from 1 to 8.
#[inline(always)]
pub fn eight_digits(x: u64, n: usize) -> u64 {
    let x = (x << (64 - 8 * n)) & all(0x0f);
    let x = (x.wrapping_mul(10) + (x >> 8)) & 0x00ff_00ff_00ff_00ff;
    let x = (x.wrapping_mul(100) + (x >> 16)) & 0x0000_ffff_0000_ffff;
    (x.wrapping_mul(10000) + (x >> 32)) & 0xffff_ffff
}
