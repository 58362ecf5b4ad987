//! The constants: keys, digest numbers, life cycle words, the RAW token's hash.

use crate::words;

pub const CONSTANTS: usize = 132;

/// Where each field begins.
pub const KEYS: usize = 0;
pub const DIGEST_START: usize = 24;
pub const FINAL_KEY: usize = 28;
pub const C: usize = 36;
pub const D: usize = 60;
pub const A: usize = 84;
pub const B: usize = 104;
pub const RAW_TOKEN: usize = 124;

/// Numbers of counter and state words.
pub const COUNTERS: usize = 24;
pub const STATES: usize = 20;

/// Whether each C and each A is valid beside its D or B.
pub fn valid(constants: &[u16]) -> bool {
    let pairs = (0..COUNTERS)
        .map(|i| (C + i, D + i))
        .chain((0..STATES).map(|i| (A + i, B + i)));
    pairs
        .map(|(low, high)| (constants[low], constants[high]))
        .all(grows)
}

/// Nonzero, and a proper part of the bits of the other.
fn grows((before, after): (u16, u16)) -> bool {
    before.count_ones() > 0 && before | after == after && before.count_ones() < after.count_ones()
}

/// The scrambling key of a secret, by the secret's number.
pub fn secret_key(constants: &[u16], secret: usize) -> u128 {
    wide(constants, KEYS + 8 * secret)
}

pub fn digest_start(constants: &[u16]) -> u64 {
    words::number(&constants[DIGEST_START..])
}

pub fn final_key(constants: &[u16]) -> u128 {
    wide(constants, FINAL_KEY)
}

pub fn raw_token(constants: &[u16]) -> u128 {
    wide(constants, RAW_TOKEN)
}

fn wide(constants: &[u16], at: usize) -> u128 {
    words::wide_number(&constants[at..])
}

/// Puts in the hash of the RAW token.
pub fn lay_raw_token(constants: &mut [u16], stored: u128) {
    for (i, word) in constants[RAW_TOKEN..].iter_mut().enumerate() {
        *word = (stored >> (16 * i)) as u16;
    }
}

/// A raw token and its hash, which the constants for tests have.
#[cfg(test)]
pub const EXAMPLE_TOKEN: u128 = 0x0011_2233_4455_6677_8899_aabb_ccdd_eeff;
#[cfg(test)]
pub const EXAMPLE_HASH: u128 = 0x4a8d_aa85_8e30_48d9_6b28_9b68_d4ef_0b76;

/// Plain valid constants for tests.
#[cfg(test)]
pub fn example() -> Vec<u16> {
    let mut constants: Vec<u16> = (0..CONSTANTS as u16).map(|i| i * 257 + 1).collect();
    constants[C..D].fill(0x0101);
    constants[D..A].fill(0x8181);
    constants[A..B].fill(0x0011);
    constants[B..RAW_TOKEN].fill(0x1111);
    lay_raw_token(&mut constants, EXAMPLE_HASH);
    constants
}

#[cfg(test)]
mod tests {
    use super::*;

    #[test]
    fn each_pair_is_judged() {
        assert!(valid(&example()));
        let pairs = (0..24)
            .map(|i| (C + i, D + i))
            .chain((0..20).map(|i| (A + i, B + i)));
        for (low, high) in pairs {
            for (before, after) in [(0, 0x8181), (3, 3), (5, 3), (0xffff, 0), (4, 3), (0, 0)] {
                let mut constants = example();
                (constants[low], constants[high]) = (before, after);
                assert!(!valid(&constants), "{low} {before:x} {after:x}");
            }
        }
    }

    #[test]
    fn other_words_are_free() {
        let mut constants = example();
        constants[..C].fill(0);
        constants[RAW_TOKEN..].fill(0);
        assert!(valid(&constants));
    }

    #[test]
    fn fields_stand_where_the_paper_says() {
        let constants: Vec<u16> = (0..CONSTANTS as u16).collect();
        assert_eq!(secret_key(&constants, 1) as u64, 0x000b_000a_0009_0008);
        assert_eq!(secret_key(&constants, 2) >> 112, 23);
        assert_eq!(digest_start(&constants), 0x001b_001a_0019_0018);
        assert_eq!(final_key(&constants) >> 64, 0x0023_0022_0021_0020);
        assert_eq!(raw_token(&constants) >> 112, 131);
        let mut laid = constants.clone();
        lay_raw_token(&mut laid, 0x0107_0106_0105_0104_0103_0102_0101_0100);
        assert_eq!(laid[..RAW_TOKEN], constants[..RAW_TOKEN]);
        assert_eq!(laid[RAW_TOKEN..], [256, 257, 258, 259, 260, 261, 262, 263]);
    }
}
