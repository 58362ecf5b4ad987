//! PRESENT with a 128-bit key on plain 64-bit numbers, its rounds by plain
//! loops or by a table: the twins whose speed a proved program is measured
//! against.

const SBOX: [u64; 16] = [12, 5, 6, 11, 9, 0, 10, 13, 3, 14, 15, 8, 4, 7, 1, 2];

/// What each value of each group gives after the S-box and the bit move, the
/// values of the lowest group first.
pub type Table = [u64; 256];

pub fn table() -> Table {
    std::array::from_fn(|entry| permute(SBOX[entry % 16] << (entry / 16 * 4)))
}

/// `count` encryptions, each with its key schedule and each result the next
/// block. `layers` are the S-box and the bit move of a round.
pub fn chain(layers: impl Fn(u64) -> u64, key: (u64, u64), block: u64, count: u64) -> u64 {
    (0..count).fold(block, |block, _| encrypt(&layers, key, block))
}

fn encrypt(layers: impl Fn(u64) -> u64, key: (u64, u64), block: u64) -> u64 {
    let (mut high, mut low) = key;
    let mut state = block;
    for round in 1..=31 {
        state = layers(state ^ high);
        (high, low) = key_step(high, low, round);
    }
    state ^ high
}

/// The layers of a round by plain loops.
pub fn plain(state: u64) -> u64 {
    permute(substitute(state))
}

/// The layers of a round by lookups.
pub fn looked_up(table: &Table, state: u64) -> u64 {
    (0..16).fold(0, |out, group| {
        out ^ table[16 * group + (state >> (4 * group) & 15) as usize]
    })
}

fn substitute(state: u64) -> u64 {
    let mut out = 0;
    for group in 0..16 {
        let nibble = state >> (4 * group) & 15;
        out |= SBOX[nibble as usize] << (4 * group);
    }
    out
}

fn permute(state: u64) -> u64 {
    let mut out = state & 1 << 63;
    for i in 0..63 {
        out |= (state >> i & 1) << (16 * i % 63);
    }
    out
}

fn key_step(high: u64, low: u64, round: u64) -> (u64, u64) {
    let rotated_high = high << 61 | low >> 3;
    let rotated_low = low << 61 | high >> 3;
    let first = SBOX[(rotated_high >> 60) as usize];
    let second = SBOX[(rotated_high >> 56 & 15) as usize];
    let rest = rotated_high & ((1 << 56) - 1);
    let substituted = first << 60 | second << 56 | rest;
    (substituted ^ round >> 2, rotated_low ^ round << 62)
}

#[cfg(test)]
mod tests {
    use super::*;
    use crate::present;
    use crate::random::Random;

    #[test]
    fn both_agree_with_the_bits() {
        let mut random = Random::new(2);
        let table = table();
        for _ in 0..2000 {
            let (high, low, block) = (random.number(), random.number(), random.number());
            let key = u128::from(high) << 64 | u128::from(low);
            let expected = present::encrypt(key, block);
            assert_eq!(encrypt(plain, (high, low), block), expected);
            let layers = |state| looked_up(&table, state);
            assert_eq!(encrypt(layers, (high, low), block), expected);
        }
    }

    #[test]
    fn chain_repeats() {
        let key = (1, 2);
        assert_eq!(chain(plain, key, 3, 0), 3);
        let twice = encrypt(plain, key, encrypt(plain, key, 3));
        assert_eq!(chain(plain, key, 3, 2), twice);
    }
}
