//! The hash of a token on plain 64-bit lanes: the twin whose speed a proved
//! program is measured against.

type State = [u64; 25];

const ROUND_CONSTANTS: [u64; 24] = [
    0x0000_0000_0000_0001,
    0x0000_0000_0000_8082,
    0x8000_0000_0000_808a,
    0x8000_0000_8000_8000,
    0x0000_0000_0000_808b,
    0x0000_0000_8000_0001,
    0x8000_0000_8000_8081,
    0x8000_0000_0000_8009,
    0x0000_0000_0000_008a,
    0x0000_0000_0000_0088,
    0x0000_0000_8000_8009,
    0x0000_0000_8000_000a,
    0x0000_0000_8000_808b,
    0x8000_0000_0000_008b,
    0x8000_0000_0000_8089,
    0x8000_0000_0000_8003,
    0x8000_0000_0000_8002,
    0x8000_0000_0000_0080,
    0x0000_0000_0000_800a,
    0x8000_0000_8000_000a,
    0x8000_0000_8000_8081,
    0x8000_0000_0000_8080,
    0x0000_0000_8000_0001,
    0x8000_0000_8000_8008,
];

/// The lanes in the order in which they are moved, and how far each is.
#[rustfmt::skip]
const PLACES: [usize; 24] = [
    10, 7, 11, 17, 18, 3, 5, 16, 8, 21, 24, 4, 15, 23, 19, 13, 12, 2, 20, 14, 22, 9, 6, 1,
];
#[rustfmt::skip]
const DISTANCES: [u32; 24] = [
    1, 3, 6, 10, 15, 21, 28, 36, 45, 55, 2, 14, 27, 41, 56, 8, 25, 43, 62, 18, 39, 61, 20, 44,
];

/// Bytes that each permutation takes in.
const RATE: usize = 168;

/// What comes before a token: the rate, an empty name and the customization,
/// each with its length before it.
const PREFIX: &[u8] = b"\x01\xa8\x01\x00\x01\x38LC_CTRL";

/// `count` hashes, each the next token.
pub fn chain(token: u128, count: u64) -> u128 {
    (0..count).fold(token, |token, _| hash(token))
}

fn hash(token: u128) -> u128 {
    let mut state = [0; 25];
    let mut block = [0; RATE];
    block[..PREFIX.len()].copy_from_slice(PREFIX);
    absorb(&mut state, &block);
    let mut block = [0; RATE];
    block[..16].copy_from_slice(&token.to_le_bytes());
    block[16] = 4;
    block[RATE - 1] = 0x80;
    absorb(&mut state, &block);
    u128::from(state[1]) << 64 | u128::from(state[0])
}

fn absorb(state: &mut State, block: &[u8; RATE]) {
    for (lane, bytes) in state.iter_mut().zip(block.chunks_exact(8)) {
        *lane ^= bytes
            .iter()
            .rev()
            .fold(0, |sum, byte| sum << 8 | u64::from(*byte));
    }
    permute(state);
}

fn permute(state: &mut State) {
    for constant in ROUND_CONSTANTS {
        add_parities(state);
        move_lanes(state);
        mix_rows(state);
        state[0] ^= constant;
    }
}

fn add_parities(state: &mut State) {
    let mut parities = [0; 5];
    for (x, parity) in parities.iter_mut().enumerate() {
        *parity = state[x] ^ state[x + 5] ^ state[x + 10] ^ state[x + 15] ^ state[x + 20];
    }
    for x in 0..5 {
        let sum = parities[(x + 4) % 5] ^ parities[(x + 1) % 5].rotate_left(1);
        for y in 0..5 {
            state[x + 5 * y] ^= sum;
        }
    }
}

fn move_lanes(state: &mut State) {
    let mut lane = state[1];
    for (place, distance) in PLACES.into_iter().zip(DISTANCES) {
        (lane, state[place]) = (state[place], lane.rotate_left(distance));
    }
}

fn mix_rows(state: &mut State) {
    for y in 0..5 {
        let mut row = [0; 5];
        row.copy_from_slice(&state[5 * y..5 * y + 5]);
        for x in 0..5 {
            state[5 * y + x] = row[x] ^ !row[(x + 1) % 5] & row[(x + 2) % 5];
        }
    }
}

#[cfg(test)]
mod tests {
    use super::*;
    use crate::random::Random;
    use crate::token;

    #[test]
    fn the_twin_agrees_with_the_bits() {
        let mut random = Random::new(71);
        for _ in 0..200 {
            let token = random.wide();
            assert_eq!(hash(token), token::hash(token), "{token:x}");
        }
    }

    #[test]
    fn chain_repeats() {
        assert_eq!(chain(5, 0), 5);
        assert_eq!(chain(5, 2), hash(hash(5)));
    }
}
