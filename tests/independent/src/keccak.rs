//! Keccak-f[1600] as FIPS 202 writes it: a state of 5 by 5 by 64 bits, and
//! five steps that say each bit of the next state.

use std::sync::OnceLock;

pub const WIDTH: usize = 1600;
const DEPTH: usize = 64;
const ROUNDS: usize = 24;

/// The bits by x, y and z.
type State = [[[bool; DEPTH]; 5]; 5];
/// The bits by x and z.
type Sheet = [[bool; DEPTH]; 5];

const CLEAR: State = [[[false; DEPTH]; 5]; 5];

/// The permutation of a string of 1600 bits.
pub fn permute(bits: &[bool]) -> Vec<bool> {
    let mut state = state_of(bits);
    for constant in round_constants() {
        state = iota(&chi(&pi(&rho(&theta(&state)))), constant);
    }
    string_of(&state)
}

/// Bit 64 (5y + x) + z of the string stands at x, y, z.
fn state_of(bits: &[bool]) -> State {
    assert_eq!(bits.len(), WIDTH);
    let mut state = CLEAR;
    for (lane, part) in bits.chunks(DEPTH).enumerate() {
        state[lane % 5][lane / 5].copy_from_slice(part);
    }
    state
}

fn string_of(state: &State) -> Vec<bool> {
    let lanes = (0..25).map(|lane| state[lane % 5][lane / 5]);
    lanes.flatten().collect()
}

/// Each bit is added to the parities of two columns beside it.
fn theta(state: &State) -> State {
    let parities: Sheet = std::array::from_fn(|x| column_parities(&state[x]));
    let mut next = *state;
    for (x, sheet) in next.iter_mut().enumerate() {
        let (before, after) = (parities[(x + 4) % 5], parities[(x + 1) % 5]);
        for lane in sheet {
            for z in 0..DEPTH {
                lane[z] ^= before[z] ^ after[(z + DEPTH - 1) % DEPTH];
            }
        }
    }
    next
}

fn column_parities(sheet: &Sheet) -> [bool; DEPTH] {
    std::array::from_fn(|z| sheet.iter().fold(false, |sum, lane| sum ^ lane[z]))
}

/// Each lane but the first is moved along z, by a distance that grows as the
/// steps from (1, 0) reach it.
fn rho(state: &State) -> State {
    let mut next = *state;
    let (mut x, mut y) = (1, 0);
    for t in 0..24 {
        let distance = (t + 1) * (t + 2) / 2 % DEPTH;
        next[x][y] = state[x][y];
        next[x][y].rotate_right(distance);
        (x, y) = (y, (2 * x + 3 * y) % 5);
    }
    next
}

/// The lanes change places.
fn pi(state: &State) -> State {
    std::array::from_fn(|x| std::array::from_fn(|y| state[(x + 3 * y) % 5][x]))
}

/// Each bit is added to a product of the two after it in its row.
fn chi(state: &State) -> State {
    let mut next = *state;
    for x in 0..5 {
        for y in 0..5 {
            let (first, second) = (&state[(x + 1) % 5][y], &state[(x + 2) % 5][y]);
            for z in 0..DEPTH {
                next[x][y][z] ^= !first[z] & second[z];
            }
        }
    }
    next
}

/// The round's constant is added to the first lane.
fn iota(state: &State, constant: &[bool; DEPTH]) -> State {
    let mut next = *state;
    for (bit, added) in next[0][0].iter_mut().zip(constant) {
        *bit ^= added;
    }
    next
}

fn round_constants() -> &'static [[bool; DEPTH]; ROUNDS] {
    static CONSTANTS: OnceLock<[[bool; DEPTH]; ROUNDS]> = OnceLock::new();
    CONSTANTS.get_or_init(|| std::array::from_fn(round_constant))
}

fn round_constant(round: usize) -> [bool; DEPTH] {
    let mut constant = [false; DEPTH];
    for j in 0..=6 {
        constant[(1 << j) - 1] = register_bit(j + 7 * round);
    }
    constant
}

/// The bit rc(t): what a shift register of eight bits gives after t steps.
fn register_bit(t: usize) -> bool {
    let mut register = vec![true, false, false, false, false, false, false, false];
    for _ in 0..t % 255 {
        register.insert(0, false);
        for place in [0, 4, 5, 6] {
            register[place] ^= register[8];
        }
        register.truncate(8);
    }
    register[0]
}

#[cfg(test)]
mod tests {
    use super::*;

    /// A lane of a string of bits as a number.
    fn lane(bits: &[bool], lane: usize) -> u64 {
        let bits = &bits[64 * lane..64 * (lane + 1)];
        bits.iter()
            .rev()
            .fold(0, |sum, &bit| sum << 1 | u64::from(bit))
    }

    /// The published vectors of the zero state, once and twice.
    #[test]
    fn published_vectors() {
        let once = permute(&[false; WIDTH]);
        assert_eq!(lane(&once, 0), 0xf125_8f79_40e1_dde7);
        assert_eq!(lane(&once, 1), 0x84d5_ccf9_33c0_478a);
        assert_eq!(lane(&once, 5), 0xff97_a42d_7f8e_6fd4);
        assert_eq!(lane(&once, 24), 0xeaf1_ff7b_5cec_a249);
        let twice = permute(&once);
        assert_eq!(lane(&twice, 0), 0x2d5c_954d_f96e_cb3c);
        assert_eq!(lane(&twice, 24), 0x20d0_6cd2_6a8f_bf5c);
    }

    #[test]
    fn strings_and_states_are_the_same_bits() {
        let bits: Vec<bool> = (0..WIDTH).map(|i| i * i % 7 < 3).collect();
        assert_eq!(string_of(&state_of(&bits)), bits);
        assert_eq!(state_of(&bits)[3][2][9], bits[64 * (5 * 2 + 3) + 9]);
    }

    /// Table 2 of FIPS 202: how far lanes are moved.
    #[test]
    fn rho_moves_by_the_table() {
        for (x, y, distance) in [(0, 0, 0), (1, 0, 1), (2, 0, 62), (3, 2, 25), (4, 4, 14)] {
            let mut state = CLEAR;
            state[x][y][0] = true;
            let moved = rho(&state)[x][y];
            assert!(moved[distance], "{x} {y}");
            assert_eq!(moved.iter().filter(|&&bit| bit).count(), 1);
        }
    }

    #[test]
    fn round_constants_are_the_standards() {
        let number = |round: usize| lane(&round_constants()[round], 0);
        assert_eq!(number(0), 1);
        assert_eq!(number(1), 0x8082);
        assert_eq!(number(2), 0x8000_0000_0000_808a);
        assert_eq!(number(23), 0x8000_0000_8000_8008);
    }
}
