//! PRESENT with a 128-bit key, on bits held as the standard draws them:
//! the most significant bit stands first.

const ROUNDS: u8 = 31;

const SBOX: [u8; 16] = [
    0xC, 0x5, 0x6, 0xB, 0x9, 0x0, 0xA, 0xD, 0x3, 0xE, 0xF, 0x8, 0x4, 0x7, 0x1, 0x2,
];

type State = [bool; 64];
type KeyRegister = [bool; 128];

/// Encrypts one block.
pub fn encrypt(key: u128, block: u64) -> u64 {
    let round_keys = round_keys(key);
    let mut state = state_of(block);
    for round_key in &round_keys[..31] {
        add_round_key(&mut state, round_key);
        substitute(&mut state, &SBOX);
        state = permute(&state);
    }
    add_round_key(&mut state, &round_keys[31]);
    number_of(&state)
}

/// Decrypts one block by undoing each step of the encryption.
pub fn decrypt(key: u128, block: u64) -> u64 {
    let round_keys = round_keys(key);
    let inverse = inverse_sbox();
    let mut state = state_of(block);
    add_round_key(&mut state, &round_keys[31]);
    for round_key in round_keys[..31].iter().rev() {
        state = permute_back(&state);
        substitute(&mut state, &inverse);
        add_round_key(&mut state, round_key);
    }
    number_of(&state)
}

fn state_of(block: u64) -> State {
    let mut state = [false; 64];
    for (i, bit) in state.iter_mut().enumerate() {
        *bit = block >> (63 - i) & 1 == 1;
    }
    state
}

fn number_of(state: &State) -> u64 {
    state.iter().fold(0, |sum, &bit| sum << 1 | u64::from(bit))
}

fn key_register_of(key: u128) -> KeyRegister {
    let mut register = [false; 128];
    for (i, bit) in register.iter_mut().enumerate() {
        *bit = key >> (127 - i) & 1 == 1;
    }
    register
}

/// The 32 round keys: the top 64 bits of the register before each key step.
fn round_keys(key: u128) -> Vec<State> {
    let mut register = key_register_of(key);
    let mut keys = Vec::new();
    for round in 1..=ROUNDS {
        keys.push(top_half(&register));
        key_step(&mut register, round);
    }
    keys.push(top_half(&register));
    keys
}

fn top_half(register: &KeyRegister) -> State {
    let mut half = [false; 64];
    half.copy_from_slice(&register[..64]);
    half
}

fn key_step(register: &mut KeyRegister, round: u8) {
    register.rotate_left(61);
    substitute(&mut register[..8], &SBOX);
    // Bits 66..62 stand at places 61..65, the highest first.
    for (i, bit) in register[61..=65].iter_mut().enumerate() {
        *bit ^= round >> (4 - i) & 1 == 1;
    }
}

fn add_round_key(state: &mut State, round_key: &State) {
    for (bit, key_bit) in state.iter_mut().zip(round_key) {
        *bit ^= key_bit;
    }
}

fn substitute(bits: &mut [bool], sbox: &[u8; 16]) {
    for nibble in bits.chunks_mut(4) {
        let input = nibble
            .iter()
            .fold(0, |sum, &bit| sum << 1 | usize::from(bit));
        for (i, bit) in nibble.iter_mut().enumerate() {
            *bit = sbox[input] >> (3 - i) & 1 == 1;
        }
    }
}

fn inverse_sbox() -> [u8; 16] {
    let mut inverse = [0; 16];
    for (input, &output) in SBOX.iter().enumerate() {
        inverse[usize::from(output)] = input as u8;
    }
    inverse
}

/// Where bit `i`, counted from the least significant, goes.
fn target_of_bit(i: usize) -> usize {
    if i == 63 {
        63
    } else {
        16 * i % 63
    }
}

fn permute(state: &State) -> State {
    let mut moved = [false; 64];
    for i in 0..64 {
        moved[63 - target_of_bit(i)] = state[63 - i];
    }
    moved
}

fn permute_back(state: &State) -> State {
    let mut moved = [false; 64];
    for i in 0..64 {
        moved[63 - i] = state[63 - target_of_bit(i)];
    }
    moved
}

#[cfg(test)]
mod tests {
    use super::*;
    use crate::random::Random;

    const PUBLISHED: [(u128, u64, u64); 5] = [
        (0, 0, 0x96db_702a_2e69_00af),
        (0, u64::MAX, 0x3c60_19e5_e5ed_d563),
        (u128::MAX, 0, 0x1323_8c71_0272_a5d8),
        (u128::MAX, u64::MAX, 0x628d_9fbd_4218_e5b4),
        (
            0x0123_4567_89ab_cdef_0123_4567_89ab_cdef,
            0x0123_4567_89ab_cdef,
            0x0e9d_2868_5e67_1dd6,
        ),
    ];

    #[test]
    fn published_vectors() {
        for (key, plain, cipher) in PUBLISHED {
            assert_eq!(encrypt(key, plain), cipher);
            assert_eq!(decrypt(key, cipher), plain);
        }
    }

    #[test]
    fn decryption_undoes_encryption() {
        let mut random = Random::new(1);
        for _ in 0..500 {
            let key = random.wide();
            let block = random.next();
            assert_eq!(decrypt(key, encrypt(key, block)), block);
            assert_eq!(encrypt(key, decrypt(key, block)), block);
        }
    }
}
