//! The digest: a start value driven through PRESENT by 128-bit chunks of the
//! data, then by the final key.

use crate::present;

/// The digest of `words`.
pub fn digest(start: u64, final_key: u128, words: &[u16]) -> u64 {
    let bytes: Vec<u8> = words.iter().flat_map(|word| word.to_le_bytes()).collect();
    let mut state = start;
    for piece in bytes.chunks(16) {
        // What is missing from the last chunk is zero.
        let mut chunk = [0; 16];
        chunk[..piece.len()].copy_from_slice(piece);
        state = step(u128::from_le_bytes(chunk), state);
    }
    step(final_key, state)
}

fn step(key: u128, state: u64) -> u64 {
    present::encrypt(key, state) ^ state
}

#[cfg(test)]
mod tests {
    use super::*;

    const FINAL: u128 = 0x0f0e_0d0c_0b0a_0908_0706_0504_0302_0100;

    #[test]
    fn no_words_take_the_final_step_only() {
        let start = 0x1122_3344_5566_7788;
        assert_eq!(
            digest(start, FINAL, &[]),
            present::encrypt(FINAL, start) ^ start
        );
    }

    #[test]
    fn lower_block_in_the_low_half() {
        let words = [1, 2, 3, 4, 5, 6, 7, 8];
        let key = 0x0008_0007_0006_0005_0004_0003_0002_0001;
        let state = present::encrypt(key, 9) ^ 9;
        let expected = present::encrypt(FINAL, state) ^ state;
        assert_eq!(digest(9, FINAL, &words), expected);
    }

    #[test]
    fn short_last_block_counts_as_zeros() {
        let full = digest(7, FINAL, &[1, 2, 3, 4, 5, 6, 7, 8, 9, 0, 0, 0, 0, 0, 0, 0]);
        for length in 9..16 {
            let words = [1, 2, 3, 4, 5, 6, 7, 8, 9, 0, 0, 0, 0, 0, 0, 0];
            assert_eq!(digest(7, FINAL, &words[..length]), full);
        }
    }
}
