//! Numbers of 16-bit words, the lowest first, and the two ways to program them.

/// The number of up to eight words; words past the eighth don't count.
pub fn wide_number(words: &[u16]) -> u128 {
    let mut bytes = [0; 16];
    for (place, word) in bytes.chunks_mut(2).zip(words) {
        place.copy_from_slice(&word.to_le_bytes());
    }
    u128::from_le_bytes(bytes)
}

/// The number of the lowest four words.
pub fn number(words: &[u16]) -> u64 {
    wide_number(words) as u64
}

/// The four words of a number.
pub fn words_of(number: u64) -> [u16; 4] {
    let mut words = [0; 4];
    for (word, pair) in words.iter_mut().zip(number.to_le_bytes().chunks(2)) {
        *word = u16::from_le_bytes([pair[0], pair[1]]);
    }
    words
}

/// Programs `value` into the cells from cell `at` on, or says the lowest cell
/// with a bit that would be cleared. What lies past the cells is not there.
pub fn program(cells: &mut [u16], at: u64, value: &[u16]) -> Result<(), usize> {
    let wanted = bits_of(value);
    let mut stored = bits_of(cells);
    let first = u128::from(at) * 16;
    for (i, &bit) in wanted.iter().enumerate() {
        let place = first + i as u128;
        if place < stored.len() as u128 && stored[place as usize] && !bit {
            return Err(place as usize / 16);
        }
    }
    for (i, &bit) in wanted.iter().enumerate() {
        let place = first + i as u128;
        if place < stored.len() as u128 {
            stored[place as usize] = bit;
        }
    }
    for (cell, bits) in cells.iter_mut().zip(stored.chunks(16)) {
        *cell = bits
            .iter()
            .rev()
            .fold(0, |sum, &bit| sum << 1 | u16::from(bit));
    }
    Ok(())
}

/// Burns `value` into the cells from cell `at` on, or says the lowest of them
/// that is not blank. What lies past the cells is not there.
pub fn burn(cells: &mut [u16], at: u64, value: &[u16]) -> Result<(), usize> {
    let start = at.min(cells.len() as u64) as usize;
    let end = cells.len().min(start + value.len());
    if let Some(held) = (start..end).find(|&cell| cells[cell] != 0) {
        return Err(held);
    }
    cells[start..end].copy_from_slice(&value[..end - start]);
    Ok(())
}

/// All bits, the lowest bit of the first word first.
fn bits_of(words: &[u16]) -> Vec<bool> {
    let bits = |word: &u16| {
        let word = *word;
        (0..16).map(move |i| word >> i & 1 == 1)
    };
    words.iter().flat_map(bits).collect()
}

#[cfg(test)]
mod tests {
    use super::*;

    #[test]
    fn numbers_both_ways() {
        assert_eq!(
            words_of(0x0123_4567_89ab_cdef),
            [0xcdef, 0x89ab, 0x4567, 0x0123]
        );
        assert_eq!(
            number(&[0xcdef, 0x89ab, 0x4567, 0x0123, 9]),
            0x0123_4567_89ab_cdef
        );
        assert_eq!(number(&[0xcdef]), 0xcdef);
        assert_eq!(number(&[]), 0);
        assert_eq!(wide_number(&[1, 0, 0, 0, 0, 0, 0, 2]), 2 << 112 | 1);
    }

    #[test]
    fn bits_are_only_set() {
        let mut cells = [0x00f0, 0x0f00];
        assert_eq!(program(&mut cells, 0, &[0x00ff, 0x0f00]), Ok(()));
        assert_eq!(cells, [0x00ff, 0x0f00]);
        assert_eq!(program(&mut cells, 0, &[0xffff, 0x0e00]), Err(1));
        assert_eq!(program(&mut cells, 0, &[0x00fe, 0]), Err(0));
        assert_eq!(cells, [0x00ff, 0x0f00]);
    }

    #[test]
    fn only_blank_words_are_burnt() {
        let mut cells = [0, 0, 0, 4];
        assert_eq!(burn(&mut cells, 0, &[0, 7]), Ok(()));
        assert_eq!(burn(&mut cells, 0, &[0, 7]), Err(1));
        assert_eq!(burn(&mut cells, 1, &[0xffff]), Err(1));
        assert_eq!(burn(&mut cells, 2, &[1, 4]), Err(3));
        assert_eq!(cells, [0, 7, 0, 4]);
        assert_eq!(burn(&mut cells, 2, &[0]), Ok(()));
        assert_eq!(burn(&mut cells, 2, &[9]), Ok(()));
        assert_eq!(cells, [0, 7, 9, 4]);
    }

    #[test]
    fn past_the_end_is_not_there() {
        let mut cells = [1, 2];
        assert_eq!(program(&mut cells, 1, &[3, 0, 0]), Ok(()));
        assert_eq!(cells, [1, 3]);
        assert_eq!(program(&mut cells, 2, &[0]), Ok(()));
        assert_eq!(program(&mut cells, u64::MAX, &[0, 0]), Ok(()));
        assert_eq!(program(&mut cells, 1 << 60, &[0]), Ok(()));
        assert_eq!(program(&mut cells, 0, &[]), Ok(()));
        assert_eq!(burn(&mut cells, 0, &[]), Ok(()));
        assert_eq!(burn(&mut cells, 2, &[7]), Ok(()));
        assert_eq!(burn(&mut cells, u64::MAX, &[7, 7]), Ok(()));
        assert_eq!(cells, [1, 3]);
        cells[1] = 0;
        assert_eq!(burn(&mut cells, 1, &[5, 6]), Ok(()));
        assert_eq!(cells, [1, 5]);
    }
}
