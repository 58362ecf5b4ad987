//! Random constants and images. Images are made by running commands on the
//! chip itself, so that digests are right; some are damaged afterwards.

use crate::constants::{self, A, B, C, CONSTANTS, COUNTERS, D, FINAL_KEY, STATES};
use crate::life_cycle::{counter_words, state_words};
use crate::map::{Kind, Partition};
use crate::model::{Chip, Command};
use crate::random::Random;
use crate::random_commands;
use crate::raw_tokens::{half_of, RawTokens};
use crate::transition::stored_tokens;

/// Random valid constants.
pub fn constants(tokens: &mut RawTokens, random: &mut Random) -> Vec<u16> {
    let mut words: Vec<u16> = (0..CONSTANTS).map(|_| random.word()).collect();
    if random.one_in(8) {
        words[..FINAL_KEY].fill(0);
    }
    constants::lay_raw_token(&mut words, tokens.hashed(random));
    for i in 0..COUNTERS {
        (words[C + i], words[D + i]) = growing_pair(random);
    }
    for i in 0..STATES {
        (words[A + i], words[B + i]) = growing_pair(random);
    }
    words
}

/// A nonzero word and one with more bits.
fn growing_pair(random: &mut Random) -> (u16, u16) {
    if random.one_in(6) {
        return random.choose(&[(1, 0xffff), (1, 3), (0x8000, 0x8001), (0xfffe, 0xffff)]);
    }
    loop {
        let after = random.word();
        let before = after & random.word();
        if before != 0 && before != after {
            return (before, after);
        }
    }
}

/// Constants with one thing wrong, or with nothing in them.
pub fn invalid_constants(tokens: &mut RawTokens, random: &mut Random) -> Vec<u16> {
    let mut words = constants(tokens, random);
    let (low, high) = match random.below(2) {
        0 => (C, D),
        _ => (A, B),
    };
    let last = high - low - 1;
    let middle = random_below(random, last);
    let i = random.choose(&[0, last, middle]);
    let lacking = random.choose(&[1, 1 << 15, 1 << 7]);
    match random.below(6) {
        0 => words[low + i] = 0,
        1 => words[low + i] = words[high + i],
        2 => (words[low + i], words[high + i]) = (words[high + i], words[low + i]),
        3 => {
            words[low + i] |= lacking;
            words[high + i] &= !lacking;
        }
        4 => words[high + i] = 0,
        _ => words.fill(0),
    }
    words
}

fn random_below(random: &mut Random, bound: usize) -> usize {
    random.below(bound as u64) as usize
}

/// A random chip with the map and the constants of a blank one.
pub fn image(blank: &Chip, tokens: &mut RawTokens, random: &mut Random) -> Chip {
    let cells = blank.map.cells();
    let mut chip = match random.below(16) {
        0..=2 => blank.clone(),
        3..=9 => provisioned(blank, 2, tokens, random),
        10..=12 => provisioned(blank, 64, tokens, random),
        13..=14 => raw_noise(blank, random),
        _ if random.one_in(4) => blank.with_cells(vec![0xffff; cells]),
        _ => blank.clone(),
    };
    if random.one_in(5) {
        lay_random(&mut chip, random);
    }
    if random.one_in(8) {
        damage(&mut chip, random);
    }
    chip
}

/// A chip with all data written and all digests stored, still RAW.
pub fn locked(blank: &Chip, tokens: &mut RawTokens, random: &mut Random) -> Chip {
    blank.with_cells(written(blank, u64::MAX, tokens, random).cells)
}

/// A chip with what is stored for three tokens, and their partitions locked.
pub fn with_tokens(blank: &Chip, stored: [u128; 3]) -> Chip {
    let mut chip = blank.clone();
    chip.execute(Command::PowerUp);
    for ((_, address), stored) in stored_tokens(&blank.map).into_iter().zip(stored) {
        store(&mut chip, address, stored);
    }
    for secret in [0, 2] {
        let partition = blank.map.partitions[blank.map.number_of(Kind::Secret(secret))];
        chip.execute(Command::Digest(partition.start));
    }
    blank.with_cells(chip.cells)
}

fn store(chip: &mut Chip, address: u32, stored: u128) {
    chip.execute(Command::Write(address, half_of(stored, false)));
    chip.execute(Command::Write(address + 8, half_of(stored, true)));
}

/// A chip left by a provisioning that skips one step in `skip`, and by some
/// transitions after it.
pub fn provisioned(blank: &Chip, skip: u64, tokens: &mut RawTokens, random: &mut Random) -> Chip {
    let mut chip = written(blank, skip, tokens, random);
    for _ in 0..random.choose(&[0, 0, 1, 1, 2, 2, 3, 4, 6, 10]) {
        let transition = random_commands::transition(&chip, tokens, random);
        chip.execute(transition);
        chip.execute(Command::PowerUp);
    }
    blank.with_cells(chip.cells)
}

/// A chip powered up after its partitions were written and digested.
fn written(blank: &Chip, skip: u64, tokens: &mut RawTokens, random: &mut Random) -> Chip {
    let mut chip = blank.clone();
    chip.execute(Command::PowerUp);
    let (_life_cycle, others) = blank.map.partitions.split_last().expect("partitions");
    for (number, partition) in others.iter().enumerate() {
        let full = !random.one_in(skip);
        if full || !random.one_in(8) {
            let mistaken = random.one_in(skip) && random.one_in(8);
            store_tokens(&mut chip, number, mistaken, tokens, random);
        }
        // A granule that is written already stays as it is.
        for address in partition.granules() {
            if full || random.one_in(4) {
                chip.execute(Command::Write(address, random.next()));
            }
        }
        if !random.one_in(skip) {
            lock(&mut chip, partition, random);
        }
    }
    chip.execute(Command::PowerUp);
    chip
}

/// Stores the digest of a partition: a number that software made, or what the
/// hardware computes.
fn lock(chip: &mut Chip, partition: &Partition, random: &mut Random) {
    if partition.has_software_digest() {
        let address = partition.digest + random.below(8) as u32;
        let digest = random.number() | 1 << random.below(64);
        chip.execute(Command::Write(address, digest));
    } else {
        chip.execute(Command::Digest(partition.start));
    }
}

/// Stores hashes where a partition has tokens, or what mistakes give.
fn store_tokens(
    chip: &mut Chip,
    number: usize,
    mistaken: bool,
    tokens: &mut RawTokens,
    random: &mut Random,
) {
    for (partition, address) in stored_tokens(&chip.map) {
        if partition == number {
            let stored = match mistaken {
                true => tokens.mistaken(random),
                false => tokens.hashed(random),
            };
            store(chip, address, stored);
        }
    }
}

/// Few set bits, with or without the life cycle left blank.
fn raw_noise(blank: &Chip, random: &mut Random) -> Chip {
    let mut chip = blank.clone();
    for _ in 0..random.below(40) {
        let place = random_below(random, chip.cells.len());
        chip.cells[place] |= 1 << random.below(16);
    }
    if random.one_in(2) {
        chip.cells[blank.map.life_cycle()].fill(0);
    }
    chip
}

/// Puts a state and a count into the cells.
pub fn lay(chip: &mut Chip, state: u8, count: u8) {
    let counters = counter_words(&chip.constants, count);
    let words = [counters, state_words(&chip.constants, state)].concat();
    chip.cells[chip.map.life_cycle()].copy_from_slice(&words);
}

/// Lays a random life cycle, often with the strokes near their end.
fn lay_random(chip: &mut Chip, random: &mut Random) {
    let count = match random.below(3) {
        0 => random.choose(&[0, 1, 22, 23, 24]),
        _ => random.below(25) as u8,
    };
    lay(chip, random.below(21) as u8, count);
}

/// Flips a bit, mostly where power-up looks.
fn damage(chip: &mut Chip, random: &mut Random) {
    let mut checked = chip.map.partitions.clone();
    checked.retain(Partition::has_hardware_digest);
    let partition = random.choose(&checked);
    let place = match random.below(6) {
        0..=1 => partition.data(),
        2..=3 => partition.digest_words(),
        4 => chip.map.life_cycle(),
        _ => 0..chip.cells.len(),
    };
    let word = place.start + random_below(random, place.len());
    chip.cells[word] ^= 1 << random.below(16);
}

#[cfg(test)]
mod tests {
    use super::*;
    use crate::constants::valid;
    use crate::map::Map;
    use crate::model::Phase;

    #[test]
    fn constants_are_what_they_are_called() {
        let (mut tokens, mut random) = (RawTokens::new(), Random::new(11));
        for _ in 0..500 {
            assert!(valid(&constants(&mut tokens, &mut random)));
            assert!(!valid(&invalid_constants(&mut tokens, &mut random)));
        }
    }

    #[test]
    fn images_power_up_in_every_way() {
        for (map, seed) in [(Map::one(), 12), (Map::two(), 13)] {
            let mut random = Random::new(seed);
            let mut seen = std::collections::BTreeMap::new();
            for _ in 0..300 {
                let mut tokens = RawTokens::new();
                let constants = constants(&mut tokens, &mut random);
                let blank = Chip::blank(&map, &constants);
                let mut chip = image(&blank, &mut tokens, &mut random);
                assert_eq!(
                    (chip.session.phase, chip.cells.len()),
                    (Phase::Off, map.cells())
                );
                *seen.entry(chip.execute(Command::PowerUp).code).or_insert(0) += 1;
            }
            assert!(seen.keys().eq([0, 6, 7].iter()), "{seen:?}");
            assert!(seen[&0] > 120 && seen[&6] > 10 && seen[&7] > 10, "{seen:?}");
        }
    }
}
