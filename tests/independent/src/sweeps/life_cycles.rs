//! Life cycles, and images that a power-up finds damaged.

use super::Share;
use crate::chips;
use crate::constants;
use crate::digest::digest;
use crate::life_cycle::SCRAP;
use crate::map::Partition;
use crate::model::{Chip, Command};
use crate::random::Random;
use crate::scenarios::Run;
use crate::words::words_of;
use Command::{PowerUp, Read, Transition};

pub fn runs(blank: &Chip, locked: &Chip, share: Share, random: &mut Random) -> Vec<Run> {
    let mut runs: Vec<Run> = share.of(life_cycles(blank).into_iter()).collect();
    runs.extend(damages(locked, random));
    runs.extend(double_damages(locked));
    runs.extend(wrong_digests(locked));
    runs
}

/// Every state with every count, powered up and scrapped.
fn life_cycles(blank: &Chip) -> Vec<Run> {
    let mut runs = Vec::new();
    for state in 0..=SCRAP {
        for count in 0..=24 {
            let mut chip = blank.clone();
            chips::lay(&mut chip, state, count);
            let commands = [PowerUp, Transition(SCRAP, 0), Read(0), PowerUp];
            runs.push(Run::of(&commands, &chip));
        }
    }
    runs
}

/// The numbers of the partitions whose digests a power-up checks.
fn checked(chip: &Chip) -> Vec<usize> {
    let numbers = 0..chip.map.partitions.len();
    numbers
        .filter(|&number| chip.map.partitions[number].has_hardware_digest())
        .collect()
}

/// A bit flipped in each word that power-up looks at.
fn damages(locked: &Chip, random: &mut Random) -> Vec<Run> {
    let mut chip = locked.clone();
    chips::lay(&mut chip, 5, 7);
    let mut runs = Vec::new();
    for word in first_checked(&chip).data().start..chip.cells.len() {
        let mut damaged = chip.clone();
        damaged.cells[word] ^= 1 << random.below(16);
        runs.push(Run::of(&[PowerUp, Read(0x248)], &damaged));
    }
    runs
}

fn first_checked(chip: &Chip) -> Partition {
    chip.map.partitions[checked(chip)[0]]
}

/// A bit flipped in two checked partitions, or in one and the life cycle.
fn double_damages(locked: &Chip) -> Vec<Run> {
    let mut chip = locked.clone();
    chips::lay(&mut chip, 5, 7);
    let last = chip.map.partitions.len() - 1;
    let mut runs = Vec::new();
    for first in checked(&chip) {
        for second in first + 1..=last {
            let mut damaged = chip.clone();
            for number in [first, second] {
                let word = chip.map.partitions[number].data().end - 1;
                damaged.cells[word] ^= 0x8000;
            }
            runs.push(Run::of(&[PowerUp, Read(0), PowerUp], &damaged));
        }
    }
    runs
}

/// A digest that a mistake would compute, stored for each checked partition.
fn wrong_digests(locked: &Chip) -> Vec<Run> {
    let mut runs = Vec::new();
    for number in checked(locked) {
        for mistaken in mistaken_digests(locked, number) {
            let mut chip = locked.clone();
            let place = chip.map.partitions[number].digest_words();
            chip.cells[place].copy_from_slice(&words_of(mistaken));
            runs.push(Run::of(&[PowerUp, Read(0)], &chip));
        }
    }
    runs
}

/// The digest with its halves exchanged; over the data and a digest; over the
/// copy, which has secrets unscrambled; over the data with its last block
/// again in the high half, or moved there.
fn mistaken_digests(chip: &Chip, number: usize) -> Vec<u64> {
    let (start, final_key) = (
        constants::digest_start(&chip.constants),
        constants::final_key(&chip.constants),
    );
    let over = |words: &[u16]| digest(start, final_key, words);
    let mut powered = chip.clone();
    powered.execute(PowerUp);
    let partition = chip.map.partitions[number];
    let data = &chip.cells[partition.data()];
    let (rest, last) = data.split_at(data.len() - 4);
    let whole = partition.data().start..partition.digest_words().end;
    let right = over(data);
    let mut mistaken = vec![
        right.rotate_left(32),
        over(&chip.cells[whole]),
        over(&powered.copy[partition.data()]),
        over(&[data, last].concat()),
        over(&[rest, &[0; 4], last].concat()),
    ];
    mistaken.retain(|digest| *digest != right);
    mistaken
}

#[cfg(test)]
mod tests {
    use super::*;
    use crate::map::Map;
    use crate::raw_tokens::RawTokens;

    fn locked(map: &Map, seed: u64) -> (Chip, Random) {
        let (mut tokens, mut random) = (RawTokens::new(), Random::new(seed));
        let constants = chips::constants(&mut tokens, &mut random);
        let blank = Chip::blank(map, &constants);
        (chips::locked(&blank, &mut tokens, &mut random), random)
    }

    #[test]
    fn damage_is_always_told() {
        for (map, words) in [(Map::one(), 192), (Map::two(), 196)] {
            let (locked, mut random) = locked(&map, 41);
            let runs = damages(&locked, &mut random);
            assert_eq!(runs.len(), words);
            for run in runs {
                let printed = run.printed();
                assert!(
                    printed.starts_with("07 06") || printed.starts_with("07 07"),
                    "{printed}"
                );
            }
        }
    }

    #[test]
    fn the_first_damaged_partition_is_named() {
        for (map, first, last) in [(Map::one(), 2, 5), (Map::two(), 5, 9)] {
            let runs = double_damages(&locked(&map, 42).0);
            for number in first..=last {
                let line = format!("07 06 {number:016x}\n01 07");
                let named = runs.iter().filter(|run| run.printed().starts_with(&line));
                assert_eq!(named.count(), last + 1 - number);
            }
        }
    }

    #[test]
    fn no_mistaken_digest_is_taken() {
        for (map, first, last) in [(Map::one(), 2, 5), (Map::two(), 5, 9)] {
            let runs = wrong_digests(&locked(&map, 43).0);
            for number in first..=last {
                let line = format!("07 06 {number:016x}\n");
                let named = runs.iter().filter(|run| run.printed().starts_with(&line));
                // A plain partition's copy is its data.
                let is_plain = map.partitions[number].granule() == 4;
                assert_eq!(named.count(), if is_plain { 4 } else { 5 }, "{number}");
            }
        }
    }
}
