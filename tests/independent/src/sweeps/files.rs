//! Scripts, constants and images that are not as they should be.

use super::Share;
use crate::constants::{A, B, C, D};
use crate::model::{Chip, Command};
use crate::scenarios::Run;
use crate::script::record;
use Command::{Digest, FrontRead, PowerUp, Read, ReadLock, Transition, Write};

pub fn runs(blank: &Chip, locked: &Chip, share: Share) -> Vec<Run> {
    let mut runs: Vec<Run> = share.of(broken_scripts(blank).into_iter()).collect();
    runs.extend(share.of(broken_constants(blank).into_iter()));
    runs.extend(wrong_lengths(locked));
    runs
}

/// Every unknown kind, and every known one cut at every length.
fn broken_scripts(blank: &Chip) -> Vec<Run> {
    let unknown = (0..=255)
        .filter(|kind| !(1..=7).contains(kind))
        .map(|kind| vec![kind, 7]);
    let commands = [
        Read(0),
        Write(0, 0),
        FrontRead(0),
        Digest(0),
        ReadLock(0),
        Transition(0, 0),
    ];
    let cuts = commands.into_iter().flat_map(|command| {
        let whole = record(command);
        (1..whole.len()).map(move |length| whole[..length].to_vec())
    });
    let run = |tail: Vec<u8>| {
        let mut run = Run::of(&[PowerUp, Read(0x200)], blank);
        run.script.extend(tail);
        run
    };
    unknown.chain(cuts).map(run).collect()
}

/// Each pair of life cycle constants made invalid in each way.
fn broken_constants(blank: &Chip) -> Vec<Run> {
    let counters = (C..D).zip(D..A);
    let states = (A..B).zip(B..B + (B - A));
    let mut runs = Vec::new();
    for (low, high) in counters.chain(states) {
        let (before, after) = (blank.constants[low], blank.constants[high]);
        let lacking = 1 << before.trailing_zeros();
        for (before, after) in [(0, after), (after, after), (before, after & !lacking)] {
            let mut broken = blank.clone();
            (broken.constants[low], broken.constants[high]) = (before, after);
            runs.push(Run::of(&[Read(0), PowerUp], &broken));
        }
    }
    runs
}

/// Lengths of an image: those of both maps, and some about and far from them.
const IMAGES: [usize; 20] = [
    0, 1, 2, 448, 740, 894, 895, 896, 897, 898, 1478, 1479, 1480, 1481, 1482, 1792, 2960, 65_536,
    66_432, 67_016,
];

/// Lengths of the constants.
const CONSTANTS: [usize; 9] = [0, 1, 262, 263, 265, 266, 528, 896, 1480];

/// Images and constants cut or made longer, or missing.
fn wrong_lengths(chip: &Chip) -> Vec<Run> {
    let end = chip.map.end();
    let commands = [
        PowerUp,
        Read(0),
        Read(end - 0x60),
        Read(end),
        FrontRead(0x440),
    ];
    let images = IMAGES.into_iter().map(|length| {
        let mut run = Run::of(&commands, chip);
        run.image = run.image.map(|image| brought_to(image, length));
        run
    });
    let constants = CONSTANTS.into_iter().map(|length| {
        let mut run = Run::of(&commands, chip);
        run.constants = run.constants.map(|words| brought_to(words, length));
        run
    });
    let mut runs: Vec<Run> = images.chain(constants).collect();
    let (mut no_image, mut no_constants) = (Run::of(&commands, chip), Run::of(&commands, chip));
    no_image.image = None;
    no_constants.constants = None;
    runs.extend([no_image, no_constants]);
    runs
}

fn brought_to(mut bytes: Vec<u8>, length: usize) -> Vec<u8> {
    bytes.resize(length, 0);
    bytes
}

#[cfg(test)]
mod tests {
    use super::*;
    use crate::chips;
    use crate::map::Map;
    use crate::random::Random;
    use crate::raw_tokens::RawTokens;

    fn blank(map: &Map, seed: u64) -> Chip {
        let constants = chips::constants(&mut RawTokens::new(), &mut Random::new(seed));
        Chip::blank(map, &constants)
    }

    #[test]
    fn broken_constants_are_always_told() {
        for map in [Map::one(), Map::two()] {
            let runs = broken_constants(&blank(&map, 42));
            assert_eq!(runs.len(), 44 * 3);
            for run in runs {
                assert!(run.printed().starts_with("01 12 0000000000000000\n07 12"));
            }
        }
    }

    #[test]
    fn the_two_shares_are_the_whole() {
        let blank = blank(&Map::two(), 43);
        let whole = broken_scripts(&blank);
        assert_eq!(whole.len(), 249 + 42);
        let scripts = |share: Share| -> Vec<Vec<u8>> {
            let part = share.of(broken_scripts(&blank).into_iter());
            part.map(|run| run.script).collect()
        };
        let mut both = Share::BOTH.map(scripts).concat();
        let mut all: Vec<Vec<u8>> = whole.into_iter().map(|run| run.script).collect();
        both.sort();
        all.sort();
        assert_eq!(both, all);
    }

    /// A blank image of the other map's length is a blank chip of that map.
    #[test]
    fn two_lengths_of_an_image_are_right() {
        for map in [Map::one(), Map::two()] {
            let runs = wrong_lengths(&blank(&map, 44));
            let right = |run: &&Run| run.printed().starts_with("07 00");
            assert_eq!(runs.iter().filter(right).count(), 2);
            let wrong = |run: &&Run| run.printed().starts_with("07 10");
            assert_eq!(runs.iter().filter(wrong).count(), 18 + 9 + 2);
        }
    }
}
