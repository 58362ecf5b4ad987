//! Words that are programmed again, by each rule.

use crate::map::{Kind, Partition};
use crate::model::{Chip, Command};
use crate::scenarios::Run;
use Command::{Digest, PowerUp, Read, Write};

pub fn runs(blank: &Chip) -> Vec<Run> {
    let mut runs = held_words(blank);
    runs.extend(second_digests(blank));
    runs.extend(key_states(blank));
    runs
}

/// Every granule of data with its first, second, third or fourth word not
/// blank, or the last for one that has fewer, alone or with all words of the
/// granule above it: all ones are written there, this bit alone, and zero.
fn held_words(blank: &Chip) -> Vec<Run> {
    let mut runs = Vec::new();
    for (held, above) in (0..4).flat_map(|held| [(held, false), (held, true)]) {
        let (mut chip, mut commands) = (blank.clone(), vec![PowerUp]);
        for (partition, address) in granules(blank) {
            let words = partition.granule_words(address);
            let word = held_word(&partition, address, held);
            chip.cells[word] = 1 << held;
            if above {
                chip.cells[word + 1..words.end].fill(0x8001);
            }
            for data in [0, 1 << (16 * held + held), u64::MAX] {
                commands.push(Write(address, data));
            }
            commands.push(Read(address));
        }
        runs.push(Run::of(&commands, &chip));
    }
    runs
}

/// The word of a granule with a number, or its last.
fn held_word(partition: &Partition, address: u32, number: usize) -> usize {
    let words = partition.granule_words(address);
    words.start + number.min(words.len() - 1)
}

/// The first address of each granule of data that direct access may write.
fn granules(chip: &Chip) -> Vec<(Partition, u32)> {
    let partitions = chip.map.partitions.iter();
    let writable = partitions.filter(|partition| partition.kind != Kind::LifeCycle);
    let starts = |partition: &Partition| {
        let partition = *partition;
        partition
            .granules()
            .map(move |address| (partition, address))
    };
    writable.flat_map(starts).collect()
}

/// Each digest command given again: at once, after more data, and locked.
fn second_digests(blank: &Chip) -> Vec<Run> {
    let partitions = blank.map.partitions.iter();
    let hardware = partitions.filter(|partition| partition.has_hardware_digest());
    let again = |partition: &Partition| {
        let (start, digest) = (partition.start, Digest(partition.start));
        let burns = [PowerUp, digest, digest, Write(start, 1), digest];
        let reads = [Read(start), Read(partition.digest), PowerUp, digest];
        Run::of(&[&burns[..], &reads].concat(), blank)
    };
    hardware.map(again).collect()
}

/// What the two words of a granule hold before it is written.
const HELD: [[u16; 2]; 6] = [
    [0, 0],
    [0x8001, 0],
    [0, 0x8001],
    [0x0ff0, 0x0ff0],
    [0xffff, 0x7fff],
    [0xfffe, 0xffff],
];

/// The key states, where the map has them: bits added and cleared in each
/// word of each granule, one bit after the other, and the digest twice.
fn key_states(blank: &Chip) -> Vec<Run> {
    let partitions = blank.map.partitions.iter();
    let states = partitions.filter(|partition| partition.kind == Kind::KeyState);
    let of_partition = |partition: &Partition| {
        let mut runs: Vec<Run> = (HELD.iter())
            .map(|held| bits_about(blank, partition, *held))
            .collect();
        runs.push(bit_by_bit(blank, partition));
        runs.push(digest_by_the_new_rule(blank, partition));
        runs
    };
    states.flat_map(of_partition).collect()
}

/// In every granule, over two held words: a bit fewer in one word, in the
/// other and in both, with bits added in the rest; then the held words, more
/// bits, and all ones.
fn bits_about(blank: &Chip, partition: &Partition, held: [u16; 2]) -> Run {
    let (mut chip, mut commands) = (blank.clone(), vec![PowerUp]);
    let fewer = |word: u16| word & word.wrapping_sub(1);
    let more = |word: u16| word | 0x1248;
    let [low, high] = held;
    let values = [
        [fewer(low), high],
        [fewer(low), 0xffff],
        [low, fewer(high)],
        [0xffff, fewer(high)],
        [more(low), 0],
        [0, more(high)],
        [fewer(low), fewer(high)],
        [0, 0],
        [low, high],
        [more(low), more(high)],
        [low, high],
        [0xffff, 0xffff],
        [0x7fff, 0xffff],
        [0xffff, 0xfffe],
    ];
    for address in partition.granules() {
        chip.cells[partition.granule_words(address)].copy_from_slice(&held);
        for [low, high] in values {
            let data = u64::from(high) << 16 | u64::from(low);
            commands.extend([Write(address + 1, data | 0xabcd << 32), Read(address)]);
        }
    }
    commands.push(PowerUp);
    commands.extend(partition.granules().map(Read));
    Run::of(&commands, &chip)
}

/// Each granule from blank to all ones by one bit at a time, with a power-up
/// now and then; after each the same without its lowest bit.
fn bit_by_bit(blank: &Chip, partition: &Partition) -> Run {
    let mut commands = vec![PowerUp];
    for (i, address) in partition.granules().enumerate() {
        let mut data = 0_u64;
        for step in 0..32 {
            data |= 1 << ((11 * step + 5 * i) % 32);
            commands.extend([Write(address, data), Write(address, data & (data - 1))]);
            if step % 16 == 7 {
                commands.extend([PowerUp, Read(address)]);
            }
        }
    }
    Run::of(&commands, blank)
}

/// The digest takes no second value; data takes more bits until the digest is
/// sensed, and nothing after that.
fn digest_by_the_new_rule(blank: &Chip, partition: &Partition) -> Run {
    let (start, digest) = (partition.start, partition.digest);
    let mut commands = vec![
        PowerUp,
        Write(start, 1),
        Write(digest, 0),
        Write(digest + 4, 0),
    ];
    commands.push(Write(digest + 3, 0x0100_0000_0000));
    for data in [0x0100_0000_0000, 0x0300_0000_0000, u64::MAX, 0, 1] {
        commands.extend([Write(digest, data), Write(digest + 7, data), Read(digest)]);
    }
    commands.extend([Digest(start), Write(start, 3), Write(start, 2), Read(start)]);
    commands.push(PowerUp);
    for data in [3, 7, 0] {
        commands.extend([
            Write(start, data),
            Write(start + 4, data),
            Write(digest, data),
        ]);
    }
    commands.extend([Read(start), Read(digest + 5)]);
    Run::of(&commands, blank)
}

#[cfg(test)]
mod tests {
    use super::*;
    use crate::chips;
    use crate::map::Map;
    use crate::random::Random;
    use crate::raw_tokens::RawTokens;

    fn blank(map: &Map, seed: u64) -> Chip {
        let constants = chips::constants(&mut RawTokens::new(), &mut Random::new(seed));
        Chip::blank(map, &constants)
    }

    fn lines<'a>(printed: &'a str, kind: &str) -> Vec<&'a str> {
        let of_kind = printed.lines().filter(|line| line.starts_with(kind));
        of_kind.collect()
    }

    /// All but the key states, which take all ones.
    #[test]
    fn no_granule_with_a_held_word_takes_a_value() {
        for (map, count) in [
            (Map::one(), 62 + 62 + 18 + 4 + 10 + 10),
            (Map::two(), 14 + 62 + 62 + 116 + 8 + 16 + 2 + 4 + 10 + 10),
        ] {
            let blank = blank(&map, 44);
            let runs = held_words(&blank);
            assert_eq!((runs.len(), granules(&blank).len()), (8, count));
            for (run, number) in runs.iter().zip([0, 0, 1, 1, 2, 2, 3, 3]) {
                let expected = granules(&blank)
                    .into_iter()
                    .flat_map(|(partition, address)| {
                        let refused =
                            format!("02 04 {:016x}", held_word(&partition, address, number));
                        let last = match partition.kind {
                            Kind::KeyState => "02 00 0000000000000000".to_string(),
                            _ => refused.clone(),
                        };
                        [refused, last]
                    });
                let printed = run.printed();
                let written = lines(&printed, "02");
                let first_and_last = written.chunks(3).flat_map(|three| [three[0], three[2]]);
                assert!(first_and_last.eq(expected), "{number}");
                assert_eq!(lines(&printed, "01 00").len(), count);
            }
        }
    }

    #[test]
    fn no_digest_command_is_done_twice() {
        for (map, count) in [(Map::one(), 4), (Map::two(), 5)] {
            let blank = blank(&map, 45);
            let hardware = map.partitions.iter().filter(|p| p.has_hardware_digest());
            let runs = second_digests(&blank);
            assert_eq!(runs.len(), count);
            for (run, partition) in runs.iter().zip(hardware) {
                let printed = run.printed();
                assert!(
                    printed.starts_with("07 00 0000000000000000\n04 00"),
                    "{printed}"
                );
                let done = printed.lines().nth(1).unwrap();
                let digest = u64::from_str_radix(&done[6..], 16).unwrap();
                let word = partition.digest_words().start as u32 + digest.trailing_zeros() / 16;
                let refused = format!("\n04 04 {word:016x}\n");
                assert_eq!(printed.matches(&refused).count(), 2, "{printed}");
            }
        }
    }

    #[test]
    fn map_1_has_no_key_states() {
        assert_eq!(key_states(&blank(&Map::one(), 46)).len(), 0);
        assert_eq!(key_states(&blank(&Map::two(), 46)).len(), 8);
    }

    /// Of the 14 values over [0x0ff0, 0x0ff0] in the first granule, at words
    /// 0x20c and 0x20d.
    #[test]
    fn a_cleared_bit_is_named_by_its_word() {
        let map = Map::two();
        let printed = bits_about(&blank(&map, 47), &map.partitions[4], HELD[3]).printed();
        let (low, high) = ("02 04 000000000000020c", "02 04 000000000000020d");
        let done = "02 00 0000000000000000";
        let expected = [
            low, low, high, high, high, low, low, low, done, done, low, done, low, high,
        ];
        assert_eq!(lines(&printed, "02")[..14], expected);
    }

    #[test]
    fn every_bit_is_added_and_none_is_cleared() {
        let map = Map::two();
        let printed = bit_by_bit(&blank(&map, 48), &map.partitions[4]).printed();
        let written = lines(&printed, "02");
        assert_eq!(written.len(), 8 * 32 * 2);
        for pair in written.chunks(2) {
            assert_eq!(pair[0], "02 00 0000000000000000");
            assert!(pair[1].starts_with("02 04 00000000000002"), "{}", pair[1]);
        }
    }

    #[test]
    fn the_digest_of_the_key_states_is_burnt_once() {
        let map = Map::two();
        let printed = digest_by_the_new_rule(&blank(&map, 49), &map.partitions[4]).printed();
        // 0x0100_0000_0000 has its bit in the third word, 0x21e.
        assert_eq!(printed.matches("02 04 000000000000021e").count(), 10);
        assert_eq!(printed.matches("01 00 0000010000000000").count(), 6);
        assert_eq!(printed.matches("04 05").count(), 1);
        assert_eq!(printed.matches("02 05").count(), 9);
        assert_eq!(printed.matches("02 04 000000000000020c").count(), 1);
    }
}
