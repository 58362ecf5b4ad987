//! Every address and every partition number, with each command that has one.

use crate::chips;
use crate::life_cycle::SCRAP;
use crate::map::Kind;
use crate::model::{Chip, Command};
use crate::random::Random;
use crate::raw_tokens::RawTokens;
use crate::scenarios::Run;
use Command::{Digest, FrontRead, PowerUp, Read, ReadLock, Transition, Write};

pub fn runs(blank: &Chip, locked: &Chip, tokens: &mut RawTokens, random: &mut Random) -> Vec<Run> {
    let half_written = chips::provisioned(blank, 2, tokens, random);
    let mut runs = addresses(&[blank, &half_written, locked]);
    runs.extend(digest_edges(blank));
    runs.push(read_locks(locked));
    runs.push(more_read_locks(locked));
    runs.push(targets(blank));
    runs.push(sensed_data(blank));
    runs
}

/// Every address with each command that has one, on some chips.
fn addresses(chips: &[&Chip]) -> Vec<Run> {
    // The third write clears bits of a granule's high words only.
    let makers: [fn(u32) -> Command; 6] = [
        Read,
        FrontRead,
        Digest,
        |address| Write(address, 1 << (address % 64)),
        |address| Write(address, u64::MAX),
        |address| Write(address, 0xffff),
    ];
    let mut runs = Vec::new();
    for chip in chips {
        for maker in makers {
            let mut commands = vec![PowerUp];
            commands.extend((0..chip.map.end() + 0x20).map(maker));
            commands.extend((0..chip.map.end()).step_by(4).map(Read));
            commands.push(PowerUp);
            runs.push(Run::of(&commands, chip));
        }
    }
    runs
}

/// A write at an address as far from each digest, on a blank chip, of both
/// halves and of each; what is read about it, and the power-up after it.
fn digest_edges(blank: &Chip) -> Vec<Run> {
    let digests = blank.map.partitions.iter().filter(|p| p.digest < p.end);
    let digests: Vec<u32> = digests.map(|partition| partition.digest).collect();
    let mut runs = Vec::new();
    for offset in 0..24 {
        let addresses = digests.iter().map(|digest| digest - 8 + offset);
        for data in [0x8877_6655_4433_2211, 1, 1 << 32] {
            let (mut commands, mut after) = (vec![PowerUp], vec![PowerUp]);
            for address in addresses.clone() {
                commands.push(Write(address, data));
                commands.extend((address - 8..address + 8).map(Read));
                commands.push(Write(address ^ 4, data.rotate_left(32)));
                after.extend([Read(address), Write(address, u64::MAX)]);
            }
            runs.push(Run::of(&[commands, after].concat(), blank));
        }
    }
    runs
}

/// Every partition number for a read lock, each after a power-up of its own,
/// and what is read of every partition then.
fn read_locks(chip: &Chip) -> Run {
    let starts = chip.map.partitions.iter().map(|p| Read(p.start));
    let tries = |number| {
        [PowerUp, ReadLock(number)]
            .into_iter()
            .chain(starts.clone())
    };
    let commands: Vec<Command> = (0..=255).flat_map(tries).collect();
    Run::of(&commands, chip)
}

/// One read lock after the other, with what is read at each edge in between;
/// the power-up at the end takes all of them back.
fn more_read_locks(chip: &Chip) -> Run {
    let edges = chip.map.partitions.iter();
    let edges = edges.flat_map(|p| [p.start, p.digest - 1, p.digest, p.end - 1]);
    let reads: Vec<Command> = edges.map(Read).collect();
    let mut commands = vec![PowerUp];
    for number in 0..=chip.map.partitions.len() as u8 {
        commands.extend([ReadLock(number), ReadLock(number)]);
        commands.extend(&reads);
    }
    commands.push(PowerUp);
    commands.extend(reads);
    Run::of(&commands, chip)
}

/// Every target above the last.
fn targets(blank: &Chip) -> Run {
    let mut commands = vec![PowerUp];
    commands.extend((SCRAP + 1..=255).map(|target| Transition(target, 0)));
    commands.push(Read(0));
    Run::of(&commands, blank)
}

/// Every granule that a front read reaches: read before it is written, after
/// it, and after the next power-up, by both kinds of read.
fn sensed_data(blank: &Chip) -> Run {
    let reached = blank.map.partitions.iter();
    let reached = reached.filter(|partition| partition.kind == Kind::Hardware);
    let granules: Vec<u32> = reached.flat_map(|partition| partition.granules()).collect();
    let mut commands = vec![PowerUp];
    for (i, &address) in granules.iter().enumerate() {
        let data = 0x0102_0304_0000_0000 + 0x0100_0001 * (i as u64 + 1);
        commands.extend([Write(address, data), FrontRead(address), Read(address)]);
    }
    commands.push(PowerUp);
    for address in granules {
        commands.extend([FrontRead(address + 3), Read(address)]);
    }
    Run::of(&commands, blank)
}

#[cfg(test)]
mod tests {
    use super::*;
    use crate::map::Map;

    fn blanks(seed: u64) -> [Chip; 2] {
        let constants = chips::constants(&mut RawTokens::new(), &mut Random::new(seed));
        [Map::one(), Map::two()].map(|map| Chip::blank(&map, &constants))
    }

    fn count(printed: &str, beginning: &str) -> usize {
        printed
            .lines()
            .filter(|line| line.starts_with(beginning))
            .count()
    }

    /// Lines after the last power-up that begin so.
    fn count_at_last(run: &Run, beginning: &str) -> usize {
        let printed = run.printed();
        let last = printed.rfind("\n07").expect("a second power-up");
        count(&printed[last..], beginning)
    }

    #[test]
    fn writes_are_refused_in_digests_and_the_life_cycle() {
        // Software digests that the first write has locked, hardware digests,
        // and the first 8 addresses of LIFE_CYCLE.
        for (blank, digests) in blanks(43).iter().zip([2 + 4, 5 + 5]) {
            let runs = digest_edges(blank);
            assert_eq!(runs.len(), 24 * 3);
            let refused: usize = runs.iter().map(|run| count_at_last(run, "02 05")).sum();
            assert_eq!(refused, (8 * digests + 8) * 3);
        }
    }

    #[test]
    fn each_read_lock_hides_one_partition() {
        for (blank, lockable) in blanks(44).iter().zip([2, 5]) {
            let printed = read_locks(blank).printed();
            assert_eq!(count(&printed, "05 00"), lockable);
            assert_eq!(count(&printed, "05 05"), 256 - lockable);
            // LIFE_CYCLE is never read.
            assert_eq!(count(&printed, "01 05"), 256 + lockable);
        }
    }

    #[test]
    fn read_locks_add_up_until_a_power_up() {
        for (blank, lockable) in blanks(45).iter().zip([2, 5]) {
            let parts = blank.map.partitions.len();
            let printed = more_read_locks(blank).printed();
            // Two edges of each partition are data; all four of LIFE_CYCLE.
            let hidden = (1..=parts + 1)
                .map(|locks| 2 * locks.min(lockable))
                .sum::<usize>();
            assert_eq!(count(&printed, "01 05"), hidden + 4 * (parts + 2));
        }
    }

    #[test]
    fn front_reads_reach_all_granules_after_a_power_up() {
        for (blank, granules) in blanks(46).iter().zip([18, 16 + 2]) {
            let printed = sensed_data(blank).printed();
            assert_eq!(count(&printed, "03 00 0000000000000000"), granules);
            assert_eq!(count(&printed, "03 00"), 2 * granules);
            assert_eq!(count(&printed, "02 00"), granules);
        }
    }
}
