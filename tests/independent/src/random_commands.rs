//! Random commands, chosen with the chip at hand: addresses at the edges,
//! data that fits what is stored, right tokens most of the time.

use crate::life_cycle::{token_between, Token, SCRAP};
use crate::map::{Kind, Map, Partition};
use crate::model::{Chip, Command, Phase};
use crate::random::Random;
use crate::raw_tokens::{half_of, RawTokens};
use crate::transition::stored_tokens;

/// Carries out up to `length` random commands on the chip and tells which.
/// On a chip that will not power up, few are enough.
pub fn sequence(
    chip: &mut Chip,
    length: u64,
    tokens: &mut RawTokens,
    random: &mut Random,
) -> Vec<Command> {
    let mut commands: Vec<Command> = Vec::new();
    for step in 0..length {
        let chosen = match commands.last() {
            None if !random.one_in(16) => Command::PowerUp,
            Some(&last) if random.one_in(2) => follow_up(last, chip, tokens, random),
            _ => command(chip, tokens, random),
        };
        commands.push(chosen);
        let answer = chip.execute(chosen);
        let refused = chosen == Command::PowerUp && answer.code != 0;
        if refused && step > 0 && random.one_in(4) {
            break;
        }
    }
    commands
}

fn command(chip: &Chip, tokens: &mut RawTokens, random: &mut Random) -> Command {
    if chip.session.phase != Phase::Ready && !random.one_in(3) {
        return Command::PowerUp;
    }
    let kind = match random.below(24) {
        0..=5 => 1,
        6..=12 => 2,
        13..=14 => 3,
        15..=17 => 4,
        18 => 5,
        19..=21 => 6,
        _ => 7,
    };
    of_kind(kind, chip, tokens, random)
}

/// A command of a script's kind, 1 to 7.
pub fn of_kind(kind: u8, chip: &Chip, tokens: &mut RawTokens, random: &mut Random) -> Command {
    match kind {
        1 => Command::Read(address(&chip.map, random)),
        2 => write(chip, write_address(&chip.map, random), tokens, random),
        3 => Command::FrontRead(front_address(&chip.map, random)),
        4 => Command::Digest(digest_address(&chip.map, random)),
        5 => Command::ReadLock(lock_number(&chip.map, random)),
        6 => transition(chip, tokens, random),
        _ => Command::PowerUp,
    }
}

/// A command that has to do with the last one.
fn follow_up(last: Command, chip: &Chip, tokens: &mut RawTokens, random: &mut Random) -> Command {
    match last {
        Command::Read(address) | Command::Write(address, _) | Command::FrontRead(address) => {
            about(address, chip, tokens, random)
        }
        Command::Digest(start) => {
            let near = start.wrapping_add(random.below(32) as u32);
            match random.below(8) {
                0..=3 => write(chip, near, tokens, random),
                4..=5 => Command::Digest(start),
                6 => Command::Read(in_digest(&chip.map, random)),
                _ => Command::PowerUp,
            }
        }
        Command::ReadLock(number) => {
            let number = usize::from(number).min(chip.map.partitions.len() - 1);
            let Partition {
                start, digest, end, ..
            } = chip.map.partitions[number];
            let middle = start + (digest - start) / 2;
            Command::Read(random.choose(&[start, middle, digest - 1, digest, end - 1]))
        }
        Command::Transition(..) => Command::PowerUp,
        Command::PowerUp => command(chip, tokens, random),
    }
}

/// A command at an address just used, or on its partition.
fn about(address: u32, chip: &Chip, tokens: &mut RawTokens, random: &mut Random) -> Command {
    let number = chip.map.find(address).unwrap_or(0);
    match random.below(12) {
        0..=2 => Command::Read(address),
        3..=6 => write(chip, address, tokens, random),
        7 => Command::FrontRead(address),
        8..=9 => Command::Digest(chip.map.partitions[number].start),
        10 => Command::ReadLock(number as u8),
        _ => Command::PowerUp,
    }
}

/// An address: about a partition's edges, anywhere, or far out.
pub fn address(map: &Map, random: &mut Random) -> u32 {
    let end = map.end();
    let far = [
        end,
        end + 1,
        0x380,
        0x400,
        0x5c8,
        0x8000,
        0x1_0000,
        0x8000_0000,
        u32::MAX - 3,
        u32::MAX,
    ];
    match random.below(12) {
        0..=5 => {
            let partition = random.choose(&map.partitions);
            let edge = random.choose(&[partition.start, partition.digest, partition.end]);
            edge.wrapping_add(random.below(17) as u32).wrapping_sub(8)
        }
        6..=9 => random.below(u64::from(end)) as u32,
        // Right only if the high bits are lost.
        10 => random.below(u64::from(end)) as u32 | random.choose(&[1 << 11, 1 << 16, 1 << 31]),
        _ => random.choose(&far),
    }
}

/// An address, now and then of a key state: these have a rule of their own.
fn write_address(map: &Map, random: &mut Random) -> u32 {
    let mut partitions = map.partitions.iter();
    match partitions.find(|partition| partition.kind == Kind::KeyState) {
        Some(states) if random.one_in(4) => {
            let bytes = states.digest - states.start;
            states.start + random.below(u64::from(bytes)) as u32
        }
        _ => address(map, random),
    }
}

/// An address about those that a front read reaches, most of the time.
fn front_address(map: &Map, random: &mut Random) -> u32 {
    if random.one_in(3) {
        return address(map, random);
    }
    let mut reached = map.partitions.clone();
    reached.retain(|partition| partition.kind == Kind::Hardware);
    let (first, last) = (reached[0].start - 8, reached[reached.len() - 1].end + 4);
    first + random.below(u64::from(last - first)) as u32
}

fn digest_address(map: &Map, random: &mut Random) -> u32 {
    let partition = random.choose(&map.partitions);
    let mut hardware = map.partitions.clone();
    hardware.retain(Partition::has_hardware_digest);
    match random.below(8) {
        0..=4 => random.choose(&hardware).start,
        5 => random.choose(&[partition.start, partition.digest, partition.end]),
        6 => partition.start + random.choose(&[1, 2, 4, 7, 8]),
        _ => address(map, random),
    }
}

/// An address in the digest of some partition, or the last partition's end.
fn in_digest(map: &Map, random: &mut Random) -> u32 {
    random.choose(&map.partitions).digest + random.choose(&[0, 4, 7])
}

/// The number of a partition, most of the time of one that can be locked.
fn lock_number(map: &Map, random: &mut Random) -> u8 {
    let last = map.partitions.len() as u8 - 1;
    let lockable = map.partitions.iter().filter(|p| p.has_software_digest());
    let lockable = lockable.count() as u8;
    match random.one_in(2) {
        true => random.below(u64::from(lockable)) as u8,
        false => random.choose(&[0, lockable - 1, lockable, last - 1, last, last + 1, 255]),
    }
}

fn write(chip: &Chip, address: u32, tokens: &mut RawTokens, random: &mut Random) -> Command {
    if let Some(half) = token_half(chip, address, tokens, random) {
        return Command::Write(address, half);
    }
    // What a read there answers, or 0.
    let stored = chip.clone().execute(Command::Read(address)).value;
    let data = match random.below(8) {
        0..=1 => stored | random.number(),
        2 => stored,
        // Fits but for the highest bit, so that the low words alone would do.
        3 => (stored | random.next() & 0xffff) & !highest_bit(stored),
        4 => stored & random.next(),
        5 => stored | random.next() << 32,
        6 if random.one_in(2) => 0,
        _ => random.number(),
    };
    Command::Write(address, data)
}

/// Where a token is stored, most of the time: a half of a hash, the one that
/// belongs to the other half if that is stored.
fn token_half(
    chip: &Chip,
    address: u32,
    tokens: &mut RawTokens,
    random: &mut Random,
) -> Option<u64> {
    let mut places = stored_tokens(&chip.map).into_iter();
    let (_, first) = places.find(|(_, first)| (*first..first + 16).contains(&address))?;
    if random.one_in(4) {
        return None;
    }
    let high = address >= first + 8;
    let other_half = if high { first } else { first + 8 };
    let other = chip.clone().execute(Command::Read(other_half)).value;
    let stored = match tokens.with_half(!high, other) {
        Some(stored) => stored,
        None if random.one_in(16) => tokens.mistaken(random),
        None => tokens.hashed(random),
    };
    Some(half_of(stored, high))
}

fn highest_bit(number: u64) -> u64 {
    match number {
        0 => 0,
        _ => 1 << number.ilog2(),
    }
}

/// A transition, to a target that the table allows most of the time.
pub fn transition(chip: &Chip, tokens: &RawTokens, random: &mut Random) -> Command {
    let state = chip.session.state.min(SCRAP);
    let allowed: Vec<u8> = (0..SCRAP)
        .filter(|&target| token_between(state, target).is_some())
        .collect();
    let target = match random.below(16) {
        0 => random.choose(&[21, 22, 128, 254, 255]),
        1 => SCRAP,
        2..=4 => random.below(21) as u8,
        _ if allowed.is_empty() => random.below(21) as u8,
        _ => random.choose(&allowed),
    };
    let asked = token_between(state, target.min(SCRAP)).unwrap_or(Token::Raw);
    Command::Transition(target, token(chip, asked, tokens, random))
}

fn token(chip: &Chip, asked: Token, tokens: &RawTokens, random: &mut Random) -> u128 {
    let stored = chip.stored_token(asked);
    let right = tokens.raw(stored);
    let other = random.choose(&[Token::Raw, Token::TestUnlock, Token::TestExit, Token::Rma]);
    match random.below(24) {
        0 => right ^ 1 << random.below(128),
        1 => tokens.raw(chip.stored_token(other)),
        2 => words_of_cells(chip, random),
        3 => random.wide(),
        4 => right.swap_bytes(),
        5 => stored,
        _ => right,
    }
}

/// A stored token's words as the cells hold them.
fn words_of_cells(chip: &Chip, random: &mut Random) -> u128 {
    let place = random.choose(&stored_tokens(&chip.map)).1 as usize / 2;
    match chip.cells.get(place..place + 8) {
        Some(words) => crate::words::wide_number(words),
        None => 0,
    }
}

#[cfg(test)]
mod tests {
    use super::*;

    #[test]
    fn addresses_hit_every_edge() {
        for map in [Map::one(), Map::two()] {
            let mut random = Random::new(21);
            let seen: Vec<u32> = (0..20_000).map(|_| address(&map, &mut random)).collect();
            for partition in &map.partitions {
                for edge in [partition.start, partition.digest, partition.end] {
                    for address in [edge.wrapping_sub(1), edge, edge + 1] {
                        assert!(seen.contains(&address), "{address:x}");
                    }
                }
            }
        }
    }

    #[test]
    fn front_reads_hit_every_address_that_they_reach() {
        for (map, reached) in [(Map::one(), 0x1f8..0x254), (Map::two(), 0x438..0x49c)] {
            let mut random = Random::new(22);
            let draw = |_| front_address(&map, &mut random);
            let seen: Vec<u32> = (0..5_000).map(draw).collect();
            for address in reached {
                assert!(seen.contains(&address), "{} {address:x}", map.name);
            }
        }
    }

    #[test]
    fn read_locks_hit_every_number_that_counts() {
        for (map, numbers) in [
            (Map::one(), &[0, 1, 2, 5, 6, 7, 255][..]),
            (Map::two(), &[0, 1, 2, 3, 4, 5, 9, 10, 11, 255]),
        ] {
            let mut random = Random::new(23);
            let seen: Vec<u8> = (0..500).map(|_| lock_number(&map, &mut random)).collect();
            for number in numbers {
                assert!(seen.contains(number), "{} {number}", map.name);
            }
        }
    }

    /// A token's half is stored in its own place, in either map.
    #[test]
    fn halves_of_one_hash_are_written_side_by_side() {
        for map in [Map::one(), Map::two()] {
            let (mut tokens, mut random) = (RawTokens::new(), Random::new(24));
            let constants = crate::chips::constants(&mut tokens, &mut random);
            for (_, first) in stored_tokens(&map) {
                let mut chip = Chip::blank(&map, &constants);
                chip.execute(Command::PowerUp);
                let hash = tokens.hashed(&mut random);
                chip.execute(Command::Write(first, half_of(hash, false)));
                let mut draw = || token_half(&chip, first + 8, &mut tokens, &mut random);
                let half = (0..20).find_map(|_| draw());
                assert_eq!(half, Some(half_of(hash, true)), "{} {first:x}", map.name);
            }
        }
    }
}
