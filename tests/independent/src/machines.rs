//! Random machines, each with a record: as scripts leave them, and altered in
//! every part, so that they are such as no script reaches.

use crate::chips;
use crate::frames::{self, CELLS, CHECK_BYTES, CONSTANTS, COPY, LOCKS, MAP, PHASE, RECORD, ZEROS};
use crate::life_cycle::{MOST_STROKES, SCRAP};
use crate::map::Map;
use crate::model::{Chip, Command, Phase};
use crate::random::Random;
use crate::random_commands;
use crate::raw_tokens::RawTokens;
use crate::scenarios::unknown_kind;
use crate::script::record;
use crate::transition::stored_tokens;
use std::io::{self, Write};

/// Chips of each map that machines are made from.
const BASES: usize = 40;

/// A chip as commands left it, with the raw tokens of what it stores.
struct Base {
    chip: Chip,
    tokens: RawTokens,
}

/// Where machines come from.
pub struct Machines {
    bases: Vec<Base>,
}

impl Machines {
    /// As many bases for either map.
    pub fn new(random: &mut Random) -> Machines {
        let maps = [Map::one(), Map::two()];
        let bases = (0..2 * BASES).map(|i| base(&maps[i % 2], random));
        Machines {
            bases: bases.collect(),
        }
    }

    /// The frame of a random machine.
    pub fn frame(&mut self, random: &mut Random) -> Vec<u8> {
        let chosen = random.below(self.bases.len() as u64) as usize;
        let Base { chip, tokens } = &mut self.bases[chosen];
        let mut chip = chip.clone();
        alter_session(&mut chip, random);
        alter_cells(&mut chip, random);
        alter_copy(&mut chip, tokens, random);
        let record = match random.one_in(24) {
            true => vec![unknown_kind(random)],
            false => record(random_commands::of_kind(
                1 + random.below(7) as u8,
                &chip,
                tokens,
                random,
            )),
        };
        match random.below(24) {
            0 => chip.constants = chips::invalid_constants(tokens, random),
            1 => chip.constants = chips::constants(tokens, random),
            _ => {}
        }
        let mut frame = frames::of(&chip, &record);
        alter_bytes(&mut frame, record.len(), random);
        alter_lengths(&mut frame, random);
        frame
    }
}

/// Writes the frames of random machines to standard output.
pub fn write(count: u64, random: &mut Random) -> io::Result<()> {
    let mut machines = Machines::new(random);
    for _ in 0..count {
        io::stdout().write_all(&machines.frame(random))?;
    }
    Ok(())
}

/// A chip in the middle of a script.
fn base(map: &Map, random: &mut Random) -> Base {
    let mut tokens = RawTokens::new();
    let constants = chips::constants(&mut tokens, random);
    let blank = Chip::blank(map, &constants);
    let mut chip = match random.below(4) {
        0 => blank,
        1 => chips::locked(&blank, &mut tokens, random),
        _ => chips::image(&blank, &mut tokens, random),
    };
    chip.execute(Command::PowerUp);
    let length = random.choose(&[0, 0, 3, 10]);
    random_commands::sequence(&mut chip, length, &mut tokens, random);
    chip.session.digests.resize(map.partitions.len().max(10), 0);
    chip.session
        .read_locks
        .resize(map.partitions.len().max(10), false);
    Base { chip, tokens }
}

/// Another phase, state, count, and other digests and read locks than sensed.
fn alter_session(chip: &mut Chip, random: &mut Random) {
    let session = &mut chip.session;
    session.phase = match random.below(16) {
        0 => Phase::Off,
        1 => Phase::Inert,
        2 => Phase::Dead(random.choose(&[4, 6, 7])),
        3 => session.phase,
        _ => Phase::Ready,
    };
    let entry = random.below(session.digests.len() as u64) as usize;
    match random.below(6) {
        0 => session.digests.fill(0),
        1 => session.digests.fill(random.number() | 1),
        2 => session.digests[entry] = random.number(),
        3 => session.digests[entry] = 0,
        _ => {}
    }
    for lock in &mut session.read_locks {
        *lock ^= random.one_in(6);
    }
    let (state, count) = match random.below(8) {
        0 => (random.choose(&[19, 20, 21, 255]), session.count),
        1 => (session.state, random.choose(&[0, 23, 24, 25, 255])),
        2..=4 => (random.below(21) as u8, random.below(25) as u8),
        _ => (session.state, session.count),
    };
    (session.state, session.count) = (state, count);
    // The cells say the same, or not.
    if random.one_in(2) && state <= SCRAP && count <= MOST_STROKES {
        chips::lay(chip, state, count);
    }
}

/// Blank, damaged or random words in some partition.
fn alter_cells(chip: &mut Chip, random: &mut Random) {
    let partition = random.choose(&chip.map.partitions);
    let (data, digest) = (partition.data(), partition.digest_words());
    match random.below(12) {
        0..=2 => chip.cells[data.start..digest.end].fill(0),
        3 => chip.cells[digest].fill(0),
        4 => chip.cells[data.start + random.below(data.len() as u64) as usize] ^= random.word(),
        5 => chip.cells[data]
            .iter_mut()
            .for_each(|cell| *cell = random.word()),
        6 => {
            let bits = random.below(16);
            let few = |cell: &mut u16| *cell |= u16::from(random.one_in(20)) << bits;
            chip.cells.iter_mut().for_each(few);
        }
        7 if random.one_in(4) => chip.cells.iter_mut().for_each(|cell| *cell = random.word()),
        _ => {}
    }
}

/// A copy that no power-up latched, with or without tokens that are known.
fn alter_copy(chip: &mut Chip, tokens: &mut RawTokens, random: &mut Random) {
    match random.below(8) {
        0 => chip.copy.fill(0),
        1 => chip.copy.iter_mut().for_each(|word| *word = random.word()),
        2 => {
            let place = random.below(chip.copy.len() as u64) as usize;
            chip.copy[place] ^= 1 << random.below(16);
        }
        3 => chip.copy.copy_from_slice(&chip.cells),
        4..=5 => {
            for (_, address) in stored_tokens(&chip.map) {
                let (hash, place) = (tokens.hashed(random), address as usize / 2);
                for (i, word) in chip.copy[place..place + 8].iter_mut().enumerate() {
                    *word = (hash >> (16 * i)) as u16;
                }
            }
        }
        _ => {}
    }
}

/// Other bytes for the same numbers, and something where nothing is read.
fn alter_bytes(frame: &mut [u8], record: usize, random: &mut Random) {
    match frame[MAP] {
        1 if random.one_in(4) => frame[MAP] = random.choose(&[0, 3, 18, 255]),
        _ if random.one_in(64) => frame[MAP] = random.choose(&[1, 2]),
        _ => {}
    }
    if frame[PHASE] == 0 {
        frame[PHASE] = random.choose(&[0, 3, 5, 8, 9, 128, 255]);
    }
    for lock in &mut frame[LOCKS] {
        *lock *= random.choose(&[1, 2, 128, 255]);
    }
    let behind = RECORD.start + record..RECORD.end;
    let past = [CELLS, COPY, CONSTANTS].map(|area| area.lent_bytes(frame).end..area.bytes.end);
    let places = [behind]
        .into_iter()
        .chain(past)
        .chain(ZEROS)
        .chain(CHECK_BYTES);
    for place in places {
        if random.one_in(2) {
            frame[place].fill_with(|| random.next() as u8);
        }
    }
}

/// Now and then a number of words that is not the one lent.
fn alter_lengths(frame: &mut [u8], random: &mut Random) {
    if !random.one_in(8) {
        return;
    }
    let area = match random.below(3) {
        0 => CELLS,
        1 => COPY,
        _ => CONSTANTS,
    };
    let most = area.bytes.len() as u16 / 2;
    let right = (area.lent_bytes(frame).len() / 2) as u16;
    let lengths = [
        0,
        1,
        right - 1,
        right + 1,
        most - 1,
        most,
        most + 1,
        0x8000,
        0xffff,
        132,
        168,
        448,
        740,
    ];
    frame[area.lent].copy_from_slice(&random.choose(&lengths).to_le_bytes());
}

#[cfg(test)]
mod tests {
    use super::*;
    use crate::frames::BYTES;
    use crate::life_cycle::{token_between, Token};
    use std::collections::BTreeSet;

    fn frames(count: usize, seed: u64) -> Vec<Vec<u8>> {
        let mut random = Random::new(seed);
        let mut machines = Machines::new(&mut random);
        (0..count).map(|_| machines.frame(&mut random)).collect()
    }

    #[test]
    fn a_seed_gives_the_same_frames() {
        assert_eq!(frames(20, 71), frames(20, 71));
        assert_ne!(frames(20, 71), frames(20, 72));
        assert!(frames(20, 71).iter().all(|frame| frame.len() == BYTES));
    }

    /// Numbers that count as others stand in the frames too.
    #[test]
    fn every_part_is_altered() {
        let frames = frames(4_000, 73);
        let seen = |place: usize| -> BTreeSet<u8> { frames.iter().map(|f| f[place]).collect() };
        assert!(seen(MAP).is_superset(&BTreeSet::from([0, 1, 2, 3, 255])));
        let phases = BTreeSet::from([0, 1, 2, 3, 4, 5, 6, 7, 255]);
        assert!(seen(PHASE).is_superset(&phases));
        for place in [2, 3] {
            let numbers = seen(place);
            let edges = [20, 21, 255, 23, 24, 25];
            assert!(edges.iter().filter(|&n| numbers.contains(n)).count() >= 3);
        }
        for place in [
            4,
            103,
            108,
            112 + 31,
            2203,
            4263,
            4264,
            4523,
            4883,
            4884,
            5119,
        ] {
            assert!(seen(place).len() > 50, "{place}");
        }
        assert!(seen(LOCKS.start).contains(&128));
        for area in [CELLS, COPY, CONSTANTS] {
            let lent =
                |f: &Vec<u8>| u16::from_le_bytes([f[area.lent.start], f[area.lent.start + 1]]);
            let lengths: BTreeSet<u16> = frames.iter().map(lent).collect();
            let most = area.bytes.len() as u16 / 2;
            assert!(lengths.contains(&0) && lengths.contains(&most) && lengths.contains(&0xffff));
        }
    }

    /// On either map, each token is right on some machine and wrong on another.
    #[test]
    fn every_token_is_given_right_and_wrong() {
        let asked = |frame: &[u8]| match (frame[2], frame[RECORD.start + 1]) {
            (state @ 0..=20, target @ 0..=20) => token_between(state, target),
            _ => None,
        };
        let mut seen = Vec::new();
        for frame in frames(12_000, 74) {
            if let (6, Some(token)) = (frame[RECORD.start], asked(&frame)) {
                let code = frames::after(&frame)[frames::CODE];
                seen.push((frames::map_in(&frame).name, token, code));
            }
        }
        for map in ["Map 1", "Map 2"] {
            for token in [Token::Raw, Token::TestUnlock, Token::TestExit, Token::Rma] {
                assert!(seen.contains(&(map, token, 0x00)), "{map} {token:?}");
                assert!(seen.contains(&(map, token, 0x23)), "{map} {token:?}");
                let open = seen.contains(&(map, token, 0x22));
                assert_eq!(open, token != Token::Raw, "{map} {token:?}");
            }
        }
    }
}
