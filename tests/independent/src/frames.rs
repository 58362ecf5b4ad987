//! Frames: a machine and a record of a script in 5,120 bytes. A step gives the
//! machine after the command, with the answer in place of the record.

use crate::map::Map;
use crate::model::{Answer, Chip, Phase, Session};
use crate::script::{Next, Reader};
use std::io::{self, Read, Write};
use std::ops::Range;

pub const BYTES: usize = 5120;

/// Where the parts stand. All numbers are little-endian.
pub const MAP: usize = 0;
pub const PHASE: usize = 1;
const STATE: usize = 2;
const COUNT: usize = 3;
const DIGESTS: Range<usize> = 8..88;
pub const LOCKS: Range<usize> = 88..98;
pub const RECORD: Range<usize> = 112..144;
pub const CODE: usize = 112;
const VALUE: Range<usize> = 120..128;
pub const CELLS: Area = Area::of(104, 144, 1030);
pub const COPY: Area = Area::of(106, 2204, 1030);
pub const CONSTANTS: Area = Area::of(110, 4524, 180);
/// The number of check bytes that are lent, and their area: not read yet.
pub const CHECK_BYTES: [Range<usize>; 2] = [108..110, 4264..4524];
/// Bytes that come back as zero.
pub const ZEROS: [Range<usize>; 3] = [4..8, 98..104, 4884..BYTES];

/// A place for words, and the place that says how many of them are lent.
pub struct Area {
    pub lent: Range<usize>,
    pub bytes: Range<usize>,
}

impl Area {
    const fn of(lent: usize, from: usize, words: usize) -> Area {
        Area {
            lent: lent..lent + 2,
            bytes: from..from + 2 * words,
        }
    }

    /// The bytes that are lent; more than the area has counts as all of it.
    pub fn lent_bytes(&self, frame: &[u8]) -> Range<usize> {
        let words = usize::from(u16::from_le_bytes([
            frame[self.lent.start],
            frame[self.lent.start + 1],
        ]));
        self.bytes.start..self.bytes.end.min(self.bytes.start + 2 * words)
    }

    fn words(&self, frame: &[u8]) -> Vec<u16> {
        let pairs = frame[self.lent_bytes(frame)].chunks(2);
        pairs
            .map(|pair| u16::from_le_bytes([pair[0], pair[1]]))
            .collect()
    }

    /// Puts words in; what is behind them stays.
    fn put(&self, frame: &mut [u8], words: &[u16]) {
        let places = frame[self.bytes.clone()].chunks_mut(2);
        for (place, word) in places.zip(words) {
            place.copy_from_slice(&word.to_le_bytes());
        }
    }
}

/// The frame of a chip and the bytes of a record, zero where nothing is said.
pub fn of(chip: &Chip, record: &[u8]) -> Vec<u8> {
    let mut frame = vec![0; BYTES];
    frame[MAP] = if chip.map == Map::two() { 2 } else { 1 };
    put_session(&mut frame, &chip.session);
    frame[RECORD][..record.len()].copy_from_slice(record);
    for (area, words) in [
        (CELLS, &chip.cells),
        (COPY, &chip.copy),
        (CONSTANTS, &chip.constants),
    ] {
        frame[area.lent.clone()].copy_from_slice(&(words.len() as u16).to_le_bytes());
        area.put(&mut frame, words);
    }
    frame
}

/// What a right program makes of a frame.
pub fn after(frame: &[u8]) -> Vec<u8> {
    let mut chip = chip_in(frame);
    let answer = match Reader::new(&frame[RECORD]).next() {
        Next::Record { command, .. } => chip.execute(command),
        Next::Refusal { code, place, .. } => Answer { code, value: place },
        Next::End => unreachable!("32 bytes are not at their end"),
    };
    let mut frame = frame.to_vec();
    for zeros in ZEROS {
        frame[zeros].fill(0);
    }
    put_session(&mut frame, &chip.session);
    frame[RECORD].fill(0);
    frame[CODE] = answer.code;
    frame[VALUE].copy_from_slice(&answer.value.to_le_bytes());
    CELLS.put(&mut frame, &chip.cells);
    COPY.put(&mut frame, &chip.copy);
    frame
}

/// The map of a frame: anything but 2 counts as 1.
pub fn map_in(frame: &[u8]) -> Map {
    match frame[MAP] {
        2 => Map::two(),
        _ => Map::one(),
    }
}

fn chip_in(frame: &[u8]) -> Chip {
    Chip {
        map: map_in(frame),
        cells: CELLS.words(frame),
        copy: COPY.words(frame),
        constants: CONSTANTS.words(frame),
        session: session_in(frame),
    }
}

/// A record may say more than the map has partitions; nothing looks there.
fn session_in(frame: &[u8]) -> Session {
    let numbers = frame[DIGESTS].chunks(8);
    let number = |bytes: &[u8]| {
        bytes
            .iter()
            .rev()
            .fold(0, |sum, &b| sum << 8 | u64::from(b))
    };
    Session {
        phase: match frame[PHASE] {
            1 => Phase::Ready,
            2 => Phase::Inert,
            reason @ (4 | 6 | 7) => Phase::Dead(reason),
            _ => Phase::Off,
        },
        digests: numbers.map(number).collect(),
        read_locks: frame[LOCKS].iter().map(|&byte| byte != 0).collect(),
        state: frame[STATE],
        count: frame[COUNT],
    }
}

fn put_session(frame: &mut [u8], session: &Session) {
    frame[PHASE] = match session.phase {
        Phase::Off => 0,
        Phase::Ready => 1,
        Phase::Inert => 2,
        Phase::Dead(reason) => reason,
    };
    frame[STATE] = session.state;
    frame[COUNT] = session.count;
    // There are ten of each, whatever the map. A power-up leaves one for each
    // partition: the others are zero.
    let entry = |i: usize| session.digests.get(i).copied().unwrap_or(0);
    for (i, place) in frame[DIGESTS].chunks_mut(8).enumerate() {
        place.copy_from_slice(&entry(i).to_le_bytes());
    }
    for (i, place) in frame[LOCKS].iter_mut().enumerate() {
        *place = u8::from(session.read_locks.get(i).copied().unwrap_or(false));
    }
}

/// This program's own program for frames: from standard input to standard
/// output. A frame that is cut short ends it.
pub fn run() -> io::Result<()> {
    let mut input = Vec::new();
    io::stdin().read_to_end(&mut input)?;
    for frame in input.chunks_exact(BYTES) {
        io::stdout().write_all(&after(frame))?;
    }
    Ok(())
}

#[cfg(test)]
mod tests {
    use super::*;
    use crate::constants::example;
    use crate::model::Command;
    use crate::script::record;

    /// Digests and read locks in a frame.
    const ENTRIES: usize = 10;

    fn frame_of(chip: &Chip, command: Command) -> Vec<u8> {
        of(chip, &record(command))
    }

    fn answer_in(frame: &[u8]) -> (u8, u64) {
        let value = frame[VALUE].try_into().expect("8 bytes");
        (frame[CODE], u64::from_le_bytes(value))
    }

    fn ready(map: &Map) -> Chip {
        let mut chip = Chip::blank(map, &example());
        chip.execute(Command::PowerUp);
        chip
    }

    #[test]
    fn areas_follow_one_another() {
        assert_eq!(CELLS.bytes, 144..2204);
        assert_eq!(COPY.bytes, 2204..4264);
        assert_eq!(CHECK_BYTES[1], 4264..4524);
        assert_eq!(CONSTANTS.bytes, 4524..4884);
        assert_eq!(ZEROS[2], 4884..5120);
    }

    #[test]
    fn a_frame_is_read_as_it_was_made() {
        for map in [Map::one(), Map::two()] {
            let mut chip = ready(&map);
            chip.session.digests.resize(ENTRIES, 0);
            chip.session.read_locks.resize(ENTRIES, false);
            chip.session.digests[3] = 0x0102_0304_0506_0708;
            chip.session.read_locks[9] = true;
            (chip.session.state, chip.session.count) = (200, 7);
            chip.cells[5] = 0x1234;
            chip.copy.truncate(3);
            let frame = frame_of(&chip, Command::PowerUp);
            assert_eq!(frame[8 + 24..8 + 32], [8, 7, 6, 5, 4, 3, 2, 1]);
            assert_eq!(frame[144 + 10..144 + 12], [0x34, 0x12]);
            assert_eq!(chip_in(&frame), chip);
        }
    }

    #[test]
    fn a_write_changes_its_granule_and_answers() {
        for map in [Map::one(), Map::two()] {
            let frame = frame_of(&ready(&map), Command::Write(6, 0x0403_0201));
            let after = after(&frame);
            assert_eq!(answer_in(&after), (0, 0));
            assert_eq!(after[144..152], [0, 0, 0, 0, 1, 2, 3, 4]);
            assert_eq!(after[152..], frame[152..]);
            assert_eq!(after[..112], frame[..112]);
            assert_eq!(after[112..144], [0; 32]);
        }
    }

    #[test]
    fn an_unknown_kind_leaves_the_machine() {
        for kind in [0, 8, 255] {
            let frame = of(&ready(&Map::one()), &[kind, 1, 2, 3]);
            let after = after(&frame);
            assert_eq!(answer_in(&after), (0x11, 0));
            assert_eq!(after[..112], frame[..112]);
            assert_eq!(after[144..], frame[144..]);
        }
    }

    #[test]
    fn other_numbers_count_as_map_1_and_as_off() {
        let mut frame = frame_of(&ready(&Map::one()), Command::Read(0));
        for (map, phase, code) in [
            (0, 1, 0),
            (1, 1, 0),
            (3, 1, 0),
            (2, 1, 0x10),
            (1, 3, 7),
            (1, 255, 7),
        ] {
            (frame[MAP], frame[PHASE]) = (map, phase);
            let after = after(&frame);
            assert_eq!((after[MAP], after[CODE]), (map, code));
            assert_eq!(after[PHASE], u8::from(phase == 1));
        }
    }

    #[test]
    fn more_than_an_area_has_is_all_of_it() {
        let mut frame = frame_of(&ready(&Map::one()), Command::Read(0));
        for (area, words) in [(CELLS, 1030), (COPY, 1030), (CONSTANTS, 180)] {
            for lent in [words, words + 1, 0xffff] {
                frame[area.lent.clone()].copy_from_slice(&(lent as u16).to_le_bytes());
                assert_eq!(area.words(&frame).len(), words);
            }
            frame[area.lent.clone()].copy_from_slice(&[3, 0]);
            assert_eq!(area.words(&frame).len(), 3);
        }
    }

    #[test]
    fn what_is_not_lent_comes_back_and_zeros_are_zero() {
        let mut frame = frame_of(&ready(&Map::one()), Command::PowerUp);
        for place in [108, 109, 1040, 2203, 3100, 4263, 4264, 4523, 4788, 4883] {
            frame[place] = 0xa5;
        }
        let before = frame.clone();
        for place in [4, 7, 98, 103, 4884, 5119] {
            frame[place] = 0x5a;
        }
        frame[88] = 0x80;
        let after = after(&frame);
        assert_eq!(after[..88], before[..88]);
        assert_eq!(after[144..], before[144..]);
        assert_eq!(after[88..104], [0; 16]);
    }
}
