//! Random runs of a bench program: a script and two files.

use crate::bench;
use crate::chips;
use crate::constants::lay_raw_token;
use crate::map::Map;
use crate::model::{Chip, Command};
use crate::random::Random;
use crate::random_commands;
use crate::raw_tokens::RawTokens;
use crate::script::{record, LONGEST};

/// One run. A file may be missing.
pub struct Run {
    /// The name of the map that it was made for.
    pub map: &'static str,
    pub script: Vec<u8>,
    pub image: Option<Vec<u8>>,
    pub constants: Option<Vec<u8>>,
}

impl Run {
    /// A run of commands on a chip.
    pub fn of(commands: &[Command], chip: &Chip) -> Run {
        Run {
            map: chip.map.name,
            script: commands
                .iter()
                .flat_map(|&command| record(command))
                .collect(),
            image: Some(bench::file_of_words(&chip.cells)),
            constants: Some(bench::file_of_words(&chip.constants)),
        }
    }

    /// What a right bench program prints.
    pub fn printed(&self) -> String {
        let bytes = |file: &Option<Vec<u8>>| file.clone().unwrap_or_default();
        bench::printed(&self.script, &bytes(&self.image), &bytes(&self.constants))
    }
}

/// A random run on a map.
pub fn make(map: &Map, random: &mut Random) -> Run {
    let mut tokens = RawTokens::new();
    let valid = chips::constants(&mut tokens, random);
    let mut chip = chips::image(&Chip::blank(map, &valid), &mut tokens, random);
    match random.below(16) {
        0 => chip.constants = chips::invalid_constants(&mut tokens, random),
        // Valid, but not those of the image.
        1 => chip.constants = chips::constants(&mut tokens, random),
        _ => {}
    }
    if random.one_in(24) {
        lay_raw_token(&mut chip.constants, tokens.mistaken(random));
    }
    let run = Run::of(&[], &chip);
    Run {
        script: script(&mut chip, &mut tokens, random),
        image: run.image.and_then(|bytes| file(bytes, random)),
        constants: run.constants.and_then(|bytes| file(bytes, random)),
        ..run
    }
}

/// A script for the chip, well formed most of the time.
fn script(chip: &mut Chip, tokens: &mut RawTokens, random: &mut Random) -> Vec<u8> {
    let length = random.choose(&[2, 12, 30, 60, 90, 120]);
    let commands = random_commands::sequence(chip, 1 + random.below(length), tokens, random);
    let mut records: Vec<Vec<u8>> = commands.into_iter().map(record).collect();
    match random.below(40) {
        0..=3 => records.push(cut(random)),
        4..=6 => {
            let place = random.below(records.len() as u64 + 1) as usize;
            records.insert(place, vec![unknown_kind(random)]);
        }
        7 => records = vec![(0..random.below(60)).map(|_| random.next() as u8).collect()],
        8 => {
            let small = |random: &mut Random| random.below(9) as u8;
            records.push((0..random.below(30)).map(|_| small(random)).collect());
        }
        9 => records.clear(),
        10 if random.one_in(3) => {
            let length =
                LONGEST + random.choose(&[0, 0, 0, 1, 1, 2, 5000]) - random.choose(&[0, 0, 1]);
            return filled(records.concat(), length, &chip.map, random);
        }
        _ => {}
    }
    records.concat()
}

/// The beginning of a record that lacks its end.
fn cut(random: &mut Random) -> Vec<u8> {
    let commands = [
        Command::Read(0),
        Command::Write(0x100, 7),
        Command::FrontRead(0x200),
        Command::Digest(0x200),
        Command::ReadLock(0),
        Command::Transition(1, random.wide()),
    ];
    let mut bytes = record(random.choose(&commands));
    bytes.truncate(1 + random.below(bytes.len() as u64 - 1) as usize);
    bytes
}

/// A kind that no record has.
pub fn unknown_kind(random: &mut Random) -> u8 {
    match random.below(3) {
        0 => random.choose(&[0, 8, 9, 0x10, 0x17, 0x80, 0x81, 0xff]),
        _ => 8 + random.below(248) as u8,
    }
}

/// The script brought to a length with reads, the last bytes as they fall.
fn filled(mut script: Vec<u8>, length: usize, map: &Map, random: &mut Random) -> Vec<u8> {
    while script.len() < length {
        script.extend(record(Command::Read(random_commands::address(map, random))));
    }
    script.truncate(length);
    script
}

/// A file as it is meant, or missing, or of a wrong length.
fn file(mut bytes: Vec<u8>, random: &mut Random) -> Option<Vec<u8>> {
    let right = bytes.len();
    match random.below(50) {
        0 => None,
        1..=2 => {
            let lengths = [
                0,
                1,
                2,
                right / 2,
                right - 2,
                right - 1,
                right + 1,
                right + 2,
                2 * right,
                264,
                896,
                1480,
            ];
            bytes.resize(random.choose(&lengths), 0);
            Some(bytes)
        }
        _ => Some(bytes),
    }
}

#[cfg(test)]
mod tests {
    use super::*;
    use crate::life_cycle::{token_between, Token};
    use crate::script::{Next, Reader};
    use std::collections::BTreeSet;

    /// Kind and code of each pair that runs should bring out.
    fn expected_pairs() -> BTreeSet<String> {
        let by_kind = [
            ("01", "00 05 07 10 12 13"),
            ("02", "00 04 05 07 10 12 13"),
            ("03", "00 05 07 10 12 13"),
            ("04", "00 04 05 07 10 12 13"),
            ("05", "00 05 07 10 12 13"),
            ("06", "00 07 10 11 12 13 20 21 22 23"),
            ("07", "00 06 07 10 12"),
            ("00", "11 14"),
        ];
        let pairs = |(kind, codes): (&str, &str)| -> Vec<String> {
            codes
                .split(' ')
                .map(|code| format!("{kind} {code}"))
                .collect()
        };
        by_kind.into_iter().flat_map(pairs).collect()
    }

    #[test]
    fn runs_bring_out_every_answer() {
        for map in [Map::one(), Map::two()] {
            let mut random = Random::new(31);
            let mut missing = expected_pairs();
            for _ in 0..2000 {
                for line in make(&map, &mut random).printed().lines() {
                    missing.remove(line.get(..5).unwrap_or(line));
                }
                if missing.is_empty() {
                    break;
                }
            }
            assert!(
                missing.is_empty(),
                "never printed on {}: {missing:?}",
                map.name
            );
        }
    }

    /// What comes out in a run: the tokens asked for by transitions, with the
    /// codes; the codes of writes to key states that hold something.
    #[derive(Default)]
    struct Seen {
        tokens: Vec<(Token, u8)>,
        key_states: Vec<u8>,
    }

    impl Seen {
        fn carry_out(&mut self, run: &Run) {
            let bytes = |file: &Option<Vec<u8>>| file.clone().unwrap_or_default();
            let (image, constants) = (bytes(&run.image), bytes(&run.constants));
            let words = bench::words_of_file;
            let map = Map::of_image(image.len());
            let mut chip = Chip::new(&map, words(&image), words(&constants));
            let mut reader = Reader::new(&run.script);
            while let Next::Record { command, .. } = reader.next() {
                let (asked, held) = (asked(&chip, command), holds_key_state(&chip, command));
                match (command, chip.execute(command).code) {
                    (Command::Transition(..), code @ (0 | 0x23)) => {
                        self.tokens.extend(asked.map(|asked| (asked, code)));
                    }
                    (Command::Write(..), code @ (0 | 4)) if held => self.key_states.push(code),
                    _ => {}
                }
            }
        }
    }

    fn asked(chip: &Chip, command: Command) -> Option<Token> {
        match command {
            Command::Transition(target @ 0..=20, _) => token_between(chip.session.state, target),
            _ => None,
        }
    }

    /// Whether a write is to key states that are not blank.
    fn holds_key_state(chip: &Chip, command: Command) -> bool {
        let Command::Write(address, _) = command else {
            return false;
        };
        let number = chip.map.find(address);
        let partition = number.map(|number| chip.map.partitions[number]);
        partition.is_some_and(|partition| {
            let held = chip.cells.get(partition.granule_words(address));
            let blank = held.unwrap_or(&[]).iter().all(|word| *word == 0);
            partition.takes_more_bits(address) && !blank
        })
    }

    /// In 500 runs about 50, 8, 17 and 6 right ones are usual, and 30 writes of
    /// each sort to key states.
    #[test]
    fn tokens_and_key_states_are_often_right_and_sometimes_wrong() {
        for (map, writes) in [(Map::one(), 0), (Map::two(), 15)] {
            let mut random = Random::new(32);
            let mut seen = Seen::default();
            for _ in 0..500 {
                seen.carry_out(&make(&map, &mut random));
            }
            for (asked, least) in [
                (Token::Raw, 30),
                (Token::TestUnlock, 4),
                (Token::TestExit, 9),
                (Token::Rma, 2),
            ] {
                let tokens = |code| {
                    seen.tokens
                        .iter()
                        .filter(move |pair| **pair == (asked, code))
                };
                let times = |code| tokens(code).count();
                assert!(times(0) >= least, "{} {asked:?} {}", map.name, times(0));
                assert!(times(0x23) >= 1, "{} {asked:?} {}", map.name, times(0x23));
            }
            for code in [0, 4] {
                let codes = seen.key_states.iter();
                let times = codes.filter(|seen| **seen == code).count();
                assert!(times >= writes, "{} {code} {times}", map.name);
            }
        }
    }
}
