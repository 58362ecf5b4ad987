//! What the bench program prints for a script, an image and constants.

use crate::map::Map;
use crate::model::{Answer, Chip};
use crate::script::{Next, Reader};
use std::fs;
use std::io::{self, Read, Write};

pub const IMAGE: &str = "image.bin";
pub const CONSTANTS: &str = "constants.bin";

/// Everything printed, the end line included. The image's length decides the
/// map.
pub fn printed(script: &[u8], image: &[u8], constants: &[u8]) -> String {
    let map = Map::of_image(image.len());
    let mut chip = Chip::new(&map, words_of_file(image), words_of_file(constants));
    let mut reader = Reader::new(script);
    let mut lines = Vec::new();
    loop {
        match reader.next() {
            Next::Record { kind, command } => lines.push(line(kind, chip.execute(command))),
            Next::Refusal { kind, code, place } => {
                lines.push(line(kind, Answer { code, value: place }));
                break;
            }
            Next::End => break,
        }
    }
    lines.push(format!("end {}\n", lines.len()));
    lines.concat()
}

fn line(kind: u8, answer: Answer) -> String {
    format!("{kind:02x} {:02x} {:016x}\n", answer.code, answer.value)
}

/// The words of a file. An odd number of bytes is no number of words, and is
/// held as no words, which is a wrong length too.
pub fn words_of_file(bytes: &[u8]) -> Vec<u16> {
    if bytes.len() % 2 == 1 {
        return Vec::new();
    }
    let pairs = bytes.chunks(2);
    pairs
        .map(|pair| u16::from(pair[1]) << 8 | u16::from(pair[0]))
        .collect()
}

/// The bytes of words in a file.
pub fn file_of_words(words: &[u16]) -> Vec<u8> {
    words
        .iter()
        .flat_map(|word| [*word as u8, (word >> 8) as u8])
        .collect()
}

/// The bench program: script on standard input, files in the current folder.
pub fn run() -> io::Result<()> {
    let mut script = Vec::new();
    io::stdin().read_to_end(&mut script)?;
    let image = fs::read(IMAGE).unwrap_or_default();
    let constants = fs::read(CONSTANTS).unwrap_or_default();
    io::stdout().write_all(printed(&script, &image, &constants).as_bytes())
}

#[cfg(test)]
mod tests {
    use super::*;
    use crate::constants::example;
    use crate::model::Command::{self, PowerUp, Read, Write};
    use crate::script::record;

    const BLANK: [u8; 896] = [0; 896];

    fn script(commands: &[Command]) -> Vec<u8> {
        commands
            .iter()
            .flat_map(|&command| record(command))
            .collect()
    }

    fn on_blank(script: &[u8]) -> String {
        printed(script, &BLANK, &file_of_words(&example()))
    }

    #[test]
    fn the_papers_example() {
        let script = script(&[PowerUp, Write(0, 0x1234_5678), Read(0), Read(0x328)]);
        let expected = "07 00 0000000000000000\n02 00 0000000000000000\n\
                        01 00 0000000012345678\n01 05 0000000000000000\nend 4\n";
        assert_eq!(on_blank(&script), expected);
    }

    #[test]
    fn empty_script() {
        assert_eq!(on_blank(&[]), "end 0\n");
        assert_eq!(printed(&[], &[], &[]), "end 0\n");
    }

    #[test]
    fn cut_records_stop() {
        let expected = "07 00 0000000000000000\n02 13 0000000000000001\nend 2\n";
        assert_eq!(on_blank(&[7, 2]), expected);
        assert_eq!(on_blank(&[7, 2, 0, 0, 0, 0, 0, 0, 0, 0, 0, 0, 0]), expected);
        assert_eq!(on_blank(&[6, 7, 7]), "06 13 0000000000000000\nend 1\n");
    }

    #[test]
    fn unknown_kinds_stop() {
        let expected = "07 00 0000000000000000\nff 11 0000000000000001\nend 2\n";
        assert_eq!(on_blank(&[7, 255, 7]), expected);
        assert_eq!(on_blank(&[0]), "00 11 0000000000000000\nend 1\n");
        assert_eq!(on_blank(&[8, 1]), "08 11 0000000000000000\nend 1\n");
    }

    #[test]
    fn a_target_above_20_does_not_stop() {
        let script = script(&[PowerUp, Command::Transition(21, 0), Read(0)]);
        let expected = "07 00 0000000000000000\n06 11 0000000000000000\n\
                        01 00 0000000000000000\nend 3\n";
        assert_eq!(on_blank(&script), expected);
    }

    #[test]
    fn long_scripts() {
        let expected = "00 14 0000000000000000\nend 1\n";
        assert_eq!(on_blank(&[255; 65_537]), expected);
        // One short of too long: reads, then a cut one.
        let longest = script(&[Read(0); 13_107]);
        let longest = [longest, vec![1]].concat();
        assert_eq!(longest.len(), 65_536);
        let shown = on_blank(&longest);
        assert!(shown.ends_with("01 13 000000000000ffff\nend 13108\n"));
        assert!(shown.starts_with("01 07 0000000000000000\n"));
    }

    #[test]
    fn wrong_lengths() {
        let constants = file_of_words(&example());
        let expected = "07 10 0000000000000000\n01 10 0000000000000000\nend 2\n";
        let script = script(&[PowerUp, Read(0x380)]);
        for length in [0, 1, 2, 894, 895, 897, 898] {
            assert_eq!(printed(&script, &vec![0; length], &constants), expected);
        }
        for length in [0, 263] {
            assert_eq!(printed(&script, &BLANK, &constants[..length]), expected);
        }
        let longer = [constants.clone(), vec![0, 0]].concat();
        assert_eq!(printed(&script, &BLANK, &longer), expected);
        let cut = "01 13 0000000000000000\nend 1\n";
        assert_eq!(printed(&[1], &[], &constants), cut);
    }

    #[test]
    fn invalid_constants() {
        let script = script(&[Read(0), PowerUp]);
        let expected = "01 12 0000000000000000\n07 12 0000000000000000\nend 2\n";
        assert_eq!(printed(&script, &BLANK, &[0; 264]), expected);
        let mut constants = example();
        constants[123] = constants[103];
        assert_eq!(
            printed(&script, &BLANK, &file_of_words(&constants)),
            expected
        );
    }
}
