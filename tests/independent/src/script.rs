//! Scripts: records read one after the other, and records made.

use crate::model::Command;

pub const LONGEST: usize = 65_536;

/// Length of the body by kind; kind 0 is unknown.
const BODY: [usize; 8] = [0, 4, 12, 4, 4, 1, 17, 0];

#[derive(Clone, Copy, PartialEq, Debug)]
pub enum Next {
    Record { kind: u8, command: Command },
    Refusal { kind: u8, code: u8, place: u64 },
    End,
}

pub struct Reader<'a> {
    script: &'a [u8],
    place: usize,
}

impl<'a> Reader<'a> {
    pub fn new(script: &'a [u8]) -> Reader<'a> {
        Reader { script, place: 0 }
    }

    /// The next record. Only a record moves the place.
    pub fn next(&mut self) -> Next {
        if self.script.len() > LONGEST {
            return Next::Refusal {
                kind: 0,
                code: 0x14,
                place: 0,
            };
        }
        let rest = self.script.get(self.place..).unwrap_or(&[]);
        let Some((&kind, after)) = rest.split_first() else {
            return Next::End;
        };
        let place = self.place as u64;
        if !(1..=7).contains(&kind) {
            return Next::Refusal {
                kind,
                code: 0x11,
                place,
            };
        }
        let length = BODY[usize::from(kind)];
        let Some(body) = after.get(..length) else {
            return Next::Refusal {
                kind,
                code: 0x13,
                place,
            };
        };
        self.place += 1 + length;
        Next::Record {
            kind,
            command: command(kind, body),
        }
    }
}

/// The command of a whole record of a known kind.
fn command(kind: u8, body: &[u8]) -> Command {
    let address = || little_endian(&body[..4]) as u32;
    match kind {
        1 => Command::Read(address()),
        2 => Command::Write(address(), little_endian(&body[4..]) as u64),
        3 => Command::FrontRead(address()),
        4 => Command::Digest(address()),
        5 => Command::ReadLock(body[0]),
        6 => Command::Transition(body[0], little_endian(&body[1..])),
        _ => Command::PowerUp,
    }
}

fn little_endian(bytes: &[u8]) -> u128 {
    bytes
        .iter()
        .rev()
        .fold(0, |sum, &byte| sum << 8 | u128::from(byte))
}

/// The record of a command.
pub fn record(command: Command) -> Vec<u8> {
    let (kind, body) = match command {
        Command::Read(address) => (1, address.to_le_bytes().to_vec()),
        Command::Write(address, data) => {
            let parts = [&address.to_le_bytes()[..], &data.to_le_bytes()[..]];
            (2, parts.concat())
        }
        Command::FrontRead(address) => (3, address.to_le_bytes().to_vec()),
        Command::Digest(address) => (4, address.to_le_bytes().to_vec()),
        Command::ReadLock(partition) => (5, vec![partition]),
        Command::Transition(target, token) => {
            let parts = [&[target][..], &token.to_le_bytes()[..]];
            (6, parts.concat())
        }
        Command::PowerUp => (7, Vec::new()),
    };
    [vec![kind], body].concat()
}

#[cfg(test)]
mod tests {
    use super::*;

    const ONE_OF_EACH: [Command; 7] = [
        Command::Read(0x0102_0304),
        Command::Write(0x328, 0x1122_3344_5566_7788),
        Command::FrontRead(u32::MAX),
        Command::Digest(0x250),
        Command::ReadLock(9),
        Command::Transition(20, 0x0011_2233_4455_6677_8899_aabb_ccdd_eeff),
        Command::PowerUp,
    ];

    #[test]
    fn records_read_back() {
        let script: Vec<u8> = ONE_OF_EACH.iter().flat_map(|&c| record(c)).collect();
        assert_eq!(script.len(), 5 + 13 + 5 + 5 + 2 + 18 + 1);
        let mut reader = Reader::new(&script);
        for (i, command) in ONE_OF_EACH.into_iter().enumerate() {
            assert_eq!(
                reader.next(),
                Next::Record {
                    kind: i as u8 + 1,
                    command
                }
            );
        }
        assert_eq!(reader.next(), Next::End);
        assert_eq!(reader.next(), Next::End);
    }

    #[test]
    fn bytes_of_a_write() {
        let bytes = [2, 4, 3, 2, 1, 8, 7, 6, 5, 4, 3, 2, 1];
        let command = Command::Write(0x0102_0304, 0x0102_0304_0506_0708);
        assert_eq!(
            Reader::new(&bytes).next(),
            Next::Record { kind: 2, command }
        );
        assert_eq!(record(command), bytes);
    }

    #[test]
    fn every_cut_is_refused_and_moves_nothing() {
        for command in ONE_OF_EACH {
            let whole = record(command);
            for length in 1..whole.len() {
                let script = [&[7][..], &whole[..length]].concat();
                let mut reader = Reader::new(&script);
                reader.next();
                let refusal = Next::Refusal {
                    kind: whole[0],
                    code: 0x13,
                    place: 1,
                };
                assert_eq!(reader.next(), refusal);
                assert_eq!(reader.next(), refusal);
            }
        }
    }

    #[test]
    fn unknown_kinds() {
        for kind in [0, 8, 9, 255] {
            let script = [7, 7, kind, 7];
            let mut reader = Reader::new(&script);
            reader.next();
            reader.next();
            assert_eq!(
                reader.next(),
                Next::Refusal {
                    kind,
                    code: 0x11,
                    place: 2
                }
            );
        }
    }

    #[test]
    fn length_comes_first() {
        let script = vec![7; LONGEST + 1];
        let refusal = Next::Refusal {
            kind: 0,
            code: 0x14,
            place: 0,
        };
        assert_eq!(Reader::new(&script).next(), refusal);
        let command = Command::PowerUp;
        assert_eq!(
            Reader::new(&script[1..]).next(),
            Next::Record { kind: 7, command }
        );
    }
}
