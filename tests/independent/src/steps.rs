//! Puts frames of random machines to a proved program, compares every byte
//! that it gives back, and asks that every answer of every command occurs.

use crate::child;
use crate::frames::{self, BYTES, CODE};
use crate::machines::Machines;
use crate::random::Random;
use std::collections::BTreeMap;
use std::path::Path;

/// Frames in one run of the program.
const AT_ONCE: u64 = 2_000;

/// Differing frames shown.
const SHOWN: u64 = 5;

/// The codes that each kind of record can have on some machine. Any other kind
/// is unknown.
const ANSWERS: [(&str, &[u8]); 8] = [
    ("unknown", &[0x11]),
    ("read", &[0x00, 0x05, 0x07, 0x10, 0x12]),
    ("write", &[0x00, 0x04, 0x05, 0x07, 0x10, 0x12]),
    ("front read", &[0x00, 0x05, 0x07, 0x10, 0x12]),
    ("digest", &[0x00, 0x04, 0x05, 0x07, 0x10, 0x12]),
    ("read lock", &[0x00, 0x05, 0x07, 0x10, 0x12]),
    (
        "transition",
        &[0x00, 0x04, 0x07, 0x10, 0x11, 0x12, 0x20, 0x21, 0x22, 0x23],
    ),
    ("power-up", &[0x00, 0x06, 0x07, 0x10, 0x12]),
];

/// How often each code was expected, by map and kind.
#[derive(Default)]
struct Tally {
    times: BTreeMap<(&'static str, usize, u8), u64>,
}

impl Tally {
    fn add(&mut self, frame: &[u8], expected: &[u8]) {
        let map = frames::map_in(frame).name;
        let key = (map, kind_of(frame), expected[CODE]);
        *self.times.entry(key).or_insert(0) += 1;
    }

    /// What should occur on a map and does not, or the other way round.
    fn faults(&self) -> Vec<String> {
        let mut faults = Vec::new();
        for map in ["Map 1", "Map 2"] {
            for (kind, (name, codes)) in ANSWERS.into_iter().enumerate() {
                for code in 0..=u8::MAX {
                    let seen = self.times.contains_key(&(map, kind, code));
                    if seen != codes.contains(&code) {
                        let told = if seen {
                            "should not occur"
                        } else {
                            "never occurred"
                        };
                        faults.push(format!("{map}: {name} with {code:02x} {told}"));
                    }
                }
            }
        }
        faults
    }

    fn told(&self) -> String {
        let mut lines = Vec::new();
        for (kind, (name, codes)) in ANSWERS.into_iter().enumerate() {
            let times = |code: u8| -> u64 {
                let keys = ["Map 1", "Map 2"].map(|map| (map, kind, code));
                keys.iter().filter_map(|key| self.times.get(key)).sum()
            };
            let part = |code: &u8| format!("{code:02x} {}", times(*code));
            let parts: Vec<String> = codes.iter().map(part).collect();
            lines.push(format!("  {name}: {}\n", parts.join(", ")));
        }
        lines.concat()
    }
}

/// The row of a frame's record in the table above.
fn kind_of(frame: &[u8]) -> usize {
    match usize::from(frame[CODE]) {
        kind @ 1..=7 => kind,
        _ => 0,
    }
}

/// Compares `count` steps. True when all agree and all answers occur.
pub fn compare(program: &Path, count: u64, random: &mut Random) -> Result<bool, String> {
    let mut machines = Machines::new(random);
    let mut tally = Tally::default();
    let mut differences = 0;
    let mut done = 0;
    while done < count {
        let frames: Vec<Vec<u8>> = (done..count.min(done + AT_ONCE))
            .map(|_| machines.frame(random))
            .collect();
        let expected: Vec<Vec<u8>> = frames.iter().map(|frame| frames::after(frame)).collect();
        for (frame, expected) in frames.iter().zip(&expected) {
            tally.add(frame, expected);
        }
        let output = answered(program, &frames, random)?;
        for (i, got) in differing(&expected, &output) {
            differences += 1;
            if differences <= SHOWN {
                show(done + i as u64, &frames[i], &expected[i], got);
            }
        }
        done += frames.len() as u64;
    }
    let faults = tally.faults();
    for fault in &faults {
        println!("{fault}");
    }
    let verdict = match differences {
        0 => "agree".to_string(),
        some => format!("differences {some}"),
    };
    print!(
        "{count} steps, {verdict}; by command and code:\n{}",
        tally.told()
    );
    Ok(differences == 0 && faults.is_empty())
}

/// The frames that are not as expected, by their places.
fn differing<'a>(expected: &[Vec<u8>], output: &'a [u8]) -> Vec<(usize, &'a [u8])> {
    let pairs = expected.iter().zip(output.chunks(BYTES)).enumerate();
    pairs
        .filter(|(_, (wanted, got))| wanted != got)
        .map(|(i, (_, got))| (i, got))
        .collect()
}

/// What the program writes for frames; a cut one follows, which ends it.
fn answered(program: &Path, frames: &[Vec<u8>], random: &mut Random) -> Result<Vec<u8>, String> {
    let mut input = frames.concat();
    let wanted = input.len();
    let cut = random.below(BYTES as u64) as usize;
    input.extend((0..cut).map(|_| random.next() as u8));
    let outcome = child::run(program, Path::new("."), input, wanted)?;
    match (outcome.output.len() == wanted, outcome.ended_well) {
        (true, true) => Ok(outcome.output),
        (length, status) => Err(format!(
            "{}: wrote {} bytes for {} frames, as many as it should: {length}; ended with status 0: {status}",
            program.display(),
            outcome.output.len(),
            frames.len(),
        )),
    }
}

/// The record, the answers and the first byte that differs.
fn show(place: u64, frame: &[u8], expected: &[u8], got: &[u8]) {
    let byte = (0..BYTES)
        .find(|&i| expected.get(i) != got.get(i))
        .unwrap_or(BYTES);
    let (want, have) = (expected.get(byte), got.get(byte));
    println!(
        "frame {place}, {}, {}",
        frames::map_in(frame).name,
        ANSWERS[kind_of(frame)].0
    );
    println!("  record   {:02x?}", &frame[frames::RECORD]);
    println!("  expected {:02x?}", &expected[frames::RECORD]);
    println!("  answered {:02x?}", got.get(frames::RECORD).unwrap_or(&[]));
    println!("  byte {byte}: expected {want:02x?}, found {have:02x?}");
}

#[cfg(test)]
mod tests {
    use super::*;

    fn tally(count: usize) -> Tally {
        let mut random = Random::new(81);
        let mut machines = Machines::new(&mut random);
        let mut tally = Tally::default();
        for _ in 0..count {
            let frame = machines.frame(&mut random);
            tally.add(&frame, &frames::after(&frame));
        }
        tally
    }

    #[test]
    fn every_answer_of_every_command_occurs() {
        let tally = tally(12_000);
        assert_eq!(tally.faults(), Vec::<String>::new());
        assert_eq!(tally.times.values().sum::<u64>(), 12_000);
    }

    #[test]
    fn an_answer_that_is_missing_or_not_allowed_is_a_fault() {
        let mut tally = tally(12_000);
        tally.times.remove(&("Map 2", 6, 0x22));
        tally.times.insert(("Map 1", 7, 0x05), 1);
        let expected = [
            "Map 1: power-up with 05 should not occur",
            "Map 2: transition with 22 never occurred",
        ];
        assert_eq!(tally.faults(), expected);
    }

    #[test]
    fn every_byte_counts() {
        let mut random = Random::new(83);
        let mut machines = Machines::new(&mut random);
        let expected: Vec<Vec<u8>> = (0..3)
            .map(|_| frames::after(&machines.frame(&mut random)))
            .collect();
        assert_eq!(differing(&expected, &expected.concat()), []);
        for byte in 0..3 * BYTES {
            let mut output = expected.concat();
            output[byte] ^= 1;
            let places: Vec<usize> = differing(&expected, &output).iter().map(|d| d.0).collect();
            assert_eq!(places, [byte / BYTES]);
        }
    }

    /// One gives back the cut frame too, the other writes nothing.
    #[test]
    fn programs_that_write_another_number_of_bytes_are_found_out() {
        let compare = |program: &str| compare(Path::new(program), 20, &mut Random::new(82));
        assert!(compare("cat").is_err());
        assert!(compare("true").is_err());
    }
}
