//! Speeds of proved programs, all in one run: encryptions a second, key
//! schedule included, and the time of a token's hash, beside the twins', and
//! the time of a power-up.

use crate::cases::{Case, ANSWER_BYTES, CHAIN, TOKEN};
use crate::map::Map;
use crate::model::Chip;
use crate::random::Random;
use crate::raw_tokens::RawTokens;
use crate::scenarios::Run;
use crate::{child, chips, runs, twin, twin_token};
use std::fs;
use std::hint::black_box;
use std::path::Path;
use std::time::{Duration, Instant};

/// Each time is the best of so many.
const TRIES: usize = 5;

const ENCRYPTIONS: u64 = 500_000;
const HASHES: u64 = 100_000;
const POWER_UPS: u64 = 10_000;

const KEY: (u64, u64) = (0x0123_4567_89ab_cdef, 0xfedc_ba98_7654_3210);
const BLOCK: u64 = 0x0f1e_2d3c_4b5a_6978;

/// What is measured: a name, and a way to do the work a number of times that
/// gives its result.
struct Runner<'a> {
    name: &'a str,
    work: Box<dyn Fn(u64) -> Result<Vec<u8>, String> + 'a>,
}

/// Prints the encryptions a second of programs and twins. False when results
/// differ.
pub fn encryptions(programs: &[String]) -> Result<bool, String> {
    let table = twin::table();
    let by_table = |state| twin::looked_up(&table, state);
    let mut runners = vec![
        Runner::new("twin by table", |n| Ok(twin_chain(by_table, n))),
        Runner::new("twin, plain rounds", |n| Ok(twin_chain(twin::plain, n))),
    ];
    for program in programs {
        runners.push(Runner::new(program, |n| program_chain(program, n)));
    }
    let Some(times) = best_times(&runners, ENCRYPTIONS)? else {
        return Ok(false);
    };
    for (runner, time) in runners.iter().zip(&times) {
        let rate = ENCRYPTIONS as f64 / time.as_secs_f64();
        let ratio = time.as_secs_f64() / times[0].as_secs_f64();
        println!(
            "{rate:>9.0} encryptions a second, {ratio:.2} times as long as by table: {}",
            runner.name
        );
    }
    Ok(true)
}

/// Prints the time of a token's hash, of programs and of the twin. A program
/// that has no such operation is named and left out. False when results differ.
pub fn token_hashes(programs: &[String]) -> Result<bool, String> {
    let mut runners = vec![Runner::new("twin", |n| Ok(twin_hashes(n)))];
    for program in programs {
        // A program without this operation answers zeros.
        match program_hashes(program, 1)? == [0; 16] {
            true => println!("     no token hashes: {program}"),
            false => runners.push(Runner::new(program, |n| program_hashes(program, n))),
        }
    }
    let Some(times) = best_times(&runners, HASHES)? else {
        return Ok(false);
    };
    for (runner, time) in runners.iter().zip(&times) {
        let each = time.as_secs_f64() * 1e9 / HASHES as f64;
        let ratio = time.as_secs_f64() / times[0].as_secs_f64();
        println!(
            "{each:>9.0} nanoseconds a token hash, {ratio:.2} times as long as the twin: {}",
            runner.name
        );
    }
    Ok(true)
}

/// Prints the time of a power-up on bench programs, for each map of a blank
/// chip and of one that is fully locked. A program that does not know a map is
/// named and left out there. False when what they print differs.
pub fn power_ups(programs: &[String]) -> Result<bool, String> {
    let mut agree = true;
    for map in [Map::one(), Map::two()] {
        let (blank, locked) = measured_chips(&map);
        for (name, chip) in [("blank", blank), ("fully locked", locked)] {
            agree &= time_power_ups(&format!("{}, {name}", map.name), &chip, programs)?;
        }
    }
    Ok(agree)
}

/// A chip that is blank and one that is fully locked, with the same constants.
fn measured_chips(map: &Map) -> (Chip, Chip) {
    let (mut tokens, mut random) = (RawTokens::new(), Random::new(1));
    let constants = chips::constants(&mut tokens, &mut random);
    let blank = Chip::blank(map, &constants);
    let locked = chips::locked(&blank, &mut tokens, &mut random);
    (blank, locked)
}

fn time_power_ups(name: &str, chip: &Chip, programs: &[String]) -> Result<bool, String> {
    let folder = std::env::temp_dir().join(format!("independent-{}", std::process::id()));
    let failure = |error: std::io::Error| error.to_string();
    runs::lay_files(&folder, &Run::of(&[], chip)).map_err(failure)?;
    let times = best_power_ups(name, &folder, programs);
    fs::remove_dir_all(&folder).map_err(failure)?;
    times
}

fn best_power_ups(name: &str, folder: &Path, programs: &[String]) -> Result<bool, String> {
    let mut runners = Vec::new();
    for program in programs {
        let path = fs::canonicalize(program).map_err(|error| format!("{program}: {error}"))?;
        match knows_the_image(&path, folder)? {
            true => runners.push(Runner::new(program, move |n| powered_up(&path, folder, n))),
            false => println!("     no power-up, {name}: {program}"),
        }
    }
    let times = best_times(&runners, POWER_UPS)?;
    for (runner, time) in runners.iter().zip(times.iter().flatten()) {
        let each = time.as_secs_f64() * 1e6 / POWER_UPS as f64;
        println!(
            "{each:>7.2} microseconds a power-up, {name}: {}",
            runner.name
        );
    }
    Ok(times.is_some())
}

/// Whether a bench program takes the length of the image for a right one.
fn knows_the_image(program: &Path, folder: &Path) -> Result<bool, String> {
    let wrong_length = b"07 10 0000000000000000\nend 1\n";
    let outcome = child::run(program, folder, vec![7], wrong_length.len())?;
    Ok(outcome.output != wrong_length)
}

impl<'a> Runner<'a> {
    fn new(name: &'a str, work: impl Fn(u64) -> Result<Vec<u8>, String> + 'a) -> Runner<'a> {
        Runner {
            name,
            work: Box::new(work),
        }
    }

    fn time(&self, count: u64) -> Result<(Duration, Vec<u8>), String> {
        let begin = Instant::now();
        let result = (self.work)(count)?;
        Ok((begin.elapsed(), result))
    }
}

/// The best time of each runner for `count` times its work, start-up taken
/// off. They take turns, so that a busy machine slows all of them. None when
/// results differ.
fn best_times(runners: &[Runner], count: u64) -> Result<Option<Vec<Duration>>, String> {
    let mut whole = vec![Duration::MAX; runners.len()];
    let mut start_up = whole.clone();
    for _ in 0..TRIES {
        let mut results = Vec::new();
        for (i, runner) in runners.iter().enumerate() {
            let (time, result) = runner.time(count)?;
            let (idle, _) = runner.time(0)?;
            whole[i] = whole[i].min(time);
            start_up[i] = start_up[i].min(idle);
            results.push(result);
        }
        if let Some(i) = results.iter().position(|result| *result != results[0]) {
            println!(
                "results of {} and {} differ",
                runners[0].name, runners[i].name
            );
            return Ok(None);
        }
    }
    let net = |(whole, idle): (&Duration, &Duration)| whole.saturating_sub(*idle);
    Ok(Some(whole.iter().zip(&start_up).map(net).collect()))
}

fn twin_chain(layers: impl Fn(u64) -> u64, count: u64) -> Vec<u8> {
    let result = twin::chain(layers, black_box(KEY), black_box(BLOCK), black_box(count));
    black_box(result).to_le_bytes().to_vec()
}

fn program_chain(program: &str, count: u64) -> Result<Vec<u8>, String> {
    let mut case = Case::blank(CHAIN);
    (case.a, case.b, case.c, case.n) = (KEY.0, KEY.1, BLOCK, count);
    Ok(one_answer(program, &case)?[..8].to_vec())
}

/// The token hashed first: the cipher's key.
fn token() -> u128 {
    u128::from(KEY.0) << 64 | u128::from(KEY.1)
}

fn twin_hashes(count: u64) -> Vec<u8> {
    let result = twin_token::chain(black_box(token()), black_box(count));
    black_box(result).to_le_bytes().to_vec()
}

fn program_hashes(program: &str, count: u64) -> Result<Vec<u8>, String> {
    let mut case = Case::blank(TOKEN);
    (case.a, case.b, case.n) = (KEY.0, KEY.1, count);
    Ok(one_answer(program, &case)?[32..48].to_vec())
}

/// What a program answers to one case.
fn one_answer(program: &str, case: &Case) -> Result<Vec<u8>, String> {
    let folder = Path::new(".");
    let outcome = child::run(Path::new(program), folder, case.bytes(), ANSWER_BYTES)?;
    if outcome.output.len() != ANSWER_BYTES || !outcome.ended_well {
        return Err(format!("{program}: no right answer to one case"));
    }
    Ok(outcome.output)
}

/// What a bench program prints of a script of power-ups.
fn powered_up(program: &Path, folder: &Path, count: u64) -> Result<Vec<u8>, String> {
    let expected = "07 00 0000000000000000\n".repeat(count as usize) + &format!("end {count}\n");
    let outcome = child::run(program, folder, vec![7; count as usize], expected.len())?;
    if outcome.output != expected.as_bytes() || !outcome.ended_well {
        return Err(format!(
            "{}: not {count} power-ups that are done",
            program.display()
        ));
    }
    Ok(outcome.output)
}

#[cfg(test)]
mod tests {
    use super::*;
    use crate::model::Command;

    #[test]
    fn the_locked_chip_is_fully_locked() {
        for map in [Map::one(), Map::two()] {
            let (mut blank, mut locked) = measured_chips(&map);
            assert_eq!(blank.execute(Command::PowerUp).code, 0);
            assert_eq!(locked.execute(Command::PowerUp).code, 0);
            let (life_cycle, digests) = locked.session.digests.split_last().unwrap();
            assert!(digests.iter().all(|digest| *digest != 0));
            assert_eq!(*life_cycle, 0);
            assert_eq!(blank.session.digests, vec![0; digests.len() + 1]);
        }
    }

    #[test]
    fn results_that_differ_are_told() {
        let one = || Runner::new("one", |n| Ok(vec![n as u8]));
        let two = Runner::new("two", |n| Ok(vec![n as u8 + 1]));
        assert!(best_times(&[one(), one()], 7).unwrap().is_some());
        assert!(best_times(&[one(), two], 7).unwrap().is_none());
    }
}
