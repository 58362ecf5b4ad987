//! Independent test program: compares a proved program with a second one,
//! written from the rules alone by other means.

mod bench;
#[cfg(test)]
mod case_steps;
mod cases;
mod child;
mod chips;
mod compare;
mod constants;
mod cshake;
mod digest;
mod frames;
mod hash_inputs;
mod inputs;
mod keccak;
mod life_cycle;
#[cfg(test)]
mod life_cycle_cases;
mod machines;
mod map;
#[cfg(test)]
mod map_2_cases;
#[cfg(test)]
mod map_2_rules;
mod model;
mod power_up;
mod present;
mod random;
mod random_commands;
mod raw_tokens;
mod runs;
mod scenarios;
mod script;
mod speed;
mod steps;
mod sweeps;
#[cfg(test)]
mod the_cases;
mod token;
mod transition;
mod twin;
mod twin_token;
mod words;

use random::Random;
use std::path::Path;
use std::process::ExitCode;

const USAGE: &str = "usage:
  independent compare PROGRAM [COUNT] [SEED]
  independent speed [PROGRAM..]
  independent speed-power-up PROGRAM..
  independent compare-runs PROGRAM [COUNT] [SEED]
  independent compare-steps PROGRAM [COUNT] [SEED]
  independent frames COUNT [SEED]
  independent steps
  independent hash TOKEN
  independent bench";

const CASES: u64 = 24_000;
const RUNS: u64 = 2_100;
const STEPS: u64 = 40_000;
const SEED: u64 = 20_260;

fn main() -> ExitCode {
    let arguments: Vec<String> = std::env::args().skip(1).collect();
    match perform(&arguments) {
        Ok(true) => ExitCode::SUCCESS,
        Ok(false) => ExitCode::from(1),
        Err(message) => {
            eprintln!("{message}");
            ExitCode::from(2)
        }
    }
}

/// True when all agrees.
fn perform(arguments: &[String]) -> Result<bool, String> {
    let command = arguments.first().map(String::as_str);
    match (command, arguments.len()) {
        (Some("compare"), 2..=4) => {
            let count = number(arguments.get(2), CASES)?;
            let seed = number(arguments.get(3), SEED)?;
            println!("seed {seed}");
            let cases = inputs::make(count as usize, &mut Random::new(seed));
            compare::compare(Path::new(&arguments[1]), &cases)
        }
        (Some("speed"), 1..) => {
            let programs = &arguments[1..];
            Ok(speed::encryptions(programs)? & speed::token_hashes(programs)?)
        }
        (Some("speed-power-up"), 2..) => speed::power_ups(&arguments[1..]),
        (Some("compare-runs"), 2..=4) => {
            let count = number(arguments.get(2), RUNS)?;
            let seed = number(arguments.get(3), SEED)?;
            println!("seed {seed}");
            runs::compare(&arguments[1], count, &mut Random::new(seed))
        }
        (Some("compare-steps"), 2..=4) => {
            let count = number(arguments.get(2), STEPS)?;
            let seed = number(arguments.get(3), SEED)?;
            println!("seed {seed}");
            steps::compare(Path::new(&arguments[1]), count, &mut Random::new(seed))
        }
        (Some("frames"), 2..=3) => {
            let count = number(arguments.get(1), 0)?;
            let seed = number(arguments.get(2), SEED)?;
            match machines::write(count, &mut Random::new(seed)) {
                Ok(()) => Ok(true),
                Err(error) => Err(error.to_string()),
            }
        }
        (Some("steps"), 1) => match frames::run() {
            Ok(()) => Ok(true),
            Err(error) => Err(error.to_string()),
        },
        (Some("hash"), 2) => {
            println!("{:032x}", token::hash(token::given(&arguments[1])?));
            Ok(true)
        }
        (Some("bench"), 1) => match bench::run() {
            Ok(()) => Ok(true),
            Err(error) => Err(error.to_string()),
        },
        _ => Err(USAGE.to_string()),
    }
}

/// A number given as an argument, or what stands for it.
fn number(argument: Option<&String>, otherwise: u64) -> Result<u64, String> {
    match argument {
        None => Ok(otherwise),
        Some(text) => text
            .parse()
            .map_err(|_| format!("{text}: not a number\n{USAGE}")),
    }
}
