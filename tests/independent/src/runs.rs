//! Runs a bench program on random scripts and files, each in a fresh folder,
//! and compares what it prints and what it leaves behind.

use crate::bench::{CONSTANTS, IMAGE};
use crate::child;
use crate::map::Map;
use crate::random::Random;
use crate::scenarios::{self, Run};
use crate::sweeps::{self, Share};
use std::collections::BTreeMap;
use std::fs;
use std::path::{Path, PathBuf};

/// Differing runs shown and kept.
const SHOWN: u64 = 5;

/// Compares the sweeps and `count` random runs. True when all agree.
pub fn compare(program: &str, count: u64, random: &mut Random) -> Result<bool, String> {
    // The runs have other folders, so a path must not depend on this one.
    let program = fs::canonicalize(program).map_err(|error| format!("{program}: {error}"))?;
    let base = std::env::temp_dir().join(format!("independent-{}", std::process::id()));
    let maps = [Map::one(), Map::two()];
    let mut codes: BTreeMap<String, u64> = BTreeMap::new();
    let mut tally = Tally::default();
    let mut differences = 0;
    let mut sweeps = sweeps(&maps, random).into_iter();
    let swept = sweeps.len() as u64;
    for number in 0..swept + count {
        let run = sweeps
            .next()
            .unwrap_or_else(|| scenarios::make(tally.fewest(&maps), random));
        let expected = run.printed();
        let folder = base.join(number.to_string());
        let faults = try_run(&program, &folder, &run, &expected)?;
        count_codes(&expected, &mut codes);
        tally.add(&run);
        differences += u64::from(!faults.is_empty());
        if faults.is_empty() || differences > SHOWN {
            fs::remove_dir_all(&folder).map_err(|error| error.to_string())?;
        } else {
            show(number, &folder, &run, &expected, &faults)?;
        }
    }
    if differences == 0 {
        fs::remove_dir_all(&base).map_err(|error| error.to_string())?;
    }
    println!(
        "{swept} swept and {count} random runs, {}, {}",
        tally.told(&maps),
        summary(differences, &codes)
    );
    Ok(differences == 0)
}

/// The sweeps of both maps, one map's after the other's.
fn sweeps(maps: &[Map; 2], random: &mut Random) -> Vec<Run> {
    let shares = maps.iter().zip(Share::BOTH);
    shares
        .flat_map(|(map, share)| sweeps::runs(map, share, random))
        .collect()
}

/// How many runs there were for each map, by its name.
#[derive(Default)]
struct Tally {
    runs: BTreeMap<&'static str, u64>,
}

impl Tally {
    fn add(&mut self, run: &Run) {
        *self.runs.entry(run.map).or_insert(0) += 1;
    }

    fn of(&self, map: &Map) -> u64 {
        self.runs.get(map.name).copied().unwrap_or(0)
    }

    /// The map that fewest runs were for, so that each map has its half.
    fn fewest<'a>(&self, maps: &'a [Map; 2]) -> &'a Map {
        match self.of(&maps[0]) <= self.of(&maps[1]) {
            true => &maps[0],
            false => &maps[1],
        }
    }

    fn told(&self, maps: &[Map; 2]) -> String {
        let part = |map: &Map| format!("{} for {}", self.of(map), map.name);
        maps.iter().map(part).collect::<Vec<String>>().join(", ")
    }
}

fn summary(differences: u64, codes: &BTreeMap<String, u64>) -> String {
    let verdict = match differences {
        0 => "agree".to_string(),
        some => format!("differences {some}"),
    };
    let part = |(code, lines): (&String, &u64)| format!("{code} {lines}");
    let parts: Vec<String> = codes.iter().map(part).collect();
    format!("{verdict}; lines by code: {}", parts.join(", "))
}

/// What is wrong with a run, if anything.
fn try_run(
    program: &Path,
    folder: &Path,
    run: &Run,
    expected: &str,
) -> Result<Vec<String>, String> {
    lay_files(folder, run).map_err(|error| error.to_string())?;
    let outcome = child::run(program, folder, run.script.clone(), expected.len())?;
    let mut faults = Vec::new();
    if outcome.output != expected.as_bytes() {
        faults.push(first_difference(expected, &outcome.output));
    }
    if !outcome.ended_well {
        faults.push("it did not end with status 0".to_string());
    }
    for (name, before) in [(IMAGE, &run.image), (CONSTANTS, &run.constants)] {
        if fs::read(folder.join(name)).ok() != *before {
            faults.push(format!("{name} is not as it was"));
        }
    }
    let files = fs::read_dir(folder)
        .map_err(|error| error.to_string())?
        .count();
    let laid = usize::from(run.image.is_some()) + usize::from(run.constants.is_some());
    if files > laid {
        faults.push("it left another file".to_string());
    }
    Ok(faults)
}

/// Puts a run's image and constants into a folder of their own.
pub fn lay_files(folder: &Path, run: &Run) -> std::io::Result<()> {
    fs::create_dir_all(folder)?;
    for (name, bytes) in [(IMAGE, &run.image), (CONSTANTS, &run.constants)] {
        if let Some(bytes) = bytes {
            fs::write(folder.join(name), bytes)?;
        }
    }
    Ok(())
}

/// The first line that differs, as expected and as printed.
fn first_difference(expected: &str, output: &[u8]) -> String {
    let output = String::from_utf8_lossy(output);
    let mut wanted = expected.split('\n');
    let mut printed = output.split('\n');
    for line in 1.. {
        let (want, got) = (wanted.next(), printed.next());
        if want != got {
            let (want, got) = (want.unwrap_or("nothing"), got.unwrap_or("nothing"));
            return format!("line {line}: expected {want:?}, printed {got:?}");
        }
    }
    unreachable!()
}

/// Prints the faults and keeps the run's inputs in its folder.
fn show(
    number: u64,
    folder: &Path,
    run: &Run,
    expected: &str,
    faults: &[String],
) -> Result<(), String> {
    let kept: [(PathBuf, &[u8]); 2] = [
        (folder.join("script.bin"), &run.script),
        (folder.join("expected.txt"), expected.as_bytes()),
    ];
    println!("run {number} for {}, kept in {}", run.map, folder.display());
    for fault in faults {
        println!("  {fault}");
    }
    lay_files(folder, run).map_err(|error| error.to_string())?;
    for (path, bytes) in kept {
        fs::write(path, bytes).map_err(|error| error.to_string())?;
    }
    Ok(())
}

fn count_codes(printed: &str, codes: &mut BTreeMap<String, u64>) {
    for line in printed.lines().filter(|line| !line.starts_with("end")) {
        *codes.entry(line[3..5].to_string()).or_insert(0) += 1;
    }
}

#[cfg(test)]
mod tests {
    use super::*;

    #[test]
    fn half_of_the_runs_are_for_each_map() {
        let (maps, mut random) = ([Map::one(), Map::two()], Random::new(61));
        let mut tally = Tally::default();
        for run in sweeps(&maps, &mut random) {
            tally.add(&run);
        }
        let apart = tally.of(&maps[0]).abs_diff(tally.of(&maps[1]));
        assert!(
            tally.of(&maps[0]) > 900 && apart < 100,
            "{}",
            tally.told(&maps)
        );
        for _ in 0..apart {
            tally.add(&scenarios::make(tally.fewest(&maps), &mut random));
        }
        assert_eq!(tally.of(&maps[0]), tally.of(&maps[1]));
    }
}
