//! Puts the cases to a proved program and compares every byte it answers.

use crate::cases::{Case, ANSWER_BYTES, NAMES};
use crate::child;
use std::path::Path;

/// Differences printed in full.
const SHOWN: usize = 5;

/// Runs `program` on the cases. True when every byte agrees.
pub fn compare(program: &Path, cases: &[Case]) -> Result<bool, String> {
    let input: Vec<u8> = cases.iter().flat_map(Case::bytes).collect();
    let wanted = cases.len() * ANSWER_BYTES;
    let outcome = child::run(program, Path::new("."), input, wanted)?;
    let output = outcome.output;
    let mut differences = 0;
    for (i, case) in cases.iter().enumerate() {
        let expected = case.answer();
        let from = (i * ANSWER_BYTES).min(output.len());
        let to = ((i + 1) * ANSWER_BYTES).min(output.len());
        if output[from..to] != expected[..] {
            differences += 1;
            if differences <= SHOWN {
                show(i, case, &expected, &output[from..to]);
            }
        }
    }
    if output.len() != wanted {
        let more = if output.len() > wanted {
            " or more"
        } else {
            ""
        };
        println!("output: {} bytes{more}, expected {wanted}", output.len());
        differences += 1;
    }
    if !outcome.ended_well {
        println!("the program did not end with status 0");
        differences += 1;
    }
    println!("{}", summary(cases, differences));
    Ok(differences == 0)
}

fn show(place: usize, case: &Case, expected: &[u8], got: &[u8]) {
    println!(
        "case {place}: {} (operation {})",
        case.name(),
        case.operation
    );
    println!("  a {:016x} b {:016x} c {:016x}", case.a, case.b, case.c);
    println!("  n {} m {}", case.n, case.m);
    let words: Vec<u8> = case
        .words
        .iter()
        .flat_map(|word| word.to_be_bytes())
        .collect();
    println!("  words    {}", hex(&words, 2));
    println!("  expected {}", hex(expected, 8));
    println!("  answered {}", hex(got, 8));
}

/// Bytes in hex, in groups.
fn hex(bytes: &[u8], group: usize) -> String {
    let digits = |part: &[u8]| {
        part.iter()
            .map(|byte| format!("{byte:02x}"))
            .collect::<String>()
    };
    bytes
        .chunks(group)
        .map(digits)
        .collect::<Vec<_>>()
        .join(" ")
}

fn summary(cases: &[Case], differences: usize) -> String {
    let mut counts = [0; NAMES.len()];
    for case in cases {
        counts[case.kind()] += 1;
    }
    let verdict = match differences {
        0 => "agree".to_string(),
        some => format!("differences {some}"),
    };
    let parts: Vec<String> = NAMES
        .iter()
        .zip(counts)
        .map(|(name, count)| format!("{name} {count}"))
        .collect();
    format!("{} cases, {verdict}: {}", cases.len(), parts.join(", "))
}
