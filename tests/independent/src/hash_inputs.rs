//! The making of cases for cSHAKE128, its permutation and token hashes.

use crate::cases::{Case, CSHAKE, PERMUTATION, TOKEN};
use crate::inputs::scribbled;
use crate::random::Random;

/// Lengths in bytes: about whole lanes, and about one, two and three times the
/// bytes that a permutation takes in, with a suffix and without.
const MESSAGES: [u64; 22] = [
    0, 1, 7, 8, 9, 135, 136, 137, 166, 167, 168, 169, 170, 335, 336, 337, 338, 503, 504, 505, 1023,
    1024,
];
const OUTPUTS: [u64; 14] = [0, 1, 16, 32, 95, 96, 97, 167, 168, 169, 170, 336, 337, 1024];
/// From 32 bytes on a length in bits has two bytes; about 160 the strings fill
/// the padded prefix.
const STRINGS: [u64; 13] = [0, 1, 7, 31, 32, 33, 96, 160, 161, 162, 163, 164, 192];

/// The edges, each at least once.
pub fn sweep(cases: &mut Vec<Case>, random: &mut Random) {
    for n in MESSAGES {
        for m in OUTPUTS {
            for (a, b) in [(0, 0), (0, 7), random_strings(random)] {
                cases.push(cshake(a, b, n, m, random));
            }
        }
    }
    for a in STRINGS {
        for b in STRINGS {
            let n = random.choose(&MESSAGES);
            cases.push(cshake(a, b, n, 32, random));
        }
    }
    for more in [193, 1025, 1 << 32, u64::MAX] {
        cases.push(cshake(more, 5, 9, 32, random));
        cases.push(cshake(0, more, 9, 32, random));
        cases.push(cshake(0, 7, more, 32, random));
        cases.push(cshake(0, 7, 9, more, random));
    }
    sweep_permutation(cases, random);
    sweep_token(cases, random);
}

fn random_strings(random: &mut Random) -> (u64, u64) {
    match random.one_in(2) {
        true => (random.choose(&STRINGS), random.choose(&STRINGS)),
        false => (random.below(40), random.below(200)),
    }
}

fn cshake(a: u64, b: u64, n: u64, m: u64, random: &mut Random) -> Case {
    let mut case = Case {
        operation: CSHAKE,
        a,
        b,
        n,
        m,
        ..scribbled(random)
    };
    match random.below(12) {
        0 => case.words.fill(0),
        1 => case.words.fill(0xffff),
        _ => {}
    }
    case
}

/// Each count from each lane, then single bits of the state.
fn sweep_permutation(cases: &mut Vec<Case>, random: &mut Random) {
    for b in (0..=15).chain([1 << 32, u64::MAX]) {
        for n in [0, 1, 2, 24, 63, 64, 65, u64::MAX] {
            let scribbled = scribbled(random);
            cases.push(permutation(b, n, &scribbled));
        }
    }
    for lane in 0..25 {
        for bit in [0, 1, 31, 32, 63] {
            let mut case = Case::blank(PERMUTATION);
            match lane {
                24 => case.a = 1 << bit,
                _ => case.words[4 * lane + bit / 16] = 1 << (bit % 16),
            }
            cases.push(permutation(0, 1, &case));
            cases.push(permutation(13, 1, &case));
        }
    }
}

fn permutation(b: u64, n: u64, state: &Case) -> Case {
    Case {
        operation: PERMUTATION,
        b,
        n,
        ..state.clone()
    }
}

/// Each count on edges of a token, then each of its bits.
fn sweep_token(cases: &mut Vec<Case>, random: &mut Random) {
    for n in 0..=4 {
        for a in [0, 1, u64::MAX, 0x0123_4567_89ab_cdef] {
            for b in [0, 1, u64::MAX, 0x0123_4567_89ab_cdef] {
                cases.push(token(a, b, n, random));
            }
        }
    }
    for bit in 0..64 {
        cases.push(token(1 << bit, 0, 1, random));
        cases.push(token(0, 1 << bit, 1, random));
    }
}

fn token(a: u64, b: u64, n: u64, random: &mut Random) -> Case {
    Case {
        operation: TOKEN,
        a,
        b,
        n,
        ..scribbled(random)
    }
}

/// A random case of one of the three operations.
pub fn random_case(operation: u64, random: &mut Random) -> Case {
    let scribbled = scribbled(random);
    match operation {
        CSHAKE => {
            let (a, b) = random_strings(random);
            let n = random_length(&MESSAGES, random);
            let m = random_length(&OUTPUTS, random);
            cshake(a, b, n, m, random)
        }
        PERMUTATION => {
            let most = random.choose(&[2, 4, 4, 8, 25, 66]);
            permutation(random.below(15), random.below(most), &scribbled)
        }
        _ => token(scribbled.a, scribbled.b, random.below(5), random),
    }
}

fn random_length(edges: &[u64], random: &mut Random) -> u64 {
    match random.below(4) {
        0 => random.choose(edges),
        1 => random.below(40),
        2 => random.below(400),
        _ => random.below(1026),
    }
}

#[cfg(test)]
mod tests {
    use super::*;
    use crate::inputs::make;

    #[test]
    fn some_thousands_of_cases_hash() {
        let cases = make(24_000, &mut Random::new(61));
        for operation in [CSHAKE, PERMUTATION, TOKEN] {
            let count = cases.iter().filter(|case| case.operation == operation);
            assert!(count.count() > 1500, "{operation}");
        }
    }

    #[test]
    fn every_length_is_hit_with_and_without_strings() {
        let mut cases = Vec::new();
        sweep(&mut cases, &mut Random::new(62));
        let hit = |a: u64, b: u64, n: u64, m: u64| {
            let same = |case: &&Case| (case.a, case.b, case.n, case.m) == (a, b, n, m);
            cases
                .iter()
                .any(|case| same(&case) && case.operation == CSHAKE)
        };
        for n in MESSAGES {
            for m in OUTPUTS {
                assert!(hit(0, 0, n, m) && hit(0, 7, n, m), "{n} {m}");
            }
        }
        for a in STRINGS {
            for b in STRINGS {
                let same = |case: &Case| (case.a, case.b, case.m) == (a, b, 32);
                assert!(cases.iter().any(same), "{a} {b}");
            }
        }
    }

    #[test]
    fn no_case_hashes_a_token_more_than_four_times() {
        let cases = make(24_000, &mut Random::new(63));
        let most = cases
            .iter()
            .filter(|case| case.operation == TOKEN)
            .map(|case| case.n)
            .max();
        assert_eq!(most, Some(4));
    }
}
