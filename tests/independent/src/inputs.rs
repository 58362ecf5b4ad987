//! The making of cases: first a sweep over the edges, then random ones.

use crate::cases::{
    Case, CHAIN, CSHAKE, DECRYPT, DIGEST, ENCRYPT, HALF, JOIN, PROGRAM, SPLIT, TOKEN, WORDS,
};
use crate::hash_inputs;
use crate::random::Random;

/// `count` cases: the sweep, cut if it is longer, and random cases after it.
pub fn make(count: usize, random: &mut Random) -> Vec<Case> {
    let mut cases = sweep(random);
    cases.truncate(count);
    while cases.len() < count {
        cases.push(random_case(random));
    }
    cases
}

/// The edges, each at least once.
fn sweep(random: &mut Random) -> Vec<Case> {
    let mut cases = Vec::new();
    for operation in [0, 11, 12, 255, 257, 266, 1 << 32 | 1, 1 << 63 | 8, u64::MAX] {
        cases.push(Case {
            operation,
            ..scribbled(random)
        });
    }
    sweep_cipher(&mut cases);
    for n in (0..=WORDS as u64 + 2).chain([1 << 32, u64::MAX]) {
        for fill in 0..4 {
            cases.push(digest(n, fill, random));
            cases.push(Case {
                operation: JOIN,
                n,
                ..scribbled(random)
            });
        }
    }
    for bit in 0..64 {
        cases.push(Case {
            operation: SPLIT,
            a: 1 << bit,
            ..scribbled(random)
        });
    }
    for n in 0..=20 {
        cases.push(Case {
            operation: CHAIN,
            n,
            ..scribbled(random)
        });
    }
    sweep_program(&mut cases, random);
    hash_inputs::sweep(&mut cases, random);
    cases
}

/// Zeros, ones and equal halves in key and block, then each single bit.
fn sweep_cipher(cases: &mut Vec<Case>) {
    let edges = [
        0,
        u64::MAX,
        0x0123_4567_0123_4567,
        0x5555_5555_5555_5555,
        1,
        1 << 63,
    ];
    for operation in [ENCRYPT, DECRYPT] {
        for a in edges {
            for b in edges {
                cases.extend(edges.map(|c| cipher(operation, a, b, c)));
            }
        }
        for bit in 0..64 {
            cases.push(cipher(operation, 1 << bit, 0, 0));
            cases.push(cipher(operation, 0, 1 << bit, 0));
            cases.push(cipher(operation, 0, 0, 1 << bit));
        }
    }
}

fn cipher(operation: u64, a: u64, b: u64, c: u64) -> Case {
    let mut case = Case::blank(operation);
    (case.a, case.b, case.c) = (a, b, c);
    case
}

/// Every number of cells at every place about them, with each sort of value,
/// and over cells of which none, one or a few are not blank.
fn sweep_program(cases: &mut Vec<Case>, random: &mut Random) {
    for n in [0, 1, 2, 5, 47, 48, 49, u64::MAX] {
        for m in [0, 1, 2, 4, 47, 48, 49, u64::MAX] {
            for a in places(n, m) {
                for sort in [0, 1, 5] {
                    cases.push(program(a, n, m, sort, random));
                }
                for most in [0, 1, 3] {
                    cases.push(burn(a, n, m, most, random));
                }
            }
        }
    }
}

/// Places at the start, in the middle, at the end, across the end, past it.
fn places(n: u64, m: u64) -> [u64; 12] {
    let (cells, value) = (n.min(HALF as u64), m.min(HALF as u64));
    let last = cells.saturating_sub(value);
    [
        0,
        1,
        last / 2,
        last,
        last + 1,
        cells.saturating_sub(1),
        cells,
        cells + 1,
        1 << 60,
        1 << 63,
        0_u64.wrapping_sub(value),
        u64::MAX,
    ]
}

fn random_case(random: &mut Random) -> Case {
    // Programming has the most edges, and so two shares.
    let operation = random.choose(&[1, 2, 3, 4, 4, 5, 6, 7, 8, 9, 10]);
    match operation {
        CSHAKE..=TOKEN => hash_inputs::random_case(operation, random),
        DIGEST => {
            let (n, fill) = (random.below(WORDS as u64 + 1), random.below(6));
            digest(n, fill, random)
        }
        PROGRAM => random_program(random),
        JOIN => Case {
            operation,
            n: random.below(10),
            ..scribbled(random)
        },
        CHAIN => {
            let most = random.choose(&[4, 16, 16, 64, 300]);
            Case {
                operation,
                n: random.below(most),
                ..scribbled(random)
            }
        }
        _ => Case {
            operation,
            ..scribbled(random)
        },
    }
}

fn random_program(random: &mut Random) -> Case {
    let (n, m) = (random.below(HALF as u64 + 2), random_value_length(random));
    let a = match random.below(8) {
        0..=4 => random.below(n.max(1)),
        5 => random.number(),
        _ => random.choose(&places(n, m)),
    };
    let sort = random.choose(&[0, 1, 1, 2, 3, 4, 5, 5, 5, 5, 6]);
    match random.one_in(2) {
        true => program(a, n, m, sort, random),
        false => burn(a, n, m, random.choose(&[0, 1, 1, 2, 8]), random),
    }
}

fn random_value_length(random: &mut Random) -> u64 {
    if random.one_in(2) {
        random.choose(&[0, 1, 2, 4, 4, 20, 24])
    } else {
        random.below(HALF as u64 + 2)
    }
}

/// A case with something in every field, so that what an operation must not
/// look at is not zero.
pub fn scribbled(random: &mut Random) -> Case {
    let mut case = Case::blank(0);
    case.a = random.number();
    case.b = if random.one_in(8) {
        case.a
    } else {
        random.number()
    };
    case.c = random.number();
    case.n = random.number();
    case.m = random.number();
    case.words.fill_with(|| random.word());
    case
}

fn digest(n: u64, fill: u64, random: &mut Random) -> Case {
    let mut case = Case {
        operation: DIGEST,
        n,
        ..scribbled(random)
    };
    match fill {
        0 => case.words = [0; WORDS],
        1 => case.words = [0xffff; WORDS],
        2 => {
            case.words = [0; WORDS];
            case.words[random.below(WORDS as u64) as usize] = 1 << random.below(16);
        }
        _ => {}
    }
    case
}

/// A programming with stored words drawn at random and a value of a sort:
/// 0 equal, 1 more bits, 2 fewer bits, 3 zeros, 4 ones, 5 more bits but for
/// a few words that lack a stored one, else random.
fn program(a: u64, n: u64, m: u64, sort: u64, random: &mut Random) -> Case {
    let mut case = Case {
        operation: PROGRAM,
        a,
        b: 0,
        n,
        m,
        ..scribbled(random)
    };
    let density = random.below(6);
    for cell in &mut case.words[..HALF] {
        *cell = match density {
            0 => 0,
            1 => 0xffff,
            2 => 1 << random.below(16),
            _ => random.word(),
        };
    }
    let first_lacking = random.below(m.clamp(1, HALF as u64)) as usize;
    for i in 0..HALF {
        let stored = match a.checked_add(i as u64) {
            Some(cell) if cell < n.min(HALF as u64) => case.words[cell as usize],
            _ => random.word(),
        };
        let lacking = i == first_lacking || i > first_lacking && random.one_in(4);
        case.words[HALF + i] = match sort {
            0 => stored,
            5 if lacking => without_one_bit(stored, random),
            1 | 5 => stored | random.word(),
            2 => stored & random.word(),
            3 => 0,
            4 => 0xffff,
            _ => random.word(),
        };
    }
    case
}

/// A burn of random words, some of them zero, over blank cells but for at most
/// `most`.
fn burn(a: u64, n: u64, m: u64, most: u64, random: &mut Random) -> Case {
    let mut case = Case {
        operation: PROGRAM,
        a,
        b: random.choose(&[1, 1, 2, 1 << 32, u64::MAX]),
        n,
        m,
        ..scribbled(random)
    };
    case.words[..HALF].fill(0);
    for _ in 0..most {
        let cell = match random.one_in(4) {
            true => random.below(HALF as u64),
            false => a.wrapping_add(random.below(m.clamp(1, HALF as u64))),
        };
        if let Some(word) = case.words[..HALF].get_mut(cell as usize) {
            *word = 1 << random.below(16);
        }
    }
    for word in &mut case.words[HALF..] {
        if random.one_in(4) {
            *word = 0;
        }
    }
    case
}

/// The word with one of its ones, if it has any, made zero.
fn without_one_bit(word: u16, random: &mut Random) -> u16 {
    let ones: Vec<u16> = (0..16)
        .map(|i| 1 << i)
        .filter(|bit| word & bit != 0)
        .collect();
    if ones.is_empty() {
        word
    } else {
        word & !random.choose(&ones)
    }
}

#[cfg(test)]
mod tests {
    use super::*;
    use crate::cases::NAMES;

    #[test]
    fn every_operation_and_length_is_hit() {
        let cases = make(24_000, &mut Random::new(3));
        assert_eq!(cases.len(), 24_000);
        for kind in 0..NAMES.len() {
            assert!(cases.iter().any(|case| case.kind() == kind));
        }
        for n in 0..=96 {
            assert!(cases
                .iter()
                .any(|case| case.operation == DIGEST && case.n == n));
        }
    }

    #[test]
    fn programming_is_done_and_refused_at_many_cells() {
        let cases = make(24_000, &mut Random::new(4));
        for burns in [false, true] {
            let by_rule = |case: &&Case| case.operation == PROGRAM && (case.b != 0) == burns;
            let mut seen = [0; HALF + 1];
            for case in cases.iter().filter(by_rule) {
                seen[usize::from(case.answer()[0])] += 1;
            }
            assert!(seen.iter().all(|&times| times > 0), "{seen:?}");
            let refused = seen[1..].iter().sum::<usize>();
            assert!(seen[0] > 1200 && refused > 500, "{seen:?}");
        }
    }
}
