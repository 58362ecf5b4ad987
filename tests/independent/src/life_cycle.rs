//! Life cycle: states, their words, and the transitions between them.

use crate::constants::{A, B, C, COUNTERS, D, STATES};

pub const RAW: u8 = 0;
pub const SCRAP: u8 = 20;
pub const MOST_STROKES: u8 = 24;

/// A token a transition asks for.
#[derive(Clone, Copy, PartialEq, Debug)]
pub enum Token {
    None,
    Raw,
    TestUnlock,
    TestExit,
    Rma,
}

/// For each state from 1 on, its words from word 0 on: B or A.
const STATE_WORDS: [&str; 20] = [
    "BAAAAAAAAAAAAAAAAAAA",
    "BBAAAAAAAAAAAAAAAAAA",
    "BBBAAAAAAAAAAAAAAAAA",
    "BBBBAAAAAAAAAAAAAAAA",
    "BBBBBAAAAAAAAAAAAAAA",
    "BBBBBBAAAAAAAAAAAAAA",
    "BBBBBBBAAAAAAAAAAAAA",
    "BBBBBBBBAAAAAAAAAAAA",
    "BBBBBBBBBAAAAAAAAAAA",
    "BBBBBBBBBBAAAAAAAAAA",
    "BBBBBBBBBBBAAAAAAAAA",
    "BBBBBBBBBBBBAAAAAAAA",
    "BBBBBBBBBBBBBAAAAAAA",
    "BBBBBBBBBBBBBBAAAAAA",
    "BBBBBBBBBBBBBBBAAAAA",
    "BBBBBBBBBBBBBBBBAAAA",
    "BBBBBBBBBBBBBBBABAAA",
    "BBBBBBBBBBBBBBBAABAA",
    "BBBBBBBBBBBBBBBBBABA",
    "BBBBBBBBBBBBBBBBBBBB",
];

/// A row for each state, a column for each target: `.` not allowed, `-` no
/// token, `r` RAW token, `u` TEST_UNLOCK, `x` TEST_EXIT, `m` RMA token.
const TRANSITIONS: [&str; 21] = [
    ".r..................-",
    "..-.-.-.-.-.-.-.xxx--",
    "...u.u.u.u.u.u.uxxx.-",
    "....-.-.-.-.-.-.xxx--",
    ".....u.u.u.u.u.uxxx.-",
    "......-.-.-.-.-.xxx--",
    ".......u.u.u.u.uxxx.-",
    "........-.-.-.-.xxx--",
    ".........u.u.u.uxxx.-",
    "..........-.-.-.xxx--",
    "...........u.u.uxxx.-",
    "............-.-.xxx--",
    ".............u.uxxx.-",
    "..............-.xxx--",
    "...............uxxx.-",
    "................xxx--",
    "...................m-",
    "...................m-",
    "....................-",
    "....................-",
    ".....................",
];

/// The token from `state` to `target`, both at most 20; nothing where the
/// transition is not in the table.
pub fn token_between(state: u8, target: u8) -> Option<Token> {
    match TRANSITIONS[usize::from(state)].as_bytes()[usize::from(target)] {
        b'-' => Some(Token::None),
        b'r' => Some(Token::Raw),
        b'u' => Some(Token::TestUnlock),
        b'x' => Some(Token::TestExit),
        b'm' => Some(Token::Rma),
        _ => None,
    }
}

/// The 24 counter words of a count.
pub fn counter_words(constants: &[u16], count: u8) -> Vec<u16> {
    let word = |i| match (count, i < usize::from(count)) {
        (0, _) => 0,
        (_, true) => constants[D + i],
        (_, false) => constants[C + i],
    };
    (0..COUNTERS).map(word).collect()
}

/// The 20 words of a state.
pub fn state_words(constants: &[u16], state: u8) -> Vec<u16> {
    if state == RAW {
        return vec![0; STATES];
    }
    let letters = STATE_WORDS[usize::from(state) - 1].bytes();
    letters
        .enumerate()
        .map(|(i, letter)| constants[if letter == b'B' { B + i } else { A + i }])
        .collect()
}

/// State and count of the 44 life cycle words, found by trying all.
pub fn decode(constants: &[u16], words: &[u16]) -> Option<(u8, u8)> {
    let (counters, states) = words.split_at(COUNTERS);
    let count = (0..=MOST_STROKES).find(|&n| counter_words(constants, n) == counters)?;
    let state = (RAW..=SCRAP).find(|&k| state_words(constants, k) == states)?;
    if count == 0 && state != RAW {
        return None;
    }
    Some((state, count))
}

#[cfg(test)]
mod tests {
    use super::*;
    use crate::constants::example;

    /// TEST_UNLOCKED and TEST_LOCKED states by their numbers.
    fn unlocked(state: u8) -> Option<u8> {
        (state < 16 && state % 2 == 1).then_some(state / 2)
    }

    fn locked(state: u8) -> Option<u8> {
        [2, 4, 6, 8, 10, 12, 14]
            .iter()
            .position(|&k| k == state)
            .map(|n| n as u8)
    }

    /// The table as the paper's sentences.
    fn by_the_sentences(state: u8, target: u8) -> Option<Token> {
        let test = unlocked(state).is_some() || locked(state).is_some();
        match (
            unlocked(state),
            locked(state),
            unlocked(target),
            locked(target),
        ) {
            _ if state == RAW && target == 1 => Some(Token::Raw),
            (Some(n), _, _, Some(m)) if m >= n => Some(Token::None),
            (_, Some(n), Some(m), _) if m > n => Some(Token::TestUnlock),
            _ if test && (16..=18).contains(&target) => Some(Token::TestExit),
            (Some(_), ..) if target == 19 => Some(Token::None),
            _ if (state == 16 || state == 17) && target == 19 => Some(Token::Rma),
            _ if state != SCRAP && target == SCRAP => Some(Token::None),
            _ => None,
        }
    }

    #[test]
    fn table_says_what_the_sentences_say() {
        for state in 0..=20 {
            for target in 0..=20 {
                let expected = by_the_sentences(state, target);
                assert_eq!(token_between(state, target), expected, "{state} {target}");
            }
        }
    }

    #[test]
    fn state_words_are_the_papers() {
        let constants = example();
        for state in 1..=20_u8 {
            let words = state_words(&constants, state);
            for (i, word) in words.iter().enumerate() {
                let high = match state {
                    1..=15 => i < usize::from(state),
                    16 => i <= 15,
                    17 => i <= 14 || i == 16,
                    18 => i <= 14 || i == 17,
                    19 => i <= 16 || i == 18,
                    _ => true,
                };
                assert_eq!(*word, if high { 0x1111 } else { 0x0011 }, "{state} {i}");
            }
        }
    }

    #[test]
    fn words_decode_to_what_made_them() {
        let constants = example();
        for count in 0..=24 {
            for state in 0..=20 {
                let mut words = counter_words(&constants, count);
                words.extend(state_words(&constants, state));
                let lost = count == 0 && state != 0;
                let expected = (!lost).then_some((state, count));
                assert_eq!(decode(&constants, &words), expected);
                words[43] ^= 0x4000;
                assert_eq!(decode(&constants, &words), None);
            }
        }
    }

    #[test]
    fn allowed_transitions_only_set_bits() {
        let constants = example();
        for state in 0..=20 {
            for target in 0..=20 {
                if token_between(state, target).is_some() {
                    let before = state_words(&constants, state);
                    let after = state_words(&constants, target);
                    assert!(before.iter().zip(&after).all(|(b, a)| b & !a == 0));
                }
            }
        }
    }
}
