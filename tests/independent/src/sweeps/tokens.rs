//! Transitions, with tokens that are right and wrong.

use crate::chips;
use crate::constants::lay_raw_token;
use crate::life_cycle::{token_between, SCRAP};
use crate::model::{Chip, Command};
use crate::random::Random;
use crate::raw_tokens::{RawTokens, MISTAKES};
use crate::scenarios::Run;
use crate::token::hash;
use Command::{PowerUp, Read, Transition};

pub fn runs(blank: &Chip, locked: &Chip, tokens: &RawTokens, random: &mut Random) -> Vec<Run> {
    let mut runs = transitions(blank, locked, tokens);
    runs.extend(wrong_tokens(blank, random));
    runs.extend(mistaken_tokens(blank, random));
    runs
}

/// Every state with every target. Tokens differ in a bit first, then agree.
fn transitions(blank: &Chip, locked: &Chip, tokens: &RawTokens) -> Vec<Run> {
    let mut bits = (0..128).cycle();
    let mut runs = Vec::new();
    for state in 0..=SCRAP {
        let (mut open, mut closed) = (blank.clone(), locked.clone());
        chips::lay(&mut open, state, 1);
        chips::lay(&mut closed, state, 1);
        let mut chip = closed.clone();
        chip.execute(PowerUp);
        let (mut refused, mut unlocked) = (vec![PowerUp], vec![PowerUp]);
        for target in 0..=SCRAP {
            let Some(asked) = token_between(state, target) else {
                refused.extend([Transition(target, 0), PowerUp]);
                continue;
            };
            let right = tokens.raw(chip.stored_token(asked));
            let mut commands = vec![PowerUp];
            for bit in bits.by_ref().take(3) {
                commands.extend([Transition(target, right ^ 1 << bit), PowerUp]);
            }
            commands.extend([Transition(target, right), PowerUp, Read(0x278)]);
            runs.push(Run::of(&commands, &closed));
            unlocked.extend([Transition(target, right), PowerUp]);
        }
        runs.push(Run::of(&refused, &closed));
        runs.push(Run::of(&unlocked, &open));
    }
    runs
}

/// A transition for each token: RAW_UNLOCK, TEST_UNLOCK, TEST_EXIT and RMA.
const TOKEN_MOVES: [(u8, u8); 4] = [(0, 1), (2, 3), (1, 16), (16, 19)];

/// A chip in a state, with what is stored for the four tokens, carries out
/// commands.
fn on_stored(blank: &Chip, stored: [u128; 4], state: u8, commands: &[Command]) -> Run {
    let mut blank = blank.clone();
    lay_raw_token(&mut blank.constants, stored[0]);
    let mut chip = chips::with_tokens(&blank, [stored[1], stored[2], stored[3]]);
    chips::lay(&mut chip, state, 1);
    Run::of(commands, &chip)
}

/// Hashes are stored. Each token is given wrongly, then rightly: its hash, its
/// bytes or its halves in another order, the other tokens, the next number.
fn wrong_tokens(blank: &Chip, random: &mut Random) -> Vec<Run> {
    let raw: [u128; 4] = std::array::from_fn(|_| random.wide());
    let mut runs = Vec::new();
    for ((state, target), right) in TOKEN_MOVES.into_iter().zip(raw) {
        let mut given = vec![hash(right), hash(right).swap_bytes(), hash(hash(right))];
        given.extend([right.swap_bytes(), right.reverse_bits(), !right]);
        given.extend([right.rotate_left(64), right.wrapping_add(1), 0, u128::MAX]);
        given.extend(raw.into_iter().filter(|other| *other != right));
        given.push(right);
        let moves = given.into_iter().map(|token| Transition(target, token));
        let commands: Vec<Command> = moves.flat_map(|step| [PowerUp, step]).collect();
        let commands = [commands, vec![PowerUp]].concat();
        runs.push(on_stored(blank, raw.map(hash), state, &commands));
    }
    runs
}

/// Something other than the hash is stored for each token, in each way, and
/// the token is given, then its hash, then what is stored.
fn mistaken_tokens(blank: &Chip, random: &mut Random) -> Vec<Run> {
    let mut runs = Vec::new();
    for (number, (state, target)) in TOKEN_MOVES.into_iter().enumerate() {
        for mistake in MISTAKES {
            let raw: [u128; 4] = std::array::from_fn(|_| random.wide());
            let stored = raw.map(mistake);
            let mut commands = vec![PowerUp];
            for token in [raw[number], hash(raw[number]), stored[number]] {
                commands.extend([Transition(target, token), PowerUp]);
            }
            runs.push(on_stored(blank, stored, state, &commands));
        }
    }
    runs
}

#[cfg(test)]
mod tests {
    use super::*;
    use crate::map::Map;

    /// The codes of the lines of transitions, in their order.
    fn codes_of_transitions(run: &Run) -> Vec<String> {
        let printed = run.printed();
        let lines = printed.lines().filter(|line| line.starts_with("06"));
        lines.map(|line| line[3..5].to_string()).collect()
    }

    fn blank(map: &Map, seed: u64) -> (Chip, RawTokens, Random) {
        let (mut tokens, mut random) = (RawTokens::new(), Random::new(seed));
        let constants = chips::constants(&mut tokens, &mut random);
        (Chip::blank(map, &constants), tokens, random)
    }

    #[test]
    fn every_state_and_target_is_tried_with_the_right_token() {
        for map in [Map::one(), Map::two()] {
            let (blank, mut tokens, mut random) = blank(&map, 46);
            let locked = chips::locked(&blank, &mut tokens, &mut random);
            let runs = transitions(&blank, &locked, &tokens);
            let by_token = |run: &&Run| codes_of_transitions(run).join(" ") == "23 23 23 00";
            // The pairs that ask for RAW_UNLOCK, TEST_UNLOCK, TEST_EXIT and RMA.
            assert_eq!(runs.iter().filter(by_token).count(), 1 + 28 + 45 + 2);
        }
    }

    #[test]
    fn a_token_is_right_by_its_hash_alone() {
        for map in [Map::one(), Map::two()] {
            let (blank, _, mut random) = blank(&map, 47);
            for run in wrong_tokens(&blank, &mut random) {
                let codes = codes_of_transitions(&run);
                let (last, before) = codes.split_last().unwrap();
                assert_eq!((last.as_str(), before.len()), ("00", 13));
                assert!(before.iter().all(|code| code == "23"), "{codes:?}");
            }
        }
    }

    /// The hash, given as a token, is right where it was hashed once more.
    #[test]
    fn a_token_is_wrong_where_its_hash_is_not_stored() {
        for map in [Map::one(), Map::two()] {
            let (blank, _, mut random) = blank(&map, 48);
            let runs = mistaken_tokens(&blank, &mut random);
            assert_eq!(runs.len(), 4 * MISTAKES.len());
            for (i, run) in runs.iter().enumerate() {
                let codes = codes_of_transitions(run);
                assert_eq!(codes[0], "23");
                let twice = i % MISTAKES.len() == 3;
                assert_eq!(codes[1] == "00", twice, "{i}: {codes:?}");
            }
        }
    }
}
