//! Raw tokens of random chips. A hash can't be undone, so the token that a
//! stored number was made of is kept beside the chip.

use crate::random::Random;
use crate::token::{hash, hash_with, CUSTOMIZATION};
use std::collections::BTreeMap;

/// What may be stored for a token in place of its hash.
pub const MISTAKES: [fn(u128) -> u128; 8] = [
    |token| token,
    |token| hash(token).swap_bytes(),
    |token| hash(token.swap_bytes()),
    |token| hash(hash(token)),
    |token| hash(token) ^ 1 << 64,
    // SHAKE128.
    |token| hash_with(token, b"", b""),
    |token| hash_with(token, CUSTOMIZATION, b""),
    |token| hash_with(token, b"", b"LC_CTRL\0"),
];

/// The raw tokens by what was stored for them.
pub struct RawTokens {
    by_stored: BTreeMap<u128, u128>,
}

impl RawTokens {
    pub fn new() -> RawTokens {
        RawTokens {
            by_stored: BTreeMap::new(),
        }
    }

    /// The hash of a raw token drawn at random, to be stored.
    pub fn hashed(&mut self, random: &mut Random) -> u128 {
        self.keep(draw(random), hash)
    }

    /// What a mistake stores for a raw token drawn at random.
    pub fn mistaken(&mut self, random: &mut Random) -> u128 {
        self.keep(draw(random), random.choose(&MISTAKES))
    }

    fn keep(&mut self, raw: u128, stored: fn(u128) -> u128) -> u128 {
        let stored = stored(raw);
        self.by_stored.insert(stored, raw);
        stored
    }

    /// The token that `stored` was made of, or `stored` where none is known.
    pub fn raw(&self, stored: u128) -> u128 {
        self.by_stored.get(&stored).copied().unwrap_or(stored)
    }

    /// A number that was to be stored and that has this half: the high one, or
    /// the low one.
    pub fn with_half(&self, high: bool, half: u64) -> Option<u128> {
        let has = |stored: &u128| half == half_of(*stored, high);
        self.by_stored.keys().copied().find(has)
    }
}

/// The high or the low half.
pub fn half_of(stored: u128, high: bool) -> u64 {
    match high {
        true => (stored >> 64) as u64,
        false => stored as u64,
    }
}

/// A raw token: any, most of the time.
fn draw(random: &mut Random) -> u128 {
    match random.below(8) {
        0 => 0,
        1 => u128::from(random.number()) << 64 | u128::from(random.number()),
        _ => random.wide(),
    }
}

#[cfg(test)]
mod tests {
    use super::*;

    #[test]
    fn a_token_is_found_by_what_is_stored() {
        let (mut tokens, mut random) = (RawTokens::new(), Random::new(51));
        for _ in 0..20 {
            let stored = tokens.hashed(&mut random);
            assert_eq!(hash(tokens.raw(stored)), stored);
            for high in [false, true] {
                let half = half_of(stored, high);
                assert_eq!(tokens.with_half(high, half), Some(stored));
            }
        }
        assert_eq!(tokens.raw(5), 5);
        assert_eq!(tokens.with_half(true, 5), None);
    }

    #[test]
    fn no_mistake_gives_the_hash() {
        let token = Random::new(52).wide();
        for (i, mistake) in MISTAKES.iter().enumerate() {
            assert_ne!(mistake(token), hash(token), "{i}");
            let earlier = MISTAKES[..i].iter();
            assert!(earlier.clone().all(|other| other(token) != mistake(token)));
        }
    }
}
