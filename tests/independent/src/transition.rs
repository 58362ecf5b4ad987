//! Life cycle transition: a stroke is spent before anything is compared.

use crate::constants::{self, COUNTERS};
use crate::life_cycle::{self, Token, MOST_STROKES, SCRAP};
use crate::map::{Kind, Map};
use crate::model::{Answer, Chip, Phase, NOT_READY};
use crate::{token, words};

/// The secret that holds each stored token's hash, and how far into it.
const TEST_UNLOCK: (usize, u32) = (0, 0);
const TEST_EXIT: (usize, u32) = (0, 16);
const RMA_TOKEN: (usize, u32) = (2, 0);

/// Partition and byte address of each stored token's hash.
pub fn stored_tokens(map: &Map) -> [(usize, u32); 3] {
    [TEST_UNLOCK, TEST_EXIT, RMA_TOKEN].map(|place| in_map(map, place))
}

fn in_map(map: &Map, (secret, offset): (usize, u32)) -> (usize, u32) {
    let number = map.number_of(Kind::Secret(secret));
    (number, map.partitions[number].start + offset)
}

const WRONG_TARGET: Answer = Answer::refusal(0x11);
const NO_STROKES: Answer = Answer::refusal(0x20);
const NOT_IN_TABLE: Answer = Answer::refusal(0x21);
const TOKEN_NOT_LOCKED: Answer = Answer::refusal(0x22);
const TOKEN_DIFFERS: Answer = Answer::refusal(0x23);

impl Chip {
    pub fn transition(&mut self, target: u8, token: u128) -> Answer {
        if self.session.state > SCRAP || self.session.count > MOST_STROKES {
            return NOT_READY;
        }
        if target > SCRAP {
            return WRONG_TARGET;
        }
        let answer = self.attempt(target, token);
        self.session.phase = match answer.code {
            0x04 => Phase::Dead(0x04),
            _ => Phase::Inert,
        };
        answer
    }

    fn attempt(&mut self, target: u8, token: u128) -> Answer {
        if self.session.count == MOST_STROKES {
            return NO_STROKES;
        }
        let counters_at = self.map.life_cycle().start;
        let counters = life_cycle::counter_words(&self.constants, self.session.count + 1);
        if let Some(refusal) = self.program(counters_at, &counters) {
            return refusal;
        }
        let Some(asked) = life_cycle::token_between(self.session.state, target) else {
            return NOT_IN_TABLE;
        };
        if let Some(refusal) = self.judge_token(asked, token) {
            return refusal;
        }
        let states = life_cycle::state_words(&self.constants, target);
        let refusal = self.program(counters_at + COUNTERS, &states);
        refusal.unwrap_or(Answer::done(0))
    }

    /// Programs life cycle words from a word on. A refusal names the lowest
    /// with a bit that would be cleared.
    fn program(&mut self, at: usize, value: &[u16]) -> Option<Answer> {
        let programmed = words::program(&mut self.cells, at as u64, value);
        programmed.err().map(Answer::not_blank)
    }

    fn judge_token(&self, asked: Token, given: u128) -> Option<Answer> {
        let locked = |(partition, _): (usize, u32)| self.session.digests[partition] != 0;
        if !self.stored_at(asked).is_none_or(locked) {
            return Some(TOKEN_NOT_LOCKED);
        }
        let differs = asked != Token::None && token::hash(given) != self.stored_token(asked);
        differs.then_some(TOKEN_DIFFERS)
    }

    /// What the hash of a token is compared with where `asked` is asked for.
    pub fn stored_token(&self, asked: Token) -> u128 {
        match (self.stored_at(asked), asked) {
            (Some((_, address)), _) => words::wide_number(&self.copy[address as usize / 2..]),
            (None, Token::Raw) => constants::raw_token(&self.constants),
            (None, _) => 0,
        }
    }

    /// Partition and address of a token held in a secret partition.
    fn stored_at(&self, asked: Token) -> Option<(usize, u32)> {
        let place = match asked {
            Token::TestUnlock => TEST_UNLOCK,
            Token::TestExit => TEST_EXIT,
            Token::Rma => RMA_TOKEN,
            Token::None | Token::Raw => return None,
        };
        Some(in_map(&self.map, place))
    }
}
