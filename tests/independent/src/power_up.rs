//! Power-up: integrity first, then the life cycle, then the sensed copy.

use crate::life_cycle::{self, SCRAP};
use crate::map::Kind;
use crate::model::{Answer, Chip, Phase, Session};
use crate::words;

const INVALID: u64 = 0xFFFF;

impl Chip {
    pub fn power_up(&mut self) -> Answer {
        if let Some(number) = self.first_damaged() {
            return self.fails(0x06, number as u64);
        }
        let decoded = life_cycle::decode(&self.constants, &self.cells[self.map.life_cycle()]);
        let Some((state, count)) = decoded else {
            return self.fails(0x07, INVALID);
        };
        let value = 256 * u64::from(count) + u64::from(state);
        if state == SCRAP {
            return self.fails(0x07, value);
        }
        self.session = Session {
            phase: Phase::Ready,
            digests: self
                .numbers()
                .map(|number| self.stored_digest(number))
                .collect(),
            state,
            count,
            ..Session::fresh(&self.map)
        };
        self.copy = self.sensed();
        Answer::done(value)
    }

    fn numbers(&self) -> std::ops::Range<usize> {
        0..self.map.partitions.len()
    }

    /// The first hardware digest that is stored and is not that of the data.
    fn first_damaged(&self) -> Option<usize> {
        self.numbers()
            .filter(|&number| self.map.partitions[number].has_hardware_digest())
            .filter(|&number| self.stored_digest(number) != 0)
            .find(|&number| self.stored_digest(number) != self.computed_digest(number))
    }

    fn fails(&mut self, code: u8, value: u64) -> Answer {
        self.copy = vec![0; self.map.cells()];
        self.session = Session {
            phase: Phase::Dead(code),
            ..Session::fresh(&self.map)
        };
        Answer { code, value }
    }

    /// The copy after a power-up that answers 0.
    fn sensed(&self) -> Vec<u16> {
        let mut copy = vec![0; self.map.cells()];
        for partition in self.map.partitions.iter().filter(|p| p.is_buffered()) {
            let whole = partition.data().start..partition.digest_words().end;
            copy[whole.clone()].copy_from_slice(&self.cells[whole]);
            let Kind::Secret(secret) = partition.kind else {
                continue;
            };
            for block in copy[partition.data()].chunks_mut(4) {
                let plain = self.unscramble(secret, words::number(block));
                block.copy_from_slice(&words::words_of(plain));
            }
        }
        copy
    }
}
