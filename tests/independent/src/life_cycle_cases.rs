//! Cases 9 to 13 of the paper on each map: only addresses differ. They are
//! counted out by hand.

use crate::case_steps::{expect, in_state, powered};
use crate::constants::{example, EXAMPLE_HASH, EXAMPLE_TOKEN};
use crate::map::Map;
use crate::model::{Chip, Command, Phase};
use Command::{Digest, FrontRead, PowerUp, Read, ReadLock, Transition, Write};

/// A map, with a front read, a digest and a read lock that are done on a Ready
/// chip, and the start of SECRET0.
struct OnMap {
    map: Map,
    done: [Command; 3],
    secret0: u32,
}

impl OnMap {
    fn ready(&self) -> Chip {
        powered(Chip::blank(&self.map, &example()))
    }

    fn at(&self, state: u8, count: u8) -> Chip {
        powered(in_state(&self.map, &example(), state, count))
    }
}

fn on_each_map() -> [OnMap; 2] {
    [
        OnMap {
            map: Map::one(),
            done: [FrontRead(0x200), Digest(0x200), ReadLock(0)],
            secret0: 0x250,
        },
        OnMap {
            map: Map::two(),
            done: [FrontRead(0x440), Digest(0x488), ReadLock(4)],
            secret0: 0x498,
        },
    ]
}

#[test]
fn case_09_raw_unlock() {
    for on in on_each_map() {
        for command in on.done {
            assert_eq!(on.ready().execute(command).code, 0, "{command:x?}");
        }
        let mut chip = on.ready();
        expect(&mut chip, &[(Transition(1, EXAMPLE_TOKEN), 0, 0)]);
        assert_eq!(chip.session.phase, Phase::Inert);
        let others = [Read(0), Write(0, 0), Transition(21, 0)];
        for command in others.into_iter().chain(on.done) {
            expect(&mut chip, &[(command, 7, 0)]);
        }
        expect(&mut chip, &[(PowerUp, 0, 257)]);
    }
}

#[test]
fn case_10_wrong_token() {
    for on in on_each_map() {
        for token in [EXAMPLE_TOKEN ^ 1 << 127, EXAMPLE_HASH, 0] {
            let steps = [(Transition(1, token), 0x23, 0), (PowerUp, 0, 256)];
            expect(&mut on.ready(), &steps);
        }
    }
}

#[test]
fn case_11_not_in_the_table() {
    for on in on_each_map() {
        let steps = [(Transition(16, 0), 0x21, 0), (PowerUp, 0, 256)];
        expect(&mut on.ready(), &steps);
    }
}

#[test]
fn case_12_strokes_used() {
    for on in on_each_map() {
        let mut chip = on.at(1, 24);
        let cells = chip.cells.clone();
        expect(&mut chip, &[(Transition(20, 0), 0x20, 0)]);
        assert_eq!(chip.cells, cells);
        assert_eq!(chip.session.phase, Phase::Inert);
    }
}

#[test]
fn case_13_token_partition_open() {
    let (low, high) = (EXAMPLE_HASH as u64, (EXAMPLE_HASH >> 64) as u64);
    for on in on_each_map() {
        for token in [0, EXAMPLE_TOKEN] {
            let steps = [
                (Write(on.secret0, low), 0, 0),
                (Write(on.secret0 + 8, high), 0, 0),
                (PowerUp, 0, 2 * 256 + 2),
                (Transition(3, token), 0x22, 0),
                (PowerUp, 0, 3 * 256 + 2),
            ];
            expect(&mut on.at(2, 2), &steps);
        }
    }
}
