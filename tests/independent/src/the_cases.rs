//! The cases of the paper but for those of the life cycle, over Map 1, those of
//! requests Two to Five, and rules about the record beside them.

use crate::case_steps::{expect, in_state, powered};
use crate::chips;
use crate::constants::{example, lay_raw_token, EXAMPLE_HASH, EXAMPLE_TOKEN};
use crate::life_cycle::counter_words;
use crate::map::Map;
use crate::model::{Chip, Command, Phase, Session};
use crate::token::hash;
use Command::{Digest, FrontRead, PowerUp, Read, ReadLock, Transition, Write};

const COUNTERS_AT: usize = 0x328 / 2;
const CELLS: usize = 448;

fn blank() -> Chip {
    Chip::blank(&Map::one(), &example())
}

fn ready() -> Chip {
    powered(blank())
}

/// A chip with a state and a count in its cells.
fn at(state: u8, count: u8) -> Chip {
    in_state(&Map::one(), &example(), state, count)
}

#[test]
fn case_01_blank_power_up() {
    expect(&mut blank(), &[(PowerUp, 0, 0)]);
}

#[test]
fn case_02_blank_reads() {
    let mut chip = ready();
    assert_eq!(chip.execute(Read(0x327)).code, 0);
    expect(
        &mut chip,
        &[
            (Read(0x328), 5, 0),
            (Read(0x37f), 5, 0),
            (Read(0x380), 5, 0),
        ],
    );
}

#[test]
fn case_03_low_address_bits() {
    let mut chip = ready();
    expect(
        &mut chip,
        &[
            (Write(3, 0xdead_beef_1234_5678), 0, 0),
            (Read(0), 0, 0x1234_5678),
        ],
    );
    assert_eq!(chip.cells[..3], [0x5678, 0x1234, 0]);
}

#[test]
fn case_04_no_second_burn() {
    let steps = [
        (Write(0, 0x0f), 0, 0),
        (Write(0, 0xf0), 4, 0),
        (Write(0, 0xff), 4, 0),
    ];
    expect(&mut ready(), &steps);
}

#[test]
fn a_granule_is_burnt_once() {
    for address in [0x000, 0x0f8, 0x1f4, 0x200, 0x250, 0x2c0] {
        let mut chip = ready();
        expect(&mut chip, &[(Write(address, 0x1_0001), 0, 0)]);
        let cells = chip.cells.clone();
        let word = cells.iter().position(|&word| word != 0).unwrap() as u64;
        for data in [0x1_0001, 0xffff_ffff, u64::MAX, 0, 1 << 40] {
            expect(&mut chip, &[(Write(address, data), 4, word)]);
        }
        assert_eq!(chip.cells, cells, "{address:x}");
    }
}

#[test]
fn a_zero_burns_nothing_where_it_is_stored_plain() {
    let mut chip = ready();
    let steps = [(Write(0x200, 0), 0, 0), (Write(0x200, 0), 0, 0)];
    expect(&mut chip, &steps);
    assert_eq!(chip.cells, vec![0; CELLS]);
    let steps = [(Write(0x200, 9), 0, 0), (Write(0x200, 0), 4, 0x100)];
    expect(&mut chip, &steps);
}

#[test]
fn a_zero_burns_a_secret_granule() {
    let mut chip = ready();
    expect(
        &mut chip,
        &[(Write(0x250, 0), 0, 0), (Write(0x250, 0), 4, 0x128)],
    );
    assert_ne!(chip.cells, vec![0; CELLS]);
    // Unless its stored form is zero, as that of what a blank block reads.
    let unburnt = chip.execute(Read(0x258)).value;
    let cells = chip.cells.clone();
    expect(&mut chip, &[(Write(0x258, unburnt), 0, 0)]);
    assert_eq!(chip.cells, cells);
    expect(&mut chip, &[(Write(0x258, 0), 0, 0), (Read(0x258), 0, 0)]);
}

#[test]
fn a_digest_command_is_done_once() {
    let mut chip = ready();
    let digest = chip.computed_digest(2);
    let steps = [
        (Digest(0x200), 0, digest),
        (Digest(0x200), 4, 0x124),
        (Read(0x248), 0, digest),
        (Write(0x200, 1), 0, 0),
        (Digest(0x200), 4, 0x124),
        (PowerUp, 6, 2),
    ];
    expect(&mut chip, &steps);
}

/// Each set of words of an 8-byte granule that may hold something, first in
/// data, then in a software digest and under a digest command.
#[test]
fn the_lowest_word_that_is_not_blank_is_named() {
    for (first, command) in [
        (0x128, Write(0x257, 7)),
        (0x7c, Write(0x0fc, 0)),
        (0x124, Digest(0x200)),
    ] {
        for held in 1..16_u32 {
            let mut chip = ready();
            for word in (0..4).filter(|word| held >> word & 1 == 1) {
                chip.cells[first + word] = 0x8000;
            }
            let before = chip.clone();
            let lowest = first as u64 + u64::from(held.trailing_zeros());
            expect(&mut chip, &[(command, 4, lowest)]);
            assert_eq!(chip, before);
        }
    }
}

#[test]
fn a_locked_partition_names_no_word() {
    let steps = [
        (Write(0x100, 0x1_0000), 0, 0),
        (Write(0x1f8, 1), 0, 0),
        (Write(0x100, 1), 4, 0x81),
        (PowerUp, 0, 0),
        (Write(0x100, 1), 5, 0),
        (Write(0x1fc, 1), 5, 0),
    ];
    expect(&mut ready(), &steps);
    for (number, start) in [(2, 0x200), (3, 0x250), (4, 0x278), (5, 0x2d0)] {
        let mut chip = ready();
        chip.cells[start as usize / 2 + 1] = 9;
        chip.session.digests[number] = 1;
        expect(&mut chip, &[(Write(start, 1), 5, 0), (Digest(start), 5, 0)]);
    }
}

/// A word is named where its own bit would be cleared, not where it is merely
/// not blank; the counter's come before the state's.
#[test]
fn the_lowest_life_cycle_word_that_loses_a_bit_is_named() {
    for (damaged, named) in [
        (&[0, 5, 30][..], 0),
        (&[5, 23], 5),
        (&[23, 24], 23),
        (&[24, 43], 24),
        (&[31, 32], 31),
        (&[43], 43),
    ] {
        let mut chip = powered(at(1, 1));
        for word in damaged {
            // A bit that none of the constants has.
            chip.cells[COUNTERS_AT + word] |= 0x4000;
        }
        let word = (COUNTERS_AT + named) as u64;
        expect(&mut chip, &[(Transition(2, 0), 4, word)]);
        assert_eq!(chip.session.phase, Phase::Dead(4));
    }
}

#[test]
fn life_cycle_words_are_programmed_again() {
    let mut chip = powered(at(1, 1));
    expect(&mut chip, &[(Transition(2, 0), 0, 0), (PowerUp, 0, 514)]);
    expect(&mut chip, &[(Transition(0, 0), 0x21, 0), (PowerUp, 0, 770)]);
}

#[test]
fn case_05_hardware_digest_is_not_written() {
    expect(&mut ready(), &[(Write(0x248, 1), 5, 0)]);
}

#[test]
fn case_06_digest_at_a_start_only() {
    expect(&mut ready(), &[(Digest(0), 5, 0), (Digest(0x204), 5, 0)]);
}

#[test]
fn case_07_software_digest_locks_from_power_up() {
    let steps = [
        (Write(0x0f8, 1), 0, 0),
        (Read(0x0fc), 0, 1),
        (Write(0x004, 1), 0, 0),
        (PowerUp, 0, 0),
        (Write(0x004, 1), 5, 0),
    ];
    expect(&mut ready(), &steps);
}

const NUMBER: u64 = 0x1122_3344_5566_7788;
const WORDS: [u16; 4] = [0x7788, 0x5566, 0x3344, 0x1122];

/// Cells that hold some words from a byte address on, and are blank elsewhere.
fn holding(address: u32, words: &[u16]) -> Vec<u16> {
    let mut cells = vec![0; CELLS];
    let first = address as usize / 2;
    cells[first..first + words.len()].copy_from_slice(words);
    cells
}

#[test]
fn a_software_digest_is_written_in_one_piece() {
    for start in [0x000, 0x100] {
        for address in start + 0xf0..start + 0x100 {
            let mut chip = ready();
            expect(&mut chip, &[(Write(address, NUMBER), 0, 0)]);
            let left = match address < start + 0xf8 {
                true => holding(address & !3, &WORDS[..2]),
                false => holding(start + 0xf8, &WORDS),
            };
            assert_eq!(chip.cells, left, "{address:x}");
        }
    }
}

#[test]
fn a_digest_is_read_in_one_piece() {
    for start in [0x000, 0x100] {
        let cells = holding(start + 0xf8, &WORDS);
        let mut chip = powered(blank().with_cells(cells));
        for address in start + 0xf8..start + 0x100 {
            expect(&mut chip, &[(Read(address), 0, NUMBER)]);
        }
        let next = [(Read(start + 0xf7), 0, 0), (Read(start + 0x100), 0, 0)];
        expect(&mut chip, &next);
    }
    let mut chip = ready();
    let digest = chip.computed_digest(2);
    assert!(digest >> 32 != 0 && digest << 32 != 0);
    expect(
        &mut chip,
        &[(Digest(0x200), 0, digest), (Read(0x247), 0, 0)],
    );
    for address in 0x248..0x250 {
        let steps = [(Read(address), 0, digest), (Write(address, digest), 5, 0)];
        expect(&mut chip, &steps);
    }
}

#[test]
fn no_half_of_a_digest_is_written_after_the_other() {
    for start in [0x000, 0x100] {
        let (low, high) = (start + 0xf8, start + 0xfc);
        let halves = [
            (Write(low, 1), 0, 0),
            (Write(high, 1 << 32), 4, u64::from(low) / 2),
            (Read(high), 0, 1),
        ];
        expect(&mut ready(), &halves);
        let locked = [
            (Write(low, 1 << 32), 0, 0),
            (PowerUp, 0, 0),
            (Write(start + 0xf7, 1), 5, 0),
            (Write(low, 1 << 32 | 1), 5, 0),
            (Read(low), 0, 1 << 32),
        ];
        expect(&mut ready(), &locked);
    }
}

#[test]
fn case_08_read_lock() {
    let steps = [
        (ReadLock(0), 0, 0),
        (Read(0x000), 5, 0),
        (Read(0x0f8), 0, 0),
        (ReadLock(0), 0, 0),
        (Read(0x100), 0, 0),
        (ReadLock(2), 5, 0),
        (PowerUp, 0, 0),
        (Read(0x000), 0, 0),
    ];
    expect(&mut ready(), &steps);
}

#[test]
fn case_14_front_read_is_sensed() {
    let steps = [
        (Write(0x200, 0x1234), 0, 0),
        (FrontRead(0x200), 0, 0),
        (Read(0x200), 0, 0x1234),
        (PowerUp, 0, 0),
        (FrontRead(0x203), 0, 0x1234),
        (Read(0x200), 0, 0x1234),
        (FrontRead(0x248), 5, 0),
    ];
    expect(&mut ready(), &steps);
}

#[test]
fn secrets_lock_and_open_by_token() {
    let mut chip = powered(at(2, 2));
    let (low, high) = (EXAMPLE_HASH as u64, (EXAMPLE_HASH >> 64) as u64);
    expect(
        &mut chip,
        &[(Write(0x250, low), 0, 0), (Write(0x25f, high), 0, 0)],
    );
    expect(&mut chip, &[(Read(0x257), 0, low)]);
    let digest = chip.computed_digest(3);
    expect(
        &mut chip,
        &[(Digest(0x250), 0, digest), (Read(0x250), 0, low)],
    );
    expect(
        &mut chip,
        &[
            (PowerUp, 0, 0x202),
            (Read(0x250), 5, 0),
            (Read(0x275), 0, digest),
        ],
    );
    let steps = [
        (Transition(3, EXAMPLE_TOKEN + 1), 0x23, 0),
        (PowerUp, 0, 0x302),
        (Transition(3, EXAMPLE_HASH), 0x23, 0),
        (PowerUp, 0, 0x402),
        (Transition(3, EXAMPLE_TOKEN), 0, 0),
        (PowerUp, 0, 0x503),
    ];
    expect(&mut chip, &steps);
}

/// A transition for each token: its state, its target and the raw token.
const MOVES: [(u8, u8, u128); 4] = [
    (0, 1, 0x0f1e_2d3c_4b5a_6978_8796_a5b4_c3d2_e1f0),
    (2, 3, 0x1111_2222_3333_4444_5555_6666_7777_8888),
    (1, 16, 0x9999_aaaa_bbbb_cccc_dddd_eeee_ffff_0001),
    (17, 19, 0x0123_4567_89ab_cdef_fedc_ba98_7654_3210),
];

/// A chip powered up in a state, with the hashes of the four tokens stored and
/// five strokes spent.
fn with_hashes(state: u8) -> Chip {
    let [raw, unlock, exit, rma] = MOVES.map(|(_, _, token)| hash(token));
    let mut chip = blank();
    lay_raw_token(&mut chip.constants, raw);
    let mut chip = chips::with_tokens(&chip, [unlock, exit, rma]);
    chips::lay(&mut chip, state, 5);
    powered(chip)
}

#[test]
fn each_token_is_right_by_its_hash() {
    for (state, target, token) in MOVES {
        let mut chip = with_hashes(state);
        let value = 6 * 256 + u64::from(target);
        let steps = [(Transition(target, token), 0, 0), (PowerUp, 0, value)];
        expect(&mut chip, &steps);
    }
}

#[test]
fn the_stroke_is_spent_though_the_token_is_wrong() {
    for (state, target, right) in MOVES {
        let others = MOVES.map(|(_, _, token)| token);
        let other = others.into_iter().filter(|token| *token != right);
        let wrong = [
            hash(right),
            hash(hash(right)),
            right.swap_bytes(),
            right ^ 1,
            0,
        ];
        for token in other.chain(wrong) {
            let mut chip = with_hashes(state);
            let mut cells = chip.cells.clone();
            cells[COUNTERS_AT..COUNTERS_AT + 24].copy_from_slice(&counter_words(&example(), 6));
            expect(&mut chip, &[(Transition(target, token), 0x23, 0)]);
            assert_eq!(chip.cells, cells);
            expect(&mut chip, &[(PowerUp, 0, 6 * 256 + u64::from(state))]);
        }
    }
}

#[test]
fn the_right_token_comes_too_late_after_24_strokes() {
    let mut chip = ready();
    for count in 1..=24 {
        expect(&mut chip, &[(Transition(1, EXAMPLE_HASH), 0x23, 0)]);
        expect(&mut chip, &[(PowerUp, 0, 256 * count)]);
    }
    expect(&mut chip, &[(Transition(1, EXAMPLE_TOKEN), 0x20, 0)]);
}

#[test]
fn a_token_is_compared_with_the_copy() {
    for (state, target, token) in &MOVES[1..] {
        let mut chip = with_hashes(*state);
        chip.cells[0x250 / 2..0x328 / 2].fill(0xffff);
        expect(&mut chip, &[(Transition(*target, *token), 0, 0)]);
        let mut chip = with_hashes(*state);
        chip.copy[0x250 / 2..0x328 / 2].fill(0);
        expect(&mut chip, &[(Transition(*target, *token), 0x23, 0)]);
    }
}

#[test]
fn no_token_is_looked_at_where_none_is_asked_for() {
    for (state, target) in [(1, 2), (3, 14), (15, 19), (16, 20)] {
        for token in [0, u128::MAX, MOVES[1].2, hash(MOVES[1].2)] {
            let mut chip = with_hashes(state);
            expect(&mut chip, &[(Transition(target, token), 0, 0)]);
        }
    }
}

#[test]
fn damage_is_found_in_order_and_empties_all() {
    let mut chip = ready();
    for start in [0x200, 0x250, 0x278, 0x2d0] {
        assert_eq!(chip.execute(Digest(start)).code, 0);
    }
    chip.execute(PowerUp);
    chip.cells[0x2d0 / 2] ^= 1;
    expect(&mut chip, &[(PowerUp, 6, 5)]);
    chip.cells[0x278 / 2] ^= 1;
    expect(&mut chip, &[(PowerUp, 6, 4), (Read(0), 7, 0)]);
    assert_eq!(chip.copy, vec![0; CELLS]);
    assert_eq!(
        chip.session,
        Session {
            phase: Phase::Dead(6),
            ..Session::fresh(&chip.map)
        }
    );
}

#[test]
fn scrap_and_invalid_life_cycles() {
    expect(
        &mut at(20, 9),
        &[(PowerUp, 7, 9 * 256 + 20), (Read(0), 7, 0)],
    );
    expect(&mut at(20, 0), &[(PowerUp, 7, 0xffff)]);
    expect(&mut at(1, 0), &[(PowerUp, 7, 0xffff)]);
    expect(&mut at(0, 24), &[(PowerUp, 0, 24 * 256)]);
}

#[test]
fn a_target_above_20_changes_nothing() {
    let mut chip = ready();
    let before = chip.clone();
    expect(
        &mut chip,
        &[(Transition(21, 0), 0x11, 0), (Transition(255, 0), 0x11, 0)],
    );
    assert_eq!(chip, before);
}

#[test]
fn a_record_beyond_the_table_is_not_ready() {
    for (state, count) in [(21, 0), (0, 25), (255, 255)] {
        let mut chip = ready();
        (chip.session.state, chip.session.count) = (state, count);
        let before = chip.clone();
        expect(
            &mut chip,
            &[(Transition(21, 0), 7, 0), (Transition(1, 0), 7, 0)],
        );
        assert_eq!(chip, before);
        expect(&mut chip, &[(Read(0), 0, 0)]);
    }
}

#[test]
fn a_cleared_bit_in_a_transition_is_death() {
    let mut chip = ready();
    chip.cells[COUNTERS_AT] = 0x4000;
    let cells = chip.cells.clone();
    expect(&mut chip, &[(Transition(20, 0), 4, COUNTERS_AT as u64)]);
    assert_eq!(chip.cells, cells);
    assert_eq!(chip.session.phase, Phase::Dead(4));

    let mut chip = ready();
    chip.cells[CELLS - 1] = 0x4000;
    expect(&mut chip, &[(Transition(20, 0), 4, CELLS as u64 - 1)]);
    assert_eq!(
        chip.cells[COUNTERS_AT..COUNTERS_AT + 24],
        counter_words(&example(), 1)
    );
    assert_eq!(chip.cells[COUNTERS_AT + 24..CELLS - 1], [0; 19]);
    assert_eq!(chip.session.phase, Phase::Dead(4));
}

#[test]
fn lengths_come_before_constants_and_phase() {
    for part in 0..3 {
        let mut chip = ready();
        chip.constants[36] = 0;
        let lent = [&mut chip.cells, &mut chip.copy, &mut chip.constants];
        lent.into_iter().nth(part).unwrap().push(0);
        let before = chip.clone();
        expect(
            &mut chip,
            &[(PowerUp, 0x10, 0), (Transition(21, 0), 0x10, 0)],
        );
        assert_eq!(chip, before);
    }
    let mut chip = ready();
    chip.session.read_locks = vec![true; 7];
    chip.constants[36] = 0;
    let before = chip.clone();
    expect(&mut chip, &[(PowerUp, 0x12, 0), (Read(0x380), 0x12, 0)]);
    assert_eq!(chip, before);
}
