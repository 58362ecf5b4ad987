//! What is new in Map 2: its key states, the digest of a single block, the
//! numbers of its partitions, its lengths.

use crate::bench::{file_of_words, printed};
use crate::case_steps::{expect, in_state, powered};
use crate::chips;
use crate::constants::{self, example, lay_raw_token};
use crate::map::Map;
use crate::model::{Chip, Command, Phase, Session};
use crate::present::encrypt;
use crate::script::record;
use crate::token::hash;
use Command::{Digest, FrontRead, PowerUp, Read, Transition, Write};

fn blank() -> Chip {
    Chip::blank(&Map::two(), &example())
}

fn ready() -> Chip {
    powered(blank())
}

const STARTS: [u32; 5] = [0x440, 0x488, 0x498, 0x4c0, 0x518];

/// Words that a granule of the key states may hold and be given.
const WORDS: [u16; 6] = [0, 1, 0x8000, 0x8001, 0x7ffe, 0xffff];

/// The lowest of two words with a bit that would be cleared.
fn cleared(held: [u16; 2], value: [u16; 2]) -> Option<u64> {
    let loses = |i: &usize| (0..16).any(|bit| held[*i] >> bit & 1 > value[*i] >> bit & 1);
    [0, 1].iter().find(|i| loses(i)).map(|i| *i as u64)
}

#[test]
fn key_states_take_more_bits_and_lose_none() {
    let pairs = || WORDS.iter().flat_map(|&low| WORDS.map(|high| [low, high]));
    let ready = ready();
    for (address, first) in [(0x418, 0x20c), (0x41c, 0x20e), (0x434, 0x21a)] {
        for (held, value) in pairs().flat_map(|held| pairs().map(move |value| (held, value))) {
            let mut chip = ready.clone();
            chip.cells[first..first + 2].copy_from_slice(&held);
            let mut left = chip.cells.clone();
            let data = u64::from(value[1]) << 16 | u64::from(value[0]);
            match cleared(held, value) {
                Some(word) => {
                    let named = first as u64 + word;
                    expect(&mut chip, &[(Write(address + 2, data), 4, named)]);
                }
                None => {
                    let steps = [(Write(address + 2, data), 0, 0), (Read(address), 0, data)];
                    expect(&mut chip, &steps);
                    left[first..first + 2].copy_from_slice(&value);
                }
            }
            assert_eq!(chip.cells, left, "{held:x?} {value:x?}");
            assert_eq!(chip.session.phase, Phase::Ready);
        }
    }
}

#[test]
fn the_high_half_of_the_data_is_not_looked_at() {
    let steps = [
        (Write(0x41c, 0xffff_ffff_0000_0001), 0, 0),
        (Write(0x41c, 0x0000_0000_0000_0003), 0, 0),
        (Read(0x41c), 0, 3),
        (Read(0x420), 0, 0),
        (Write(0x41c, 0xffff_ffff_0000_0001), 4, 0x20e),
    ];
    expect(&mut ready(), &steps);
}

#[test]
fn the_digest_of_the_key_states_takes_one_value() {
    for held in 1..16_u32 {
        let mut chip = ready();
        for word in (0..4).filter(|word| held >> word & 1 == 1) {
            chip.cells[0x21c + word] = 0x0400;
        }
        let before = chip.clone();
        let lowest = 0x21c + u64::from(held.trailing_zeros());
        for data in [0, 1, u64::MAX, 0x0400_0400_0400_0400] {
            for address in [0x438, 0x43c, 0x43f] {
                expect(&mut chip, &[(Write(address, data), 4, lowest)]);
            }
        }
        assert_eq!(chip, before);
    }
}

#[test]
fn locked_key_states_name_no_word() {
    let steps = [
        (Write(0x418, 0x1_0000), 0, 0),
        (Write(0x438, 1), 0, 0),
        (Write(0x418, 1), 4, 0x20d),
        (Write(0x418, 0x3_0000), 0, 0),
        (PowerUp, 0, 0),
        (Write(0x418, 0x7_0000), 5, 0),
        (Write(0x418, 1), 5, 0),
        (Write(0x434, 0), 5, 0),
        (Write(0x43c, 1), 5, 0),
        (Read(0x418), 0, 0x3_0000),
    ];
    expect(&mut ready(), &steps);
}

#[test]
fn other_data_takes_no_more_bits() {
    for address in [
        0x000, 0x034, 0x040, 0x140, 0x240, 0x40c, 0x440, 0x47c, 0x488, 0x48c,
    ] {
        let word = u64::from(address) / 2;
        let steps = [
            (Write(address, 1), 0, 0),
            (Write(address, 3), 4, word),
            (Write(address, 1), 4, word),
        ];
        expect(&mut ready(), &steps);
    }
}

/// One block of 64 bits: the key of the only chunk has a zero high half.
#[test]
fn the_digest_of_hw_cfg1_has_one_half_chunk() {
    let mut chip = ready();
    let steps = [
        (Write(0x488, 0x5566_7788), 0, 0),
        (Write(0x48c, 0x1122_3344), 0, 0),
    ];
    expect(&mut chip, &steps);
    let start = constants::digest_start(&chip.constants);
    let state = encrypt(0x1122_3344_5566_7788, start) ^ start;
    let digest = encrypt(constants::final_key(&chip.constants), state) ^ state;
    let steps = [
        (Digest(0x488), 0, digest),
        (Read(0x490), 0, digest),
        (PowerUp, 0, 0),
        (Write(0x488, 0), 5, 0),
        (FrontRead(0x48c), 0, 0x1122_3344),
        (Read(0x488), 0, 0x5566_7788),
    ];
    expect(&mut chip, &steps);
}

#[test]
fn each_secret_has_its_own_key() {
    for (address, secret) in [(0x498, 0), (0x4c0, 1), (0x508, 1), (0x518, 2), (0x560, 2)] {
        let mut chip = ready();
        expect(
            &mut chip,
            &[
                (Write(address + 7, 0x0123_4567), 0, 0),
                (Read(address), 0, 0x0123_4567),
            ],
        );
        let key = constants::secret_key(&example(), secret);
        let stored = encrypt(key, 0x0123_4567).to_le_bytes();
        let first = address as usize / 2;
        assert_eq!(file_of_words(&chip.cells[first..first + 4]), stored);
    }
}

#[test]
fn the_first_damaged_partition_is_named_by_its_number() {
    let mut chip = ready();
    for start in STARTS {
        assert_eq!(chip.execute(Digest(start)).code, 0);
    }
    expect(&mut chip, &[(PowerUp, 0, 0)]);
    for (number, start) in (5_u8..10).zip(STARTS).rev() {
        chip.cells[start as usize / 2] ^= 1;
        expect(&mut chip, &[(PowerUp, 6, number.into()), (Read(0), 7, 0)]);
        assert_eq!(chip.copy, vec![0; 740]);
        let dead = Session {
            phase: Phase::Dead(6),
            ..Session::fresh(&chip.map)
        };
        assert_eq!(chip.session, dead);
    }
}

#[test]
fn buffered_partitions_are_sensed() {
    let mut cells: Vec<u16> = (0..740).map(|i| i + 1).collect();
    cells[0x440 / 2..].fill(0);
    let mut chip = powered(blank().with_cells(cells.clone()));
    let sensed = |start: usize| {
        u64::from_le_bytes(
            file_of_words(&cells[start / 2..start / 2 + 4])
                .try_into()
                .unwrap(),
        )
    };
    let digests = [0x038, 0x138, 0x238, 0x410, 0x438].map(sensed);
    assert_eq!(chip.session.digests[..5], digests);
    assert_eq!(chip.session.digests[5..], [0; 6]);
    assert_eq!(chip.copy[..0x498 / 2], vec![0; 0x498 / 2]);
    // A blank block of a secret is unscrambled too; digests are not.
    for (start, digest) in [(0x498, 0x4b8), (0x4c0, 0x510), (0x518, 0x568)] {
        assert!(chip.copy[start / 2..digest / 2]
            .iter()
            .any(|word| *word != 0));
        assert_eq!(chip.copy[digest / 2..digest / 2 + 4], [0; 4]);
    }
    for start in [0x440, 0x488, 0x498] {
        assert_eq!(chip.execute(Digest(start)).code, 0);
    }
    expect(&mut chip, &[(PowerUp, 0, 0)]);
    for digest in [0x480, 0x490, 0x4b8] {
        let words = digest / 2..digest / 2 + 4;
        assert_ne!(chip.copy[words.clone()], [0; 4]);
        assert_eq!(chip.copy[words.clone()], chip.cells[words]);
    }
    assert!(chip.session.digests[5..8].iter().all(|digest| *digest != 0));
}

#[test]
fn counter_and_state_words_end_the_array() {
    let mut chip = powered(in_state(&Map::two(), &example(), 1, 3));
    assert_eq!((chip.session.state, chip.session.count), (1, 3));
    assert_eq!(chip.cells[0x2b8..0x2bc], [0x8181, 0x8181, 0x8181, 0x0101]);
    assert_eq!(chip.cells[0x2d0..0x2d2], [0x1111, 0x0011]);
    assert_eq!(chip.copy[0x2b8..], chip.cells[0x2b8..]);
    chip.cells[739] |= 0x4000;
    expect(&mut chip, &[(Transition(2, 0), 4, 739)]);
    assert_eq!(chip.session.phase, Phase::Dead(4));
    let mut chip = powered(in_state(&Map::two(), &example(), 1, 3));
    chip.cells[0x2b8] |= 0x4000;
    expect(&mut chip, &[(Transition(2, 0), 4, 0x2b8)]);
}

/// A transition for each token: its state, its target and the raw token.
const MOVES: [(u8, u8, u128); 4] = [
    (0, 1, 0x0f1e_2d3c_4b5a_6978_8796_a5b4_c3d2_e1f0),
    (2, 3, 0x1111_2222_3333_4444_5555_6666_7777_8888),
    (1, 16, 0x9999_aaaa_bbbb_cccc_dddd_eeee_ffff_0001),
    (17, 19, 0x0123_4567_89ab_cdef_fedc_ba98_7654_3210),
];

/// Writes a hash in two halves.
fn store(chip: &mut Chip, address: u32, hash: u128) {
    let halves = [
        (Write(address, hash as u64), 0, 0),
        (Write(address + 8, (hash >> 64) as u64), 0, 0),
    ];
    expect(chip, &halves);
}

#[test]
fn tokens_stand_at_the_same_places_of_their_secrets() {
    let [raw, unlock, exit, rma] = MOVES.map(|(_, _, token)| hash(token));
    for (state, target, token) in MOVES {
        let mut chip = blank();
        lay_raw_token(&mut chip.constants, raw);
        chips::lay(&mut chip, state, 5);
        let mut chip = powered(chip);
        store(&mut chip, 0x498, unlock);
        store(&mut chip, 0x4a8, exit);
        store(&mut chip, 0x518, rma);
        for start in [0x498, 0x518] {
            assert_eq!(chip.execute(Digest(start)).code, 0);
        }
        let steps = [
            (PowerUp, 0, 5 * 256 + u64::from(state)),
            (Read(0x498), 5, 0),
            (Transition(target, token ^ 1), 0x23, 0),
            (PowerUp, 0, 6 * 256 + u64::from(state)),
            (Transition(target, token), 0, 0),
            (PowerUp, 0, 7 * 256 + u64::from(target)),
        ];
        expect(&mut chip, &steps);
    }
}

#[test]
fn lengths_are_those_of_the_map() {
    for map in [Map::one(), Map::two()] {
        for cells in [0, 447, 448, 449, 739, 740, 741] {
            for copy in [0, 447, 448, 449, 739, 740, 741] {
                let mut chip = Chip::new(&map, vec![0; cells], example());
                chip.copy = vec![0; copy];
                let right = cells == map.cells() && copy == map.cells();
                let code = if right { 0 } else { 0x10 };
                expect(&mut chip, &[(PowerUp, code, 0), (Read(0), code, 0)]);
            }
        }
    }
}

#[test]
fn the_bench_takes_map_2_for_1480_bytes() {
    let script = [
        PowerUp,
        Write(0, 0x1234_5678),
        Read(0),
        Read(0x328),
        Read(0x570),
    ];
    let script = script.map(record).concat();
    let constants = file_of_words(&example());
    let expected = "07 00 0000000000000000\n02 00 0000000000000000\n\
                    01 00 0000000012345678\n01 00 0000000000000000\n\
                    01 05 0000000000000000\nend 5\n";
    assert_eq!(printed(&script, &[0; 1480], &constants), expected);
    let refused = "07 10 0000000000000000\n02 10 0000000000000000\n\
                   01 10 0000000000000000\n01 10 0000000000000000\n\
                   01 10 0000000000000000\nend 5\n";
    for length in [740, 1478, 1479, 1481, 1482, 2960, 1480 + 65_536] {
        assert_eq!(printed(&script, &vec![0; length], &constants), refused);
    }
    assert!(printed(&script, &[0; 1480], &constants[..262]) == refused);
}
