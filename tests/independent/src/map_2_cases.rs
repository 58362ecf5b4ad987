//! The cases of the paper read over Map 2, but for those of the life cycle.
//! Addresses are counted out by hand.

use crate::case_steps::{expect, powered};
use crate::constants::example;
use crate::map::Map;
use crate::model::{Chip, Command};
use Command::{Digest, FrontRead, PowerUp, Read, ReadLock, Write};

fn blank() -> Chip {
    Chip::blank(&Map::two(), &example())
}

fn ready() -> Chip {
    powered(blank())
}

/// Start and digest of the partitions with a software digest.
const SOFTWARE: [(u32, u32); 5] = [
    (0x000, 0x038),
    (0x040, 0x138),
    (0x140, 0x238),
    (0x240, 0x410),
    (0x418, 0x438),
];

/// Start and digest of those with a hardware digest, numbers 5 to 9.
const HARDWARE: [(u32, u32); 5] = [
    (0x440, 0x480),
    (0x488, 0x490),
    (0x498, 0x4b8),
    (0x4c0, 0x510),
    (0x518, 0x568),
];

#[test]
fn case_01_blank_power_up() {
    expect(&mut blank(), &[(PowerUp, 0, 0)]);
}

#[test]
fn case_02_blank_reads() {
    let mut chip = ready();
    for address in [0x56f, 0x327, 0x328, 0x37f, 0x380] {
        assert_eq!(chip.execute(Read(address)).code, 0, "{address:x}");
    }
    for address in [0x570, 0x5c7, 0x5c8, 0x5cc, 0x1000, 0x1_0000, u32::MAX] {
        let refused = [(Read(address), 5, 0), (Write(address, 1), 5, 0)];
        expect(&mut chip, &refused);
    }
}

#[test]
fn case_03_low_address_bits() {
    for (start, word) in [(0x000, 0), (0x240, 0x120), (0x40c, 0x206), (0x418, 0x20c)] {
        let mut chip = ready();
        let steps = [
            (Write(start + 3, 0xdead_beef_1234_5678), 0, 0),
            (Read(start), 0, 0x1234_5678),
        ];
        expect(&mut chip, &steps);
        assert_eq!(chip.cells[word..word + 3], [0x5678, 0x1234, 0]);
    }
}

#[test]
fn case_04_no_second_burn() {
    for (address, word) in [(0x000, 0), (0x040, 0x20), (0x40c, 0x206), (0x47c, 0x23e)] {
        let steps = [
            (Write(address, 0x0f), 0, 0),
            (Write(address, 0xf0), 4, word),
            (Write(address, 0xff), 4, word),
        ];
        expect(&mut ready(), &steps);
    }
    let in_auth_state = [
        (Write(0x418, 0x0f), 0, 0),
        (Write(0x418, 0xf0), 4, 0x20c),
        (Write(0x418, 0xff), 0, 0),
        (Read(0x418), 0, 0xff),
    ];
    expect(&mut ready(), &in_auth_state);
}

#[test]
fn case_05_hardware_digests_are_not_written() {
    let mut chip = ready();
    for (_, digest) in HARDWARE {
        for address in digest..digest + 8 {
            expect(&mut chip, &[(Write(address, 1), 5, 0)]);
        }
    }
    assert_eq!(chip.cells, vec![0; 740]);
}

#[test]
fn case_06_digest_at_a_start_only() {
    let mut chip = ready();
    for address in 0..0x600 {
        if HARDWARE.iter().all(|(start, _)| *start != address) {
            expect(&mut chip, &[(Digest(address), 5, 0)]);
        }
    }
    for (number, (start, digest)) in (5..).zip(HARDWARE) {
        let computed = chip.computed_digest(number);
        let steps = [(Digest(start), 0, computed), (Read(digest), 0, computed)];
        expect(&mut chip, &steps);
    }
}

#[test]
fn case_07_software_digest_locks_from_power_up() {
    for (start, digest) in SOFTWARE {
        let mut chip = ready();
        let steps = [
            (Write(digest, 1), 0, 0),
            (Read(digest + 4), 0, 1),
            (Write(start + 4, 1), 0, 0),
            (PowerUp, 0, 0),
            (Write(start + 4, 3), 5, 0),
            (Write(start, 1), 5, 0),
            (Write(digest, 3), 5, 0),
            (Read(start + 4), 0, 1),
        ];
        expect(&mut chip, &steps);
        let others = SOFTWARE.iter().filter(|(other, _)| *other != start);
        for (other, _) in others {
            expect(&mut chip, &[(Write(*other, 1), 0, 0)]);
        }
    }
}

#[test]
fn case_08_read_lock() {
    for (number, (start, digest)) in (0..).zip(SOFTWARE) {
        let mut chip = ready();
        let steps = [
            (ReadLock(number), 0, 0),
            (Read(start), 5, 0),
            (Read(digest - 1), 5, 0),
            (Read(digest), 0, 0),
            (ReadLock(number), 0, 0),
            (Write(start, 7), 0, 0),
        ];
        expect(&mut chip, &steps);
        for (other, _) in SOFTWARE.iter().filter(|(other, _)| *other != start) {
            expect(&mut chip, &[(Read(*other), 0, 0)]);
        }
        expect(&mut chip, &[(PowerUp, 0, 0), (Read(start), 0, 7)]);
    }
    let mut chip = ready();
    for number in 5..=255 {
        expect(&mut chip, &[(ReadLock(number), 5, 0)]);
    }
    assert_eq!(chip.session.read_locks, vec![false; 11]);
}

#[test]
fn case_14_front_read_is_sensed() {
    for address in [0x440, 0x45c, 0x47c, 0x488, 0x48c] {
        let steps = [
            (Write(address, 0x1234), 0, 0),
            (FrontRead(address), 0, 0),
            (Read(address), 0, 0x1234),
            (PowerUp, 0, 0),
            (FrontRead(address + 3), 0, 0x1234),
            (Read(address), 0, 0x1234),
        ];
        expect(&mut ready(), &steps);
    }
}

#[test]
fn front_reads_reach_the_data_of_both_hardware_parts_alone() {
    let mut chip = ready();
    for address in 0..0x600 {
        let reached = (0x440..0x480).contains(&address) || (0x488..0x490).contains(&address);
        let code = if reached { 0 } else { 5 };
        expect(&mut chip, &[(FrontRead(address), code, 0)]);
    }
}
