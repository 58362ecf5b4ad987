//! The chip: what is lent, the session, the order of refusals and the plain
//! commands. Power-up and transition stand in files of their own.

use crate::constants::{self, CONSTANTS};
use crate::digest;
use crate::map::{Kind, Map, Partition};
use crate::{present, words};

#[derive(Clone, Copy, PartialEq, Debug)]
pub enum Phase {
    Off,
    Ready,
    Inert,
    Dead(u8),
}

/// What a chip remembers between commands.
#[derive(Clone, PartialEq, Debug)]
pub struct Session {
    pub phase: Phase,
    /// Sensed digests by partition, zero where there is none.
    pub digests: Vec<u64>,
    /// By partition; only some can be locked.
    pub read_locks: Vec<bool>,
    pub state: u8,
    pub count: u8,
}

#[derive(Clone, Copy, PartialEq, Debug)]
pub enum Command {
    Read(u32),
    Write(u32, u64),
    FrontRead(u32),
    Digest(u32),
    ReadLock(u8),
    Transition(u8, u128),
    PowerUp,
}

#[derive(Clone, Copy, PartialEq, Debug)]
pub struct Answer {
    pub code: u8,
    pub value: u64,
}

/// Refusals without a value.
pub const NOT_ALLOWED: Answer = Answer::refusal(0x05);
pub const NOT_READY: Answer = Answer::refusal(0x07);
pub const WRONG_LENGTH: Answer = Answer::refusal(0x10);
pub const WRONG_CONSTANTS: Answer = Answer::refusal(0x12);

impl Answer {
    pub const fn done(value: u64) -> Answer {
        Answer { code: 0, value }
    }

    pub const fn refusal(code: u8) -> Answer {
        Answer { code, value: 0 }
    }

    /// Programming is refused at a word, counted over the whole array.
    pub const fn not_blank(word: usize) -> Answer {
        Answer {
            code: 0x04,
            value: word as u64,
        }
    }
}

#[derive(Clone, PartialEq, Debug)]
pub struct Chip {
    pub map: Map,
    pub cells: Vec<u16>,
    pub copy: Vec<u16>,
    pub constants: Vec<u16>,
    pub session: Session,
}

impl Session {
    pub fn fresh(map: &Map) -> Session {
        Session {
            phase: Phase::Off,
            digests: vec![0; map.partitions.len()],
            read_locks: vec![false; map.partitions.len()],
            state: 0,
            count: 0,
        }
    }
}

impl Chip {
    /// A chip with a fresh session and a blank copy.
    pub fn new(map: &Map, cells: Vec<u16>, constants: Vec<u16>) -> Chip {
        Chip {
            map: map.clone(),
            cells,
            copy: vec![0; map.cells()],
            constants,
            session: Session::fresh(map),
        }
    }

    pub fn blank(map: &Map, constants: &[u16]) -> Chip {
        Chip::new(map, vec![0; map.cells()], constants.to_vec())
    }

    /// A chip with the same map and constants, and a fresh session.
    pub fn with_cells(&self, cells: Vec<u16>) -> Chip {
        Chip::new(&self.map, cells, self.constants.clone())
    }

    /// One command, its refusals in order.
    pub fn execute(&mut self, command: Command) -> Answer {
        let lengths = [self.cells.len(), self.copy.len(), self.constants.len()];
        if lengths != [self.map.cells(), self.map.cells(), CONSTANTS] {
            return WRONG_LENGTH;
        }
        if !constants::valid(&self.constants) {
            return WRONG_CONSTANTS;
        }
        if command == Command::PowerUp {
            return self.power_up();
        }
        if self.session.phase != Phase::Ready {
            return NOT_READY;
        }
        match command {
            Command::Read(address) => self.read(address),
            Command::Write(address, data) => self.write(address, data),
            Command::FrontRead(address) => self.front_read(address),
            Command::Digest(address) => self.digest(address),
            Command::ReadLock(partition) => self.read_lock(partition),
            Command::Transition(target, token) => self.transition(target, token),
            Command::PowerUp => unreachable!(),
        }
    }

    fn read(&self, address: u32) -> Answer {
        let Some((number, partition)) = self.direct_access(address) else {
            return NOT_ALLOWED;
        };
        let stored = words::number(&self.cells[partition.granule_words(address)]);
        if partition.in_digest(address) {
            return Answer::done(stored);
        }
        let sensed_locked = self.session.digests[number] != 0;
        match partition.kind {
            Kind::Secret(_) if sensed_locked => NOT_ALLOWED,
            Kind::Secret(secret) => Answer::done(self.unscramble(secret, stored)),
            // A record may say that another partition is locked: it has no lock.
            _ if partition.has_software_digest() && self.session.read_locks[number] => NOT_ALLOWED,
            _ => Answer::done(stored),
        }
    }

    fn write(&mut self, address: u32, data: u64) -> Answer {
        let Some((number, partition)) = self.direct_access(address) else {
            return NOT_ALLOWED;
        };
        let sealed = partition.in_digest(address) && partition.has_hardware_digest();
        if sealed || self.session.digests[number] != 0 {
            return NOT_ALLOWED;
        }
        let stored = match partition.kind {
            Kind::Secret(secret) => {
                present::encrypt(constants::secret_key(&self.constants, secret), data)
            }
            _ => data,
        };
        let place = partition.granule_words(address);
        let value = &words::words_of(stored)[..place.len()];
        let programmed = match partition.takes_more_bits(address) {
            true => words::program(&mut self.cells, place.start as u64, value),
            false => words::burn(&mut self.cells, place.start as u64, value),
        };
        match programmed {
            Ok(()) => Answer::done(0),
            Err(word) => Answer::not_blank(word),
        }
    }

    fn front_read(&self, address: u32) -> Answer {
        match self.direct_access(address) {
            Some((_, partition))
                if partition.kind == Kind::Hardware && !partition.in_digest(address) =>
            {
                Answer::done(words::number(&self.copy[partition.granule_words(address)]))
            }
            _ => NOT_ALLOWED,
        }
    }

    fn digest(&mut self, address: u32) -> Answer {
        let starts_here = |p: &Partition| p.has_hardware_digest() && p.start == address;
        let Some(number) = self.map.partitions.iter().position(starts_here) else {
            return NOT_ALLOWED;
        };
        if self.session.digests[number] != 0 {
            return NOT_ALLOWED;
        }
        let digest = self.computed_digest(number);
        let place = self.map.partitions[number].digest_words().start as u64;
        match words::burn(&mut self.cells, place, &words::words_of(digest)) {
            Ok(()) => Answer::done(digest),
            Err(word) => Answer::not_blank(word),
        }
    }

    fn read_lock(&mut self, number: u8) -> Answer {
        let number = usize::from(number);
        match self.map.partitions.get(number) {
            Some(partition) if partition.has_software_digest() => {
                self.session.read_locks[number] = true;
                Answer::done(0)
            }
            _ => NOT_ALLOWED,
        }
    }

    /// The partition of an address that direct access may touch at all.
    fn direct_access(&self, address: u32) -> Option<(usize, Partition)> {
        let number = self.map.find(address)?;
        let partition = self.map.partitions[number];
        (partition.kind != Kind::LifeCycle).then_some((number, partition))
    }

    /// The digest over the data words of a partition as they are stored.
    pub fn computed_digest(&self, number: usize) -> u64 {
        digest::digest(
            constants::digest_start(&self.constants),
            constants::final_key(&self.constants),
            &self.cells[self.map.partitions[number].data()],
        )
    }

    /// The digest of a partition in the cells, zero where there is none.
    pub fn stored_digest(&self, number: usize) -> u64 {
        words::number(&self.cells[self.map.partitions[number].digest_words()])
    }

    /// A block of a secret, by the secret's number, as it was before scrambling.
    pub fn unscramble(&self, secret: usize, stored: u64) -> u64 {
        present::decrypt(constants::secret_key(&self.constants, secret), stored)
    }
}
