//! The maps: partitions by byte address, and what their kind allows.

use std::ops::Range;

/// What a partition is. It decides what may be done there.
#[derive(Clone, Copy, PartialEq, Debug)]
pub enum Kind {
    /// Unbuffered, with a digest that software computes.
    Software,
    /// The same, but bits may be added to its data.
    KeyState,
    /// Buffered and plain, with a digest that hardware computes.
    Hardware,
    /// The same, scrambled; the secret's number is that of its key.
    Secret(usize),
    /// Buffered, without a digest; transitions alone change it.
    LifeCycle,
}

#[derive(Clone, Copy, PartialEq, Debug)]
pub struct Partition {
    pub kind: Kind,
    pub start: u32,
    /// The end where there is no digest.
    pub digest: u32,
    pub end: u32,
}

/// The partitions of a chip, in the order of their numbers and addresses.
#[derive(Clone, PartialEq, Debug)]
pub struct Map {
    pub name: &'static str,
    pub partitions: Vec<Partition>,
}

/// Bytes of every digest.
const DIGEST: u32 = 8;

/// Map 1 as document 01 has it: start, digest, end.
#[rustfmt::skip]
const BY_ADDRESS: [(Kind, u32, u32, u32); 7] = [
    (Kind::Software,  0x000, 0x0F8, 0x100), // CREATOR_SW_CFG
    (Kind::Software,  0x100, 0x1F8, 0x200), // OWNER_SW_CFG
    (Kind::Hardware,  0x200, 0x248, 0x250), // HW_CFG
    (Kind::Secret(0), 0x250, 0x270, 0x278),
    (Kind::Secret(1), 0x278, 0x2C8, 0x2D0),
    (Kind::Secret(2), 0x2D0, 0x320, 0x328),
    (Kind::LifeCycle, 0x328, 0x380, 0x380),
];

/// Map 2 as request Six has it: sizes in bytes, digests included.
#[rustfmt::skip]
const BY_SIZE: [(Kind, u32); 11] = [
    (Kind::Software,   64), // VENDOR_TEST
    (Kind::Software,  256), // CREATOR_SW_CFG
    (Kind::Software,  256), // OWNER_SW_CFG
    (Kind::Software,  472), // ROT_CREATOR_AUTH_CODESIGN
    (Kind::KeyState,   40), // ROT_CREATOR_AUTH_STATE
    (Kind::Hardware,   72), // HW_CFG0
    (Kind::Hardware,   16), // HW_CFG1
    (Kind::Secret(0),  40),
    (Kind::Secret(1),  88),
    (Kind::Secret(2),  88),
    (Kind::LifeCycle,  88),
];

impl Map {
    pub fn one() -> Map {
        let row = |(kind, start, digest, end)| Partition {
            kind,
            start,
            digest,
            end,
        };
        Map {
            name: "Map 1",
            partitions: BY_ADDRESS.into_iter().map(row).collect(),
        }
    }

    pub fn two() -> Map {
        let mut partitions = Vec::new();
        let mut start = 0;
        for (kind, size) in BY_SIZE {
            let end = start + size;
            let digest = match kind {
                Kind::LifeCycle => end,
                _ => end - DIGEST,
            };
            partitions.push(Partition {
                kind,
                start,
                digest,
                end,
            });
            start = end;
        }
        Map {
            name: "Map 2",
            partitions,
        }
    }

    /// The map that a bench program takes for an image of so many bytes.
    pub fn of_image(bytes: usize) -> Map {
        let two = Map::two();
        match bytes == two.end() as usize {
            true => two,
            false => Map::one(),
        }
    }

    /// The first address past the last partition.
    pub fn end(&self) -> u32 {
        self.partitions.last().map_or(0, |last| last.end)
    }

    /// Cells of 16 bits.
    pub fn cells(&self) -> usize {
        self.end() as usize / 2
    }

    /// The number of the partition an address lies in.
    pub fn find(&self, address: u32) -> Option<usize> {
        self.partitions
            .iter()
            .position(|partition| (partition.start..partition.end).contains(&address))
    }

    /// The number of the first partition of a kind; each map has every kind
    /// that is asked for by its number.
    pub fn number_of(&self, kind: Kind) -> usize {
        let place = self.partitions.iter().position(|p| p.kind == kind);
        place.expect("a kind that the map has")
    }

    /// Words of the life cycle.
    pub fn life_cycle(&self) -> Range<usize> {
        self.partitions[self.number_of(Kind::LifeCycle)].data()
    }
}

impl Partition {
    /// Words of the data.
    pub fn data(&self) -> Range<usize> {
        words(self.start, self.digest)
    }

    /// Words of the digest; empty where there is none.
    pub fn digest_words(&self) -> Range<usize> {
        words(self.digest, self.end)
    }

    /// Bytes in a granule of the data.
    pub fn granule(&self) -> u32 {
        match self.kind {
            Kind::Secret(_) => 8,
            _ => 4,
        }
    }

    /// Words of the granule at an address of this partition; a digest is one.
    pub fn granule_words(&self, address: u32) -> Range<usize> {
        if self.in_digest(address) {
            return self.digest_words();
        }
        let first = address / self.granule() * self.granule();
        words(first, first + self.granule())
    }

    /// The first address of each granule of the data.
    pub fn granules(&self) -> impl Iterator<Item = u32> {
        (self.start..self.digest).step_by(self.granule() as usize)
    }

    /// Whether an address of this partition lies in its digest.
    pub fn in_digest(&self, address: u32) -> bool {
        address >= self.digest
    }

    /// Whether software computes the digest; a read lock is there for these.
    pub fn has_software_digest(&self) -> bool {
        matches!(self.kind, Kind::Software | Kind::KeyState)
    }

    /// Whether hardware computes the digest.
    pub fn has_hardware_digest(&self) -> bool {
        matches!(self.kind, Kind::Hardware | Kind::Secret(_))
    }

    /// Whether a power-up puts the partition into the sensed copy.
    pub fn is_buffered(&self) -> bool {
        !self.has_software_digest()
    }

    /// Whether a write at an address may add bits to words that hold some.
    pub fn takes_more_bits(&self, address: u32) -> bool {
        self.kind == Kind::KeyState && !self.in_digest(address)
    }
}

fn words(from: u32, to: u32) -> Range<usize> {
    from as usize / 2..to as usize / 2
}

#[cfg(test)]
mod tests {
    use super::*;

    #[test]
    fn every_address_lies_in_one_partition() {
        for map in [Map::one(), Map::two()] {
            for address in 0..map.end() {
                let holds = |p: &&Partition| p.start <= address && address < p.end;
                let holders = map.partitions.iter().filter(holds);
                assert_eq!(holders.count(), 1, "{} {address:x}", map.name);
            }
            assert_eq!(map.find(map.end()), None);
            assert_eq!(map.find(u32::MAX), None);
        }
    }

    #[test]
    fn edges_of_map_1() {
        let map = Map::one();
        assert_eq!((map.end(), map.cells()), (0x380, 448));
        assert_eq!(map.find(0x327), Some(5));
        assert_eq!(map.find(0x328), Some(6));
        assert_eq!(map.find(0x37f), Some(6));
        let lengths: Vec<usize> = map.partitions.iter().map(|p| 2 * p.data().len()).collect();
        assert_eq!(lengths, [248, 248, 72, 32, 80, 80, 88]);
    }

    /// Counted out by hand: start, digest and end of each partition.
    const COUNTED: [(u32, u32, u32); 11] = [
        (0x000, 0x038, 0x040),
        (0x040, 0x138, 0x140),
        (0x140, 0x238, 0x240),
        (0x240, 0x410, 0x418),
        (0x418, 0x438, 0x440),
        (0x440, 0x480, 0x488),
        (0x488, 0x490, 0x498),
        (0x498, 0x4b8, 0x4c0),
        (0x4c0, 0x510, 0x518),
        (0x518, 0x568, 0x570),
        (0x570, 0x5c8, 0x5c8),
    ];

    #[test]
    fn edges_of_map_2() {
        let map = Map::two();
        assert_eq!((map.end(), map.cells()), (1480, 740));
        let edges = |p: &Partition| (p.start, p.digest, p.end);
        let edges: Vec<(u32, u32, u32)> = map.partitions.iter().map(edges).collect();
        assert_eq!(edges, COUNTED);
        for (number, (start, digest, end)) in COUNTED.into_iter().enumerate() {
            assert_eq!(map.find(start), Some(number));
            assert_eq!(map.find(end - 1), Some(number));
            let partition = map.partitions[number];
            assert!(!partition.in_digest(digest - 1));
            assert_eq!(partition.in_digest(end - 1), number < 10);
        }
    }

    #[test]
    fn kinds_of_map_2() {
        let map = Map::two();
        for (number, partition) in map.partitions.iter().enumerate() {
            assert_eq!(partition.has_software_digest(), number < 5);
            assert_eq!(partition.has_hardware_digest(), (5..10).contains(&number));
            assert_eq!(partition.is_buffered(), number >= 5);
            let granule = if (7..10).contains(&number) { 8 } else { 4 };
            assert_eq!(partition.granule(), granule);
            for address in partition.start..partition.end {
                let more = (0x418..0x438).contains(&address);
                assert_eq!(partition.takes_more_bits(address), more, "{address:x}");
            }
        }
        assert_eq!(map.number_of(Kind::Secret(0)), 7);
        assert_eq!(map.number_of(Kind::Secret(2)), 9);
        assert_eq!(map.life_cycle(), 0x2b8..0x2e4);
    }

    #[test]
    fn nothing_in_map_1_takes_more_bits() {
        for partition in Map::one().partitions {
            let mut addresses = partition.start..partition.end;
            assert!(!addresses.any(|address| partition.takes_more_bits(address)));
        }
    }

    #[test]
    fn secrets_and_life_cycle_have_one_size_in_both_maps() {
        let (one, two) = (Map::one(), Map::two());
        for kind in [0, 1, 2]
            .map(Kind::Secret)
            .into_iter()
            .chain([Kind::LifeCycle])
        {
            let size = |map: &Map| map.partitions[map.number_of(kind)].data().len();
            assert_eq!(size(&one), size(&two), "{kind:?}");
        }
    }

    #[test]
    fn an_image_of_1480_bytes_has_map_2() {
        assert_eq!(Map::of_image(1480), Map::two());
        for bytes in [0, 1, 896, 740, 1478, 1479, 1481, 1482, 2960, 1480 + 65_536] {
            assert_eq!(Map::of_image(bytes), Map::one(), "{bytes}");
        }
    }

    #[test]
    fn granules_are_whole() {
        for map in [Map::one(), Map::two()] {
            for partition in &map.partitions {
                for edge in [partition.start, partition.digest, partition.end] {
                    assert_eq!(edge % 8, 0);
                }
            }
        }
        assert_eq!(Map::one().partitions[0].granule_words(0x007), 2..4);
        assert_eq!(Map::one().partitions[3].granule_words(0x25f), 0x12c..0x130);
        assert_eq!(Map::two().partitions[4].granule_words(0x437), 0x21a..0x21c);
        assert_eq!(Map::two().partitions[7].granule_words(0x49f), 0x24c..0x250);
    }

    #[test]
    fn a_digest_is_one_granule_of_8_bytes() {
        for map in [Map::one(), Map::two()] {
            let (life_cycle, others) = map.partitions.split_last().unwrap();
            for partition in others {
                for address in partition.digest..partition.end {
                    let first = partition.digest as usize / 2;
                    assert_eq!(partition.granule_words(address), first..first + 4);
                }
            }
            assert_eq!(life_cycle.digest_words().len(), 0);
        }
        assert_eq!(Map::one().partitions[0].granule_words(0x0f7), 0x7a..0x7c);
        assert_eq!(Map::one().partitions[6].granule_words(0x37f), 0x1be..0x1c0);
    }
}
