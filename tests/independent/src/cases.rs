//! A case put to a proved program, its bytes, and the answer expected of it.

use crate::{cshake, digest, keccak, present, token, words};

pub const ENCRYPT: u64 = 1;
pub const DECRYPT: u64 = 2;
pub const DIGEST: u64 = 3;
pub const PROGRAM: u64 = 4;
pub const SPLIT: u64 = 5;
pub const JOIN: u64 = 6;
pub const CHAIN: u64 = 7;
pub const CSHAKE: u64 = 8;
pub const PERMUTATION: u64 = 9;
pub const TOKEN: u64 = 10;

/// The names of the operations; what is no operation stands at 0.
pub const NAMES: [&str; 11] = [
    "none",
    "encrypt",
    "decrypt",
    "digest",
    "program",
    "split",
    "join",
    "chain",
    "cshake128",
    "permutation",
    "token",
];

pub const ANSWER_BYTES: usize = 128;

/// Words of a case; programming has its cells in the lower half and its value
/// in the upper.
pub const WORDS: usize = 96;
pub const HALF: usize = 48;

/// Bytes of a case's words, and of those of an answer.
pub const BYTES: usize = 2 * WORDS;
const ANSWERED: usize = 2 * HALF;

/// The longest message and output, in bytes.
pub const LONGEST: usize = 1024;
/// The most permutations, and the last lane from which 12 are answered.
pub const MOST_PERMUTATIONS: usize = 64;
pub const LAST_LANE: usize = 13;

/// One case: an operation, its numbers and its words.
#[derive(Clone)]
pub struct Case {
    pub operation: u64,
    pub a: u64,
    pub b: u64,
    pub c: u64,
    pub n: u64,
    pub m: u64,
    pub words: [u16; WORDS],
}

impl Case {
    pub fn blank(operation: u64) -> Case {
        Case {
            operation,
            a: 0,
            b: 0,
            c: 0,
            n: 0,
            m: 0,
            words: [0; WORDS],
        }
    }

    /// The case as its 256 bytes.
    pub fn bytes(&self) -> Vec<u8> {
        let numbers = [self.operation, self.a, self.b, self.c, self.n, self.m, 0, 0];
        let mut bytes = bytes_of_numbers(&numbers);
        bytes.extend(bytes_of_words(&self.words));
        bytes
    }

    pub fn name(&self) -> &'static str {
        NAMES[self.kind()]
    }

    /// The place of the operation in `NAMES`.
    pub fn kind(&self) -> usize {
        match self.operation {
            known @ ENCRYPT..=TOKEN => known as usize,
            _ => 0,
        }
    }

    /// The 128 bytes a right program answers.
    pub fn answer(&self) -> Vec<u8> {
        match self.operation {
            ENCRYPT => result(present::encrypt(join(self.a, self.b), self.c)),
            DECRYPT => result(present::decrypt(join(self.a, self.b), self.c)),
            DIGEST => {
                let data = &self.words[..at_most(self.n, WORDS)];
                result(digest::digest(self.a, join(self.b, self.c), data))
            }
            PROGRAM => self.answer_of_program(),
            SPLIT => answer(0, &words::words_of(self.a)),
            JOIN => result(words::number(&self.words[..at_most(self.n, WORDS)])),
            CHAIN => result(self.chain()),
            CSHAKE => answer_of_bytes(self.cshake()),
            PERMUTATION => answer_of_bytes(self.permutations()),
            TOKEN => answer_of_bytes(self.hashes().to_le_bytes().to_vec()),
            _ => result(0),
        }
    }

    fn answer_of_program(&self) -> Vec<u8> {
        let mut cells = self.words[..at_most(self.n, HALF)].to_vec();
        let value = &self.words[HALF..HALF + at_most(self.m, HALF)];
        let programmed = match self.b {
            0 => words::program(&mut cells, self.a, value),
            _ => words::burn(&mut cells, self.a, value),
        };
        let code = match programmed {
            Ok(()) => 0,
            Err(cell) => 1 + cell as u64,
        };
        answer(code, &cells)
    }

    fn chain(&self) -> u64 {
        let key = join(self.a, self.b);
        (0..self.n).fold(self.c, |block, _| present::encrypt(key, block))
    }

    /// The last bytes of an output of cSHAKE128.
    fn cshake(&self) -> Vec<u8> {
        let bytes = bytes_of_words(&self.words);
        let (name, rest) = bytes.split_at(at_most(self.a, BYTES));
        let customization = &rest[..at_most(self.b, rest.len())];
        let round = bytes.iter().cycle().copied();
        let message: Vec<u8> = round.take(at_most(self.n, LONGEST)).collect();
        let length = at_most(self.m, LONGEST);
        let output = cshake::cshake128(&message, length, name, customization);
        output[length.saturating_sub(ANSWERED)..].to_vec()
    }

    /// Twelve lanes after some permutations.
    fn permutations(&self) -> Vec<u8> {
        let mut bytes = bytes_of_words(&self.words);
        bytes.extend(self.a.to_le_bytes());
        let mut state = cshake::bits_of(&bytes);
        for _ in 0..at_most(self.n, MOST_PERMUTATIONS) {
            state = keccak::permute(&state);
        }
        let first = 8 * at_most(self.b, LAST_LANE);
        cshake::bytes_of(&state)[first..first + ANSWERED].to_vec()
    }

    fn hashes(&self) -> u128 {
        let given = join(self.a, self.b);
        (0..self.n).fold(given, |token, _| token::hash(token))
    }
}

fn at_most(count: u64, bound: usize) -> usize {
    count.min(bound as u64) as usize
}

fn join(high: u64, low: u64) -> u128 {
    u128::from(high) << 64 | u128::from(low)
}

fn bytes_of_numbers(numbers: &[u64]) -> Vec<u8> {
    numbers
        .iter()
        .flat_map(|number| number.to_le_bytes())
        .collect()
}

fn bytes_of_words(words: &[u16]) -> Vec<u8> {
    words.iter().flat_map(|word| word.to_le_bytes()).collect()
}

fn result(number: u64) -> Vec<u8> {
    answer(number, &[])
}

/// An answer whose words are bytes, the lowest of each word first.
fn answer_of_bytes(bytes: Vec<u8>) -> Vec<u8> {
    let mut answer = [result(0)[..ANSWER_BYTES - ANSWERED].to_vec(), bytes].concat();
    answer.resize(ANSWER_BYTES, 0);
    answer
}

fn answer(number: u64, words: &[u16]) -> Vec<u8> {
    let mut bytes = bytes_of_numbers(&[number, 0, 0, 0]);
    bytes.extend(bytes_of_words(words));
    bytes.resize(ANSWER_BYTES, 0);
    bytes
}

#[cfg(test)]
mod tests {
    use super::*;

    #[test]
    fn a_case_has_256_bytes() {
        let mut case = Case::blank(PROGRAM);
        (case.a, case.m, case.words[0], case.words[95]) = (2, 3, 4, 5);
        let bytes = case.bytes();
        assert_eq!(bytes.len(), 256);
        assert_eq!(
            (bytes[0], bytes[8], bytes[40], bytes[64], bytes[254]),
            (4, 2, 3, 4, 5)
        );
    }

    #[test]
    fn programming_answers_the_refusing_cell() {
        let mut case = Case::blank(PROGRAM);
        (case.a, case.n, case.m) = (1, 3, 2);
        case.words[..4].copy_from_slice(&[9, 1, 2, 7]);
        case.words[48..50].copy_from_slice(&[1, 1]);
        let bytes = case.answer();
        assert_eq!(bytes.len(), ANSWER_BYTES);
        assert_eq!(&bytes[..8], &[3, 0, 0, 0, 0, 0, 0, 0]);
        assert_eq!(&bytes[32..40], &[9, 0, 1, 0, 2, 0, 0, 0]);
        case.b = 1;
        assert_eq!(case.answer()[0], 2);
    }

    #[test]
    fn what_is_no_operation_answers_zeros() {
        for operation in [0, 11, 256 + CSHAKE, u64::MAX] {
            let mut case = Case::blank(operation);
            (case.a, case.b, case.c, case.n, case.words[0]) = (1, 2, 3, 4, 5);
            assert_eq!(case.answer(), vec![0; ANSWER_BYTES]);
        }
    }

    #[test]
    fn counts_above_the_bound_are_the_bound() {
        let mut case = Case::blank(DIGEST);
        case.words = [0x1234; WORDS];
        case.n = u64::MAX;
        let most = case.answer();
        case.n = 96;
        assert_eq!(case.answer(), most);
        case.n = 95;
        assert_ne!(case.answer(), most);
    }

    /// A case whose bytes are 0, 7, 14 and so on.
    fn with_bytes(operation: u64) -> Case {
        let mut case = Case::blank(operation);
        for (i, word) in case.words.iter_mut().enumerate() {
            let byte = |place: usize| (place * 7 % 256) as u8;
            *word = u16::from_le_bytes([byte(2 * i), byte(2 * i + 1)]);
        }
        case
    }

    /// The words of an answer, as bytes in hex; the result is 0.
    fn shown(case: &Case) -> String {
        let answer = case.answer();
        assert_eq!(answer.len(), ANSWER_BYTES);
        assert_eq!(answer[..32], [0; 32]);
        answer[32..]
            .iter()
            .map(|byte| format!("{byte:02x}"))
            .collect()
    }

    /// Computed with another program, which works on lanes.
    #[test]
    fn the_last_bytes_of_an_output() {
        let mut case = with_bytes(CSHAKE);
        (case.a, case.b, case.n, case.m) = (33, 100, 1024, 1024);
        let expected = "8ae7f2ae74596dc4cf9d0750045903df097cbc1c6ad76141d318213800b08a18\
                        b9300043bf9fcb608440176305f685170063b444e6b2e965e13a3573a66a95a0\
                        1eb7f803b16f38a4a2a5c2235112e8c1d96d10a5fa9be219cf81322e9f2ab657";
        assert_eq!(shown(&case), expected);
        (case.n, case.m) = (u64::MAX, 1 << 40);
        assert_eq!(shown(&case), expected);
    }

    /// SHAKE128 of no bytes, and a customization without a name.
    #[test]
    fn short_outputs_are_whole() {
        let mut case = Case::blank(CSHAKE);
        case.m = 5;
        assert_eq!(shown(&case), format!("7f9c2ba4e8{}", "0".repeat(182)));
        case.m = 0;
        assert_eq!(shown(&case), "0".repeat(192));
        for (word, pair) in case.words.iter_mut().zip(b"Email Signature.".chunks(2)) {
            *word = u16::from_le_bytes([pair[0], pair[1]]);
        }
        (case.b, case.n, case.m) = (15, 4, 32);
        let expected = cshake::cshake128(b"Emai", 32, b"", b"Email Signature");
        assert_eq!(case.answer()[32..64], expected);
        assert_eq!(case.answer()[64..], [0; 64]);
    }

    #[test]
    fn names_leave_what_there_is_to_the_customization() {
        let mut case = with_bytes(CSHAKE);
        (case.n, case.m) = (10, 96);
        let mut at = |a, b| {
            (case.a, case.b) = (a, b);
            case.answer()
        };
        assert_eq!(at(192, 1), at(192, 0));
        assert_eq!(at(192, 0), at(u64::MAX, u64::MAX));
        assert_eq!(at(190, 2), at(190, 1 << 32));
        assert_ne!(at(190, 2), at(190, 1));
        assert_ne!(at(190, 2), at(191, 1));
    }

    #[test]
    fn lanes_of_the_published_vectors() {
        let mut case = Case::blank(PERMUTATION);
        (case.n, case.b) = (2, 0);
        assert!(shown(&case).starts_with("3ccb6ef94d955c2d"));
        case.b = u64::MAX;
        assert!(shown(&case).ends_with("5cbf8f6ad26cd020"));
        let bounded = shown(&case);
        case.b = 13;
        assert_eq!(shown(&case), bounded);
        (case.n, case.b) = (65, 1);
        let most = shown(&case);
        (case.n, case.b) = (64, 1);
        assert_eq!(shown(&case), most);
    }

    #[test]
    fn the_last_lane_is_a() {
        let mut case = with_bytes(PERMUTATION);
        (case.a, case.b) = (0x0102_0304_0506_0708, 13);
        assert!(shown(&case).ends_with("0807060504030201"));
        case.b = 1;
        assert!(shown(&case).starts_with("383f464d545b6269"));
    }

    #[test]
    fn a_token_is_hashed_over_and_over() {
        let mut case = Case::blank(TOKEN);
        (case.a, case.b) = (0x0011_2233_4455_6677, 0x8899_aabb_ccdd_eeff);
        let raw = 0x0011_2233_4455_6677_8899_aabb_ccdd_eeff;
        for (n, expected) in [
            (0, raw),
            (1, 0x4a8d_aa85_8e30_48d9_6b28_9b68_d4ef_0b76),
            (3, token::hash(token::hash(token::hash(raw)))),
        ] {
            case.n = n;
            let answer = case.answer();
            assert_eq!(answer[32..48], u128::to_le_bytes(expected));
            assert_eq!(answer[48..], [0; 80]);
        }
    }
}
