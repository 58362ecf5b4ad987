//! SHAKE128 (FIPS 202) and cSHAKE128 (SP 800-185) on strings of bits, the
//! lowest bit of a byte first.

use crate::keccak::{self, WIDTH};

/// Bits that each permutation takes in or gives out.
const RATE: usize = WIDTH - 256;

/// cSHAKE128 of bytes, `length` bytes long.
pub fn cshake128(message: &[u8], length: usize, name: &[u8], customization: &[u8]) -> Vec<u8> {
    let (name, customization) = (bits_of(name), bits_of(customization));
    bytes_of(&customized(
        &bits_of(message),
        8 * length,
        &name,
        &customization,
    ))
}

/// cSHAKE128 with neither name nor customization is SHAKE128.
fn customized(message: &[bool], length: usize, name: &[bool], customization: &[bool]) -> Vec<bool> {
    if name.is_empty() && customization.is_empty() {
        return shake(message, length);
    }
    let strings = [encode_string(name), encode_string(customization)].concat();
    let prefix = bytepad(&strings, RATE / 8);
    sponge(&[&prefix, message, &[false, false]].concat(), length)
}

fn shake(message: &[bool], length: usize) -> Vec<bool> {
    sponge(&[message, &[true; 4]].concat(), length)
}

/// Takes in the string, padded to whole parts of the rate, and gives out as
/// many bits as are asked for.
fn sponge(string: &[bool], length: usize) -> Vec<bool> {
    let padded = [string, &pad(RATE, string.len())].concat();
    let mut state = vec![false; WIDTH];
    for part in padded.chunks(RATE) {
        for (bit, added) in state.iter_mut().zip(part) {
            *bit ^= added;
        }
        state = keccak::permute(&state);
    }
    let mut output = state[..RATE].to_vec();
    while output.len() < length {
        state = keccak::permute(&state);
        output.extend(&state[..RATE]);
    }
    output.truncate(length);
    output
}

/// The padding 1 0* 1 that brings a length to a multiple of `rate`.
fn pad(rate: usize, length: usize) -> Vec<bool> {
    let zeros = (2 * rate - length % rate - 2) % rate;
    [vec![true], vec![false; zeros], vec![true]].concat()
}

/// The length of a string of bits, then the string.
fn encode_string(string: &[bool]) -> Vec<bool> {
    [left_encode(string.len()), string.to_vec()].concat()
}

/// A number by its bytes, the highest first, and before them how many there
/// are; zero has one.
fn left_encode(number: usize) -> Vec<bool> {
    let mut digits = vec![(number % 256) as u8];
    let mut rest = number / 256;
    while rest > 0 {
        digits.insert(0, (rest % 256) as u8);
        rest /= 256;
    }
    digits.insert(0, digits.len() as u8);
    bits_of(&digits)
}

/// The width, the string, and zeros to a multiple of that many bytes.
fn bytepad(string: &[bool], width: usize) -> Vec<bool> {
    let mut padded = [&left_encode(width), string].concat();
    while padded.len() % (8 * width) != 0 {
        padded.push(false);
    }
    padded
}

pub fn bits_of(bytes: &[u8]) -> Vec<bool> {
    let bits = |byte: &u8| (0..8).map(|i| byte >> i & 1 == 1).collect::<Vec<bool>>();
    bytes.iter().flat_map(bits).collect()
}

pub fn bytes_of(bits: &[bool]) -> Vec<u8> {
    let byte = |bits: &[bool]| bits.iter().rev().fold(0, |sum, &bit| sum << 1 | bit as u8);
    bits.chunks(8).map(byte).collect()
}

#[cfg(test)]
mod tests {
    use super::*;

    fn hex(bytes: &[u8]) -> String {
        bytes.iter().map(|byte| format!("{byte:02x}")).collect()
    }

    fn shake128(message: &[u8], length: usize) -> Vec<u8> {
        bytes_of(&shake(&bits_of(message), 8 * length))
    }

    /// Bytes 0, 1, 2 and so on, from 250 over to 0.
    fn counted(length: usize) -> Vec<u8> {
        (0..length).map(|i| (i % 251) as u8).collect()
    }

    #[test]
    fn published_vectors_of_shake128() {
        let expected = "7f9c2ba4e88f827d616045507605853ed73b8093f6efbc88eb1a6eacfa66ef26";
        assert_eq!(hex(&shake128(&[], 32)), expected);
        let output = hex(&shake128(&[0xa3; 200], 512));
        assert!(output.starts_with("131ab8d2b594946b9c81333f9bb6e0ce75c3b93104fa3469"));
        assert!(
            output.ends_with("44c9fb359fd56ac0a9a75a743cff6862f17d7259ab075216c0699511643b6439")
        );
    }

    /// The published vector of a message of five bits.
    #[test]
    fn a_message_need_not_be_bytes() {
        let output = bytes_of(&shake(&[true, true, false, false, true], 128));
        assert_eq!(hex(&output), "2e0abfba83e6720bfbc225ff6b7ab9ff");
    }

    /// Samples 1 and 2 of SP 800-185.
    #[test]
    fn published_vectors_of_cshake128() {
        let sample = |message: &[u8]| hex(&cshake128(message, 32, b"", b"Email Signature"));
        assert_eq!(
            sample(&[0, 1, 2, 3]),
            "c1c36925b6409a04f1b504fcbca9d82b4017277cb5ed2b2065fc1d3814d5aaf5"
        );
        assert_eq!(
            sample(&counted(200)),
            "c5221d50e4f822d96a2e8881a961420f294b7b24fe3d2094baed2c6524cc166b"
        );
    }

    /// About one rate and two; checked with another program.
    #[test]
    fn messages_of_many_lengths() {
        for (length, expected) in [
            (1, "0b784469a0628e03861cd8a196dfafa0"),
            (135, "d11fafa27f42a8162b8ae013535771de"),
            (136, "30bdfd69382cab028173fba7c6d53878"),
            (167, "1e552791cc4e93a0d4a8dc47ae49228c"),
            (168, "f15277eb61c4908d44a2853f3cde071a"),
            (169, "015be3338c986d9846affa0f94b4afc2"),
            (335, "b895bc4d15aaf7e4e95cc67e2ccc8b51"),
            (336, "278918d9abddd4a3c154affd8fe4f85e"),
            (337, "0c2700a9aae2f7a3886a7130bc9d9079"),
        ] {
            assert_eq!(hex(&shake128(&counted(length), 16)), expected, "{length}");
        }
    }

    #[test]
    fn a_longer_output_begins_with_a_shorter_one() {
        let longest = cshake128(&[7], 400, b"n", b"c");
        for length in [0, 1, 167, 168, 169, 336, 337] {
            assert_eq!(cshake128(&[7], length, b"n", b"c"), longest[..length]);
        }
    }

    #[test]
    fn neither_name_nor_customization_is_shake128() {
        let message = counted(9);
        assert_eq!(cshake128(&message, 40, b"", b""), shake128(&message, 40));
        let others: [(&[u8], &[u8]); 4] = [(b"", b"a"), (b"a", b""), (b"a", b"a"), (b"aa", b"")];
        let outputs: Vec<Vec<u8>> = others
            .iter()
            .map(|(name, customization)| cshake128(&message, 40, name, customization))
            .collect();
        for (i, output) in outputs.iter().enumerate() {
            assert_ne!(*output, shake128(&message, 40));
            assert!(!outputs[..i].contains(output));
        }
    }

    #[test]
    fn padding_has_two_ones() {
        for (length, zeros) in [
            (0, 6),
            (1, 5),
            (5, 1),
            (6, 0),
            (7, 7),
            (8, 6),
            (14, 0),
            (15, 7),
        ] {
            let expected = [vec![true], vec![false; zeros], vec![true]].concat();
            assert_eq!(pad(8, length), expected, "{length}");
        }
    }

    #[test]
    fn lengths_are_encoded_in_as_few_bytes_as_they_need() {
        let encoded = |number| bytes_of(&left_encode(number));
        assert_eq!(encoded(0), [1, 0]);
        assert_eq!(encoded(255), [1, 255]);
        assert_eq!(encoded(256), [2, 1, 0]);
        assert_eq!(encoded(65_535), [2, 255, 255]);
        assert_eq!(encoded(65_536), [3, 1, 0, 0]);
        assert_eq!(bytes_of(&encode_string(&bits_of(b"ab"))), b"\x01\x10ab");
        assert_eq!(bytes_of(&encode_string(&[])), [1, 0]);
    }

    #[test]
    fn bytepad_fills_whole_widths() {
        assert_eq!(
            bytes_of(&bytepad(&bits_of(b"abc"), 4)),
            b"\x01\x04abc\0\0\0"
        );
        assert_eq!(bytes_of(&bytepad(&bits_of(b"ab"), 4)), b"\x01\x04ab");
        assert_eq!(bytes_of(&bytepad(&[true], 3)), [1, 3, 1]);
        assert_eq!(bytepad(&bits_of(&[9; 168]), 168).len(), 2 * RATE);
    }
}
