//! The hash of a token: cSHAKE128 with an empty name and the life cycle
//! controller's customization, token and hash lowest byte first.

use crate::cshake;

const NAME: &[u8] = b"";
pub const CUSTOMIZATION: &[u8] = b"LC_CTRL";
const BYTES: usize = 16;

/// What a raw token is compared by.
pub fn hash(token: u128) -> u128 {
    hash_with(token, NAME, CUSTOMIZATION)
}

/// The same with a name and a customization of its own.
pub fn hash_with(token: u128, name: &[u8], customization: &[u8]) -> u128 {
    let hash = cshake::cshake128(&token.to_le_bytes(), BYTES, name, customization);
    let places = hash.iter().enumerate();
    places.fold(0, |sum, (i, &byte)| sum | u128::from(byte) << (8 * i))
}

/// A token as it is given in a call: exactly 32 hexadecimal digits, so that
/// none is lost or doubled unnoticed.
pub fn given(text: &str) -> Result<u128, String> {
    if text.len() != 2 * BYTES || !text.bytes().all(|b| b.is_ascii_hexdigit()) {
        return Err(format!(
            "{text}: not a token, which has exactly 32 hexadecimal digits"
        ));
    }
    u128::from_str_radix(text, 16).map_err(|error| error.to_string())
}

#[cfg(test)]
mod tests {
    use super::*;

    #[test]
    fn a_token_is_given_by_exactly_32_digits() {
        let token = 0x0011_2233_4455_6677_8899_aabb_ccdd_eeff;
        assert_eq!(given("00112233445566778899aabbccddeeff"), Ok(token));
        assert_eq!(given("00112233445566778899AABBCCDDEEFF"), Ok(token));
        for text in [
            "",
            "0",
            "0112233445566778899aabbccddeeff",
            "000112233445566778899aabbccddeeff",
            "+0112233445566778899aabbccddeeff",
            "0x112233445566778899aabbccddeeff",
            "0011223344556677 899aabbccddeeff",
            "00112233445566778899aabbccddeefg",
            "00112233445566778899aabbccddeeé",
        ] {
            assert!(given(text).is_err(), "{text}");
        }
    }

    /// Computed with another program, which works on lanes.
    #[test]
    fn hashes_of_some_tokens() {
        for (token, expected) in [
            (0, 0x3852_305b_aecf_5ff1_d5c1_d25f_6db9_058d),
            (1, 0xee4f_e51a_73f2_9e7b_542f_2d2d_e65e_577c),
            (u128::MAX, 0x58be_9cc5_f06d_c548_01d9_192f_968d_6b69),
            (
                0x0011_2233_4455_6677_8899_aabb_ccdd_eeff,
                0x4a8d_aa85_8e30_48d9_6b28_9b68_d4ef_0b76,
            ),
        ] {
            assert_eq!(hash(token), expected, "{token:x}");
        }
    }

    #[test]
    fn token_and_hash_have_their_lowest_byte_first() {
        let mut message = [0; 16];
        message[0] = 1;
        let bytes = cshake::cshake128(&message, 16, b"", b"LC_CTRL");
        assert_eq!(hash(1) as u8, bytes[0]);
        assert_eq!((hash(1) >> 120) as u8, bytes[15]);
        assert_eq!(hash(1).to_le_bytes(), bytes[..]);
    }
}
