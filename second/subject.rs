//! The subject writer: the bytes that world certificates sign.

use crate::record::{write_front, Refusal};

/// Refusal 11: "suite not 1 to 5".
pub const LAST_SUITE: u64 = 5;

/// The recovery mechanism that each ciphersuite calls for.
pub fn recovery_mechanism(suite: u64) -> Option<u16> {
    match suite {
        // Mech_RSApPKCS1
        1 => Some(1),
        // Mech_BlobCryptv2kRSAeRijndaelCBC0hSHA512mSHA512HMAC
        2 | 3 => Some(2),
        // Mech_BlobCryptv3kRSAOAEPeAESCBC0dCTRCMACmSHA512HMAC
        4 => Some(3),
        // BlobCryptv4kECDHeAESmCTRhSHA256mSHA256HMAC
        LAST_SUITE => Some(4),
        _ => None,
    }
}

/// Document 001's header texts, zero byte included, for certificates 3 to 5 and suites 1 to 5.
fn header(certificate: u64, suite: u64) -> &'static [u8] {
    match (certificate, suite) {
        (3, 1) => b"Module keys\0",
        (3, 2) => b"Module keys: KM type Rijndael\0",
        (3, 3) => b"Module keys: suite = DLf3072s256mRijndael\0",
        (3, 4) => b"Module keys: suite = DLf3072s256mAEScSP800131Ar1\0",
        (3, _) => b"Module keys: suite = ECp521mAES\0",
        (4, 1) => b"Module setup, FIPS3\0",
        (4, 2) => b"Module setup, FIPS3; KM type Rijndael\0",
        (4, 3) => b"Module setup, FIPS3; suite = DLf3072s256mRijndael\0",
        (4, 4) => b"Module setup, FIPS3; suite = DLf3072s256mAEScSP800131Ar1\0",
        (4, _) => b"Module setup, FIPS3; suite = ECp521mAES\0",
        _ => b"Card Recovery\0",
    }
}

/// "Hashes arrive in document 001's order as 60 bytes (certificate 4: 80)."
pub fn hashes_length(certificate: u64) -> usize {
    if certificate == 4 {
        80
    } else {
        60
    }
}

/// Writes a subject at the front of the buffer and replies with its length; "bytes past the length
/// stay". "Subject writer: 10, 11, 1, 9."
pub fn write_subject(
    certificate: u64,
    suite: u64,
    hashes: &[u8],
    buffer: &mut [u8],
) -> Result<usize, Refusal> {
    if !(3..=5).contains(&certificate) {
        return Err(Refusal::NoSuchNumber);
    }
    if !(1..=LAST_SUITE).contains(&suite) {
        return Err(Refusal::NoSuchSuite);
    }
    if hashes.len() != hashes_length(certificate) {
        return Err(Refusal::Length);
    }
    write_front(buffer, &[header(certificate, suite), hashes].concat())
}

#[cfg(test)]
mod tests {
    use super::*;

    fn hashes(certificate: u64) -> Vec<u8> {
        (0..hashes_length(certificate))
            .map(|place| place as u8 + 100)
            .collect()
    }

    #[test]
    fn the_lengths_of_all_suites() {
        let lengths = |certificate| {
            [1, 2, 3, 4, 5].map(|suite| {
                write_subject(certificate, suite, &hashes(certificate), &mut [0; 200]).unwrap()
            })
        };
        assert_eq!(lengths(3), [72, 90, 102, 109, 92]);
        assert_eq!(lengths(4), [100, 118, 130, 137, 120]);
        assert_eq!(lengths(5), [74, 74, 74, 74, 74]);
    }

    #[test]
    fn whole_subjects() {
        for (certificate, suite, text) in [
            (3, 1, "Module keys\0"),
            (3, 4, "Module keys: suite = DLf3072s256mAEScSP800131Ar1\0"),
            (4, 2, "Module setup, FIPS3; KM type Rijndael\0"),
            (4, 3, "Module setup, FIPS3; suite = DLf3072s256mRijndael\0"),
            (5, 3, "Card Recovery\0"),
            (3, 5, "Module keys: suite = ECp521mAES\0"),
            (4, 5, "Module setup, FIPS3; suite = ECp521mAES\0"),
            (5, 5, "Card Recovery\0"),
        ] {
            let mut buffer = [0xee; 150];
            let length =
                write_subject(certificate, suite, &hashes(certificate), &mut buffer).unwrap();
            let mut expected = text.as_bytes().to_vec();
            expected.extend(hashes(certificate));
            assert_eq!(length, expected.len());
            expected.resize(150, 0xee);
            assert_eq!(buffer[..], expected[..]);
        }
    }

    #[test]
    fn refusals_in_order_leave_the_buffer() {
        let mut buffer = [0xee; 71];
        assert_eq!(
            write_subject(6, 0, &[], &mut buffer),
            Err(Refusal::NoSuchNumber)
        );
        assert_eq!(
            write_subject(1 << 32 | 3, 1, &[], &mut buffer),
            Err(Refusal::NoSuchNumber)
        );
        assert_eq!(
            write_subject(5, 0, &[], &mut buffer),
            Err(Refusal::NoSuchSuite)
        );
        assert_eq!(
            write_subject(5, 6, &[], &mut buffer),
            Err(Refusal::NoSuchSuite)
        );
        assert_eq!(
            write_subject(3, 1, &[0; 80], &mut buffer),
            Err(Refusal::Length)
        );
        assert_eq!(
            write_subject(3, 1, &[0; 60], &mut buffer),
            Err(Refusal::ShortBuffer)
        );
        assert_eq!(buffer, [0xee; 71]);
    }
}
