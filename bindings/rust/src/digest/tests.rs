//! Digests as values: texts, bytes and arrays there and back, and what isn't a digest.

use super::Digest;
use crate::random::Numbers;
use crate::{Code, Error};

#[test]
fn there_and_back() {
    let mut numbers = Numbers(1);
    for code in Code::ALL {
        let bytes = numbers.bytes(code.digest_bytes());
        let digest = Digest::try_from(&bytes[..]).unwrap();
        assert_eq!(digest.code(), code);
        assert_eq!(digest.as_bytes(), bytes);
        assert_eq!(digest.as_ref(), bytes);
        let hex = digest.to_hex();
        assert_eq!(hex.len(), 2 * bytes.len());
        assert_eq!(hex.parse(), Ok(digest));
        assert_eq!(hex.to_uppercase().parse(), Ok(digest));
        assert_eq!(
            format!("{digest} {digest:?}"),
            format!("{hex} Digest({hex})")
        );
    }
    let low_and_high = Digest::from([0x0f; 28]).to_hex();
    assert_eq!(low_and_high, "0f".repeat(28));
}

#[test]
fn arrays() {
    assert_eq!(Digest::from([1; 28]).code(), Code::Luffa224);
    assert_eq!(Digest::from([1; 32]).code(), Code::Luffa256);
    assert_eq!(Digest::from([1; 48]).code(), Code::Luffa384);
    assert_eq!(Digest::from([1; 64]).code(), Code::Luffa512);
    assert_eq!(Digest::from([1; 48]).as_bytes(), [1; 48]);
}

#[test]
fn equality() {
    let digest = Digest::from([0; 32]);
    assert_ne!(digest, Digest::from([0; 28]));
    for byte in 0..32 {
        let mut bytes = [0; 32];
        bytes[byte] = 1;
        assert_ne!(digest, Digest::from(bytes));
    }
}

#[test]
fn not_digests() {
    for n in (0..130).filter(|n| ![28, 32, 48, 64].contains(n)) {
        assert_eq!(Digest::try_from(&vec![0; n][..]), Err(Error::Claim));
        assert!("00".repeat(n).parse::<Digest>().is_err(), "{n} bytes");
    }
    let good = "0a".repeat(28);
    assert!(good.parse::<Digest>().is_ok());
    // A digit missing, one that is none, a sign, spaces, and a character of two bytes.
    for bad in ["a", "g0", "+0", " 0", "0 ", "\u{e9}"] {
        let text = format!("{}{bad}", &good[2..]);
        assert!(text.parse::<Digest>().is_err(), "{bad:?}");
    }
}
