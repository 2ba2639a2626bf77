//! Which names are allowed.

const RESERVED: [&str; 5] = ["log", "health", "metrics", "clock", "now"];

/// A flight's name: 1 to 32 of `a-z 0-9 -`, and not a name of the service itself.
pub fn is_flight(name: &str) -> bool {
    let allowed = |b: u8| b.is_ascii_lowercase() || b.is_ascii_digit() || b == b'-';
    (1..=32).contains(&name.len()) && name.bytes().all(allowed) && !RESERVED.contains(&name)
}

/// A book's name: 1 to 64 of `A-Z a-z 0-9 . _ -`.
pub fn is_book(name: &str) -> bool {
    let allowed = |b: u8| b.is_ascii_alphanumeric() || matches!(b, b'.' | b'_' | b'-');
    (1..=64).contains(&name.len()) && name.bytes().all(allowed)
}

/// The hash of a book or an order as text: 64 lowercase hexadecimal digits.
pub fn is_hash(text: &str) -> bool {
    text.len() == 64 && is_hex(text)
}

pub fn is_hex(text: &str) -> bool {
    text.bytes().all(|b| b.is_ascii_digit() || (b'a'..=b'f').contains(&b))
}

/// The SHA-256 of bytes, as text.
pub fn hash(bytes: &[u8]) -> String {
    use sha2::{Digest, Sha256};
    Sha256::digest(bytes).iter().map(|b| format!("{b:02x}")).collect()
}

#[cfg(test)]
mod tests {
    use super::*;

    #[test]
    fn flights() {
        let long = "a".repeat(33);
        for name in ["a", "ranger-5", "0", &long[..32], "page"] {
            assert!(is_flight(name), "{name}");
        }
        for name in ["", "log", "now", "Ranger", "a b", "a/b", "..", "a.b", &long] {
            assert!(!is_flight(name), "{name}");
        }
    }

    #[test]
    fn books() {
        let long = "a".repeat(65);
        assert!(is_book("001.book") && is_book("A_b-C.book") && is_book(&long[..64]));
        for name in ["", "a/b.book", "a b.book", "ä.book", &long] {
            assert!(!is_book(name), "{name}");
        }
    }

    #[test]
    fn hashes() {
        let empty = hash(b"");
        assert_eq!(empty, "e3b0c44298fc1c149afbf4c8996fb92427ae41e4649b934ca495991b7852b855");
        assert!(is_hash(&empty) && !is_hash(&empty[1..]) && !is_hash(&empty.to_uppercase()));
    }
}
