//! A question is a line: the name of a call and whole numbers as hexadecimal digits, floats by their bits. `book` and `second` set
//! the books of the lines after them, and have no answer. An answer is what the call returned and, if it did not refuse, what it
//! wrote; a run and a frame always write. All NaNs are printed the same.

/// A float by its bits, all NaNs the same.
pub fn bits(x: f64) -> u64 {
    if x.is_nan() { 0x7ff8_0000_0000_0000 } else { x.to_bits() }
}

pub fn line(words: &[u64]) -> String {
    words.iter().map(|w| format!("{w:x}")).collect::<Vec<_>>().join(" ")
}

/// Bytes in an answer: their number and a checksum (FNV-1a), so that long books do not make long lines.
pub fn sum(bytes: &[u8]) -> u64 {
    bytes.iter().fold(0xcbf2_9ce4_8422_2325, |sum, &b| (sum ^ u64::from(b)).wrapping_mul(0x0100_0000_01b3))
}
