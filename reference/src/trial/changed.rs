//! Bytes and lines changed at random.

use super::chance::Chance;
use crate::fields::decimal;

/// The most steps of a run that was changed at random.
const STEPS: u64 = 100;

/// A line with a budget that ends soon.
pub fn bounded(line: &[u8]) -> Vec<u8> {
    let mut fields: Vec<Vec<u8>> = line.split(|&b| b == b' ').map(<[u8]>::to_vec).collect();
    let at = match &fields[0][..] {
        b"fly" => 25,
        b"run" => 16,
        _ => return line.to_vec(),
    };
    if let Some(budget) = fields.get_mut(at) {
        if decimal(budget).is_some_and(|n| n > STEPS) {
            *budget = STEPS.to_string().into_bytes();
        }
    }
    fields.join(&b' ')
}

/// Changes a few bytes of a line: a digit, a bit, or a field for another.
pub fn line_changed(c: &mut Chance, line: &[u8]) -> Vec<u8> {
    let mut line = line.to_vec();
    for _ in 0..c.between(1, 3) {
        let at = c.below(line.len() as u64 + 1) as usize;
        match c.below(6) {
            0 if at < line.len() => line[at] ^= 1 << c.below(7),
            1 | 2 if at < line.len() && line[at] != b' ' => line[at] = c.pick(b"0123456789abcdef"),
            3 => line.insert(at, c.pick(b"0123456789abcdef -")),
            4 if at < line.len() => drop(line.remove(at)),
            _ => {
                let mut fields: Vec<Vec<u8>> = line.split(|&b| b == b' ').map(<[u8]>::to_vec).collect();
                let (i, j) = (c.below(fields.len() as u64) as usize, c.below(fields.len() as u64) as usize);
                let any = [format!("{:016x}", c.next()), c.any_length(64).to_string(), format!("{:016x}", c.edge().to_bits())];
                fields[i] = if c.one_in(2) { fields[j].clone() } else { c.pick(&any).into_bytes() };
                line = fields.join(&b' ');
            }
        }
    }
    line.retain(|&b| b != b'\n');
    bounded(&line)
}

/// Changes, inserts, removes or doubles a few bytes, or cuts off the end.
pub fn bytes_changed(c: &mut Chance, bytes: &mut Vec<u8>) {
    for _ in 0..c.between(1, 4) {
        let at = c.below(bytes.len() as u64 + 1) as usize;
        let end = (at + c.below(40) as usize).min(bytes.len());
        match c.below(7) {
            0 | 1 if at < bytes.len() => bytes[at] ^= 1 << c.below(8),
            2 if at < bytes.len() => bytes[at] = c.pick(b"0123456789abcdef \nSRA\x00\xff"),
            3 => bytes.insert(at, c.next() as u8),
            4 => drop(bytes.drain(at..end)),
            5 => {
                let piece = bytes[at..end].to_vec();
                bytes.splice(at..at, piece);
            }
            _ if c.one_in(4) => bytes.truncate(at),
            _ => {}
        }
    }
}
