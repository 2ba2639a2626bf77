//! Lines that are not calls, made from lines that are.

use super::chance::Chance;

/// A sort of garbled line, from a good one.
pub type Garble = (&'static str, fn(&mut Chance, Vec<u8>) -> Vec<u8>);

pub fn join(parts: &[&[u8]]) -> Vec<u8> {
    parts.concat()
}

/// The line with one of its fields in place of another.
pub fn with_field(c: &mut Chance, line: &[u8], new: &[u8]) -> Vec<u8> {
    let mut fields: Vec<&[u8]> = line.split(|&b| b == b' ').collect();
    let i = c.between(1, (fields.len() as u64).max(2) - 1) as usize;
    if let Some(field) = fields.get_mut(i) {
        *field = new;
    }
    fields.join(&b' ')
}

/// One field dropped or doubled.
pub fn fields_changed(c: &mut Chance, line: &[u8], drop: bool) -> Vec<u8> {
    let mut fields: Vec<&[u8]> = line.split(|&b| b == b' ').collect();
    let i = c.below(fields.len() as u64) as usize;
    if drop {
        fields.remove(i);
    } else {
        fields.insert(i, fields[i]);
    }
    fields.join(&b' ')
}

/// A byte inserted, removed or changed anywhere; never a line feed.
pub fn byte_changed(c: &mut Chance, mut line: Vec<u8>) -> Vec<u8> {
    let i = c.below(line.len() as u64) as usize;
    let byte = match c.next() as u8 {
        b'\n' => b'\r',
        other => other,
    };
    match c.below(3) {
        0 => line.insert(i, byte),
        1 => drop(line.remove(i)),
        _ => line[i] = byte,
    }
    line
}

/// Another byte in place of the first space.
pub fn space_as(mut line: Vec<u8>, byte: u8) -> Vec<u8> {
    if let Some(i) = line.iter().position(|&b| b == b' ') {
        line[i] = byte;
    }
    line
}

pub fn spaced(c: &mut Chance, line: Vec<u8>, length: usize) -> Vec<u8> {
    let mut long = line;
    long.resize(length, c.pick(b" 0a"));
    long
}

/// Every decimal with twenty digits and leading zeros: the longest form of a line, with the same meaning.
pub fn twenty_digits(line: &[u8]) -> Vec<u8> {
    let padded = |field: &[u8]| {
        let decimal = field.len() < 16 && field.iter().all(u8::is_ascii_digit) && !field.is_empty();
        let zeros = if decimal { 20 - field.len() } else { 0 };
        [&[b'0'; 20][..zeros], field].concat()
    };
    line.split(|&b| b == b' ').map(padded).collect::<Vec<_>>().join(&b' ')
}

pub fn any_bytes(c: &mut Chance, most: u64) -> Vec<u8> {
    let bytes = (0..c.below(most)).map(|_| c.next() as u8);
    bytes.map(|b| if b == b'\n' { 0 } else { b }).collect()
}

pub const NUMBERS: [&[u8]; 26] = [
    b"", b"-1", b"+1", b"-0", b"1.0", b"1e3", b"0x10", b"1_000", b"1,000", b"18446744073709551615",
    b"18446744073709551616", b"99999999999999999999", b"00000000000000000001", b"000000000000000000001",
    b"100000000000000000000", b"4294967295", b"4294967296", b"00000000004294967295", b"3ff000000000000",
    b"3ff00000000000000", b"3ff000000000000g", b"3FF0000000000000", b"0x3ff00000000000", b"+3ff000000000000",
    b"nan", b"7Ff8000000000000",
];

pub const GARBLES: &[Garble] = &[
    ("empty", |_, _| Vec::new()),
    ("one space", |_, _| b" ".to_vec()),
    ("space before", |_, l| join(&[b" ", &l])),
    ("space behind", |_, l| join(&[&l, b" "])),
    ("carriage return", |_, l| join(&[&l, b"\r"])),
    ("tab", |_, l| space_as(l, b'\t')),
    ("no break space", |_, l| space_as(l, 0xa0)),
    ("double space", |_, l| { let i = l.iter().position(|&b| b == b' ').unwrap_or(0); join(&[&l[..i], b" ", &l[i..]]) }),
    ("zero byte", |_, l| join(&[&l, b"\0"])),
    ("capital name", |_, mut l| { l[0] = l[0].to_ascii_uppercase(); l }),
    ("name cut", |_, l| l[1..].to_vec()),
    ("name longer", |_, l| join(&[b"x", &l])),
    ("name alone", |_, l| l.split(|&b| b == b' ').next().unwrap_or(b"").to_vec()),
    ("field dropped", |c, l| fields_changed(c, &l, true)),
    ("field doubled", |c, l| fields_changed(c, &l, false)),
    ("field more", |_, l| join(&[&l, b" 0"])),
    ("number", |c, l| { let n = c.pick(&NUMBERS); with_field(c, &l, n) }),
    ("number", |c, l| { let n = c.pick(&NUMBERS); with_field(c, &l, n) }),
    ("number", |c, l| { let n = c.pick(&NUMBERS); with_field(c, &l, n) }),
    ("number", |c, l| { let n = c.pick(&NUMBERS); with_field(c, &l, n) }),
    ("byte changed", byte_changed),
    ("byte changed", byte_changed),
    ("byte changed", byte_changed),
    ("any bytes", |c, _| any_bytes(c, 200)),
    ("capital digits", |_, l| { let i = l.iter().position(|&b| b == b' ').unwrap_or(0); join(&[&l[..i], &l[i..].to_ascii_uppercase()]) }),
    ("1,000 bytes", |c, l| spaced(c, l, 1000)),
    ("1,001 bytes", |c, l| spaced(c, l, 1001)),
    ("1,002 bytes", |c, l| spaced(c, l, 1002)),
    ("long, a good line behind", |_, l| join(&[&[b'0'; 1001], &l])),
    ("1,024 bytes and a good line", |_, l| join(&[&[b'x'; 1024], &l])),
    ("5,000 bytes", |c, l| spaced(c, l, 5000)),
    ("70,000 bytes", |c, l| if c.one_in(20) { spaced(c, l, 70_000) } else { spaced(c, l, 2048) }),
    ("twenty digits", |_, l| twenty_digits(&l)),
    ("as it was", |_, l| l),
];
