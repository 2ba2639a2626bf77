//! Listings: whole, changed in a line, damaged, and at the edges of the form.

use super::chance::{Chance, EDGES, NOT_FINITE};

pub type Lines = Vec<Vec<u8>>;

pub fn text(lines: &Lines) -> Vec<u8> {
    lines.iter().flat_map(|line| [line, &b"\n"[..]].concat()).collect()
}

/// How the bits of a component are made.
pub type Component = fn(&mut Chance) -> u64;

/// Any finite float.
pub fn any(c: &mut Chance) -> u64 {
    if c.one_in(3) { c.edge() } else { c.finite() }.to_bits()
}

pub fn state_line(t: u64, bits: [u64; 6]) -> Vec<u8> {
    let words = bits.map(|bits| format!(" {bits:016x}"));
    (t.to_string() + &words.concat()).into_bytes()
}

fn state(c: &mut Chance, t: u64, make: Component) -> Vec<u8> {
    state_line(t, [0; 6].map(|_| make(c)))
}

fn outcome(c: &mut Chance) -> Vec<u8> {
    let n = c.any_length(40);
    if c.one_in(3) { format!("REFUSED {} {n}", c.between(1, 99)) } else { format!("ARRIVED {n}") }.into_bytes()
}

/// A listing of that many states; for 0 a lone refusal.
pub fn listing(c: &mut Chance, states: usize, make: Component) -> Lines {
    if states == 0 {
        return vec![format!("REFUSED {}", c.below(20)).into_bytes()];
    }
    let mut lines = vec![format!("STRIP {}", c.any_length(34)).into_bytes()];
    let step = c.pick(&[1, 2, 60_000, 1_000_000]);
    let mut t = c.pick(&[0, 7, 411_331_356_297, 3_155_759_999_999 - step * states as u64]);
    for _ in 0..states {
        lines.push(state(c, t, make));
        t += if c.one_in(4) { c.between(1, step) } else { step };
    }
    lines.push(outcome(c));
    lines
}

/// A component of a state's line replaced: by its neighbour, its negative, or any float.
fn component(c: &mut Chance, line: &mut Vec<u8>, make: Component) {
    let mut words: Vec<String> = String::from_utf8_lossy(line).split(' ').map(str::to_string).collect();
    if words.len() != 7 {
        return;
    }
    let k = c.between(1, 6) as usize;
    let bits = u64::from_str_radix(&words[k], 16).unwrap_or(0);
    let other = match c.below(5) {
        0 => bits ^ (1 << 63),
        1 => bits.wrapping_add(1),
        2 => bits.wrapping_sub(1),
        3 => c.pick(&EDGES),
        _ => make(c),
    };
    words[k] = format!("{other:016x}");
    *line = words.join(" ").into_bytes();
}

/// A change after which most listings are still of the form.
pub fn change(c: &mut Chance, lines: &mut Lines, make: Component) {
    let last = lines.len() - 1;
    let i = c.between(0, last as u64) as usize;
    match c.below(7) {
        0 | 1 | 2 => component(c, &mut lines[i], make),
        3 => {
            lines.remove(i);
        }
        4 => lines[0] = format!("STRIP {}", c.any_length(30)).into_bytes(),
        5 => lines[last] = outcome(c),
        _ => {
            let t: u64 = String::from_utf8_lossy(&lines[i]).split(' ').next().and_then(|w| w.parse().ok()).unwrap_or(5);
            let line = state(c, t + 1, make);
            lines.insert(i + 1, line);
        }
    }
}

/// Damage to the bytes of a text.
pub fn damage(c: &mut Chance, text: &mut Vec<u8>) {
    let at = c.below(text.len() as u64 + 1) as usize;
    let byte = c.pick(b"\n\n\r\t  0019aAfFgG-+.xSTRIPED\0\x7f\xff");
    match c.below(5) {
        0 => text.truncate(at),
        1 => text.insert(at, byte),
        2 if at < text.len() => {
            text.remove(at);
        }
        3 if at < text.len() => text[at] = byte,
        _ => {
            let mut lines: Lines = text.split(|&b| b == b'\n').map(<[u8]>::to_vec).collect();
            let n = lines.len() as u64;
            let (i, j) = (c.below(n) as usize, c.below(n) as usize);
            if c.one_in(2) {
                lines.swap(i, j);
            } else {
                lines.insert(i, lines[j].clone());
            }
            *text = lines.join(&b'\n');
        }
    }
}

pub const ZEROS: &str = "0000000000000000 0000000000000000 0000000000000000 0000000000000000 0000000000000000 0000000000000000";

/// Lines that are not of the form, or only just are, each in place of a state.
fn odd_lines() -> Vec<(String, Vec<u8>)> {
    let mut odd: Vec<(String, Vec<u8>)> = Vec::new();
    let mut add = |case: &str, line: String| odd.push((case.to_string(), line.into_bytes()));
    add("empty line", String::new());
    add("carriage return", format!("5 {ZEROS}\r"));
    add("tab", format!("5\t{ZEROS}"));
    add("two spaces", format!("5  {ZEROS}"));
    add("space in front", format!(" 5 {ZEROS}"));
    add("space behind", format!("5 {ZEROS} "));
    add("leading zero", format!("05 {ZEROS}"));
    add("two zeros", format!("00 {ZEROS}"));
    add("plus sign", format!("+5 {ZEROS}"));
    add("minus sign", format!("-5 {ZEROS}"));
    add("uppercase digit", format!("5 A{}", &ZEROS[1..]));
    add("no digit", format!("5 g{}", &ZEROS[1..]));
    add("fifteen digits", format!("5 {}", &ZEROS[1..]));
    add("seventeen digits", format!("5 0{ZEROS}"));
    add("five components", format!("5 {}", &ZEROS[17..]));
    add("seven components", format!("5 {ZEROS} 0000000000000000"));
    add("moment alone", "5".to_string());
    add("no moment", ZEROS.to_string());
    add("moment of 30 digits", format!("123456789012345678901234567890 {ZEROS}"));
    add("moment that wraps", format!("18446744073709551621 {ZEROS}"));
    add("last moment", format!("3155759999999 {ZEROS}"));
    add("end of time", format!("3155760000000 {ZEROS}"));
    add("moment of the state before", format!("4 {ZEROS}"));
    add("moment before it", format!("3 {ZEROS}"));
    for bits in NOT_FINITE {
        add("not finite", format!("5 {bits:016x}{}", &ZEROS[16..]));
        add("last not finite", format!("5 {}{bits:016x}", &ZEROS[..85]));
    }
    for bits in EDGES {
        add("edge", format!("5 {bits:016x}{}", &ZEROS[16..]));
    }
    for line in ["STRIP 5", "ARRIVED 5", "REFUSED 5", "REFUSED 5 6", "GOING 5", "SAME 5", "REFUSED 5 6 7", "ARRIVED 5 6"] {
        add("other line", line.to_string());
    }
    add("a megabyte", "5".repeat(1 << 20));
    odd
}

/// First and last lines, and whole texts, at the edges of the form.
fn odd_texts() -> Vec<(String, Vec<u8>)> {
    let state = format!("4 {ZEROS}\n");
    let long = "9".repeat(200_000);
    let mut odd = Vec::new();
    let mut add = |case: &str, text: String| odd.push((case.to_string(), text.into_bytes()));
    for header in ["STRIP 3", "STRIP 0", "STRIP 00", "STRIP 01", "STRIP", "STRIP ", "STRIP  1", "STRIP -1", "STRIP 1 ", "strip 1", "STRIPE 1", "STRIP 1 2", "-", ""] {
        add("header", format!("{header}\n{state}ARRIVED 1\n"));
    }
    for last in ["ARRIVED 0", "ARRIVED 01", "ARRIVED", "ARRIVED ", "ARRIVED 1 2", "REFUSED 99 1", "REFUSED 1", "REFUSED 06 1", "REFUSED 6  1", "REFUSED 6 1 ", "REFUSED 6 x", "GOING 1", "ARRIVED 12345678901234567890123", ""] {
        add("outcome", format!("STRIP 1\n{state}{last}\n"));
        add("outcome, no line feed", format!("STRIP 1\n{state}{last}"));
        add("outcome and an empty line", format!("STRIP 1\n{state}{last}\n\n"));
        add("outcome and more", format!("STRIP 1\n{state}{last}\n{last}\n"));
        add("lone", format!("{last}\n"));
        add("lone and more", format!("{last}\n{state}"));
        add("no state", format!("STRIP 1\n{last}\n"));
    }
    add("nothing", String::new());
    add("a line feed", "\n".to_string());
    add("header alone", "STRIP 1\n".to_string());
    add("no outcome", format!("STRIP 1\n{state}"));
    add("no outcome, no line feed", format!("STRIP 1\n4 {ZEROS}"));
    add("long header", format!("STRIP {long}\n{state}ARRIVED 1\n"));
    add("long header, one digit other", format!("STRIP {}8\n{state}ARRIVED 1\n", &long[1..]));
    add("longer header", format!("STRIP {long}9\n{state}ARRIVED 1\n"));
    add("long outcome", format!("STRIP 1\n{state}ARRIVED {long}\n"));
    add("long outcome, no line feed", format!("STRIP 1\n{state}ARRIVED {long}"));
    add("long outcome, one digit other", format!("STRIP 1\n{state}ARRIVED 8{}\n", &long[1..]));
    add("long lone", format!("REFUSED {long}\n"));
    add("long lone, no line feed", format!("REFUSED {long}"));
    odd
}

fn rubbish(c: &mut Chance, n: usize) -> Vec<u8> {
    (0..n).map(|_| c.next() as u8).collect()
}

/// Every odd text, and every odd line as the first state and as the second.
pub fn odd_listings(c: &mut Chance) -> Vec<(String, Vec<u8>)> {
    let mut texts = odd_texts();
    for (case, line) in odd_lines() {
        let around = |line: &[u8]| [format!("STRIP 1\n4 {ZEROS}\n").as_bytes(), line, b"\nARRIVED 1\n"].concat();
        texts.push((case.clone(), around(&line)));
        texts.push((format!("{case}, first state"), [b"STRIP 1\n", &line[..], b"\nARRIVED 1\n"].concat()));
    }
    for n in [1, 100, 70_000] {
        texts.push(("rubbish".to_string(), rubbish(c, n)));
    }
    texts
}
