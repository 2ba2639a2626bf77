//! Request R-1 of document 02: where two strips differ. Written from the request, document 01's form of a listing and the readings
//! in docs/DECISIONS.md.

use std::collections::BTreeMap;

use crate::listing::{lines, Form, Kind};

/// A moment and the bits of its six components.
type States = BTreeMap<u64, [u64; 6]>;

const NAMES: [&str; 6] = ["x", "y", "z", "vx", "vy", "vz"];

/// A listing of document 01's form. A lone `REFUSED` line is an outcome without header and states.
struct Listing {
    header: Option<Vec<u8>>,
    states: States,
    outcome: Vec<u8>,
}

/// The listing, or the number of the line that is not of the form.
fn listing(text: &[u8]) -> Result<Listing, usize> {
    let mut listing = Listing { header: None, states: States::new(), outcome: Vec::new() };
    let mut form = Form::default();
    for line in lines(text) {
        match form.line(line)? {
            Kind::Header => listing.header = Some(line.to_vec()),
            Kind::State(t, bits) => {
                listing.states.insert(t, bits);
            }
            _ => listing.outcome = line.to_vec(),
        }
    }
    form.end()?;
    Ok(listing)
}

/// Float steps: -0.0 is one step below +0.0.
fn steps(a: u64, b: u64) -> u128 {
    let order = |bits: u64| if bits >> 63 == 0 { i128::from(bits) } else { -i128::from(bits - (1 << 63)) - 1 };
    order(a).abs_diff(order(b))
}

fn whole_lines(word: &str, a: &[u8], b: &[u8]) -> Vec<u8> {
    if a == b {
        return Vec::new();
    }
    [word.as_bytes(), b" ", a, b" | ", b, b"\n"].concat()
}

fn states_text(a: &States, b: &States) -> String {
    let mut moments: Vec<u64> = a.keys().chain(b.keys()).copied().collect();
    moments.sort_unstable();
    moments.dedup();
    let mut text = String::new();
    for t in moments {
        match (a.get(&t), b.get(&t)) {
            (Some(_), None) => text += &format!("ONLY 1 {t}\n"),
            (None, Some(_)) => text += &format!("ONLY 2 {t}\n"),
            (Some(p), Some(q)) => {
                for (i, name) in NAMES.iter().enumerate().filter(|&(i, _)| p[i] != q[i]) {
                    text += &format!("DIFF {t} {name} {}\n", steps(p[i], q[i]));
                }
            }
            (None, None) => {}
        }
    }
    text
}

/// What compare prints for two texts.
pub fn report(first: &[u8], second: &[u8]) -> Vec<u8> {
    let (a, b) = match (listing(first), listing(second)) {
        (Err(line), _) => return format!("REFUSED 13 1 {line}\n").into_bytes(),
        (_, Err(line)) => return format!("REFUSED 13 2 {line}\n").into_bytes(),
        (Ok(a), Ok(b)) => (a, b),
    };
    let header = |l: &Listing| l.header.clone().unwrap_or_else(|| b"-".to_vec());
    let mut text = whole_lines("HEADER", &header(&a), &header(&b));
    text.extend(states_text(&a.states, &b.states).into_bytes());
    text.extend(whole_lines("OUTCOME", &a.outcome, &b.outcome));
    if text.is_empty() {
        text = format!("SAME {}\n", a.states.len()).into_bytes();
    }
    text
}
