//! Pairs of listings for compare: equal, changed in one place, damaged, and at the edges of the form.

use super::chance::Chance;
use super::listings::{any, change, damage, listing, odd_listings, text, ZEROS};

/// Two texts.
#[derive(Clone, Debug)]
pub struct Pair {
    pub case: String,
    pub first: Vec<u8>,
    pub second: Vec<u8>,
}

fn pair(case: &str, first: Vec<u8>, second: Vec<u8>) -> Pair {
    Pair { case: case.to_string(), first, second }
}

fn one(c: &mut Chance, i: usize) -> Pair {
    let states = c.pick(&[0, 1, 2, 3, 5, 12, 40]);
    let lines = listing(c, states, any);
    let mut other = lines.clone();
    for _ in 0..[0, 1, 2, 5, 0, 1, 1, 1][i % 8] {
        change(c, &mut other, any);
        if other.is_empty() {
            other.push(b"REFUSED 1".to_vec());
        }
    }
    if i % 8 == 4 {
        let states = c.below(30) as usize;
        other = listing(c, states, any);
    }
    let (mut first, mut second) = (text(&lines), text(&other));
    if i % 8 == 5 || i % 8 == 7 {
        damage(c, &mut first);
    }
    if i % 8 >= 6 {
        damage(c, &mut second);
    }
    if c.one_in(6) && first.last() == Some(&b'\n') {
        first.pop();
    }
    if c.one_in(2) {
        std::mem::swap(&mut first, &mut second);
    }
    pair(["equal", "one change", "two changes", "changes", "others", "first damaged", "second damaged", "both damaged"][i % 8], first, second)
}

/// Every odd text with a plain listing, with itself, and with its neighbour in the list.
pub fn edges(c: &mut Chance) -> Vec<Pair> {
    let plain = format!("STRIP 1\n4 {ZEROS}\nARRIVED 1\n").into_bytes();
    let texts = odd_listings(c);
    let mut list = Vec::new();
    for (i, (case, text)) in texts.iter().enumerate() {
        let (next, other) = &texts[(i + 1) % texts.len()];
        list.push(pair(&format!("{case}, plain"), text.clone(), plain.clone()));
        list.push(pair(&format!("plain, {case}"), plain.clone(), text.clone()));
        list.push(pair(&format!("{case}, twice"), text.clone(), text.clone()));
        list.push(pair(&format!("{case}, {next}"), text.clone(), other.clone()));
    }
    list
}

/// Listings of many blocks.
pub fn long(c: &mut Chance) -> Vec<Pair> {
    let mut list = Vec::new();
    for states in [568, 569, 570, 1200, 3000] {
        let lines = listing(c, states, any);
        list.push(pair("long, equal", text(&lines), text(&lines)));
        for changes in [1, 40, 2000] {
            let mut other = lines.clone();
            for _ in 0..changes {
                change(c, &mut other, any);
            }
            list.push(pair("long", text(&lines), text(&other)));
        }
        let lone = listing(c, 0, any);
        list.push(pair("long, lone", text(&lines), text(&lone)));
        list.push(pair("lone, long", text(&lone), text(&lines)));
        let other = listing(c, states + 100, any);
        list.push(pair("long, others", text(&lines), text(&other)));
    }
    list
}

pub fn made(c: &mut Chance, n: usize) -> Vec<Pair> {
    (0..n).map(|i| one(c, i)).collect()
}
