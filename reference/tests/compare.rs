//! Where two strips differ: the lines of the report, one by one.

use reference::parting::report;

const ZEROS: &str = "0000000000000000 0000000000000000 0000000000000000 0000000000000000 0000000000000000";

fn listing(header: &str, states: &[(&str, &str)], outcome: &str) -> String {
    let mut text = format!("{header}\n");
    for (moment, x) in states {
        text += &format!("{moment} {x} {ZEROS}\n");
    }
    text + outcome + "\n"
}

fn told(a: &str, b: &str) -> String {
    String::from_utf8(report(a.as_bytes(), b.as_bytes())).expect("a text")
}

#[test]
fn equal_listings_are_the_same() {
    let a = listing("STRIP 2", &[("0", "0000000000000000"), ("2", "3ff0000000000000")], "ARRIVED 1");
    assert_eq!(told(&a, &a), "SAME 2\n");
    assert_eq!(told(&a, a.trim_end()), "SAME 2\n");
    assert_eq!(told("REFUSED 1", "REFUSED 1\n"), "SAME 0\n");
}

#[test]
fn differences_come_in_order() {
    let a = listing("STRIP 2", &[("0", "0000000000000000"), ("2", "3ff0000000000000")], "ARRIVED 1");
    let b = listing("STRIP 3", &[("0", "8000000000000000"), ("3", "3ff0000000000000")], "REFUSED 6 1");
    let report = "HEADER STRIP 2 | STRIP 3\nDIFF 0 x 1\nONLY 1 2\nONLY 2 3\nOUTCOME ARRIVED 1 | REFUSED 6 1\n";
    assert_eq!(told(&a, &b), report);
    assert_eq!(told("REFUSED 4\n", &a), "HEADER - | STRIP 2\nONLY 2 0\nONLY 2 2\nOUTCOME REFUSED 4 | ARRIVED 1\n");
}

#[test]
fn the_first_listing_is_refused_first() {
    let a = listing("STRIP 2", &[("0", "7ff0000000000000")], "ARRIVED 1");
    assert_eq!(told(&a, ""), "REFUSED 13 1 2\n");
    assert_eq!(told("", &a), "REFUSED 13 1 1\n");
    assert_eq!(told("REFUSED 1\n", &a), "REFUSED 13 2 2\n");
    assert_eq!(told("REFUSED 1\nREFUSED 1\n", ""), "REFUSED 13 1 2\n");
    assert_eq!(told("STRIP 1\nARRIVED 0\n", ""), "REFUSED 13 1 2\n");
}

#[test]
fn the_greatest_count_fits_64_bits() {
    let a = listing("STRIP 2", &[("0", "7fefffffffffffff")], "ARRIVED 0");
    let b = listing("STRIP 2", &[("0", "ffefffffffffffff")], "ARRIVED 0");
    assert_eq!(told(&a, &b), "DIFF 0 x 18437736874454810623\n");
}
