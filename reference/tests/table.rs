//! Tables: numerals at their edges, time stamps, and which line is refused.

use reference::table::{numeral, table};

fn told(x: f64, places: u32) -> String {
    let mut out = Vec::new();
    numeral(x.to_bits(), places, &mut out);
    String::from_utf8(out).expect("a text")
}

#[test]
fn ties_go_to_the_even_last_digit() {
    for (x, text) in [(0.0625, "0.062"), (0.1875, "0.188"), (-0.0625, "-0.062"), (2.5625, "2.562"), (0.9375, "0.938")] {
        assert_eq!(told(x, 3), text);
    }
    assert_eq!(told(0.0078125, 6), "0.007812");
    assert_eq!(told(0.0234375, 6), "0.023438");
    // Not ties: the floats are next to the decimal.
    assert_eq!(told(0.0005, 3), "0.001");
    assert_eq!(told(0.0015, 3), "0.002");
    assert_eq!(told(1.0005, 3), "1.000");
}

#[test]
fn zero_after_rounding_has_no_sign() {
    for x in [0.0, -0.0, -1e-9, f64::from_bits(1), -f64::MIN_POSITIVE, 0.000_000_499] {
        assert_eq!(told(x, 3), "0.000");
        assert_eq!(told(x, 6), "0.000000");
    }
    assert_eq!(told(-0.0006, 3), "-0.001");
}

#[test]
fn the_greatest_below_the_limit() {
    assert_eq!(told(999_999_999_999.999_9, 3), "1000000000000.000");
    assert_eq!(told(999_999_999_999.999_9, 6), "999999999999.999878");
    assert_eq!(told(-384_400.0, 3), "-384400.000");
}

const ZEROS: &str = "0000000000000000 0000000000000000 0000000000000000 0000000000000000 0000000000000000";

fn tabled(text: &str) -> (String, String) {
    let (rows, refused) = table(text.as_bytes());
    (String::from_utf8(rows).expect("rows"), String::from_utf8(refused).expect("a line"))
}

#[test]
fn the_first_line_decides() {
    let heading = "time,x,y,z,vx,vy,vz\r\n";
    let first = "2000-02-29T12:34:56.789,2.000,0.000,0.000,0.000000,0.000000,0.000000\r\n";
    let moment = 1_582_979_696_789u64;
    let head = format!("STRIP 1\n{moment} 4000000000000000 {ZEROS}\n");
    // 10^12 itself, at a later moment and at the same one
    let (large, falls) = (format!("{} 426d1a94a2000000 {ZEROS}\n", moment + 1), format!("{moment} 426d1a94a2000000 {ZEROS}\n"));
    for (text, rows, refused) in [
        (format!("{head}ARRIVED 0\n"), first, ""),
        (format!("{head}{large}ARRIVED 0\n"), first, "REFUSED 17 3\n"),
        (format!("{head}{falls}ARRIVED 0\n"), first, "REFUSED 13 3\n"),
        (format!("{head}x\n{large}"), first, "REFUSED 13 3\n"),
        (head.clone(), first, "REFUSED 13 3\n"),
        ("REFUSED 6\n".to_string(), "", ""),
        (String::new(), "", "REFUSED 13 1\n"),
    ] {
        assert_eq!(tabled(&text), (format!("{heading}{rows}"), refused.to_string()), "{text}");
    }
}
