//! Figures as text: rounded to nearest, ties to even, by the exact value of the float. A zero has no sign.

/// A number with that many places.
pub fn fixed(x: f64, places: usize) -> String {
    let text = format!("{x:.places$}");
    match text.strip_prefix('-') {
        Some(rest) if rest.bytes().all(|b| matches!(b, b'0' | b'.')) => rest.to_string(),
        _ => text,
    }
}

/// An angle from 0 up to 360 degrees with four places; one that rounds to a whole circle is 0.
pub fn circle(x: f64) -> String {
    match fixed(x, 4).as_str() {
        "360.0000" => "0.0000".to_string(),
        text => text.to_string(),
    }
}

/// A number not below zero with that many significant digits, as a plain decimal.
pub fn significant(x: f64, digits: usize) -> String {
    let text = format!("{x:.*e}", digits - 1);
    let (mantissa, exponent) = text.split_once('e').unwrap_or((&text, "0"));
    let exponent: i32 = exponent.parse().unwrap_or(0);
    let all: String = mantissa.chars().filter(char::is_ascii_digit).collect();
    if exponent < 0 {
        return format!("0.{}{all}", "0".repeat((-exponent - 1) as usize));
    }
    let whole = exponent as usize + 1;
    if whole >= all.len() {
        return format!("{all}{}", "0".repeat(whole - all.len()));
    }
    format!("{}.{}", &all[..whole], &all[whole..])
}

#[cfg(test)]
mod tests {
    use super::*;

    #[test]
    fn ties_go_to_even() {
        let ties = [(0.5, 0, "0"), (1.5, 0, "2"), (2.5, 0, "2"), (0.125, 2, "0.12"), (0.375, 2, "0.38"), (0.0625, 3, "0.062"), (0.1875, 3, "0.188")];
        for (x, places, text) in ties {
            assert_eq!(fixed(x, places), text);
        }
        // Just above and below a tie.
        assert_eq!(fixed(f64::from_bits(0.125f64.to_bits() + 1), 2), "0.13");
        assert_eq!(fixed(f64::from_bits(0.375f64.to_bits() - 1), 2), "0.37");
    }

    #[test]
    fn zero_has_no_sign() {
        assert_eq!([fixed(-0.0, 3), fixed(-0.0004, 3), fixed(-0.0006, 3)], ["0.000", "0.000", "-0.001"]);
        assert_eq!(fixed(-12.5, 0), "-12");
    }

    #[test]
    fn a_whole_circle_is_none() {
        assert_eq!([circle(359.99996), circle(359.99994), circle(0.0)], ["0.0000", "359.9999", "0.0000"]);
    }

    #[test]
    fn digits_that_count() {
        let texts = [
            (0.0, "0.00"), (0.008934567, "0.00893"), (9.996, "10.0"), (9.994, "9.99"), (123.5, "124"), (122.5, "122"), (1234.0, "1230"),
            (2.7e-6, "0.00000270"), (0.0999999, "0.100"),
        ];
        for (x, text) in texts {
            assert_eq!(significant(x, 3), text);
        }
    }
}
