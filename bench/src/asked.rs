//! The required ratios, and whether they are met.

use std::process::ExitCode;

/// Whether a ratio is too great. It is compared as it is printed, with two decimals.
#[derive(Default)]
pub struct Asked {
    missed: bool,
}

impl Asked {
    /// The ratio, and next to it the greatest allowed one, if there is one.
    pub fn cells(&mut self, ratio: f64, most: Option<f64>) -> String {
        let Some(most) = most else { return format!(" {ratio:.2} | |") };
        let met = (ratio * 100.0).round() <= (most * 100.0).round();
        self.missed |= !met;
        format!(" {ratio:.2} | {most:.2}{} |", if met { "" } else { ", missed" })
    }

    /// 1 if one was too great, else 0.
    pub fn code(&self) -> ExitCode {
        ExitCode::from(u8::from(self.missed))
    }
}
