//! environment: prints the crate's answer about the floating-point environment: 1 for rounding, 2 for subnormals, 3 for both. It
//! tries each way of rounding (to nearest, up, down, to zero), subnormals flushed when written, when read, both with rounding up,
//! and the original environment.

use std::arch::asm;

use belfrywool::environment;

fn told() -> u32 {
    let now = environment();
    u32::from(!now.rounds_to_nearest) + 2 * u32::from(!now.keeps_subnormals)
}

/// The processor's control word of floats, and the bits in it: rounding (nearest, up, down, zero), flush when written, when read.
#[cfg(target_arch = "aarch64")]
mod control {
    use super::asm;

    pub const ROUNDING: [u64; 4] = [0, 1 << 22, 2 << 22, 3 << 22];
    pub const FLUSHED: [u64; 2] = [1 << 24, 1 << 24];

    pub fn get() -> u64 {
        let word: u64;
        unsafe { asm!("mrs {}, fpcr", out(reg) word) };
        word
    }

    pub fn set(word: u64) {
        unsafe { asm!("msr fpcr, {}", in(reg) word) };
    }
}

#[cfg(target_arch = "x86_64")]
mod control {
    use super::asm;

    pub const ROUNDING: [u64; 4] = [0, 2 << 13, 1 << 13, 3 << 13];
    pub const FLUSHED: [u64; 2] = [1 << 15, 1 << 6];

    pub fn get() -> u64 {
        let mut word: u32 = 0;
        unsafe { asm!("stmxcsr [{}]", in(reg) &mut word) };
        u64::from(word)
    }

    pub fn set(word: u64) {
        let word = word as u32;
        unsafe { asm!("ldmxcsr [{}]", in(reg) &word) };
    }
}

fn main() {
    let before = control::get();
    let [near, up, ..] = control::ROUNDING;
    let [written, read] = control::FLUSHED;
    let words = [control::ROUNDING.to_vec(), vec![written, read, written | read | up, near]].concat();
    let answers: Vec<u32> = words
        .iter()
        .map(|word| {
            control::set(before | word);
            let told = told();
            control::set(before);
            told
        })
        .collect();
    println!("{}", answers.iter().map(u32::to_string).collect::<Vec<_>>().join(" "));
}
