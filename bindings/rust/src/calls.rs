//! The proved calls themselves: declarations that follow `bindings/c/belfrywool_calls.h`.
//!
//! Each returns 0, the number of a refusal, or one of the numbers below. The calls have no `requires`: any argument is allowed. The
//! memory that a call writes must not overlap any other argument; references guarantee this. The functions of this crate make these
//! calls. A program can also make them directly.

/// A run: the budget is spent short of the target.
pub const GOING: u64 = 100;
/// A run's answer fed to the pane: the run was refused, and the pane is unchanged.
pub const UNCHANGED: u64 = 101;
/// A frame: its moment is past the newer state.
pub const LATE: u64 = 102;
/// A frame: fewer than two states, or its moment is before the older one.
pub const EMPTY: u64 = 103;
/// Two books: the second does not hold every entry of the first.
pub const NOT_HELD: u64 = 104;
/// As many entries as a book can have.
pub const ENTRIES: usize = 2559;

extern "C" {
    pub fn belfry_date(day: u64, date: &mut [u64; 3]) -> u64;
    pub fn belfry_day(year: u64, month: u64, day: u64, count: &mut u64) -> u64;
    pub fn belfry_twice_julian_date(day: u64, twice: &mut u64) -> u64;
    pub fn belfry_hour_angle(moment: u64, dut: u32, parts: &mut u64) -> u64;
    pub fn belfry_sidereal(rule: u64, moment: u64, dut: u32, parts: &mut u64) -> u64;
    pub fn belfry_root(x: f64, value: &mut f64) -> u64;
    pub fn belfry_sine_cosine(parts: u64, both: &mut [f64; 2]) -> u64;
    pub fn belfry_book_passes(book: *const u8, length: usize) -> u64;
    pub fn belfry_position(book: *const u8, length: usize, body: u64, moment: u64, motion: &mut [f64; 6]) -> u64;
}

#[cfg(feature = "belfry_repair")]
extern "C" {
    pub fn belfry_repair(
        input: *const u8, length: usize, output: *mut u8, room: usize, fates: &mut [u16; ENTRIES], report: &mut [u64; 7],
    ) -> u64;
}

#[cfg(feature = "belfry_earth")]
extern "C" {
    pub fn belfry_acceleration(
        book: *const u8, length: usize, coefficients: &[f64; 6], dut: u32, moment: u64, position: &[f64; 3],
        acceleration: &mut [f64; 3],
    ) -> u64;
    pub fn belfry_run(
        book: *const u8, length: usize, coefficients: &[f64; 6], dut: u32, moment: u64, coordinates: &[f64; 6], h: u32,
        target: u64, budget: u32, guesses: &[u64; 5], reached: &mut u64, there: &mut [f64; 6], entries: &mut [u64; 5],
        steps: &mut u32,
    ) -> u64;
    pub fn belfry_single_step(
        book: *const u8, length: usize, coefficients: &[f64; 6], dut: u32, moment: u64, coordinates: &[f64; 6], h: u32,
        guesses: &[u64; 5], reached: &mut u64, there: &mut [f64; 6], entries: &mut [u64; 5], steps: &mut u32,
    ) -> u64;
    pub fn belfry_earth_fixed(moment: u64, coordinates: &[f64; 6], dut: u32, turned: &mut [f64; 6]) -> u64;
    pub fn belfry_from_sphere(
        rule: u64, moment: u64, dut: u32, sizes: &[f64; 2], angles: &[i64; 4], coordinates: &mut [f64; 6],
    ) -> u64;
    pub fn belfry_conic(
        m: f64, moment: u64, coordinates: &[f64; 6], names: &mut [u64; 2], figures: &mut [f64; 5],
    ) -> u64;
}

extern "C" {
    pub fn belfry_pull(
        book: *const u8, length: usize, coefficients: &[f64; 6], extras: &[f64; 3], dut: u32, rule: u64, moment: u64,
        centre: u64, position: &[f64; 3], acceleration: &mut [f64; 3],
    ) -> u64;
    pub fn belfry_inject(
        book: *const u8, length: usize, coefficients: &[f64; 6], extras: &[f64; 3], dut: u32, rule: u64, moment: u64,
        centre: u64, coordinates: &[f64; 6], state: &mut [f64; 9],
    ) -> u64;
    pub fn belfry_move(
        book: *const u8, length: usize, coefficients: &[f64; 6], extras: &[f64; 3], dut: u32, rule: u64, moment: u64,
        centre: u64, coordinates: &[f64; 9], target_centre: u64, moved: &mut [f64; 9],
    ) -> u64;
    pub fn belfry_fly(
        book: *const u8, length: usize, coefficients: &[f64; 6], extras: &[f64; 3], dut: u32, rule: u64, moment: u64,
        centre: u64, coordinates: &[f64; 9], h: u32, target: u64, budget: u32, guesses: &[u64; 5], reached: &mut u64,
        there: &mut [f64; 9], entries: &mut [u64; 5], steps: &mut u32,
    ) -> u64;
    pub fn belfry_turn(
        rule: u64, dut: u32, moment: u64, centre: u64, coordinates: &[f64; 6], turned: &mut [f64; 6],
    ) -> u64;
    pub fn belfry_orbit(
        m: f64, moment: u64, centre: u64, coordinates: &[f64; 6], names: &mut [u64; 2], figures: &mut [f64; 5],
    ) -> u64;
}

extern "C" {
    pub fn belfry_clear(pane: &mut [u64; 5], places: &mut [f64; 18]) -> u64;
    pub fn belfry_take(
        moment: u64, centre: u64, coordinates: &[f64; 9], pane: &mut [u64; 5], places: &mut [f64; 18],
    ) -> u64;
    pub fn belfry_feed(
        answer: u64, moment: u64, centre: u64, coordinates: &[f64; 9], pane: &mut [u64; 5], places: &mut [f64; 18],
    ) -> u64;
    pub fn belfry_frame(
        pane: &[u64; 5], places: &[f64; 18], moment: u64, position: &mut [f64; 3], late: &mut u64,
    ) -> u64;
    pub fn belfry_frame_motion(
        pane: &[u64; 5], places: &[f64; 18], moment: u64, motion: &mut [f64; 6], late: &mut u64,
    ) -> u64;
}

/// `belfry_frame` and `belfry_frame_motion` again, for memory that is not set yet: they write all of it, whatever they return. Setting
/// it first takes as long as a late frame itself.
#[allow(clashing_extern_declarations)]
pub(crate) mod unset {
    use std::mem::MaybeUninit;

    extern "C" {
        #[link_name = "belfry_frame"]
        pub fn frame(
            pane: &[u64; 5], places: &[f64; 18], moment: u64, position: &mut MaybeUninit<[f64; 3]>, late: &mut MaybeUninit<u64>,
        ) -> u64;
        #[link_name = "belfry_frame_motion"]
        pub fn frame_motion(
            pane: &[u64; 5], places: &[f64; 18], moment: u64, motion: &mut MaybeUninit<[f64; 6]>, late: &mut MaybeUninit<u64>,
        ) -> u64;
    }
}

extern "C" {
    pub fn belfry_book_holds(
        first: *const u8, length: usize, second: *const u8, second_length: usize, missing: &mut u64,
    ) -> u64;
}
