//! The flights of the table: thirty days at one-minute steps from the order's state.

use reference::book::count;
use reference::extras::Extras;
use reference::rule::{Setting, State};
use reference::strip::{read_order, Order};

use crate::asked::Asked;
use crate::books::preceded;
use crate::clock::Rounds;
use crate::flight::{timed, Flight, DAY, H, THIRTY_DAYS};

const MOON: u64 = 2;
/// The time that the full book covers, with 106 entries of the Moon and 53 of the Sun.
const FULL: u64 = 424 * DAY as u64 * H as u64;

/// The two real books, the full one made from the first, and the order.
pub struct Given {
    pub moon_and_sun: Vec<u8>,
    all_five: Vec<u8>,
    full: Vec<u8>,
    order: Order,
}

impl Given {
    /// From the folder `data`.
    pub fn read(folder: &str) -> Result<Given, String> {
        let read = |name| std::fs::read(format!("{folder}/{name}")).map_err(|error| format!("{folder}/{name}: {error}"));
        let moon_and_sun = read("books/book30.bin")?;
        let full = preceded(&moon_and_sun, FULL).ok_or("the book has no room before it")?;
        let order = read_order(&read("orders/check-case-1.order")?).ok_or("the order is too short")?;
        Ok(Given { moon_and_sun, all_five: read("books/book31all.bin")?, full, order })
    }

    pub fn moment(&self) -> u64 {
        self.order.state.moment
    }

    /// The order's setting with only the Earth, the Moon and the Sun.
    fn three(&self) -> Setting {
        let [earth, moon, sun, ..] = self.order.setting.coefficients;
        Setting { coefficients: [earth, moon, sun, 0.0, 0.0, 0.0], ..self.order.setting }
    }

    /// The evening run.
    pub fn evening(&self) -> Flight<'_> {
        Flight::by_run(&self.moon_and_sun, self.three(), &self.order.state, THIRTY_DAYS)
    }

    pub fn at_the_back(&self) -> Flight<'_> {
        Flight::by_run(&self.full, self.three(), &self.order.state, THIRTY_DAYS)
    }

    fn with_all_five(&self) -> Flight<'_> {
        Flight::by_run(&self.all_five, self.order.setting, &self.order.state, THIRTY_DAYS)
    }

    /// With document 003's J and A, and sunlight as on a craft of 10 m² and 300 kg.
    fn with_terms(&self) -> Flight<'_> {
        let extras = Extras { k: 3.4e6, ..Extras::NOMINAL };
        Flight::by_fly(&self.moon_and_sun, Setting { extras, ..self.three() }, &self.order.state, THIRTY_DAYS)
    }

    /// An orbit about the Moon at 5,000 km.
    fn about_the_moon(&self) -> Flight<'_> {
        let (r, m) = (5000.0, self.three().coefficients[MOON as usize - 1]);
        let state = State::bare(self.moment(), MOON, [r, 0.0, 0.0], [0.0, f64::sqrt(m / r), 0.0]);
        Flight::by_fly(&self.moon_and_sun, self.three(), &state, THIRTY_DAYS)
    }
}

/// The head of the table of flights; every row has milliseconds.
const HEAD: &str = "| Thirty days at one-minute steps, ms | Proved | Rust, document 01's walk | Ratio | Asked | Rust, with R-5's velocity \
| Ratio | Rust, best shape | Ratio |\n|---|---|---|---|---|---|---|---|---|";

/// The proved figure, and each other with its ratio; the limit is for the first ratio.
pub fn row(name: &str, [proved, plain, others @ ..]: [f64; 4], most: Option<f64>, asked: &mut Asked) -> String {
    let cells: String = others.iter().map(|other| format!(" {other:.1} | {:.2} |", proved / other)).collect();
    format!("| {name} | {proved:.1} | {plain:.1} |{}{cells}", asked.cells(proved / plain, most))
}

pub fn table(given: &Given, times: u32) -> Result<Asked, String> {
    let back = format!("the same at the back of a full book ({} entries, {} bytes)", count(&given.full), given.full.len());
    let flights = [
        ("with Moon and Sun", given.evening(), 1.06),
        (back.as_str(), given.at_the_back(), 0.32),
        ("with all five bodies", given.with_all_five(), 0.87),
        ("with Moon and Sun, J, A and K", given.with_terms(), 1.10),
        ("about the Moon, with Earth and Sun", given.about_the_moon(), 1.10),
    ];
    if !given.at_the_back().ends_as(&given.evening()) {
        return Err("a fuller book changes the flight".to_string());
    }
    let mut asked = Asked::default();
    println!("{HEAD}");
    let all: Vec<&Flight> = flights.iter().map(|(_, flight, _)| flight).collect();
    for ((name, _, most), figures) in flights.iter().zip(timed(&all, Rounds::new(2 * times, 300))?) {
        println!("{}", row(name, figures.map(|t| t / 1e6), Some(*most), &mut asked));
    }
    Ok(asked)
}
