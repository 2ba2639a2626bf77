//! A case: a book and lines, kept in a file so that it can be tried again.

use reference::fields::{decimals, floats, small, two};
use reference::motion::{of_an_order, single, Outcome};
use reference::rule::{Setting, State};
use reference::{ask, book, calendar, fields, pane, repair};

use crate::linked;

#[derive(Clone, Debug, Default, PartialEq)]
pub struct Case {
    pub book: Vec<u8>,
    /// Lines of one kind: of `ask` with `julian`, `passes` and `step`, a session of `pane` with `motion MOMENT`, `repair ROOM`, or
    /// `holds LENGTH`: that many bytes are the first book, the others the second.
    pub lines: Vec<Vec<u8>>,
}

/// The reference's answer to a line that `ask` does not have.
fn more(book: &[u8], line: &[u8]) -> Option<String> {
    if line.len() > ask::LONGEST {
        return None;
    }
    let fields: Vec<&[u8]> = line.split(|&b| b == b' ').collect();
    let (name, f) = fields.split_first()?;
    match *name {
        b"julian" => Some(fields::told(calendar::twice_julian(decimals::<1>(f)?[0]).map(|x| x.to_string()))),
        b"passes" => Some(fields::told(book::check(book).map(|()| "PASSES".to_string()))),
        b"step" => {
            let coefficients = floats(f.get(..6)?)?;
            let [dut, moment, rest @ ..] = f.get(6..)? else { return None };
            let (position, velocity) = fields::halves(floats(rest.get(..6)?)?);
            let [h, target, budget, guesses @ ..] = rest.get(6..)? else { return None };
            let (_, _) = (fields::decimal(target)?, small(budget)?);
            let setting = Setting { coefficients, dut: small(dut)?, extras: reference::extras::Extras { j: 0.0, a: 0.0, k: 0.0 }, rule: 0 };
            let bare = State::bare(fields::decimal(moment)?, 1, position, velocity);
            let given = of_an_order(book, &setting, &bare);
            let ran = single(book, &setting, &given, small(h)?, decimals(guesses)?);
            let outcome = match ran.outcome {
                Outcome::Arrived => "ARRIVED".to_string(),
                Outcome::Going => "GOING".to_string(),
                Outcome::Refused(number) => format!("REFUSED {number}"),
            };
            let (s, guesses) = (ran.state, ran.guesses.map(|g| g.to_string()).join(" "));
            let state = format!("{} {}", s.moment, fields::all_shown(&two(s.position, s.velocity)));
            Some(format!("{outcome} {} {state} {guesses}", ran.steps))
        }
        _ => None,
    }
}

fn is_pane(line: &[u8]) -> bool {
    [&b"take "[..], b"feed ", b"frame ", b"clear"].iter().any(|word| line.starts_with(word))
}

/// A frame with velocity, in words.
fn motion_shown(frame: Result<pane::Frame<[[f64; 3]; 2]>, u64>) -> String {
    match frame {
        Ok(pane::Frame::Current([p, v])) => format!("CURRENT {}", fields::all_shown(&two(p, v))),
        Ok(pane::Frame::Late(by)) => format!("LATE {by}"),
        Ok(pane::Frame::Empty) => "EMPTY".to_string(),
        Err(number) => format!("REFUSED {number}"),
    }
}

/// Whether the second book holds the first, by both.
fn held((first, second): (&[u8], &[u8])) -> (String, String) {
    let expected = match reference::holds::missing(first, second) {
        Ok(None) => format!("0 {}", u64::MAX),
        Ok(Some(i)) => format!("104 {i}"),
        Err(number) => format!("{number} {}", u64::MAX),
    };
    (expected, linked::holds(first, second))
}

/// The repair of a book by both, in words.
fn repaired(input: &[u8], room: usize) -> (String, String) {
    let mut output = vec![0xa5; room];
    let (mut fates, mut report) = ([0xa5a5u16; belfrywool::calls::ENTRIES], [7u64; 7]);
    let number = unsafe {
        belfrywool::calls::belfry_repair(input.as_ptr(), input.len(), output.as_mut_ptr(), room, &mut fates, &mut report)
    };
    let expected = repair::repair(input, room);
    let (mut left, mut told) = (vec![0xa5; room], format!("{:?}", expected.as_ref().map(|_| ())));
    if let Ok(r) = &expected {
        left[..r.book.len()].copy_from_slice(&r.book);
        let fate = |f: &repair::Fate| match f {
            repair::Fate::Kept(n) => *n as u16,
            repair::Fate::Fields => 3001,
            repair::Fate::Block => 3002,
            repair::Fate::Coefficient => 3003,
            repair::Fate::Overlap => 3004,
            repair::Fate::Room => 3005,
        };
        let kept = r.fates.iter().filter(|f| matches!(f, repair::Fate::Kept(_))).count();
        let changed = [r.changed.total, r.changed.count, r.changed.order, r.changed.offsets].map(u64::from);
        let fates: Vec<u16> = r.fates.iter().map(fate).collect();
        told = format!("{told} {fates:?} {} {kept} {} {changed:?}", fates.len(), r.book.len());
    }
    let mut said = format!("{:?}", if number == 0 { Ok(()) } else { Err(number) });
    if number == 0 {
        let looked = (report[0] as usize).min(fates.len());
        said = format!("{said} {:?} {} {} {} {:?}", &fates[..looked], report[0], report[1], report[2], &report[3..]);
    }
    if output != left {
        said.push_str(" and another output");
    }
    (told, said)
}

impl Case {
    /// Both answers to each line; a line that is unreadable for both is left out.
    pub fn answers(&self) -> Vec<(String, String)> {
        if let Some(room) = self.lines.first().and_then(|line| line.strip_prefix(b"repair ")).and_then(fields::decimal) {
            return vec![repaired(&self.book, (room as usize).min(70_000))];
        }
        if let Some(at) = self.lines.first().and_then(|line| line.strip_prefix(b"holds ")).and_then(fields::decimal) {
            return vec![held(self.book.split_at((at as usize).min(self.book.len())))];
        }
        let (mut panes, mut own) = (linked::Pane::default(), pane::Pane::Clear);
        let answer = |line: &Vec<u8>| {
            if let Some(t) = line.strip_prefix(b"motion ").and_then(fields::decimal) {
                return Some((motion_shown(own.frame_motion(t)), panes.motion(t)));
            }
            if is_pane(line) {
                return panes.answer(line).map(|got| (own.answer(line), got));
            }
            let expected = more(&self.book, line).unwrap_or_else(|| ask::answer(&self.book, line));
            let got = linked::answer(&self.book, line).unwrap_or_else(|| ask::UNREADABLE.to_string());
            (got != ask::UNREADABLE || expected != ask::UNREADABLE).then_some((expected, got))
        };
        self.lines.iter().filter_map(answer).collect()
    }

    /// The first difference, in words.
    pub fn differs(&self) -> Option<String> {
        let wrong = self.answers().into_iter().find(|(expected, got)| expected != got)?;
        let short = |text: &str| text.chars().take(400).collect::<String>();
        Some(format!("expected {}\n  got      {}", short(&wrong.0), short(&wrong.1)))
    }

    pub fn bytes(&self) -> Vec<u8> {
        let mut bytes = format!("{}\n", self.book.len()).into_bytes();
        bytes.extend(&self.book);
        bytes.extend(self.lines.join(&b'\n'));
        bytes
    }

    pub fn read(bytes: &[u8]) -> Option<Case> {
        let at = bytes.iter().position(|&b| b == b'\n')?;
        let length = fields::decimal(&bytes[..at])? as usize;
        let (book, lines) = bytes[at + 1..].split_at_checked(length)?;
        Some(Case { book: book.to_vec(), lines: lines.split(|&b| b == b'\n').map(<[u8]>::to_vec).collect() })
    }

    /// Keeps it in a folder; the name of the file.
    pub fn keep(&self, folder: &str, name: &str) -> String {
        let sum = self.bytes().iter().fold(0xcbf2_9ce4_8422_2325u64, |h, &b| (h ^ u64::from(b)).wrapping_mul(0x100_0000_01b3));
        let file = format!("{folder}/{name}-{sum:016x}");
        match std::fs::create_dir_all(folder).and_then(|()| std::fs::write(&file, self.bytes())) {
            Ok(()) => file,
            Err(error) => format!("{file}, not kept: {error}"),
        }
    }
}
