//! What a flight's folder says about it: its order, made by the order maker if it is a text, and its flight.txt.

use std::io::{Read, Write};
use std::path::PathBuf;
use std::process::{Command, Stdio};
use std::time::{Duration, Instant};

use crate::say;

/// What flight.txt says.
#[derive(Clone, Debug, Default, PartialEq, Eq)]
pub struct About {
    pub title: Option<String>,
    pub rule: u64,
    pub et_minus_utc_ms: Option<u64>,
}

/// The longest title that is shown.
const TITLE: usize = 200;

/// Reads a flight.txt: KEY VALUE on each line, also `KEY: VALUE` or `KEY = VALUE`; a line that begins with # is a comment.
pub fn about(bytes: &[u8]) -> Result<About, String> {
    let (mut about, mut seen) = (About::default(), Vec::new());
    for (number, line) in String::from_utf8_lossy(bytes).lines().enumerate() {
        let wrong = |words: &str| say::flight_line(number + 1, words);
        let line = line.trim();
        if line.is_empty() || line.starts_with('#') {
            continue;
        }
        let end = line.find(|c: char| !c.is_ascii_lowercase() && c != '_').unwrap_or(line.len());
        let (key, rest) = line.split_at(end);
        let rest = rest.trim_start();
        let value = rest.strip_prefix([':', '=']).unwrap_or(rest).trim();
        if seen.contains(&key.to_string()) {
            return Err(wrong(&format!("{key} is there twice")));
        }
        let digits = |most: u64| value.parse().ok().filter(|n: &u64| *n <= most && value.bytes().all(|b| b.is_ascii_digit()));
        match key {
            "title" => about.title = Some(value.chars().filter(|c| !c.is_control()).take(TITLE).collect()),
            "rule" => about.rule = digits(1).ok_or_else(|| wrong("rule is 0 or 1"))?,
            "et_minus_utc_ms" => {
                let ms = digits(1_000_000).ok_or_else(|| wrong("et_minus_utc_ms is a whole number of milliseconds, at most 1,000,000"))?;
                about.et_minus_utc_ms = Some(ms);
            }
            _ => return Err(wrong(say::FLIGHT_KEYS)),
        }
        seen.push(key.to_string());
    }
    Ok(about)
}

/// The order maker, tools/order/order of the repository.
#[derive(Clone, Debug)]
pub struct Maker {
    pub program: PathBuf,
}

/// The longest time that it may take.
const PATIENCE: Duration = Duration::from_secs(20);

impl Maker {
    /// The order of a text, or what is wrong with it, as `order.txt:LINE: words`.
    pub fn make(&self, text: &[u8]) -> Result<Vec<u8>, String> {
        let fault = |e: &dyn std::fmt::Display| say::maker(&e.to_string());
        let mut child = Command::new(&self.program)
            .arg("/dev/stdin")
            .stdin(Stdio::piped())
            .stdout(Stdio::piped())
            .stderr(Stdio::piped())
            .spawn()
            .map_err(|e| fault(&e))?;
        let (input, text) = (child.stdin.take(), text.to_vec());
        let writer = std::thread::spawn(move || input.map(|mut input| input.write_all(&text)));
        let readers = [child.stdout.take().map(reader), child.stderr.take().map(reader)];
        let start = Instant::now();
        let status = loop {
            match child.try_wait() {
                Ok(Some(status)) => break status,
                Ok(None) if start.elapsed() < PATIENCE => std::thread::sleep(Duration::from_millis(5)),
                waited => {
                    let _ = child.kill();
                    let _ = child.wait();
                    return Err(fault(&waited.err().map_or("it did not end".to_string(), |e| e.to_string())));
                }
            }
        };
        let _ = writer.join();
        let [made, said] = readers.map(|r| r.and_then(|r| r.join().ok()).unwrap_or_default());
        if status.success() {
            return Ok(made);
        }
        let said = String::from_utf8_lossy(&said).replace("/dev/stdin:", "order.txt:");
        let lines: Vec<&str> = said.lines().take(5).collect();
        Err(if lines.is_empty() { fault(&status) } else { lines.join("; ") })
    }
}

fn reader(mut from: impl Read + Send + 'static) -> std::thread::JoinHandle<Vec<u8>> {
    std::thread::spawn(move || {
        let mut bytes = Vec::new();
        let _ = from.by_ref().take(65_536).read_to_end(&mut bytes);
        bytes
    })
}

#[cfg(test)]
mod tests {
    use super::*;

    #[test]
    fn flights_are_told() {
        let read = about(b"# x\ntitle  Ranger <5>\nrule = 1\n\net_minus_utc_ms: 69184\n");
        assert_eq!(read, Ok(About { title: Some("Ranger <5>".into()), rule: 1, et_minus_utc_ms: Some(69_184) }));
        assert_eq!(about(b""), Ok(About::default()));
        for (text, line) in [("rule 2", 1), ("\nrules 1", 2), ("et_minus_utc_ms -1", 1), ("rule 0\nrule 0", 2), ("rule", 1), ("what", 1)] {
            let told = about(text.as_bytes()).unwrap_err();
            assert!(told.starts_with(&format!("flight.txt:{line}: ")), "{told}");
        }
    }

    fn maker() -> Maker {
        Maker { program: concat!(env!("CARGO_MANIFEST_DIR"), "/../tools/order/order").into() }
    }

    #[test]
    fn texts_become_orders() {
        let text = include_bytes!("../../tools/order/moonshot.txt");
        assert_eq!(maker().make(text).unwrap(), include_bytes!("../../data/orders/check-case-1.order144"));
        let wrong = String::from_utf8_lossy(text).replace("step      60 s", "step      61 parsecs");
        let told = maker().make(wrong.as_bytes()).unwrap_err();
        assert!(told.starts_with("order.txt:8: "), "{told}");
        let none = Maker { program: "/nowhere/order".into() };
        assert!(none.make(b"").unwrap_err().starts_with("the order maker tools/order/order did not run: "));
    }
}
