//! `--check`: computes every line of the as-run logs again, from the kept orders and books.

use std::fs::File;
use std::io::{BufRead, BufReader};
use std::path::{Path, PathBuf};
use std::sync::Arc;
use std::time::{Duration, Instant};

use belfrywool::{Order, Rule};

use crate::books::{judge, Judgement, Named};
use crate::keep::{kept, Kind};
use crate::lines::{read, Entry, FIRST};
use crate::names::is_flight;
use crate::show::show;
use crate::walk::Walk;

/// The most differing lines that are shown.
const SHOWN: usize = 5;

/// A flight, rebuilt from its log line by line.
struct Again<'a> {
    folder: &'a Path,
    order: Option<(String, Order)>,
    book: Option<Named>,
    walk: Option<Walk>,
    moment: u64,
    started: bool,
}

impl Again<'_> {
    fn order(&mut self, hash: &str, rule: u64) -> Result<(), String> {
        if self.order.as_ref().is_some_and(|(old, order)| old != hash || order.setting.rule != Rule(rule)) {
            return Err("another order than before".into());
        }
        let bytes = kept(self.folder, Kind::Order, hash).ok_or("the kept order is missing, or its bytes have another hash")?;
        let mut order = Order::of_bytes(&bytes).ok_or("the kept order has neither 120 nor 144 bytes")?;
        order.setting.rule = Rule(rule);
        self.order = Some((hash.to_string(), order));
        Ok(())
    }

    fn book(&mut self, hash: &str, name: &str) -> Result<(), String> {
        let bytes = kept(self.folder, Kind::Book, hash).ok_or("the kept book is missing, or its bytes have another hash")?;
        let book = Named::new(name, bytes);
        if let Judgement::NotTaken(_, why) = judge(&book, self.book.as_ref()) {
            return Err(why);
        }
        let (_, order) = self.order.as_ref().ok_or("a book before any order")?;
        let bytes = Arc::clone(&book.bytes);
        match &mut self.walk {
            Some(walk) => walk.renew(&bytes),
            None => self.walk = Some(Walk::new(order, &bytes)),
        }
        self.book = Some(book);
        Ok(())
    }

    /// What the line of a frame should be.
    fn frame(&mut self) -> Result<Entry, String> {
        let (_, order) = self.order.as_ref().ok_or("a frame before any order")?;
        let far = Instant::now() + Duration::from_secs(1 << 20);
        if let Some(walk) = &mut self.walk {
            walk.advance(self.moment, far);
        }
        Ok(show(order, self.book.as_ref(), self.walk.as_ref(), self.moment).entry(self.book.as_ref()))
    }

    /// Checks one line; returns what is wrong with it, if anything.
    fn line(&mut self, moment: u64, entry: &Entry) -> Result<(), String> {
        if moment < self.moment {
            return Err(format!("the moment falls: it was {}", self.moment));
        }
        self.moment = moment;
        if !self.started && !matches!(entry, Entry::Start(_)) {
            return Err("a log begins with START".into());
        }
        match entry {
            Entry::Start(_) => {
                self.started = true;
                Ok(())
            }
            Entry::Order { hash, rule } => self.order(hash, *rule),
            Entry::Book { hash, name } => self.book(hash, name),
            Entry::Current { .. } | Entry::Late { .. } | Entry::Empty { .. } | Entry::Refused { .. } => {
                let wanted = self.frame()?;
                (wanted == *entry).then_some(()).ok_or_else(|| format!("flown again it is: {}", wanted.words()))
            }
            Entry::NotTaken { .. } | Entry::ClockBack(_) | Entry::ClockJump(_) | Entry::Gap(_) | Entry::Stop => Ok(()),
        }
    }
}

/// Checks one log: how many lines it has, and which differ.
fn log(path: &Path, folder: &Path) -> std::io::Result<(u64, Vec<String>, u64)> {
    let mut again = Again { folder, order: None, book: None, walk: None, moment: 0, started: false };
    let (mut before, mut count, mut differ, mut faults) = (FIRST.to_string(), 0, 0, Vec::new());
    let mut reader = BufReader::new(File::open(path)?);
    let mut bytes = Vec::new();
    while reader.read_until(b'\n', &mut bytes)? > 0 {
        count += 1;
        let text = bytes.strip_suffix(b"\n").and_then(|line| std::str::from_utf8(line).ok());
        let judged = match text.ok_or("the line is torn, or is no text").and_then(|text| read(text, &before)) {
            Ok(line) => {
                before = line.chain.clone();
                again.line(line.moment, &line.entry)
            }
            Err(why) => Err(why.to_string()),
        };
        if let Err(why) = judged {
            differ += 1;
            if faults.len() < SHOWN {
                faults.push(format!("line {count}: {why}"));
            }
            // After a wrong chain the lines are checked against their own chains.
            if let Some(chain) = text.and_then(|text| text.rsplit(' ').next()) {
                before = chain.to_string();
            }
        }
        bytes.clear();
    }
    Ok((count, faults, differ))
}

/// The logs of a folder, by name.
fn logs(folder: &Path) -> std::io::Result<Vec<(String, PathBuf)>> {
    let mut all = Vec::new();
    for entry in std::fs::read_dir(folder)? {
        let path = entry?.path();
        let name = path.file_name().and_then(|n| n.to_str()?.strip_suffix(".log")).filter(|n| is_flight(n)).map(str::to_string);
        all.extend(name.map(|name| (name, path.clone())));
    }
    all.sort();
    Ok(all)
}

/// Checks every log of a folder and prints the result; returns whether nothing differs.
pub fn check(folder: &Path) -> Result<bool, String> {
    let logs = logs(folder).map_err(|e| crate::say::no_folder(&folder.display().to_string(), &e.to_string()))?;
    if logs.is_empty() {
        return Err(format!("there is no log in {}", folder.display()));
    }
    let mut good = true;
    for (name, path) in logs {
        let (count, faults, differ) = log(&path, folder).map_err(|e| format!("{}: {e}", path.display()))?;
        println!("{name}: {count} lines, {differ} differ");
        faults.iter().for_each(|fault| println!("  {fault}"));
        good &= differ == 0;
    }
    Ok(good)
}
