//! The as-run log of one flight: lines appended, each chained to the one before it. A line that cannot be written is counted. As
//! soon as there is room again, a GAP line says how many are missing.

use std::collections::HashMap;
use std::fs::{self, File, OpenOptions};
use std::io::{self, BufRead, BufReader, Seek, SeekFrom, Write};
use std::os::unix::fs::MetadataExt;
use std::path::{Path, PathBuf};
use std::sync::atomic::{AtomicBool, Ordering};
use std::sync::Arc;

use crate::lines::{body, chain, form, Entry, FIRST};

/// What a log says about a flight when the service starts again.
#[derive(Clone, Debug, Default)]
pub struct Past {
    /// The greatest moment in it.
    pub moment: u64,
    /// The order's hash and the rule.
    pub order: Option<(String, u64)>,
    /// Hash and file name of the book in use.
    pub book: Option<(String, String)>,
    /// Books that were checked, by their hash: None if one was taken, else the number of its NOT-TAKEN line.
    pub judged: HashMap<String, Option<u64>>,
    /// Bytes of a torn last line.
    pub torn: usize,
    /// The first line that does not follow from those before it.
    pub broken: Option<u64>,
}

impl Past {
    fn note(&mut self, moment: u64, entry: Entry) {
        self.moment = self.moment.max(moment);
        match entry {
            Entry::Order { hash, rule } => self.order = Some((hash, rule)),
            Entry::Book { hash, name } => {
                self.judged.insert(hash.clone(), None);
                self.book = Some((hash, name));
            }
            Entry::NotTaken { number, hash, .. } => {
                self.judged.entry(hash).or_insert(Some(number));
            }
            _ => {}
        }
    }
}

/// A file that waits for its next flush to disk.
pub struct Flush {
    file: File,
    waits: AtomicBool,
}

impl Flush {
    /// Flushes what was written since the last time. The next write reports an error.
    pub fn flush(&self) -> io::Result<()> {
        if self.waits.swap(false, Ordering::AcqRel) {
            self.file.sync_data()?;
        }
        Ok(())
    }
}

pub struct Log {
    path: PathBuf,
    file: Arc<Flush>,
    /// Where the last whole line ends.
    end: u64,
    chain: String,
    /// Lines that could not be written, and those of them that must not be missing.
    lost: u64,
    held: Vec<Entry>,
    fault: Option<String>,
}

fn opened(path: &Path) -> io::Result<Arc<Flush>> {
    let file = OpenOptions::new().read(true).write(true).create(true).truncate(false).open(path)?;
    Ok(Arc::new(Flush { file, waits: AtomicBool::new(true) }))
}

/// Reads a log from its start: its content, its last chain, and where its last whole line ends.
fn past(file: &File) -> io::Result<(Past, String, u64)> {
    let (mut past, mut last, mut end, mut count) = (Past::default(), FIRST.to_string(), 0, 0);
    let mut reader = BufReader::new(file);
    let mut bytes = Vec::new();
    while reader.read_until(b'\n', &mut bytes)? > 0 {
        count += 1;
        let whole = bytes.strip_suffix(b"\n").and_then(|line| std::str::from_utf8(line).ok());
        let line = whole.and_then(|text| Some((form(text)?, text)));
        match line {
            Some((line, text)) => {
                let before = &text[..text.len() - line.chain.len() - 1];
                if chain(&last, before) != line.chain {
                    past.broken = past.broken.or(Some(count));
                }
                last = line.chain.clone();
                past.note(line.moment, line.entry);
                end += bytes.len() as u64;
            }
            None if reader.fill_buf()?.is_empty() => past.torn = bytes.len(),
            None => {
                past.broken = past.broken.or(Some(count));
                end += bytes.len() as u64;
            }
        }
        bytes.clear();
    }
    Ok((past, last, end))
}

/// The content of the log at a path, without opening it for writing.
pub fn look(path: &Path) -> Option<Past> {
    past(&File::open(path).ok()?).ok().map(|(past, _, _)| past)
}

impl Log {
    /// Opens the log at a path, or begins one; a torn last line is cut off.
    pub fn open(path: &Path) -> io::Result<(Log, Past)> {
        let file = opened(path)?;
        let (past, chain, end) = past(&file.file)?;
        if past.torn > 0 {
            file.file.set_len(end)?;
        }
        let log = Log { path: path.to_path_buf(), file, end, chain, lost: 0, held: Vec::new(), fault: None };
        Ok((log, past))
    }

    /// What must be flushed.
    pub fn flusher(&self) -> Arc<Flush> {
        Arc::clone(&self.file)
    }

    /// What is wrong, and how many lines are missing.
    pub fn fault(&self) -> Option<(&str, u64)> {
        self.fault.as_deref().map(|fault| (fault, self.lost))
    }

    /// Whether the file is no longer at its path.
    pub fn is_gone(&self) -> bool {
        let own = self.file.file.metadata().map(|m| (m.dev(), m.ino()));
        let there = fs::symlink_metadata(&self.path).map(|m| (m.dev(), m.ino()));
        matches!((own, there), (Ok(_), Err(e)) if e.kind() == io::ErrorKind::NotFound)
    }

    /// Begins a new file at its path, after it was removed. If the folder above the log folder is missing too, it may come back:
    /// then nothing is made there.
    pub fn again(&mut self) -> io::Result<()> {
        if let Some(folder) = self.path.parent().filter(|folder| !folder.exists()) {
            fs::create_dir(folder)?;
        }
        self.file = opened(&self.path)?;
        (self.end, self.chain) = (0, FIRST.to_string());
        Ok(())
    }

    /// Appends a line; one that cannot be written is counted.
    pub fn write(&mut self, wall: u64, moment: u64, entry: Entry) {
        let written = self.recover(wall, moment).and_then(|()| self.put(wall, moment, &entry));
        self.fault = written.err().map(|fault| {
            self.lost += 1;
            if matches!(entry, Entry::Start(_) | Entry::Order { .. } | Entry::Book { .. } | Entry::NotTaken { .. }) {
                self.held.push(entry);
            }
            fault.to_string()
        });
    }

    /// After lost lines: a line with their number, and then those that must not be missing.
    fn recover(&mut self, wall: u64, moment: u64) -> io::Result<()> {
        if self.lost > 0 {
            self.put(wall, moment, &Entry::Gap(self.lost))?;
            self.lost = 0;
        }
        while let Some(entry) = self.held.first().cloned() {
            self.put(wall, moment, &entry)?;
            self.held.remove(0);
        }
        Ok(())
    }

    /// Writes one line at the end. If it does not fit, the file is cut back to where it ended before.
    fn put(&mut self, wall: u64, moment: u64, entry: &Entry) -> io::Result<()> {
        let body = body(wall, moment, entry);
        let sum = chain(&self.chain, &body);
        let line = format!("{body} {sum}\n");
        let mut file = &self.file.file;
        if file.metadata()?.len() != self.end {
            file.set_len(self.end)?;
        }
        file.seek(SeekFrom::Start(self.end))?;
        if let Err(fault) = file.write_all(line.as_bytes()) {
            let _ = file.set_len(self.end);
            return Err(fault);
        }
        self.end += line.len() as u64;
        self.chain = sum;
        self.file.waits.store(true, Ordering::Release);
        Ok(())
    }
}

#[cfg(test)]
mod tests {
    use super::*;

    fn place(name: &str) -> PathBuf {
        let path = std::env::temp_dir().join(format!("onair-log-{name}-{}", std::process::id()));
        let _ = fs::remove_file(&path);
        path
    }

    const WALL: u64 = 2_426_000_000_000;

    #[test]
    fn it_goes_on_after_a_torn_line() {
        let path = place("torn");
        let (mut log, past) = Log::open(&path).unwrap();
        assert_eq!((past.moment, past.torn), (0, 0));
        log.write(WALL, 5, Entry::Start("1".into()));
        log.write(WALL, 9, Entry::Stop);
        drop(log);
        let whole = fs::read(&path).unwrap();
        // A cut before the end of the first line: with the line feed it would be a whole line again.
        let first = whole.iter().position(|b| *b == b'\n').unwrap();
        for cut in 1..=first {
            fs::write(&path, [&whole[..], &whole[..cut]].concat()).unwrap();
            let (mut log, past) = Log::open(&path).unwrap();
            assert_eq!((past.moment, past.torn, past.broken), (9, cut, None));
            log.write(WALL, 11, Entry::Stop);
            let (_, past) = Log::open(&path).unwrap();
            assert_eq!((past.moment, past.torn, past.broken), (11, 0, None));
        }
        fs::remove_file(&path).unwrap();
    }

    #[test]
    fn an_edited_line_is_seen_and_kept() {
        let path = place("edited");
        let (mut log, _) = Log::open(&path).unwrap();
        (0..5).for_each(|i| log.write(WALL, i, Entry::Gap(i)));
        let edited = fs::read_to_string(&path).unwrap().replace("2 GAP 2", "2 GAP 7");
        fs::write(&path, edited).unwrap();
        assert_eq!(look(&path).unwrap().broken, Some(3));
        fs::remove_file(&path).unwrap();
    }

    #[test]
    fn lost_lines_are_counted() {
        let path = place("lost");
        let (mut log, _) = Log::open(&path).unwrap();
        log.write(WALL, 1, Entry::Start("1".into()));
        // A handle that cannot write, as on a full disk.
        let good = Arc::clone(&log.file);
        log.file = Arc::new(Flush { file: File::open(&path).unwrap(), waits: AtomicBool::new(false) });
        log.write(WALL, 2, Entry::Gap(7));
        log.write(WALL, 3, Entry::Book { hash: "e".repeat(64), name: "b".into() });
        assert_eq!(log.fault().map(|(_, lost)| lost), Some(2));
        log.file = good;
        log.write(WALL, 4, Entry::Stop);
        assert_eq!(log.fault(), None);
        let text = fs::read_to_string(&path).unwrap();
        let words: Vec<&str> = text.lines().map(|l| l.split(' ').nth(2).unwrap()).collect();
        assert_eq!(words, ["START", "GAP", "BOOK", "STOP"]);
        assert_eq!(look(&path).unwrap().broken, None);
        fs::remove_file(&path).unwrap();
    }
}
