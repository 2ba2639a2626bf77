//! Looks at the night folder. A file is complete if its size and time are the same in two looks; then it is read once.

use std::collections::HashMap;
use std::fs;
use std::os::unix::fs::MetadataExt;
use std::path::{Path, PathBuf};
use std::time::{Duration, Instant};

use crate::keep;
use crate::names::{is_book, is_flight};
use crate::say;

const LONGEST_BOOK: u64 = 61_440;
const LONGEST_TEXT: u64 = 65_536;

/// What distinguishes two states of a file: size, time and place on disk.
#[derive(Clone, Copy, Debug, PartialEq, Eq)]
struct Mark {
    size: u64,
    time: (i64, i64),
    inode: u64,
}

/// A look at one file.
#[derive(Clone, Copy, Debug, PartialEq, Eq)]
enum Seen {
    Missing,
    Odd,
    File(Mark),
}

fn seen(path: &Path) -> Seen {
    match fs::symlink_metadata(path) {
        Ok(m) if m.is_file() => Seen::File(Mark { size: m.size(), time: (m.mtime(), m.mtime_nsec()), inode: m.ino() }),
        Ok(_) => Seen::Odd,
        Err(_) => Seen::Missing,
    }
}

/// The content of a file, once it is complete.
#[derive(Clone, Debug, PartialEq, Eq)]
pub enum Content {
    Missing,
    Bytes(Vec<u8>),
    /// Why it is not read.
    Not(String),
}

/// An order as it is in the folder.
#[derive(Clone, Debug, PartialEq, Eq)]
pub enum OrderFile {
    Missing,
    Text(Vec<u8>),
    Made(Vec<u8>),
    Not(String),
}

/// What is new in a flight's folder.
#[derive(Clone, Debug, Default, PartialEq, Eq)]
pub struct News {
    pub gone: bool,
    pub about: Option<Content>,
    pub order: Option<OrderFile>,
    /// In the order of their names.
    pub books: Vec<(String, Vec<u8>)>,
    /// Files that are not read, and why.
    pub notices: Vec<String>,
}

/// What was seen in earlier looks and since when, and what was read.
pub struct Looker {
    /// The least time between two looks that count.
    apart: Duration,
    before: HashMap<PathBuf, (Seen, Instant)>,
    read: HashMap<PathBuf, Seen>,
}

/// The names of the flights in a night folder, and of folders that cannot be a flight's.
pub fn flights(night: &Path) -> std::io::Result<(Vec<String>, Vec<String>)> {
    let is_folder = |entry: &fs::DirEntry| entry.file_type().is_ok_and(|t| t.is_dir());
    let all = fs::read_dir(night)?.filter_map(Result::ok).filter(is_folder);
    let mut names: Vec<String> = all.map(|entry| entry.file_name().to_string_lossy().into_owned()).collect();
    names.sort();
    let (good, bad): (Vec<String>, Vec<String>) = names.into_iter().partition(|name| is_flight(name));
    Ok((good, bad.into_iter().filter(|name| name != "log" && !name.starts_with('.')).collect()))
}

impl Looker {
    pub fn new(apart: Duration) -> Looker {
        Looker { apart, before: HashMap::new(), read: HashMap::new() }
    }

    /// The state of a file, if it is complete.
    fn complete(&mut self, path: &Path) -> Option<Seen> {
        let now = seen(path);
        match self.before.get(path) {
            Some((before, since)) if *before == now => (since.elapsed() >= self.apart).then_some(now),
            _ => {
                self.before.insert(path.to_path_buf(), (now, Instant::now()));
                None
            }
        }
    }

    /// A file that is complete and was not yet read in this state.
    fn fresh(&mut self, path: &Path) -> Option<Seen> {
        let now = self.complete(path)?;
        (self.read.get(path) != Some(&now)).then_some(now)
    }

    fn done(&mut self, path: &Path, state: Seen) {
        self.read.insert(path.to_path_buf(), state);
    }

    /// The content of a file in a state; None if it has changed meanwhile.
    fn content(path: &Path, state: Seen, most: u64) -> Option<Content> {
        let name = path.file_name().unwrap_or_default().to_string_lossy();
        match state {
            Seen::Missing => return Some(Content::Missing),
            Seen::Odd => return Some(Content::Not(say::not_regular(&name))),
            Seen::File(_) => {}
        }
        let bytes = keep::read(path, most);
        if seen(path) != state {
            return None;
        }
        match bytes {
            Ok(bytes) => Some(Content::Bytes(bytes)),
            Err(fault) => Some(Content::Not(say::not_read(&name, &fault.to_string()))),
        }
    }

    fn about(&mut self, folder: &Path) -> Option<Content> {
        let path = folder.join("flight.txt");
        let state = self.fresh(&path)?;
        if let Seen::File(mark) = state {
            if mark.size > LONGEST_TEXT {
                self.done(&path, state);
                return Some(Content::Not(say::flight_line(1, "more than 65,536 bytes are not read")));
            }
        }
        let content = Self::content(&path, state, LONGEST_TEXT)?;
        self.done(&path, state);
        Some(content)
    }

    fn order(&mut self, folder: &Path) -> Option<OrderFile> {
        let [text, made] = ["order.txt", "order.bin"].map(|name| folder.join(name));
        let states = [self.complete(&text), self.complete(&made)];
        let [Some(text_state), Some(made_state)] = states else {
            return None;
        };
        if self.read.get(&text) == Some(&text_state) && self.read.get(&made) == Some(&made_state) {
            return None;
        }
        let order = match (text_state, made_state) {
            (Seen::Missing, Seen::Missing) => OrderFile::Missing,
            (Seen::File(mark), Seen::Missing) if mark.size > LONGEST_TEXT => OrderFile::Not(say::order_long(mark.size)),
            (state, Seen::Missing) => match Self::content(&text, state, LONGEST_TEXT)? {
                Content::Bytes(bytes) => OrderFile::Text(bytes),
                Content::Not(why) => OrderFile::Not(why),
                Content::Missing => OrderFile::Missing,
            },
            (Seen::Missing, Seen::File(mark)) if mark.size != 120 && mark.size != 144 => OrderFile::Not(say::order_length(mark.size)),
            (Seen::Missing, state) => match Self::content(&made, state, 144)? {
                Content::Bytes(bytes) => OrderFile::Made(bytes),
                Content::Not(why) => OrderFile::Not(why),
                Content::Missing => OrderFile::Missing,
            },
            _ => OrderFile::Not(say::ORDER_TWICE.to_string()),
        };
        self.done(&text, text_state);
        self.done(&made, made_state);
        Some(order)
    }

    /// The names of the books in a folder, and notices about files that are not books.
    fn names(folder: &Path) -> (Vec<String>, Vec<String>) {
        let is_folder = fs::symlink_metadata(folder).is_ok_and(|m| m.is_dir());
        let entries = is_folder.then(|| fs::read_dir(folder).ok()).flatten();
        let all = entries.into_iter().flatten().filter_map(Result::ok);
        let mut names: Vec<String> = all.map(|entry| entry.file_name().to_string_lossy().into_owned()).collect();
        names.retain(|name| name.ends_with(".book") && !name.starts_with('.'));
        names.sort();
        let (good, bad): (Vec<String>, Vec<String>) = names.into_iter().partition(|name| is_book(name));
        (good, bad.iter().map(|name| say::book_name(name)).collect())
    }

    fn books(&mut self, folder: &Path, take: bool, news: &mut News) {
        let folder = folder.join("books");
        let (names, notices) = Self::names(&folder);
        news.notices.extend(notices);
        for name in names {
            let path = folder.join(&name);
            let Some(state) = self.complete(&path) else {
                continue;
            };
            match state {
                Seen::Odd => news.notices.push(say::not_regular(&name)),
                Seen::File(mark) if mark.size > LONGEST_BOOK => news.notices.push(say::book_long(&name, mark.size)),
                Seen::File(_) if take && self.read.get(&path) != Some(&state) => match Self::content(&path, state, LONGEST_BOOK) {
                    Some(Content::Bytes(bytes)) => {
                        self.done(&path, state);
                        news.books.push((name, bytes));
                    }
                    Some(Content::Not(why)) => news.notices.push(why),
                    _ => {}
                },
                _ => {}
            }
        }
    }

    /// Looks at a flight's folder. Books are read if they can be taken now.
    pub fn look(&mut self, folder: &Path, take_books: bool) -> News {
        let mut news = News::default();
        if !fs::symlink_metadata(folder).is_ok_and(|m| m.is_dir()) {
            return News { gone: true, notices: vec![say::FOLDER_GONE.to_string()], ..news };
        }
        news.about = self.about(folder);
        news.order = self.order(folder);
        self.books(folder, take_books, &mut news);
        news
    }

    /// Forgets that the order was read, so that it is reported again.
    pub fn again(&mut self, folder: &Path) {
        for name in ["order.txt", "order.bin"] {
            self.read.remove(&folder.join(name));
        }
    }
}

#[cfg(test)]
mod tests {
    use super::*;

    fn folder(name: &str) -> PathBuf {
        let folder = std::env::temp_dir().join(format!("onair-folder-{name}-{}", std::process::id()));
        let _ = fs::remove_dir_all(&folder);
        fs::create_dir_all(folder.join("books")).unwrap();
        folder
    }

    #[test]
    fn a_file_is_read_at_the_second_look_and_once() {
        let (folder, mut looker) = (folder("twice"), Looker::new(Duration::ZERO));
        fs::write(folder.join("order.bin"), [0; 120]).unwrap();
        fs::write(folder.join("books/2.book"), b"two").unwrap();
        fs::write(folder.join("books/1.book"), b"one").unwrap();
        assert_eq!(looker.look(&folder, true), News::default());
        let news = looker.look(&folder, true);
        assert_eq!(news.order, Some(OrderFile::Made(vec![0; 120])));
        assert_eq!(news.about, Some(Content::Missing));
        assert_eq!(news.books, [("1.book".to_string(), b"one".to_vec()), ("2.book".to_string(), b"two".to_vec())]);
        assert_eq!(looker.look(&folder, true), News::default());
        // A file that grows is complete when it has stopped growing.
        fs::write(folder.join("books/1.book"), b"one and more").unwrap();
        assert_eq!(looker.look(&folder, true).books, []);
        fs::write(folder.join("books/1.book"), b"one and yet more").unwrap();
        assert_eq!(looker.look(&folder, true).books, []);
        assert_eq!(looker.look(&folder, true).books, [("1.book".to_string(), b"one and yet more".to_vec())]);
        fs::remove_dir_all(&folder).unwrap();
        assert!(looker.look(&folder, true).gone);
    }

    #[test]
    fn what_is_no_order_or_book_is_told() {
        let (folder, mut looker) = (folder("odd"), Looker::new(Duration::ZERO));
        fs::write(folder.join("order.bin"), [0; 119]).unwrap();
        fs::write(folder.join("books/long.book"), vec![0; 61_441]).unwrap();
        fs::write(folder.join("books/a b.book"), b"x").unwrap();
        std::os::unix::fs::symlink("long.book", folder.join("books/link.book")).unwrap();
        looker.look(&folder, true);
        let news = looker.look(&folder, true);
        assert_eq!(news.order, Some(OrderFile::Not(say::order_length(119))));
        assert_eq!(news.notices, [say::book_name("a b.book"), say::not_regular("link.book"), say::book_long("long.book", 61_441)]);
        assert_eq!(news.books, []);
        fs::write(folder.join("order.txt"), b"x").unwrap();
        looker.look(&folder, true);
        assert_eq!(looker.look(&folder, true).order, Some(OrderFile::Not(say::ORDER_TWICE.to_string())));
        fs::remove_dir_all(&folder).unwrap();
    }
}
