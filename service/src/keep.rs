//! Copies of the orders and books that were in use, in the log folder under their hashes; and reading of files.

use std::fs::{self, File, OpenOptions};
use std::io::{self, Read, Write};
use std::os::unix::fs::OpenOptionsExt;
use std::path::{Path, PathBuf};

use crate::names::hash;

#[derive(Clone, Copy, Debug, PartialEq, Eq)]
pub enum Kind {
    Order,
    Book,
}

impl Kind {
    pub fn word(self) -> &'static str {
        match self {
            Kind::Order => "order",
            Kind::Book => "book",
        }
    }

    fn place(self, folder: &Path, hash: &str) -> PathBuf {
        match self {
            Kind::Order => folder.join("orders").join(format!("{hash}.bin")),
            Kind::Book => folder.join("books").join(format!("{hash}.book")),
        }
    }
}

/// The bytes of a regular file, at most that many; no link is followed.
pub fn read(path: &Path, most: u64) -> io::Result<Vec<u8>> {
    let file = OpenOptions::new().read(true).custom_flags(libc::O_NOFOLLOW | libc::O_NONBLOCK).open(path)?;
    if !file.metadata()?.is_file() {
        return Err(io::Error::other("not a regular file"));
    }
    let mut bytes = Vec::new();
    file.take(most + 1).read_to_end(&mut bytes)?;
    if bytes.len() as u64 > most {
        return Err(io::Error::other(format!("more than {most} bytes")));
    }
    Ok(bytes)
}

/// Writes a whole file: first under another name, then renamed. It is on disk before it is renamed.
pub fn write(path: &Path, bytes: &[u8]) -> io::Result<()> {
    let folder = path.parent().ok_or(io::Error::other("no folder"))?;
    fs::create_dir_all(folder)?;
    let name = path.file_name().unwrap_or_default().to_string_lossy();
    let early = folder.join(format!(".{name}.{}", std::process::id()));
    let written = File::create(&early).and_then(|mut file| {
        file.write_all(bytes)?;
        file.sync_all()
    });
    let named = written.and_then(|()| fs::rename(&early, path)).and_then(|()| File::open(folder)?.sync_all());
    if named.is_err() {
        let _ = fs::remove_file(&early);
    }
    named
}

/// Keeps a copy, unless it is there.
pub fn keep(folder: &Path, kind: Kind, bytes: &[u8]) -> io::Result<()> {
    let name = hash(bytes);
    if kept(folder, kind, &name).is_some() {
        return Ok(());
    }
    write(&kind.place(folder, &name), bytes)
}

/// A copy, if it exists and its bytes have that hash.
pub fn kept(folder: &Path, kind: Kind, name: &str) -> Option<Vec<u8>> {
    read(&kind.place(folder, name), 65_536).ok().filter(|bytes| hash(bytes) == name)
}

#[cfg(test)]
mod tests {
    use super::*;

    #[test]
    fn copies_are_found_by_their_hash() {
        let folder = std::env::temp_dir().join(format!("onair-keep-{}", std::process::id()));
        keep(&folder, Kind::Book, b"one").unwrap();
        let name = hash(b"one");
        assert_eq!(kept(&folder, Kind::Book, &name).as_deref(), Some(&b"one"[..]));
        assert_eq!(kept(&folder, Kind::Order, &name), None);
        fs::write(Kind::Book.place(&folder, &name), b"two").unwrap();
        assert_eq!(kept(&folder, Kind::Book, &name), None);
        keep(&folder, Kind::Book, b"one").unwrap();
        assert!(kept(&folder, Kind::Book, &name).is_some());
        let link = folder.join("link");
        std::os::unix::fs::symlink(Kind::Book.place(&folder, &name), &link).unwrap();
        assert!(read(&link, 10).is_err() && read(&folder, 10).is_err());
        fs::remove_dir_all(&folder).unwrap();
    }
}
