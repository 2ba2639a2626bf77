//! One input of a coverage-guided fuzzer: a byte that picks a book, then lines. The fuzzer is Debian's libFuzzer, which calls this.

use std::sync::OnceLock;

use reference::trial::chance::Chance;
use reference::trial::changed::bounded;
use reference::trial::plan::worlds;
use reference::trial::world::World;

use crate::case::Case;
use crate::fuzz::{lines, CALLS};

/// The books that the first byte picks from.
fn books() -> &'static [World] {
    static BOOKS: OnceLock<Vec<World>> = OnceLock::new();
    BOOKS.get_or_init(|| worlds(&mut Chance::new(1), &[]))
}

fn case(data: &[u8]) -> Option<Case> {
    let (pick, text) = data.split_first()?;
    let book = books()[usize::from(*pick) % books().len()].bytes().to_vec();
    Some(Case { book, lines: text.split(|&b| b == b'\n').take(8).map(bounded).collect() })
}

/// Inputs to begin with: lines of every kind.
pub fn corpus(folder: &str) -> std::io::Result<()> {
    std::fs::create_dir_all(folder)?;
    let mut c = Chance::new(2);
    for kind in CALLS.iter().flat_map(|(_, kinds)| kinds.iter()).filter(|kind| !["repair", "pane", "motion", "holds"].contains(kind)) {
        for i in 0..30 {
            let pick = c.below(books().len() as u64) as u8;
            let world = &books()[usize::from(pick)];
            let mut input = vec![pick];
            input.extend(lines(&mut c, world, kind).into_iter().take(2).collect::<Vec<_>>().join(&b'\n'));
            std::fs::write(format!("{folder}/{kind}-{i}"), input)?;
        }
    }
    for (i, session) in reference::trial::panes::sessions(&mut c, 60, &[]).into_iter().enumerate() {
        let mut input = vec![0];
        input.extend(session.lines.into_iter().take(8).collect::<Vec<_>>().join(&b'\n'));
        std::fs::write(format!("{folder}/pane-{i}"), input)?;
    }
    Ok(())
}

/// # Safety
/// `data` has `size` bytes.
#[no_mangle]
pub unsafe extern "C" fn LLVMFuzzerTestOneInput(data: *const u8, size: usize) -> i32 {
    let data = if size == 0 { &[][..] } else { std::slice::from_raw_parts(data, size) };
    let Some(case) = case(data) else { return 0 };
    if let Some(what) = case.differs() {
        let folder = std::env::var("FOUND").unwrap_or_else(|_| ".".to_string());
        eprintln!("{}: {what}", case.keep(&folder, "guided"));
        std::process::abort();
    }
    0
}
