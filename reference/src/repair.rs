//! Request R-10 of document 02: what can be saved of a damaged book. Written from the request and the
//! readings in docs/DECISIONS.md.

use crate::book::{bytes_at, entry, entry_passes, float_at, Entry, ENTRY, HEAD, LIMIT};

/// The fate of an entry that is looked at.
#[derive(Clone, Copy, Debug, PartialEq, Eq)]
pub enum Fate {
    Kept(usize),
    Fields,
    Block,
    Coefficient,
    Overlap,
    Room,
}

/// What changed compared with the input.
#[derive(Clone, Copy, Debug, Default, PartialEq, Eq)]
pub struct Changed {
    pub total: bool,
    pub count: bool,
    pub order: bool,
    pub offsets: bool,
}

#[derive(Clone, Debug, PartialEq, Eq)]
pub struct Repaired {
    pub book: Vec<u8>,
    pub fates: Vec<Fate>,
    pub changed: Changed,
}

fn block(input: &[u8], e: Entry) -> Option<&[u8]> {
    let from = e.offset as usize;
    input.get(from..from + 24 * usize::from(e.n))
}

/// The first reason found, of the three that depend only on the entry itself.
fn reason(input: &[u8], e: Entry) -> Option<Fate> {
    if !entry_passes(e) {
        return Some(Fate::Fields);
    }
    let Some(floats) = block(input, e) else { return Some(Fate::Block) };
    let finite = |at: usize| float_at(floats, at).is_some_and(f64::is_finite);
    (!(0..floats.len()).step_by(8).all(finite)).then_some(Fate::Coefficient)
}

fn overlap(a: Entry, b: Entry) -> bool {
    a.body == b.body && a.start < b.start + b.span && b.start < a.start + a.span
}

fn stated(input: &[u8], at: usize) -> u64 {
    bytes_at(input, at).map_or(0, u32::from_le_bytes).into()
}

/// The book of the kept entries, in their order.
fn written(input: &[u8], kept: &[Entry]) -> Vec<u8> {
    let blocks: usize = kept.iter().map(|e| 24 * usize::from(e.n)).sum();
    let mut place = HEAD + ENTRY * kept.len();
    let mut book = Vec::new();
    book.extend(((place + blocks) as u32).to_le_bytes());
    book.extend((kept.len() as u32).to_le_bytes());
    for e in kept {
        book.extend(e.body.to_le_bytes());
        book.extend(e.n.to_le_bytes());
        book.extend((place as u32).to_le_bytes());
        book.extend(e.start.to_le_bytes());
        book.extend(e.span.to_le_bytes());
        place += 24 * usize::from(e.n);
    }
    for &e in kept {
        book.extend(block(input, e).unwrap_or_default());
    }
    book
}

/// Takes the bytes of the input and the length of the output; a refusal is its number.
pub fn repair(input: &[u8], output: usize) -> Result<Repaired, u64> {
    if input.len() < HEAD || output < HEAD {
        return Err(16);
    }
    if input.len() > LIMIT {
        return Err(1);
    }
    let room = output.min(LIMIT);
    let looked = stated(input, 4).min(((input.len() - HEAD) / ENTRY) as u64) as usize;
    let entries: Vec<Entry> = (0..looked).filter_map(|i| entry(input, i)).collect();
    let mut fates: Vec<Option<Fate>> = entries.iter().map(|&e| reason(input, e)).collect();
    // A stable sort: equal keys stay in contents order.
    let mut order: Vec<usize> = (0..looked).filter(|&i| fates[i].is_none()).collect();
    order.sort_by_key(|&i| (entries[i].body, entries[i].start));
    let (mut kept, mut length) = (Vec::<usize>::new(), HEAD);
    for i in order {
        let longer = length + ENTRY + 24 * usize::from(entries[i].n);
        let last = kept.iter().rev().find(|&&k| entries[k].body == entries[i].body);
        fates[i] = Some(if last.is_some_and(|&k| overlap(entries[k], entries[i])) {
            Fate::Overlap
        } else if longer > room {
            Fate::Room
        } else {
            length = longer;
            kept.push(i);
            Fate::Kept(kept.len() - 1)
        });
    }
    let chosen: Vec<Entry> = kept.iter().map(|&i| entries[i]).collect();
    let book = written(input, &chosen);
    let offset = |k: usize| entry(&book, k).map(|e| e.offset);
    let changed = Changed {
        total: book.len() as u64 != stated(input, 0),
        count: kept.len() as u64 != stated(input, 4),
        order: kept.windows(2).any(|pair| pair[1] < pair[0]),
        offsets: (0..kept.len()).any(|k| offset(k) != Some(chosen[k].offset)),
    };
    Ok(Repaired { book, fates: fates.into_iter().flatten().collect(), changed })
}

/// The report as the program prints it.
pub fn report(answer: &Result<Repaired, u64>) -> String {
    let repaired = match answer {
        Err(number) => return format!("REFUSED {number}\n"),
        Ok(repaired) => repaired,
    };
    let mut text = String::new();
    for (i, fate) in repaired.fates.iter().enumerate() {
        text += &match fate {
            Fate::Kept(k) => format!("{i} KEPT {k}\n"),
            Fate::Fields => format!("{i} FIELDS\n"),
            Fate::Block => format!("{i} BLOCK\n"),
            Fate::Coefficient => format!("{i} COEFF\n"),
            Fate::Overlap => format!("{i} OVERLAP\n"),
            Fate::Room => format!("{i} ROOM\n"),
        };
    }
    let c = repaired.changed;
    for (changed, what) in [(c.total, "total"), (c.count, "count"), (c.order, "order"), (c.offsets, "offsets")] {
        if changed {
            text += &format!("CHANGED {what}\n");
        }
    }
    text + &format!("WRITTEN {}\n", repaired.book.len())
}
