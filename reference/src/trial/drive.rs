//! Shared by the drivers of one program: their options, the counting of differences, and how they end.

use std::collections::BTreeMap;
use std::process::ExitCode;
use std::sync::atomic::{AtomicUsize, Ordering};
use std::sync::mpsc::channel;
use std::thread::{available_parallelism, scope};

use super::compare::SHOWN;

/// Options of the form `--name value`, each with a known name.
#[derive(Clone, Debug, Default)]
pub struct Options(BTreeMap<String, String>);

impl Options {
    pub fn read(names: &[&str], mut args: impl Iterator<Item = String>) -> Result<Options, String> {
        let mut options = Options::default();
        while let Some(word) = args.next() {
            let name = word.strip_prefix("--").filter(|name| names.contains(name)).ok_or(format!("{word}: not known"))?;
            let value = args.next().ok_or(format!("{word}: nothing behind it"))?;
            options.0.insert(name.to_string(), value);
        }
        Ok(options)
    }

    pub fn text(&self, name: &str) -> &str {
        self.0.get(name).map_or("", String::as_str)
    }

    pub fn words(&self, name: &str) -> Vec<String> {
        self.text(name).split_whitespace().map(str::to_string).collect()
    }

    pub fn number(&self, name: &str, otherwise: u64) -> Result<u64, String> {
        match self.text(name) {
            "" => Ok(otherwise),
            word => word.parse().map_err(|_| format!("{word}: not a number")),
        }
    }
}

/// Works through a list with a thread for each processor. `work` gets the number of the thread and the case. The answers are in the
/// order of the list.
pub fn on_threads<T: Sync, R: Send>(
    list: &[T], work: impl Fn(usize, usize, &T) -> Result<R, String> + Sync,
) -> Result<Vec<R>, String> {
    let (next, (send, receive)) = (AtomicUsize::new(0), channel());
    scope(|s| {
        for thread in 0..available_parallelism().map_or(1, usize::from) {
            let (next, work, send) = (&next, &work, send.clone());
            s.spawn(move || {
                while let Some((i, case)) = Some(next.fetch_add(1, Ordering::Relaxed)).and_then(|i| Some((i, list.get(i)?))) {
                    let said = work(thread, i, case);
                    if said.is_err() {
                        next.store(list.len(), Ordering::Relaxed);
                    }
                    let _ = send.send((i, said));
                }
            });
        }
    });
    drop(send);
    let said: BTreeMap<usize, _> = receive.iter().collect();
    said.into_values().collect()
}

/// Compares case after case. `differs` gets the number of the thread, and describes a difference in words. The answer with the
/// number `spoil` is spoiled, and no later one is compared; 0 spoils none.
pub fn count<T: Sync>(
    mut list: Vec<T>, spoil: u64, differs: impl Fn(usize, &T, bool) -> Result<Option<String>, String> + Sync,
) -> Result<bool, String> {
    if spoil > 0 {
        list.truncate(spoil as usize);
    }
    Ok(told(&on_threads(&list, |thread, i, case| differs(thread, case, i as u64 + 1 == spoil))?))
}

/// Shows the first differences, and how many were compared; whether there were some and all are the same.
pub fn told(said: &[Option<String>]) -> bool {
    let differing: Vec<&String> = said.iter().flatten().collect();
    for what in differing.iter().take(SHOWN) {
        println!("{what}");
    }
    println!("{} compared, {} differ", said.len(), differing.len());
    !said.is_empty() && differing.is_empty()
}

/// How many there are of each sort, in one line.
pub fn sorts<T>(list: &[T], sort: impl Fn(&T) -> String) -> String {
    let mut sorts = BTreeMap::<String, usize>::new();
    for case in list {
        *sorts.entry(sort(case)).or_default() += 1;
    }
    sorts.iter().map(|(sort, n)| format!("{n} {sort}")).collect::<Vec<_>>().join(", ")
}

/// Exit status: 0 if all are the same, 1 if some differ, 2 if nothing could be compared.
pub fn end(name: &str, alike: Result<bool, String>) -> ExitCode {
    match alike {
        Ok(true) => ExitCode::SUCCESS,
        Ok(false) => ExitCode::from(1),
        Err(error) => {
            eprintln!("{name}: {error}");
            ExitCode::from(2)
        }
    }
}
