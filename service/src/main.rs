//! The desk's on-air service. `use.txt` lists its options, docs/ONAIR.md says what it does.

mod access;
mod answers;
mod books;
mod check;
mod clock;
mod desk;
mod figures;
mod flight;
mod folder;
mod frame;
mod keep;
mod lines;
mod log;
mod names;
mod orders;
mod pages;
mod path;
mod rehearsal;
mod say;
mod service;
mod show;
mod stream;
mod texts;
mod times;
mod walk;
mod web;
mod words;

use std::fs::{self, File};
use std::io::{self, Write};
use std::path::{Path, PathBuf};
use std::process::ExitCode;
use std::sync::Arc;

use access::Access;
use clock::{Clock, Pace};
use orders::Maker;
use rehearsal::Coming;
use service::Service;
use tokio::signal::unix::{signal, SignalKind};
use words::{Place, Serve, Task};

/// The repository's folder, which the launcher names.
fn house() -> PathBuf {
    std::env::var_os("BELFRYWOOL_HOUSE").map_or_else(|| PathBuf::from(concat!(env!("CARGO_MANIFEST_DIR"), "/..")), PathBuf::from)
}

/// A folder's lock, held as long as the value lives.
fn locked(folder: &Path) -> Result<File, String> {
    let said = |e: io::Error| say::no_folder(&folder.display().to_string(), &e.to_string());
    fs::create_dir_all(folder).map_err(said)?;
    let file = File::open(folder).map_err(said)?;
    match file.try_lock() {
        Ok(()) => Ok(file),
        Err(fs::TryLockError::WouldBlock) => Err(say::log_locked(&folder.display().to_string())),
        Err(fs::TryLockError::Error(e)) => Err(said(e)),
    }
}

/// The night folder with its lock; those of the demonstration and the rehearsal are made anew.
fn prepared(words: &Serve) -> Result<(PathBuf, PathBuf, File, Option<Coming>), String> {
    let made = house().join("target/onair-nights");
    let (night, coming) = match &words.place {
        Place::Night(night) => (night.clone(), None),
        Place::Demo => (made.join("demo"), None),
        Place::Rehearsal => (made.join("night"), None),
    };
    let log = words.log.clone().unwrap_or_else(|| night.join("log"));
    let said = |e: io::Error| say::no_folder(&night.display().to_string(), &e.to_string());
    if let Place::Night(night) = &words.place {
        if !fs::metadata(night).map_err(said)?.is_dir() {
            return Err(say::no_folder(&night.display().to_string(), "not a folder"));
        }
        let lock = locked(&log)?;
        return Ok((night.clone(), log, lock, coming));
    }
    // Nobody else may use it.
    drop(locked(&night.join("log"))?);
    fs::remove_dir_all(&night).map_err(said)?;
    let coming = if words.place == Place::Demo {
        rehearsal::demo(&night).map_err(said)?;
        None
    } else {
        Some(rehearsal::night(&night, &made.join("coming")).map_err(said)?)
    };
    let lock = locked(&log)?;
    Ok((night, log, lock, coming))
}

/// The greatest moment in the logs of a folder.
fn greatest(folder: &Path) -> u64 {
    let logs = fs::read_dir(folder).into_iter().flatten().filter_map(|entry| Some(entry.ok()?.path()));
    logs.filter(|path| path.extension().is_some_and(|e| e == "log")).filter_map(|path| log::look(&path)).map(|past| past.moment).max().unwrap_or(0)
}

fn pace(words: &Serve, log: &Path) -> Pace {
    let own = if words.place == Place::Demo { rehearsal::INJECTION } else { rehearsal::EVENING };
    let start = |given: Option<u64>| given.or(times::moment(own)).unwrap_or(0).max(greatest(log));
    match words.pace {
        words::Pace::Utc => Pace::Utc,
        words::Pace::From { moment, speed } => Pace::From { moment: start(moment), speed },
        words::Pace::Hand { moment } => Pace::Hand { moment: start(moment) },
    }
}

/// The token that every request must carry.
fn token(words: &Serve) -> Result<Option<String>, String> {
    let Some(file) = &words.token_file else {
        return if words.listen.ip().is_loopback() { Ok(None) } else { Err(say::TOKEN_NEEDED.to_string()) };
    };
    let said = |fault: &str| say::token_bad(&file.display().to_string(), fault);
    let text = fs::read_to_string(file).map_err(|e| said(&e.to_string()))?;
    let token = text.trim_end_matches(['\n', '\r']).to_string();
    let allowed = (1..=200).contains(&token.len()) && token.bytes().all(|b| b.is_ascii_graphic() && b != b';' && b != b'"');
    allowed.then_some(Some(token)).ok_or_else(|| said("this is no token"))
}

/// Waits for SIGTERM or Ctrl-C; from now on neither ends the program directly.
fn asked_to_end() -> io::Result<impl std::future::Future<Output = ()>> {
    let (mut term, mut int) = (signal(SignalKind::terminate())?, signal(SignalKind::interrupt())?);
    Ok(async move {
        let term = async move {
            term.recv().await;
        };
        let int = async move {
            int.recv().await;
        };
        either(term, int).await;
    })
}

/// Waits until one of two is done.
async fn either(a: impl std::future::Future<Output = ()>, b: impl std::future::Future<Output = ()>) {
    let (mut a, mut b) = (Box::pin(a), Box::pin(b));
    std::future::poll_fn(|cx| {
        let done = a.as_mut().poll(cx).is_ready() || b.as_mut().poll(cx).is_ready();
        if done { std::task::Poll::Ready(()) } else { std::task::Poll::Pending }
    })
    .await;
}

async fn serve(words: Serve) -> Result<(), String> {
    let token = token(&words)?;
    if !belfrywool::environment().is_as_proved() {
        return Err(say::ENVIRONMENT.to_string());
    }
    let listener = web::listen(words.listen).map_err(|e| say::taken(&words.listen.to_string(), &e.to_string()))?;
    let address = listener.local_addr().map_err(|e| e.to_string())?;
    let (night, log, lock, coming) = prepared(&words)?;
    let ending = asked_to_end().map_err(|e| e.to_string())?;
    let maker = Maker { program: house().join("tools/order/order") };
    let service = Arc::new(Service::new(Clock::new(pace(&words, &log)), night, log, maker));
    let begun = Arc::clone(&service);
    tokio::task::spawn_blocking(move || begun.go(coming)).await.map_err(|e| e.to_string())?;
    let mut out = io::stdout();
    writeln!(out, "http://{address}/").and_then(|()| out.flush()).map_err(|e| format!("cannot name the address: {e}"))?;
    let access = Arc::new(Access { address, hosts: words.hosts, token });
    either(web::serve(listener, Arc::clone(&service), access), ending).await;
    service.stop();
    drop(lock);
    Ok(())
}

fn run(task: Task) -> Result<ExitCode, String> {
    match task {
        Task::Help => print!("{}", words::USE),
        Task::Version => println!("onair {}", env!("CARGO_PKG_VERSION")),
        Task::Check { night, log } => {
            let good = check::check(&log.unwrap_or_else(|| night.join("log")))?;
            return Ok(if good { ExitCode::SUCCESS } else { ExitCode::FAILURE });
        }
        Task::Serve(words) => {
            let runtime = tokio::runtime::Builder::new_multi_thread().worker_threads(2).enable_all().build().map_err(|e| e.to_string())?;
            runtime.block_on(serve(words))?;
            runtime.shutdown_background();
        }
    }
    Ok(ExitCode::SUCCESS)
}

fn main() -> ExitCode {
    let task = match words::read(std::env::args().skip(1)) {
        Ok(task) => task,
        Err(told) => {
            eprintln!("onair: {told}\n");
            eprint!("{}", words::USE);
            return ExitCode::from(2);
        }
    };
    run(task).unwrap_or_else(|told| {
        eprintln!("onair: {told}");
        ExitCode::FAILURE
    })
}
