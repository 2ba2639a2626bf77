//! Every sentence that the operator reads. (The meanings of refusals are the library's, `Refusal::meaning`.)

use belfrywool::{Body, Refusal};

use crate::times::{span, text};

// ---- why a frame has its word: `reason`

pub const CURRENT: &str = "the walk has reached this moment";
pub const CURRENT_SO_FAR: &str = "the figures hold up to the newer state; the next step is refused";
pub const NO_FURTHER: &str = "the order goes no further";
pub const BEFORE: &str = "the flight has not begun: the clock is before the injection";
pub const NO_ORDER: &str = "no order can be read";
pub const NO_BOOK: &str = "no book that passes has arrived";
pub const CATCHING_UP: &str = "the walk is catching up with the clock";

pub fn refused(refusal: Refusal, meaning: &str) -> String {
    format!("refused by {}: {meaning}", refusal.number())
}

pub fn waits(state: u64) -> String {
    format!("{CATCHING_UP}: it is at {}", text(state))
}

// ---- what a refusal is about

pub fn body(body: Body) -> &'static str {
    body.name().unwrap_or("a body without a name")
}

pub fn uncovered(of: Body, moment: u64) -> String {
    format!("{}: no record covers {}", body(of), text(moment))
}

pub fn about_order(refusal: Refusal) -> String {
    format!("order: {}", refusal.meaning())
}

pub fn about_step(from: u64, refusal: Refusal) -> String {
    format!("step from {}: {}", text(from), refusal.meaning())
}

pub fn about_frame(moment: u64, refusal: Refusal) -> String {
    format!("frame at {}: {}", text(moment), refusal.meaning())
}

// ---- notices about orders

pub fn order_wrong(words: &str) -> String {
    format!("The order cannot be read: {words}")
}

pub const ORDER_MISSING: &str = "There is no order: put order.txt or order.bin into the flight's folder.";
pub const ORDER_TWICE: &str = "order.txt and order.bin are both there: remove one of them.";

pub fn order_length(bytes: u64) -> String {
    format!("order.bin has {bytes} bytes; an order has 120 or 144.")
}

pub fn order_long(bytes: u64) -> String {
    format!("order.txt has {bytes} bytes; at most 65,536 are read.")
}

pub const ORDER_CHANGED: &str = "The order was changed. The order that was read first stays in use; a new order needs a new flight's folder.";
pub const RULE_CHANGED: &str = "flight.txt names another rule now. The rule that was read first stays in use.";
pub const OFFSET_CHANGED: &str = "flight.txt has another et_minus_utc_ms now. It is used from the next start of the service on.";

pub fn order_lost(hash: &str) -> String {
    format!("The log names the order {hash}, and its copy in log/orders cannot be read. Put that order back into the flight's folder.")
}

pub fn maker(fault: &str) -> String {
    format!("the order maker tools/order/order did not run: {fault}")
}

// ---- notices about files and folders

pub fn not_read(name: &str, fault: &str) -> String {
    format!("{name} cannot be read: {fault}.")
}

pub fn not_regular(name: &str) -> String {
    format!("{name} is not a regular file, and is not read.")
}

pub const FOLDER_GONE: &str = "The flight's folder is gone. The flight goes on with the order and the book that it has.";

pub fn flight_line(line: usize, words: &str) -> String {
    format!("flight.txt:{line}: {words}")
}

pub const FLIGHT_KEYS: &str = "the keys are title, rule (0 or 1) and et_minus_utc_ms";

// ---- notices about books

pub fn book_name(name: &str) -> String {
    format!("{name} was not read: a book's name has 1 to 64 of A-Z a-z 0-9 . _ -")
}

pub fn book_long(name: &str, bytes: u64) -> String {
    format!("{name} was not read: it has {bytes} bytes, and a book has at most 61,440.")
}

/// What a repair could save of a book that does not pass.
pub struct Saved {
    pub kept: usize,
    /// How many entries were dropped, and why; a line each.
    pub dropped: Vec<(usize, &'static str)>,
}

pub fn book_refused(name: &str, saved: &Result<Saved, Refusal>) -> String {
    let rest = match saved {
        Err(refusal) => format!("A repair saves nothing: {}.", refusal.meaning()),
        Ok(saved) => {
            let reasons: Vec<String> = saved.dropped.iter().map(|(n, why)| format!("{n} because {why}")).collect();
            let total: usize = saved.dropped.iter().map(|(n, _)| n).sum();
            let why = if reasons.is_empty() { String::new() } else { format!(" ({})", reasons.join("; ")) };
            format!("A repair could keep {} entries and would drop {total}{why}. The service does not use a repaired copy by itself.", saved.kept)
        }
    };
    format!("{name} was not taken: refused by 1, the book does not pass. {rest}")
}

pub fn book_lacks(name: &str, of: Body, start: u64, end: u64) -> String {
    format!("{name} was not taken: it does not hold the entry for {} from {} to {} of the book in use.", body(of), text(start), text(end))
}

pub fn book_as_logged(name: &str, number: u64) -> String {
    match number {
        0 => format!("{name} was not taken, as the log says: it does not hold every entry of the book then in use."),
        n => format!("{name} was not taken, as the log says: refused by {n}."),
    }
}

pub fn book_ends(until: u64) -> String {
    format!("The book in use covers every used body up to {}, and the order's target is later. A fuller book is needed.", text(until))
}

pub fn book_lost(hash: &str) -> String {
    format!("The log names the book {hash}, and its copy in log/books cannot be read. Books in the flight's folder are judged anew.")
}

pub fn not_kept(what: &str, fault: &str) -> String {
    format!("The copy of the {what} in the log folder cannot be written: {fault}.")
}

// ---- notices about the log

pub fn log_fault(fault: &str, lost: u64) -> String {
    format!("The log cannot be written: {fault}. {lost} lines are missing so far; the figures stay on air.")
}

pub fn log_torn(bytes: usize) -> String {
    format!("The last line of the log was torn, and its {bytes} bytes were cut off.")
}

pub fn log_broken(line: u64) -> String {
    format!("Line {line} of the log does not follow from the lines before it. `./onair --check` says more.")
}

pub const LOG_GONE: &str = "The log file was removed while the service ran. A new one was begun.";

// ---- notices about the clock

pub fn clock_back(left: u64) -> String {
    format!("The machine's clock was set back. The desk's clock stands still for {} until it is caught up.", span(left + 999))
}

pub fn clock_before_log(left: u64) -> String {
    format!("The machine's clock is before the log's last moment. The desk's clock stands still for {} until it is caught up.", span(left + 999))
}

pub fn clock_jump(ms: u64) -> String {
    format!("The machine's clock jumped forward by {ms} ms.")
}

// ---- the program's own errors

pub fn taken(address: &str, fault: &str) -> String {
    format!("cannot listen on {address}: {fault}. Is another service running there? Choose another address with --listen.")
}

pub fn log_locked(folder: &str) -> String {
    format!("another service writes into {folder}. Two services need two log folders: stop the other one, or use --log DIR.")
}

pub fn no_folder(folder: &str, fault: &str) -> String {
    format!("the folder {folder} cannot be used: {fault}")
}

pub const TOKEN_NEEDED: &str = "--listen with an address that others can reach needs --token-file FILE: every request must carry that token";

pub fn token_bad(file: &str, fault: &str) -> String {
    format!("the token file {file} cannot be used: {fault}. It needs one line of 1 to 200 printable characters without space, quote or semicolon.")
}

pub const ENVIRONMENT: &str = "this processor does not round as the proofs assume, so no figure can be given";

// ---- the web's errors

pub const NO_SUCH_PAGE: &str = "There is nothing at this address.";
pub const NO_SUCH_FLIGHT: &str = "There is no flight of this name.";
pub const WRONG_HOST: &str = "The Host of this request is not this service. Use the listening address, localhost or a --host NAME.";
pub const WRONG_ORIGIN: &str = "A page of another origin may not set the clock.";
pub const NO_TOKEN: &str = "This service asks for its token: Authorization: Bearer .., or ?token=..";
pub const METHOD: &str = "This address does not take this method.";
pub const HZ: &str = "hz is a whole number from 1 to 60.";
pub const FROM: &str = "from is a whole number not below 0.";
pub const NOT_JSON: &str = "Send application/json: {\"to\": \"YYYY-MM-DDTHH:MM:SS\"}.";
pub const TOO_LONG: &str = "The request is too long.";
pub const TOO_SLOW: &str = "The request took too long.";
pub const NO_HAND: &str = "The clock runs by itself: only a service started with --hand lets it be set.";
pub const BACKWARDS: &str = "The clock does not go back.";
pub const NO_BOOK_YET: &str = "No book is in use.";
pub const CROWDED: &str = "There are too many connections.";
