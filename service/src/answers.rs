//! The answers of the addresses.

use std::fmt::Write;
use std::sync::atomic::Ordering;
use std::sync::Arc;
use std::time::Duration;

use hyper::body::{Bytes, HttpBody, Sender};
use hyper::header::{HeaderValue, CONTENT_TYPE};
use hyper::{Body, Request, StatusCode};
use serde::{Deserialize, Serialize};
use tokio::time::{sleep_until, timeout, Instant};

use crate::access::{value, whole};
use crate::keep;
use crate::path::Point;
use crate::say;
use crate::service::{Handle, Service};
use crate::times::{moment, text};
use crate::web::{json, plain, with, Answer};

/// A client that reads nothing for this long is closed.
const SLOW: Duration = Duration::from_secs(5);
/// The longest body of a request, and how long it may take.
const LONGEST: usize = 1024;
const PATIENCE: Duration = Duration::from_secs(5);
/// The most points in one answer.
const POINTS: usize = 4096;

pub fn now(service: &Service, handle: &Handle) -> Answer {
    match handle.now(service) {
        Some(published) => json(StatusCode::OK, published.json.to_string()),
        None => plain(StatusCode::SERVICE_UNAVAILABLE, say::TOO_SLOW),
    }
}

pub fn all(service: &Service) -> Answer {
    let frames: Vec<String> = service.all().iter().filter_map(|handle| Some(handle.now(service)?.json.to_string())).collect();
    json(StatusCode::OK, format!("[{}]", frames.join(",")))
}

// ---- the feed

pub fn feed(service: &Arc<Service>, handle: &Arc<Handle>, query: Option<&str>, head: bool) -> Answer {
    let hz = value(query, "hz").map_or(Some(1), |hz| whole(&hz).filter(|n| (1..=60).contains(n)));
    let Some(hz) = hz else {
        return plain(StatusCode::BAD_REQUEST, say::HZ);
    };
    let (sender, body) = Body::channel();
    if !head {
        tokio::spawn(feeding(Arc::clone(service), Arc::clone(handle), hz, sender));
    }
    let mut answer = with(StatusCode::OK, "text/event-stream", if head { Body::empty() } else { body });
    answer.headers_mut().insert("x-accel-buffering", HeaderValue::from_static("no"));
    answer
}

/// Sends events until the client goes away. All clients get theirs at the same times, so that one frame serves them all.
async fn feeding(service: Arc<Service>, handle: Arc<Handle>, hz: u32, mut sender: Sender) {
    let period = Duration::from_secs(1) / hz;
    let next = |after: Instant| {
        let count = (after - Instant::from_std(service.start)).as_nanos() / period.as_nanos() + 1;
        Instant::from_std(service.start) + period * count as u32
    };
    let mut at = Instant::now();
    while !service.is_stopping() {
        // Without a new frame nothing is sent, and the client notices the silence.
        if let Some(published) = handle.now(&service) {
            let event = Bytes::from(format!("event: frame\ndata: {}\n\n", published.json));
            match timeout(SLOW, sender.send_data(event)).await {
                Ok(Ok(())) => handle.sent.fetch_add(1, Ordering::Relaxed),
                Ok(Err(_)) => return,
                Err(_) => return sender.abort(),
            };
        }
        // A slow client misses the events that it has not read.
        at = next(at.max(Instant::now()));
        sleep_until(at).await;
    }
}

// ---- the path, the book and the style

#[derive(Serialize)]
struct Path {
    from: usize,
    next: usize,
    points: Vec<(u64, f64, f64, f64, Option<f64>, Option<f64>, Option<f64>)>,
}

pub fn path(handle: &Handle, query: Option<&str>) -> Answer {
    let from = value(query, "from").map_or(Some(0), |from| whole(&from));
    let Some(from) = from else {
        return plain(StatusCode::BAD_REQUEST, say::FROM);
    };
    let point = |p: &Point| {
        let moon = |i: usize| p.moon.map(|moon| moon[i]);
        (p.moment, p.place[0], p.place[1], p.place[2], moon(0), moon(1), moon(2))
    };
    let points: Vec<_> = handle.flight().points(from).iter().take(POINTS).map(point).collect();
    let path = Path { from, next: from + points.len(), points };
    json(StatusCode::OK, serde_json::to_string(&path).unwrap_or_default())
}

pub fn book(handle: &Handle) -> Answer {
    match handle.flight().book() {
        Some(bytes) => with(StatusCode::OK, "application/octet-stream", bytes.to_vec()),
        None => plain(StatusCode::NOT_FOUND, say::NO_BOOK_YET),
    }
}

pub fn overlay_css(service: &Service) -> Answer {
    let sheet = keep::read(&service.night.join("overlay.css"), 65_536).unwrap_or_default();
    with(StatusCode::OK, "text/css; charset=utf-8", sheet)
}

// ---- health and metrics

#[derive(Serialize)]
struct Health<'a> {
    flight: &'a str,
    word: &'a str,
    healthy: bool,
}

pub fn health(service: &Service) -> Answer {
    let all = service.all();
    let state = |handle: &'_ Handle| handle.now(service).map_or(("NO ANSWER", false), |p| (p.word, p.healthy));
    let flights: Vec<Health> =
        all.iter().map(|handle| (handle, state(handle))).map(|(h, (word, healthy))| Health { flight: &h.name, word, healthy }).collect();
    let healthy = flights.iter().all(|flight| flight.healthy);
    let status = if healthy { StatusCode::OK } else { StatusCode::SERVICE_UNAVAILABLE };
    json(status, serde_json::json!({ "healthy": healthy, "flights": flights }).to_string())
}

const METRICS: [(&str, &str, &str); 4] = [
    ("onair_word", "gauge", "1 for the word that a flight has, 0 for the others"),
    ("onair_late_ms", "gauge", "how late a flight is, 0 unless it is LATE"),
    ("onair_frames_sent_total", "counter", "events sent to feeds"),
    ("onair_flight_requests_total", "counter", "requests for addresses of a flight"),
];

pub fn metrics(service: &Service) -> Answer {
    let mut out = String::new();
    let all: Vec<_> = service.all().into_iter().map(|handle| (handle.now(service), handle)).collect();
    for (name, kind, help) in METRICS {
        let _ = writeln!(out, "# HELP {name} {help}\n# TYPE {name} {kind}");
        for (published, handle) in &all {
            let flight = &handle.name;
            let word = published.as_ref().map_or("", |p| p.word);
            let late = published.as_ref().map_or(0, |p| p.late_ms);
            let _ = match name {
                "onair_word" => ["CURRENT", "LATE", "EMPTY", "REFUSED"]
                    .iter()
                    .try_for_each(|w| writeln!(out, "{name}{{flight=\"{flight}\",word=\"{w}\"}} {}", u8::from(*w == word))),
                "onair_late_ms" => writeln!(out, "{name}{{flight=\"{flight}\"}} {late}"),
                "onair_frames_sent_total" => writeln!(out, "{name}{{flight=\"{flight}\"}} {}", handle.sent.load(Ordering::Relaxed)),
                _ => writeln!(out, "{name}{{flight=\"{flight}\"}} {}", handle.requests.load(Ordering::Relaxed)),
            };
        }
    }
    let requests = service.requests.load(Ordering::Relaxed);
    let _ = writeln!(out, "# HELP onair_requests_total all requests\n# TYPE onair_requests_total counter\nonair_requests_total {requests}");
    with(StatusCode::OK, "text/plain; version=0.0.4; charset=utf-8", out)
}

// ---- the clock

#[derive(Deserialize)]
#[serde(deny_unknown_fields)]
struct To {
    to: String,
}

/// The moment that a body asks for. An array of one text would do for serde, and is refused.
fn asked(bytes: &[u8]) -> Option<u64> {
    let To { to } = bytes.trim_ascii_start().starts_with(b"{").then(|| serde_json::from_slice(bytes).ok()).flatten()?;
    moment(&to)
}

/// The body of a request, if it is short and arrives in time.
async fn body(request: Request<Body>) -> Result<Vec<u8>, Answer> {
    let mut body = request.into_body();
    let whole = async {
        let mut bytes = Vec::new();
        while let Some(part) = body.data().await {
            bytes.extend(part.map_err(|_| plain(StatusCode::BAD_REQUEST, say::NOT_JSON))?);
            if bytes.len() > LONGEST {
                return Err(plain(StatusCode::PAYLOAD_TOO_LARGE, say::TOO_LONG));
            }
        }
        Ok(bytes)
    };
    timeout(PATIENCE, whole).await.unwrap_or_else(|_| Err(plain(StatusCode::REQUEST_TIMEOUT, say::TOO_SLOW)))
}

pub async fn clock(service: &Arc<Service>, request: Request<Body>) -> Answer {
    let kind = request.headers().get(CONTENT_TYPE).and_then(|v| v.to_str().ok()).unwrap_or("");
    if kind.split(';').next().map(str::trim) != Some("application/json") {
        return plain(StatusCode::UNSUPPORTED_MEDIA_TYPE, say::NOT_JSON);
    }
    if !service.clock.is_hand() {
        return plain(StatusCode::CONFLICT, say::NO_HAND);
    }
    let bytes = match body(request).await {
        Ok(bytes) => bytes,
        Err(answer) => return answer,
    };
    let Some(to) = asked(&bytes) else {
        return plain(StatusCode::BAD_REQUEST, say::NOT_JSON);
    };
    let service = Arc::clone(service);
    let set = tokio::task::spawn_blocking(move || service.set_clock(to)).await;
    match set {
        Ok(false) => plain(StatusCode::CONFLICT, say::BACKWARDS),
        Ok(true) => json(StatusCode::OK, serde_json::json!({ "moment": to, "et": text(to) }).to_string()),
        Err(_) => plain(StatusCode::INTERNAL_SERVER_ERROR, say::TOO_SLOW),
    }
}

#[cfg(test)]
mod tests {
    use super::*;

    #[test]
    fn a_body_is_an_object_with_a_time() {
        assert_eq!(asked(b" {\"to\": \"1950-01-01T00:00:01\"}\n"), Some(1000));
        let wrong = [r#"["1950-01-01T00:00:01"]"#, r#""1950-01-01T00:00:01""#, r#"{"to": "1950-01-01T00:00:01", "x": 1}"#, r#"{"to": 1}"#, "{}", ""];
        for body in wrong {
            assert_eq!(asked(body.as_bytes()), None, "{body}");
        }
    }
}
