//! The web server: connections, and the answer of each address.

use std::convert::Infallible;
use std::net::SocketAddr;
use std::sync::atomic::{AtomicU64, AtomicUsize, Ordering};
use std::sync::Arc;
use std::time::Duration;

use hyper::header::{HeaderValue, ALLOW, CACHE_CONTROL, CONTENT_TYPE, LOCATION, SET_COOKIE, WWW_AUTHENTICATE};
use hyper::server::conn::Http;
use hyper::service::service_fn;
use hyper::{Body, Method, Request, Response, StatusCode};
use tokio::io::AsyncWriteExt;
use tokio::net::{TcpListener, TcpSocket, TcpStream};

use crate::access::Access;
use crate::answers;
use crate::pages;
use crate::say;
use crate::service::{Handle, Service};
use crate::stream::Patient;

/// The most connections at a time.
const MOST: usize = 700;
/// The longest head of a request.
const LONGEST: usize = 16 * 1024;
/// The most bytes that wait for a slow client.
const WAITING: u32 = 64 * 1024;

const POLICY: &str = "default-src 'none'; script-src 'self'; style-src 'self'; connect-src 'self'; img-src 'self' data:; base-uri 'none'; \
    form-action 'none'";

pub type Answer = Response<Body>;

pub fn with(status: StatusCode, kind: &'static str, body: impl Into<Body>) -> Answer {
    let mut answer = Response::new(body.into());
    *answer.status_mut() = status;
    answer.headers_mut().insert(CONTENT_TYPE, HeaderValue::from_static(kind));
    answer
}

pub fn plain(status: StatusCode, words: &'static str) -> Answer {
    with(status, "text/plain; charset=utf-8", format!("{words}\n"))
}

pub fn json(status: StatusCode, text: impl Into<Body>) -> Answer {
    with(status, "application/json", text)
}

fn page(name: &str) -> Answer {
    match pages::file(name) {
        Some((bytes, kind)) => with(StatusCode::OK, kind, bytes),
        None => plain(StatusCode::NOT_FOUND, say::NO_SUCH_PAGE),
    }
}

fn not_allowed(allowed: &'static str) -> Answer {
    let mut answer = plain(StatusCode::METHOD_NOT_ALLOWED, say::METHOD);
    answer.headers_mut().insert(ALLOW, HeaderValue::from_static(allowed));
    answer
}

/// The addresses of one flight.
async fn of_flight(service: &Arc<Service>, handle: &Arc<Handle>, rest: &str, request: &Request<Body>) -> Answer {
    handle.requests.fetch_add(1, Ordering::Relaxed);
    let query = request.uri().query();
    match rest {
        "" => page("monitor.html"),
        "overlay" => page("overlay.html"),
        "now.json" => answers::now(service, handle),
        "feed" => answers::feed(service, handle, query, request.method() == Method::HEAD),
        "path.json" => answers::path(handle, query),
        "book" => answers::book(handle),
        _ => plain(StatusCode::NOT_FOUND, say::NO_SUCH_PAGE),
    }
}

/// The address of a flight's page without its last slash redirects there.
fn led(request: &Request<Body>) -> Answer {
    let query = request.uri().query().map_or(String::new(), |q| format!("?{q}"));
    let mut answer = plain(StatusCode::PERMANENT_REDIRECT, "");
    if let Ok(to) = HeaderValue::from_str(&format!("{}/{query}", request.uri().path())) {
        answer.headers_mut().insert(LOCATION, to);
    }
    answer
}

async fn routed(service: &Arc<Service>, request: Request<Body>) -> Answer {
    let path = request.uri().path().to_string();
    if path == "/clock" {
        return if request.method() == Method::POST { answers::clock(service, request).await } else { not_allowed("POST") };
    }
    if !matches!(*request.method(), Method::GET | Method::HEAD) {
        return not_allowed("GET, HEAD");
    }
    match path.as_str() {
        "/" => return page("flights.html"),
        "/now.json" => return answers::all(service),
        "/health" => return answers::health(service),
        "/metrics" => return answers::metrics(service),
        "/overlay.css" => return answers::overlay_css(service),
        _ => {}
    }
    // What a request asks for may be `*` or a host instead of a path.
    let Some(address) = path.strip_prefix('/') else {
        return plain(StatusCode::NOT_FOUND, say::NO_SUCH_PAGE);
    };
    let (name, rest) = match address.split_once('/') {
        Some((name, rest)) => (name, Some(rest)),
        None => (address, None),
    };
    if let ("page", Some(file)) = (name, rest) {
        if pages::file(file).is_some() {
            return page(file);
        }
    }
    match (service.flight(name), rest) {
        (Some(_), None) => led(&request),
        (Some(handle), Some(rest)) => of_flight(service, &handle, rest, &request).await,
        (None, Some(_)) => plain(StatusCode::NOT_FOUND, say::NO_SUCH_FLIGHT),
        (None, None) => plain(StatusCode::NOT_FOUND, say::NO_SUCH_PAGE),
    }
}

async fn answer(service: Arc<Service>, access: Arc<Access>, request: Request<Body>) -> Result<Answer, Infallible> {
    service.requests.fetch_add(1, Ordering::Relaxed);
    let cookie = access.cookie(&request);
    let mut answer = match access.check(&request) {
        Ok(()) => routed(&service, request).await,
        Err((status, words)) => plain(status, words),
    };
    let unauthorized = answer.status() == StatusCode::UNAUTHORIZED;
    let headers = answer.headers_mut();
    headers.insert("content-security-policy", HeaderValue::from_static(POLICY));
    headers.insert("x-content-type-options", HeaderValue::from_static("nosniff"));
    headers.insert("referrer-policy", HeaderValue::from_static("no-referrer"));
    headers.insert(CACHE_CONTROL, HeaderValue::from_static("no-store"));
    if unauthorized {
        headers.insert(WWW_AUTHENTICATE, HeaderValue::from_static("Bearer"));
    }
    if let Some(cookie) = cookie.and_then(|c| HeaderValue::from_str(&c).ok()) {
        headers.insert(SET_COOKIE, cookie);
    }
    Ok(answer)
}

/// Listens on an address.
pub fn listen(address: SocketAddr) -> std::io::Result<TcpListener> {
    let socket = if address.is_ipv4() { TcpSocket::new_v4()? } else { TcpSocket::new_v6()? };
    // A restarted service need not wait for old connections to time out.
    socket.set_reuseaddr(true)?;
    socket.set_send_buffer_size(WAITING)?;
    socket.bind(address)?;
    socket.listen(1024)
}

async fn attend(stream: TcpStream, service: Arc<Service>, access: Arc<Access>) {
    let _ = stream.set_nodelay(true);
    let heads = Arc::new(AtomicU64::new(0));
    let stream = Patient::new(stream, Arc::clone(&heads));
    let serve = service_fn(move |request| {
        heads.fetch_add(1, Ordering::AcqRel);
        answer(Arc::clone(&service), Arc::clone(&access), request)
    });
    let connection = Http::new().http1_only(true).max_buf_size(LONGEST).serve_connection(stream, serve);
    // A client that goes away or sends nonsense needs no other answer.
    let _ = connection.await;
}

async fn turn_away(mut stream: TcpStream) {
    let text = format!("HTTP/1.1 503 Service Unavailable\r\nconnection: close\r\ncontent-length: {}\r\n\r\n{}\n", say::CROWDED.len() + 1, say::CROWDED);
    let _ = tokio::time::timeout(Duration::from_millis(100), stream.write_all(text.as_bytes())).await;
}

/// A connection that is counted as long as this lives, also if the one who attends to it panics.
struct Counted(Arc<AtomicUsize>);

impl Drop for Counted {
    fn drop(&mut self) {
        self.0.fetch_sub(1, Ordering::AcqRel);
    }
}

/// Answers until the program ends.
pub async fn serve(listener: TcpListener, service: Arc<Service>, access: Arc<Access>) {
    let count = Arc::new(AtomicUsize::new(0));
    loop {
        let Ok((stream, _)) = listener.accept().await else {
            // Out of file descriptors, or a connection that was closed before it was accepted.
            tokio::time::sleep(Duration::from_millis(20)).await;
            continue;
        };
        let (service, access) = (Arc::clone(&service), Arc::clone(&access));
        let (before, counted) = (count.fetch_add(1, Ordering::AcqRel), Counted(Arc::clone(&count)));
        tokio::spawn(async move {
            let _counted = counted;
            if before < MOST {
                attend(stream, service, access).await;
            } else {
                turn_away(stream).await;
            }
        });
    }
}
