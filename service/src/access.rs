//! Who may send requests: by Host, Origin and token.

use std::net::SocketAddr;
use std::str::FromStr;

use hyper::header::{AUTHORIZATION, COOKIE, HOST, ORIGIN};
use hyper::{Body, Method, Request, StatusCode};
use sha2::{Digest, Sha256};

use crate::say;

/// The cookie that passes the token from a page's address to the requests of the page.
pub const COOKIE_NAME: &str = "onair_token";

pub struct Access {
    pub address: SocketAddr,
    /// Names given by --host, in lowercase.
    pub hosts: Vec<String>,
    pub token: Option<String>,
}

/// The answer to a request that is refused.
pub type Refused = (StatusCode, &'static str);

fn same(a: &str, b: &str) -> bool {
    // Compares hashes, so that the time taken says nothing about the token.
    Sha256::digest(a.as_bytes()) == Sha256::digest(b.as_bytes())
}

/// The value of a key in a query, with its escapes decoded.
pub fn value(query: Option<&str>, key: &str) -> Option<String> {
    let pairs = query?.split('&').filter_map(|pair| pair.split_once('='));
    pairs.into_iter().find(|(k, _)| *k == key).map(|(_, v)| unescaped(v))
}

fn unescaped(text: &str) -> String {
    let (mut bytes, mut rest) = (Vec::new(), text.as_bytes());
    while let [first, tail @ ..] = rest {
        let escaped = tail.get(..2).and_then(|two| u8::from_str_radix(std::str::from_utf8(two).ok()?, 16).ok());
        match (first, escaped) {
            (b'%', Some(byte)) => {
                bytes.push(byte);
                rest = &tail[2..];
            }
            (b'+', _) => {
                bytes.push(b' ');
                rest = tail;
            }
            _ => {
                bytes.push(*first);
                rest = tail;
            }
        }
    }
    String::from_utf8_lossy(&bytes).into_owned()
}

/// A number that has digits and nothing else: no sign, no space.
pub fn whole<T: FromStr>(text: &str) -> Option<T> {
    text.bytes().all(|b| b.is_ascii_digit()).then(|| text.parse().ok()).flatten()
}

/// A host's name and its port, if it has one. A colon with something else behind it makes it no host.
fn parts(host: &str) -> Option<(String, Option<u16>)> {
    let (name, port) = match host.rsplit_once(':') {
        Some((name, port)) if !port.contains(']') => (name, Some(whole(port)?)),
        _ => (host, None),
    };
    Some((name.to_ascii_lowercase(), port))
}

impl Access {
    fn is_ours(&self, host: &str) -> bool {
        if self.hosts.contains(&host.to_ascii_lowercase()) {
            return true;
        }
        let Some((name, port)) = parts(host) else {
            return false;
        };
        if self.hosts.contains(&name) {
            return true;
        }
        let own = match self.address {
            SocketAddr::V4(a) => a.ip().to_string(),
            SocketAddr::V6(a) => format!("[{}]", a.ip()),
        };
        (name == own || name == "localhost") && port.map_or(true, |port| port == self.address.port())
    }

    fn header<'a>(request: &'a Request<Body>, name: hyper::header::HeaderName) -> Option<&'a str> {
        request.headers().get(name)?.to_str().ok()
    }

    fn has_token(&self, request: &Request<Body>, token: &str) -> bool {
        let bearer = Self::header(request, AUTHORIZATION).and_then(|v| v.strip_prefix("Bearer "));
        let asked = value(request.uri().query(), "token");
        let cookies = Self::header(request, COOKIE).into_iter().flat_map(|v| v.split("; "));
        let cookie = cookies.filter_map(|c| c.split_once('=')).find(|(k, _)| *k == COOKIE_NAME).map(|(_, v)| v);
        let given = [bearer, asked.as_deref(), cookie];
        given.iter().flatten().any(|given| same(given, token))
    }

    /// Accepts a request, or says why not.
    pub fn check(&self, request: &Request<Body>) -> Result<(), Refused> {
        let host = Self::header(request, HOST).or(request.uri().authority().map(|a| a.as_str()));
        // Of two Hosts nobody can say which one is meant.
        let single = request.headers().get_all(HOST).iter().count() < 2;
        let Some(host) = host.filter(|host| single && self.is_ours(host)) else {
            return Err((StatusCode::MISDIRECTED_REQUEST, say::WRONG_HOST));
        };
        if let Some(token) = &self.token {
            if !self.has_token(request, token) {
                return Err((StatusCode::UNAUTHORIZED, say::NO_TOKEN));
            }
        }
        let origin = request.headers().get(ORIGIN).map(|v| v.to_str().unwrap_or(""));
        let own = |origin: &str| ["http://", "https://"].iter().any(|s| origin.strip_prefix(s).is_some_and(|o| o.eq_ignore_ascii_case(host)));
        if request.method() == Method::POST && origin.is_some_and(|origin| !own(origin)) {
            return Err((StatusCode::FORBIDDEN, say::WRONG_ORIGIN));
        }
        Ok(())
    }

    /// The cookie for a browser whose address has the token: the requests of its page then carry it too.
    pub fn cookie(&self, request: &Request<Body>) -> Option<String> {
        let (token, asked) = (self.token.as_ref()?, value(request.uri().query(), "token")?);
        same(&asked, token).then(|| format!("{COOKIE_NAME}={token}; Path=/; HttpOnly; SameSite=Strict"))
    }
}

#[cfg(test)]
mod tests {
    use super::*;

    fn access(token: Option<&str>) -> Access {
        Access { address: "127.0.0.1:8410".parse().unwrap(), hosts: vec!["air.example".into()], token: token.map(str::to_string) }
    }

    fn asked(method: &str, uri: &str, headers: &[(&str, &str)]) -> Request<Body> {
        let builder = headers.iter().fold(Request::builder().method(method).uri(uri), |b, (k, v)| b.header(*k, *v));
        builder.body(Body::empty()).unwrap()
    }

    fn status(access: &Access, method: &str, uri: &str, headers: &[(&str, &str)]) -> u16 {
        access.check(&asked(method, uri, headers)).map_or_else(|(status, _)| status.as_u16(), |()| 200)
    }

    #[test]
    fn hosts() {
        let access = access(None);
        for host in ["127.0.0.1:8410", "localhost:8410", "LocalHost", "air.example", "Air.Example:443"] {
            assert_eq!(status(&access, "GET", "/", &[("host", host)]), 200, "{host}");
        }
        let odd_ports = ["localhost:", "localhost:x", "localhost:+8410", "localhost:65536", "127.0.0.1:8410x", "air.example:x"];
        for host in ["evil.example", "127.0.0.1:80", "localhost:1", "air.example.evil", "", "127.0.0.2:8410"].iter().chain(&odd_ports) {
            assert_eq!(status(&access, "GET", "/", &[("host", host)]), 421, "{host}");
        }
        assert_eq!(status(&access, "GET", "/", &[]), 421);
        for both in [["localhost", "evil.example"], ["evil.example", "localhost"], ["localhost", "localhost"]] {
            assert_eq!(status(&access, "GET", "/", &both.map(|host| ("host", host))), 421, "{both:?}");
        }
    }

    #[test]
    fn origins() {
        let (access, host) = (access(None), ("host", "127.0.0.1:8410"));
        assert_eq!(status(&access, "POST", "/clock", &[host]), 200);
        assert_eq!(status(&access, "POST", "/clock", &[host, ("origin", "http://127.0.0.1:8410")]), 200);
        for origin in ["http://evil.example", "null", "http://127.0.0.1:8411", "http://localhost:8410"] {
            assert_eq!(status(&access, "POST", "/clock", &[host, ("origin", origin)]), 403, "{origin}");
        }
    }

    #[test]
    fn tokens() {
        let (access, host) = (access(Some("a b+c%d")), ("host", "localhost"));
        assert_eq!(status(&access, "GET", "/", &[host]), 401);
        assert_eq!(status(&access, "GET", "/?token=a%20b%2Bc%25d", &[host]), 200);
        assert_eq!(status(&access, "GET", "/?x=1&token=a+b", &[host]), 401);
        assert_eq!(status(&access, "GET", "/", &[host, ("authorization", "Bearer a b+c%d")]), 200);
        assert_eq!(status(&access, "GET", "/", &[host, ("authorization", "Basic a b+c%d")]), 401);
        assert_eq!(status(&access, "GET", "/", &[host, ("cookie", "x=y; onair_token=a b+c%d")]), 200);
        assert!(access.cookie(&asked("GET", "/?token=a%20b%2Bc%25d", &[host])).is_some());
        assert!(access.cookie(&asked("GET", "/?token=x", &[host])).is_none());
    }
}
