//! The files of service/page, which are part of the program.

include!(concat!(env!("OUT_DIR"), "/files.rs"));

/// A file's bytes and type.
pub fn file(name: &str) -> Option<(&'static [u8], &'static str)> {
    let (_, bytes) = FILES.iter().find(|(n, _)| *n == name)?;
    Some((bytes, kind(name)))
}

fn kind(name: &str) -> &'static str {
    match name.rsplit_once('.').map_or("", |(_, end)| end) {
        "html" => "text/html; charset=utf-8",
        "css" => "text/css; charset=utf-8",
        "js" => "text/javascript; charset=utf-8",
        "json" => "application/json",
        "svg" => "image/svg+xml",
        "png" => "image/png",
        "txt" => "text/plain; charset=utf-8",
        _ => "application/octet-stream",
    }
}

#[cfg(test)]
mod tests {
    use super::*;

    #[test]
    fn the_three_pages_are_there() {
        for name in ["flights.html", "monitor.html", "overlay.html"] {
            assert_eq!(file(name).map(|(_, kind)| kind), Some("text/html; charset=utf-8"));
        }
        assert_eq!(file("../Cargo.toml"), None);
    }
}
