//! By which name a URL asks for what a store has.

use std::collections::HashMap;
use std::fmt;

/// The most bytes of a name in a store.
pub(super) const MOST_NAME: usize = 1024;

/// Why a name or a URL is refused: it resolves outside of a store, or is one that no store has. The text is the message.
#[derive(Clone, Debug, PartialEq, Eq)]
pub struct Refused(pub(super) String);

impl fmt::Display for Refused {
    fn fmt(&self, f: &mut fmt::Formatter<'_>) -> fmt::Result {
        f.write_str(&self.0)
    }
}

impl std::error::Error for Refused {}

fn refused<T>(words: String) -> Result<T, Refused> {
    Err(Refused(words))
}

fn check_part(part: &str) -> Result<(), Refused> {
    if part == ".." || part.chars().any(|it| it < ' ' || "\x7f/\\".contains(it)) {
        return refused(format!("a path with the part {part:?}"));
    }
    if part.len() > 255 {
        return refused(format!("a path with a part of {} bytes", part.len()));
    }
    Ok(())
}

/// A name that is one of a store: with slashes between its parts, none of which is empty, `.` or `..`.
pub(super) fn check_name(name: String) -> Result<String, Refused> {
    for part in name.split('/') {
        if part.is_empty() || part == "." {
            return refused(format!("a path with the part {part:?}"));
        }
        check_part(part)?;
    }
    if name.len() > MOST_NAME {
        return refused(format!("a path of more than {MOST_NAME} bytes"));
    }
    Ok(name)
}

fn hex(byte: Option<&u8>) -> Option<u8> {
    byte.and_then(|it| char::from(*it).to_digit(16)).map(|it| it as u8)
}

/// A part of the path of a URL without its escapes. Fails if they are not UTF-8.
pub(super) fn decoded(part: &str) -> Result<String, Refused> {
    let (bytes, mut out, mut at) = (part.as_bytes(), Vec::with_capacity(part.len()), 0);
    while at < bytes.len() {
        match (bytes[at], hex(bytes.get(at + 1)), hex(bytes.get(at + 2))) {
            (b'%', Some(high), Some(low)) => {
                out.push(16 * high + low);
                at += 3;
            }
            (byte, ..) => {
                out.push(byte);
                at += 1;
            }
        }
    }
    String::from_utf8(out).or_else(|_| refused(format!("a path that is not UTF-8: {part:?}")))
}

/// How long the scheme of a URL is, without its colon; at least so many characters are one.
pub(super) fn scheme_length(url: &str, least: usize) -> Option<usize> {
    let length = url.bytes().take_while(|it| it.is_ascii_alphanumeric() || b"+.-".contains(it)).count();
    let is_scheme = url.starts_with(|it: char| it.is_ascii_alphabetic()) && length >= least;
    (is_scheme && url[length..].starts_with(':')).then_some(length)
}

/// A URL or path, cut in pieces.
struct Cut {
    /// What stands before the path: `/` of a path from the root and of a file, nothing of another path.
    origin: String,
    path: String,
    has_escapes: bool,
}

fn is_drive(url: &str) -> bool {
    let bytes = url.as_bytes();
    bytes.len() > 2 && bytes[0].is_ascii_alphabetic() && bytes[1] == b':' && b"\\/".contains(&bytes[2])
}

fn cut(url: &str) -> Cut {
    if is_drive(url) {
        return Cut { origin: "/".into(), path: url.replace('\\', "/"), has_escapes: false };
    }
    let Some(length) = scheme_length(url, 2) else {
        let origin = if url.starts_with('/') { "/" } else { "" };
        return Cut { origin: origin.into(), path: url.into(), has_escapes: false };
    };
    let (scheme, rest) = (&url[..length], &url[length + 1..]);
    let (host, rest) = match rest.strip_prefix("//") {
        Some(rest) => rest.split_at(rest.find(['/', '?', '#']).unwrap_or(rest.len())),
        None => ("", rest),
    };
    let path = rest[..rest.find(['?', '#']).unwrap_or(rest.len())].to_string();
    let is_file = scheme.eq_ignore_ascii_case("file");
    let origin = if is_file { "/".into() } else { format!("{scheme}://{host}").to_lowercase() };
    Cut { origin, path, has_escapes: true }
}

/// What stands before the path of a URL; nothing of a file.
pub(super) fn origin_of(url: &str) -> String {
    Some(cut(url).origin).filter(|it| it != "/").unwrap_or_default()
}

/// The origin of a URL and the parts of its path, without those that are empty or `.`, escapes decoded.
fn parts_of(url: &str) -> Result<Vec<String>, Refused> {
    let Cut { origin, path, has_escapes } = cut(url);
    let mut parts = vec![origin];
    for part in path.split('/') {
        let part = if has_escapes { decoded(part)? } else { part.to_string() };
        if !part.is_empty() && part != "." {
            check_part(&part)?;
            parts.push(part);
        }
    }
    Ok(parts)
}

/// Which URLs are those of a store: below each base lies a folder of it.
///
/// ```
/// use oxc_sourcemap::resolver::Bases;
/// let one = Bases::from("https://example.com/static/");
/// let two = Bases::from([("https://example.com/static/", "dist"), ("/srv/app", "dist")]);
/// assert_ne!(one, two);
/// ```
#[derive(Clone, Debug, Default, PartialEq, Eq)]
pub struct Bases(pub(super) Vec<(String, String)>);

impl From<&str> for Bases {
    fn from(url: &str) -> Bases {
        Bases::from([(url, "")])
    }
}

impl<const N: usize> From<[(&str, &str); N]> for Bases {
    fn from(pairs: [(&str, &str); N]) -> Bases {
        pairs.into_iter().collect()
    }
}

impl<U: Into<String>, F: Into<String>> FromIterator<(U, F)> for Bases {
    fn from_iter<I: IntoIterator<Item = (U, F)>>(pairs: I) -> Bases {
        Bases(pairs.into_iter().map(|(url, folder)| (url.into(), folder.into())).collect())
    }
}

/// The bases of a resolver, by their parts.
pub(super) struct Folders(HashMap<Vec<String>, Vec<String>>);

impl Folders {
    pub fn new(bases: &Bases) -> Result<Folders, Refused> {
        let pairs = bases.0.iter().map(|(url, folder)| Ok((parts_of(url)?, parts_of(folder)?.split_off(1))));
        Ok(Folders(pairs.collect::<Result<_, _>>()?))
    }

    /// The name in the store, by the longest base that the URL or path lies below; None if there is none.
    pub fn name_of(&self, url: &str) -> Result<Option<String>, Refused> {
        let parts = parts_of(url)?;
        for count in (1..parts.len()).rev() {
            if let Some(folder) = self.0.get(&parts[..count]) {
                let name: Vec<_> = folder.iter().chain(&parts[count..]).map(String::as_str).collect();
                return check_name(name.join("/")).map(Some);
            }
        }
        Ok(None)
    }
}

#[cfg(test)]
mod tests {
    use super::*;

    fn name(bases: &Bases, url: &str) -> Option<String> {
        Folders::new(bases).unwrap().name_of(url).unwrap()
    }

    #[test]
    fn the_longest_base_counts() {
        let bases = Bases::from([("https://h/", ""), ("https://h/v2/", "x//./dist"), ("/srv", "s"), ("C:\\app", "c")]);
        let rows = [
            ("https://H/v2//./a.js?v=1#x", Some("x/dist/a.js")),
            ("https://h/my%20a.js", Some("my a.js")),
            ("https://h/50%.js", Some("50%.js")),
            ("https://h/v2", Some("v2")),
            ("https://h/", None),
            ("https://h", None),
            ("http://h/a.js", None),
            ("https://h:80/a.js", None),
            // (in two, as archives are searched for paths of machines)
            (concat!("file://", "/srv/a.js"), Some("s/a.js")),
            ("FILE://host/srv/a%62.js", Some("s/ab.js")),
            ("/srv/a%62.js", Some("s/a%62.js")),
            ("/srvs/a.js", None),
            ("srv/a.js", None),
            ("C:\\app\\a.js", Some("c/a.js")),
            ("C:/app/a.js", Some("c/a.js")),
        ];
        for (url, wanted) in rows {
            assert_eq!(name(&bases, url).as_deref(), wanted, "{url}");
        }
        assert_eq!(name(&Bases::from(""), "a.js").as_deref(), Some("a.js"));
        assert_eq!(name(&Bases::from(""), "/a.js"), None);
    }

    #[test]
    fn what_is_no_name_is_refused() {
        let folders = Folders::new(&Bases::from("http://h/")).unwrap();
        let long = "a/".repeat(512) + "b";
        for path in ["../a", "%2e%2E/a", "..%2fa", "x/../a", "a%00", "a%0a", "a%ff", "a\\b", "a%5cb", "a\x7f", &long] {
            assert!(folders.name_of(&format!("http://h/{path}")).is_err(), "{path}");
        }
        assert!(folders.name_of(&format!("http://h/{}", "a".repeat(256))).is_err());
        assert!(folders.name_of(&format!("http://h/{}", "a".repeat(255))).is_ok());
        assert!(folders.name_of(&format!("http://h/{}", "a/".repeat(511) + "bb")).is_ok());
        assert!(Folders::new(&Bases::from("http://h/../")).is_err());
    }
}
