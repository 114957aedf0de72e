//! How a resolver finds the map of a code in its store.

use std::io;

use super::answers::Reason;
use super::compiling::{Compiler, Held, MapText};
use super::names::{Folders, Refused, check_name, decoded, origin_of, scheme_length};
use super::stores::{Store, Unopened, too_large};
use super::table::Missing;
use crate::{Language, decode_data_url, source_mapping_url};

/// A debug id in the form in which two are compared: 32 digits in lower case, in groups.
pub(super) fn debug_id_of(text: &str) -> Result<String, Refused> {
    let plain: String = text.chars().filter(|it| *it != '-').map(|it| it.to_ascii_lowercase()).collect();
    let is_digits = plain.len() == 32 && plain.bytes().all(|it| it.is_ascii_hexdigit());
    if !is_digits || !has_groups(text) {
        return Err(Refused("a debug id that is no UUID".into()));
    }
    Ok([&plain[..8], &plain[8..12], &plain[12..16], &plain[16..20], &plain[20..]].join("-"))
}

/// Whether the hyphens of a debug id stand between its groups, one at most at each place.
fn has_groups(text: &str) -> bool {
    let mut digits = 0;
    let mut places = text.bytes().filter_map(|it| {
        digits += usize::from(it != b'-');
        (it == b'-').then_some(digits)
    });
    let mut last = 0;
    places.all(|it| [8, 12, 16, 20].contains(&it) && std::mem::replace(&mut last, it) != it)
}

/// Whether a map has another debug id than that which is asked for.
fn is_other(held: &Held, debug_id: Option<&str>) -> bool {
    let (Some(wanted), Some(own)) = (debug_id, held.debug_id.as_deref().filter(|it| !it.is_empty())) else {
        return false;
    };
    debug_id_of(own).map_or(true, |it| it != wanted)
}

pub(super) fn outside(url: &str) -> Missing {
    Missing::held(Reason::Outside, format!("{url:?} is below no base"))
}

impl From<Refused> for Missing {
    fn from(error: Refused) -> Missing {
        Missing::held(Reason::Refused, error.to_string())
    }
}

impl From<io::Error> for Missing {
    fn from(error: io::Error) -> Missing {
        match error.get_ref().and_then(|it| it.downcast_ref::<Refused>()) {
            Some(refused) => refused.clone().into(),
            None => Missing::failed(&error),
        }
    }
}

impl From<Unopened> for Missing {
    fn from(error: Unopened) -> Missing {
        match error {
            Unopened::Refused(error) => error.into(),
            Unopened::Failed(error) => error.into(),
        }
    }
}

/// What finds maps.
pub(super) struct Finder {
    pub store: Box<dyn Store>,
    pub folders: Folders,
    pub compiler: Compiler,
    pub code_bytes: u64,
    pub map_bytes: u64,
    pub beside_first: bool,
    pub debug_id_name: String,
}

impl Finder {
    /// The map of the code with this name (None if its URL is below no base), which a frame has by this URL.
    pub fn find(&self, name: Option<&str>, url: &str, debug_id: Option<&str>) -> Result<Held, Missing> {
        let by_id = debug_id.map(|it| self.open(&self.debug_id_name.replace("{}", it))).transpose()?.flatten();
        let held = match (by_id, name) {
            (Some(held), _) => held,
            (None, Some(name)) => self.by_name(name, url)?,
            (None, None) => return Err(outside(url)),
        };
        if is_other(&held, debug_id) {
            let own = held.debug_id.unwrap_or_default();
            return Err(Missing::held(Reason::OtherBuild, format!("{} has the debug id {own}", held.name)));
        }
        Ok(held)
    }

    fn by_name(&self, name: &str, url: &str) -> Result<Held, Missing> {
        let beside = format!("{name}.map");
        if self.beside_first {
            if let Some(held) = self.open(&beside)? {
                return Ok(held);
            }
        }
        let code = self.bytes(name, self.code_bytes)?;
        if let Some(held) = code.as_deref().map(|it| self.by_comment(name, url, it)).transpose()?.flatten() {
            return Ok(held);
        }
        match (self.open(&beside)?, code) {
            (Some(held), _) => Ok(held),
            (None, None) => Err(Missing::held(Reason::NotThere, format!("there is no {name}, and no {beside}"))),
            (None, Some(_)) => {
                let words = format!("{name} names no map that is there, and there is no {beside}");
                Err(Missing::held(Reason::NoMap, words))
            }
        }
    }

    /// The map that the last comment of a code names.
    fn by_comment(&self, name: &str, url: &str, code: &[u8]) -> Result<Option<Held>, Missing> {
        // (a code that is no text names none)
        let code = std::str::from_utf8(code).ok();
        let Some(named) = code.and_then(|it| source_mapping_url(it, Language::JavaScript)) else {
            return Ok(None);
        };
        let text = decode_data_url(named).map_err(|it| Missing::held(Reason::BadMap, it.to_string()))?;
        let Some(text) = text else {
            return self.named(name, url, named)?.map_or(Ok(None), |it| self.open(&it));
        };
        if text.len() as u64 > self.map_bytes {
            return Err(too_large(&format!("the map in {name}"), text.len() as u64, self.map_bytes));
        }
        self.compiler.compiled(self.store.folder(), MapText::new(name, text.into_bytes())).map(Some)
    }

    /// The name of the map that a code names by a URL: beside the code, or, of a URL that has an origin or begins with a slash, below
    /// the bases. None if there it is below none.
    fn named(&self, name: &str, url: &str, named: &str) -> Result<Option<String>, Refused> {
        let path = &named[..named.find(['?', '#']).unwrap_or(named.len())];
        if scheme_length(named, 1).is_some() {
            return self.folders.name_of(named);
        }
        if named.starts_with("//") {
            let scheme = url.split_once("//").map(|it| it.0);
            return scheme.map_or(Ok(None), |it| self.folders.name_of(&format!("{it}{named}")));
        }
        if path.starts_with('/') {
            return self.folders.name_of(&(origin_of(url) + path));
        }
        let mut folders: Vec<_> = name.split('/').map(str::to_string).collect();
        folders.pop();
        for part in decoded(path)?.split('/') {
            match part {
                ".." => {
                    folders.pop().ok_or_else(|| Refused(format!("{name} names a map out of the store")))?;
                }
                "" | "." => {}
                part => folders.push(part.to_string()),
            }
        }
        if folders.is_empty() { Ok(None) } else { check_name(folders.join("/")).map(Some) }
    }

    /// The bytes of a name, of at most so many; None if there are none.
    fn bytes(&self, name: &str, limit: u64) -> Result<Option<Vec<u8>>, Missing> {
        if let Some(folder) = self.store.folder() {
            return folder.open(name)?.map(|mut it| it.read_within(name, limit)).transpose();
        }
        let data = self.store.get(name)?;
        match &data {
            Some(it) if it.len() as u64 > limit => Err(too_large(name, it.len() as u64, limit)),
            _ => Ok(data),
        }
    }

    /// The map with this name; None if there is none.
    fn open(&self, name: &str) -> Result<Option<Held>, Missing> {
        let folder = self.store.folder();
        let text = match folder {
            None => self.bytes(name, self.map_bytes)?.map(|it| MapText::new(name, it)),
            Some(folder) => match folder.open(name)? {
                Some(it) if it.status.len() > self.map_bytes => {
                    return Err(too_large(name, it.status.len(), self.map_bytes));
                }
                it => it.map(|it| MapText::of_file(name, it, self.map_bytes)),
            },
        };
        text.map(|it| self.compiler.compiled(folder, it)).transpose()
    }
}

#[cfg(test)]
mod tests {
    use super::debug_id_of;

    #[test]
    fn debug_ids() {
        let wanted = "85314830-023f-4cf1-a267-535f4e37bb17";
        for it in [wanted, &wanted.to_uppercase(), &wanted.replace('-', ""), "85314830-023f4cf1a267535f4e37bb17"] {
            assert_eq!(debug_id_of(it).unwrap(), wanted);
        }
        for it in [
            "",
            "../x",
            &wanted[1..],
            &format!("{wanted}0"),
            &wanted.replace("-4", "--4"),
            "8-5314830023f4cf1a267535f4e37bb17",
        ] {
            assert!(debug_id_of(it).is_err(), "{it}");
        }
        assert!(debug_id_of(&format!("{wanted}-")).is_err());
    }
}
