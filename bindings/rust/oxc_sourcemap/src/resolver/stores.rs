//! Where codes and maps lie.

use std::collections::{BTreeMap, HashMap};
use std::fmt::Display;
use std::fs::{self, File, Metadata, OpenOptions};
use std::io::{self, Read, Write};
use std::path::{Path, PathBuf};
use std::sync::Arc;
use std::sync::atomic::{AtomicU64, Ordering};
use std::time::SystemTime;

use super::answers::Reason;
use super::names::{Refused, check_name};
use super::table::Missing;

/// What has codes and maps. Several threads call it at once.
///
/// ```
/// use std::collections::HashMap;
/// use oxc_sourcemap::resolver::Store;
/// let store = HashMap::from([("a.js.map".to_string(), b"{}".to_vec())]);
/// assert_eq!(Store::get(&store, "a.js.map").unwrap(), Some(b"{}".to_vec()));
/// assert_eq!(Store::get(&store, "b.js.map").unwrap(), None);
/// ```
pub trait Store: Send + Sync {
    /// The bytes of this name, or None if it has none. A name has slashes between its parts, none of which is empty, `.` or `..`, or has
    /// a backslash or a control character. Any error leaves frames unchanged, with [`Reason::Store`], and the next trace asks again.
    fn get(&self, name: &str) -> io::Result<Option<Vec<u8>>>;

    /// The folder that this store is. A resolver asks that and not `get`, and can keep compiled maps beside those in it.
    fn folder(&self) -> Option<&FolderStore> {
        None
    }
}

impl Store for HashMap<String, Vec<u8>> {
    fn get(&self, name: &str) -> io::Result<Option<Vec<u8>>> {
        Ok(HashMap::get(self, name).cloned())
    }
}

impl Store for BTreeMap<String, Vec<u8>> {
    fn get(&self, name: &str) -> io::Result<Option<Vec<u8>>> {
        Ok(BTreeMap::get(self, name).cloned())
    }
}

impl<S: Store + ?Sized> Store for Arc<S> {
    fn get(&self, name: &str) -> io::Result<Option<Vec<u8>>> {
        (**self).get(name)
    }

    fn folder(&self) -> Option<&FolderStore> {
        (**self).folder()
    }
}

impl<S: Store + ?Sized> Store for Box<S> {
    fn get(&self, name: &str) -> io::Result<Option<Vec<u8>>> {
        (**self).get(name)
    }

    fn folder(&self) -> Option<&FolderStore> {
        (**self).folder()
    }
}

/// An open file, and the system's record of it.
pub(super) struct Opened {
    pub file: File,
    pub status: Metadata,
}

/// Why a file of a folder is not given.
#[derive(Debug)]
pub(super) enum Unopened {
    Refused(Refused),
    Failed(io::Error),
}

impl From<Refused> for Unopened {
    fn from(error: Refused) -> Unopened {
        Unopened::Refused(error)
    }
}

impl From<io::Error> for Unopened {
    fn from(error: io::Error) -> Unopened {
        Unopened::Failed(error)
    }
}

/// A folder as a store. It refuses names that resolve outside of it: by `..`, or by a link of the file or of a folder above it. Nobody else
/// may change links in it meanwhile.
///
/// ```
/// use oxc_sourcemap::resolver::{FolderStore, Store};
/// let path = std::env::temp_dir().join(format!("oxc_sourcemap-store-{}", std::process::id()));
/// std::fs::create_dir_all(&path)?;
/// std::fs::write(path.join("a.js"), "let a;")?;
/// let store = FolderStore::new(&path)?;
/// assert_eq!(store.get("a.js")?.as_deref(), Some(&b"let a;"[..]));
/// assert_eq!(store.get("b.js")?, None);
/// assert_eq!(store.get("../a.js").unwrap_err().to_string(), "a path with the part \"..\"");
/// # std::fs::remove_dir_all(&path)?;
/// # Ok::<(), std::io::Error>(())
/// ```
#[derive(Debug)]
pub struct FolderStore {
    path: PathBuf,
}

impl FolderStore {
    /// The folder at a path. Fails if there is none, or if the system does not let it be looked at.
    ///
    /// ```
    /// use oxc_sourcemap::resolver::FolderStore;
    /// let error = FolderStore::new("no such folder").unwrap_err();
    /// assert!(error.to_string().starts_with("no such folder: "));
    /// ```
    pub fn new(path: impl AsRef<Path>) -> io::Result<FolderStore> {
        let of = |error: io::Error| of_path(&error, path.as_ref().display());
        let found = fs::canonicalize(&path).map_err(of)?;
        if !fs::metadata(&found).map_err(of)?.is_dir() {
            return Err(of(io::ErrorKind::NotADirectory.into()));
        }
        Ok(FolderStore { path: found })
    }

    /// Where the folder is, links followed.
    pub fn path(&self) -> &Path {
        &self.path
    }

    fn joined(&self, name: &str) -> Result<PathBuf, Refused> {
        Ok(self.path.join(check_name(name.to_string())?))
    }

    fn inside(&self, path: &Path, name: &str) -> Result<PathBuf, Unopened> {
        let found = fs::canonicalize(path)?;
        if !found.starts_with(&self.path) {
            return Err(Refused(format!("{name} is a link out of the folder")).into());
        }
        Ok(found)
    }

    /// The path of the file of this name, links followed. Fails if there is none.
    pub(super) fn path_of(&self, name: &str) -> Result<PathBuf, Unopened> {
        self.inside(&self.joined(name)?, name)
    }

    /// The path at which a file of this name can be put: it is not followed if it is a link, but its folder is.
    pub(super) fn place_of(&self, name: &str) -> Result<PathBuf, Unopened> {
        let path = self.joined(name)?;
        let (Some(folder), Some(last)) = (path.parent(), path.file_name()) else {
            return Err(Refused(format!("{name} is no file")).into());
        };
        Ok(self.inside(folder, name)?.join(last))
    }

    /// A plain file, opened; None if there is none.
    pub(super) fn open(&self, name: &str) -> Result<Option<Opened>, Unopened> {
        match self.path_of(name).and_then(|it| Ok(opened(&it)?)) {
            Err(Unopened::Failed(error)) if is_absent(&error) => Ok(None),
            Err(Unopened::Failed(error)) => Err(of_path(&error, name).into()),
            other => other,
        }
    }
}

/// An error of the system that names its file or folder.
pub(super) fn of_path(error: &io::Error, path: impl Display) -> io::Error {
    io::Error::new(error.kind(), format!("{path}: {error}"))
}

fn is_absent(error: &io::Error) -> bool {
    matches!(error.kind(), io::ErrorKind::NotFound | io::ErrorKind::NotADirectory)
}

/// A plain file at a path; None if there is another thing, as a pipe, which is not opened.
pub(super) fn opened(path: &Path) -> io::Result<Option<Opened>> {
    if !fs::metadata(path)?.is_file() {
        return Ok(None);
    }
    let file = File::open(path)?;
    let status = file.metadata()?;
    Ok(status.is_file().then_some(Opened { file, status }))
}

/// That there are more bytes than a limit.
pub(super) fn too_large(name: &str, length: u64, limit: u64) -> Missing {
    Missing::held(Reason::TooLarge, format!("{name} has {length} bytes, and the limit is {limit}"))
}

impl Opened {
    /// All bytes of the file, which are no more than the limit.
    pub fn read_within(&mut self, name: &str, limit: u64) -> Result<Vec<u8>, Missing> {
        if self.status.len() > limit {
            return Err(too_large(name, self.status.len(), limit));
        }
        let mut data = Vec::new();
        data.try_reserve_exact(self.status.len() as usize)
            .map_err(|it| Missing::failed(&format_args!("{name}: {it}")))?;
        let read = (&mut self.file).take(limit.saturating_add(1)).read_to_end(&mut data);
        read.map_err(|it| Missing::failed(&of_path(&it, name)))?;
        if data.len() as u64 > limit {
            return Err(too_large(name, data.len() as u64, limit));
        }
        Ok(data)
    }
}

impl Store for FolderStore {
    /// The bytes of a file; None if there is none. Fails with [`io::ErrorKind::InvalidInput`] and a [`Refused`] for a name that resolves
    /// outside of the folder, and as the system does.
    fn get(&self, name: &str) -> io::Result<Option<Vec<u8>>> {
        match self.open(name) {
            Ok(None) => Ok(None),
            Ok(Some(mut it)) => {
                let mut data = Vec::new();
                it.file.read_to_end(&mut data).map_err(|it| of_path(&it, name))?;
                Ok(Some(data))
            }
            Err(Unopened::Failed(error)) => Err(error),
            Err(Unopened::Refused(error)) => Err(io::Error::new(io::ErrorKind::InvalidInput, error)),
        }
    }

    fn folder(&self) -> Option<&FolderStore> {
        Some(self)
    }
}

/// Distinguishes the files that this process makes.
static MADE: AtomicU64 = AtomicU64::new(0);

/// A new file in a folder, by a name that is no other one's.
fn made_in(folder: &Path) -> io::Result<(PathBuf, File)> {
    let mut options = OpenOptions::new();
    options.write(true).create_new(true);
    #[cfg(unix)]
    std::os::unix::fs::OpenOptionsExt::mode(&mut options, 0o600);
    let mut tries = 0;
    loop {
        let since = SystemTime::now().duration_since(SystemTime::UNIX_EPOCH).map_or(0, |it| it.subsec_nanos());
        let number = MADE.fetch_add(1, Ordering::Relaxed);
        let path = folder.join(format!(".smc-{}-{number}-{since}", std::process::id()));
        match options.open(&path) {
            Err(error) if error.kind() == io::ErrorKind::AlreadyExists && tries < 100 => tries += 1,
            other => return other.map(|file| (path, file)),
        }
    }
}

/// Writes a new file whole, with these permissions (those of another file) and this time.
fn fill(file: &mut File, data: &[u8], like: Option<&Metadata>, time: SystemTime) -> io::Result<()> {
    file.write_all(data)?;
    #[cfg(unix)]
    if let Some(like) = like {
        use std::os::unix::fs::PermissionsExt;
        file.set_permissions(fs::Permissions::from_mode(like.permissions().mode() & 0o666))?;
    }
    #[cfg(not(unix))]
    let _ = like;
    file.set_modified(time)?;
    file.sync_all()
}

/// Puts a new file with these bytes, this time and the permissions of another file in place of one, once it is on the disk.
pub(super) fn replace_file(path: &Path, data: &[u8], like: Option<&Metadata>, time: SystemTime) -> io::Result<()> {
    let (made, mut file) = made_in(path.parent().ok_or(io::ErrorKind::InvalidInput)?)?;
    let written = fill(&mut file, data, like, time).and_then(|()| fs::rename(&made, path));
    if written.is_err() {
        let _ = fs::remove_file(&made);
    }
    written
}

#[cfg(test)]
mod tests {
    use super::*;

    #[test]
    fn a_file_that_grows_stays_within_the_limit() {
        let path = std::env::temp_dir().join(format!("oxc_sourcemap-grows-{}", std::process::id()));
        fs::write(&path, "1234").unwrap();
        let (mut grown, mut same) = (opened(&path).unwrap().unwrap(), opened(&path).unwrap().unwrap());
        assert_eq!(same.read_within("a", 4), Ok(b"1234".to_vec()));
        fs::write(&path, "123456789").unwrap();
        assert_eq!(grown.read_within("a", 4), Err(too_large("a", 5, 4)));
        assert_eq!(opened(&path).unwrap().unwrap().read_within("a", 8), Err(too_large("a", 9, 8)));
        fs::remove_file(path).unwrap();
    }
}
