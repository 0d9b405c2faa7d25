//! Where an output goes, whatever it is called: through `..`, links, or as /dev/stdout.

use std::fs::{self, Metadata};
use std::io::{Error, ErrorKind, Result};
use std::os::unix::fs::MetadataExt;
use std::path::{Path, PathBuf};

/// As many links after each other as Linux follows.
const MOST_LINKS: usize = 40;

pub enum Place {
    /// A file, at the end of its links; as it is now, where it is there already.
    File {
        path: PathBuf,
        old: Option<Metadata>,
    },
    /// A device, a pipe or an open file of this process: what is written goes through it, and it stays what it is.
    Through(PathBuf),
    StandardOutput,
}

/// A file by its device and number, so by any of its names.
#[derive(Clone, Copy, Debug, PartialEq, Eq)]
pub struct Identity {
    device: u64,
    number: u64,
}

impl Identity {
    /// Of what can be read as it was written: a terminal or /dev/null may be an input and an output.
    fn of(metadata: &Metadata) -> Option<Identity> {
        use std::os::unix::fs::FileTypeExt;
        let identity = Identity { device: metadata.dev(), number: metadata.ino() };
        Some(identity).filter(|_| !metadata.file_type().is_char_device())
    }

    /// Of an input that is there. What cannot be read is told by who reads it.
    pub fn of_input(name: &str) -> Option<Identity> {
        let path = if name == "-" { "/dev/stdin" } else { name };
        fs::metadata(path).ok().as_ref().and_then(Identity::of)
    }

    /// Of a file that standard output goes to.
    pub fn of_standard_output() -> Option<Identity> {
        fs::metadata("/dev/stdout").ok().as_ref().filter(|metadata| metadata.is_file()).and_then(Identity::of)
    }
}

impl Place {
    pub fn of(name: &str) -> Result<Place> {
        if name == "-" {
            return Ok(Place::StandardOutput);
        }
        if name.is_empty() || name.ends_with('/') {
            return Err(Error::new(ErrorKind::InvalidInput, "no file's name"));
        }
        let own = fs::canonicalize("/proc/self/fd").ok();
        let path = resolved(Path::new(name), own.as_deref())?;
        let is_open_file = own.is_some() && path.parent() == own.as_deref();
        if path == Path::new("/dev/stdout") || is_open_file && path.ends_with("1") {
            return Ok(Place::StandardOutput);
        }
        match fs::metadata(&path) {
            Err(error) if error.kind() == ErrorKind::NotFound => Ok(Place::File { path, old: None }),
            Err(error) => Err(error),
            Ok(old) if old.is_dir() => Err(ErrorKind::IsADirectory.into()),
            Ok(old) if old.is_file() && !is_open_file => Ok(Place::File { path, old: Some(old) }),
            Ok(_) => Ok(Place::Through(path)),
        }
    }

    /// Of what is there.
    pub fn identity(&self) -> Option<Identity> {
        match self {
            Place::File { old, .. } => old.as_ref().and_then(Identity::of),
            Place::Through(path) => fs::metadata(path).ok().as_ref().and_then(Identity::of),
            Place::StandardOutput => Identity::of_standard_output(),
        }
    }

    pub fn is(&self, other: &Place) -> bool {
        let same = self.identity().is_some() && self.identity() == other.identity();
        match (self, other) {
            (Place::StandardOutput, Place::StandardOutput) => true,
            (Place::File { path, .. }, Place::File { path: other, .. }) => same || path == other,
            _ => same,
        }
    }
}

/// A path whose folder has no links and whose last name is none, unless it is an open file of this process, which is one for good.
fn resolved(name: &Path, own: Option<&Path>) -> Result<PathBuf> {
    let mut path = name.to_path_buf();
    for _ in 0..MOST_LINKS {
        let folder = path.parent().filter(|folder| !folder.as_os_str().is_empty()).unwrap_or(Path::new("."));
        let folder = fs::canonicalize(folder)?;
        let Some(last) = path.file_name() else { return Err(ErrorKind::IsADirectory.into()) };
        let place = folder.join(last);
        if own == Some(&folder) {
            return Ok(place);
        }
        match fs::read_link(&place) {
            Ok(target) => path = folder.join(target),
            Err(_) => return Ok(place),
        }
    }
    Err(Error::new(ErrorKind::InvalidInput, "too many links, one to the next"))
}
