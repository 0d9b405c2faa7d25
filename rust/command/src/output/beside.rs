//! A file that is written beside its place and then renamed over it.

use std::fs::{self, File, Metadata, OpenOptions};
use std::io::{Error, ErrorKind, Result, Write};
use std::os::unix::fs::{chown, MetadataExt, OpenOptionsExt};
use std::path::{Path, PathBuf};
use std::process;

/// Who may read and write, of a mode; and what a new file has before the umask.
const PERMISSIONS: u32 = 0o7777;
const NEW: u32 = 0o666;

pub struct Beside {
    path: PathBuf,
    is_old: bool,
    /// The new bytes, until they have their name.
    new: Option<PathBuf>,
    /// The old bytes under another name, while they may be wanted back.
    kept: Option<PathBuf>,
}

impl Beside {
    /// Writes the bytes into a new file of the same folder, with the permissions and, as far as it is allowed, the owner of the
    /// old one. Whatever fails, nothing is left.
    pub fn write(path: &Path, old: Option<&Metadata>, bytes: &[u8]) -> Result<Beside> {
        // One that may not be written is not replaced either.
        if old.is_some() {
            OpenOptions::new().write(true).open(path)?;
        }
        let mode = old.map_or(NEW, |old| old.mode() & PERMISSIONS);
        let (mut file, new) = create(path, mode)?;
        let beside = Beside { path: path.into(), is_old: old.is_some(), new: Some(new.clone()), kept: None };
        file.write_all(bytes)?;
        if let Some(old) = old {
            // Only a privileged user gives a file away. A change of owner takes bits of the mode, so the mode comes after it.
            let _ = chown(&new, Some(old.uid()), Some(old.gid()));
            file.set_permissions(old.permissions())?;
        }
        // Some disks tell only now that they are full.
        file.sync_all()?;
        Ok(beside)
    }

    pub fn path(&self) -> &Path {
        &self.path
    }

    /// Gives the new bytes their name. If it is not alone, the old ones are kept until all have theirs.
    pub fn put(&mut self, is_alone: bool) -> Result<()> {
        if !self.is_old && fs::symlink_metadata(&self.path).is_ok() {
            return Err(Error::new(ErrorKind::AlreadyExists, "a file of this name has come meanwhile"));
        }
        if self.is_old && !is_alone {
            let kept = free_name(&self.path, |name| fs::hard_link(&self.path, name).map(|()| name.to_path_buf()));
            // Where a file system has no second names, a copy.
            let copied = |_| free_name(&self.path, |name| copy_new(&self.path, name));
            self.kept = Some(kept.or_else(copied)?);
        }
        let new = self.new.as_ref().expect("it gets its name once");
        fs::rename(new, &self.path)?;
        self.new = None;
        Ok(())
    }

    /// What was there before comes back.
    pub fn take_back(&mut self) {
        // Nothing more can be done where this fails too.
        let _ = match self.kept.take() {
            Some(kept) => fs::rename(kept, &self.path),
            None => fs::remove_file(&self.path),
        };
    }
}

impl Drop for Beside {
    fn drop(&mut self) {
        for left in [self.new.take(), self.kept.take()].into_iter().flatten() {
            let _ = fs::remove_file(left);
        }
    }
}

fn create(path: &Path, mode: u32) -> Result<(File, PathBuf)> {
    free_name(path, |name| {
        let file = OpenOptions::new().write(true).create_new(true).mode(mode).open(name)?;
        Ok((file, name.to_path_buf()))
    })
}

fn copy_new(from: &Path, to: &Path) -> Result<PathBuf> {
    OpenOptions::new().write(true).create_new(true).mode(0o600).open(to)?;
    let copied = fs::copy(from, to).map(|_| to.to_path_buf());
    copied.inspect_err(|_| {
        let _ = fs::remove_file(to);
    })
}

/// Tries names of the same folder that say whose they are, until one is free.
fn free_name<T>(path: &Path, mut attempt: impl FnMut(&Path) -> Result<T>) -> Result<T> {
    let mut number = 0;
    loop {
        let name = path.with_file_name(format!(".cartsundial-{}-{number}.tmp", process::id()));
        match attempt(&name) {
            Err(error) if error.kind() == ErrorKind::AlreadyExists => number += 1,
            tried => return tried,
        }
    }
}
