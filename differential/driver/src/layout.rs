//! A snapshot as real directories and a packed-refs file. Nothing here knows of blocks.
use std::{
    ffi::OsStr,
    fs, io,
    os::unix::{
        ffi::OsStrExt,
        fs::{OpenOptionsExt, PermissionsExt},
    },
    path::{Path, PathBuf},
};

use crate::snapshot::{Entry, Loose, Packed, Snapshot};

/// The directories of one snapshot; they go away with it.
pub struct Layout {
    root: PathBuf,
    pub worktree: PathBuf,
    pub common: Option<PathBuf>,
    locked: Vec<PathBuf>,
}

impl Layout {
    /// Lay `s` out below `root`, which must not exist.
    pub fn new(root: &Path, s: &Snapshot) -> io::Result<Self> {
        let common = s.common.is_some().then(|| root.join("common"));
        let worktree = match (&common, &s.nested) {
            (Some(common), Some(name)) => common.join("worktrees").join(OsStr::from_bytes(name)),
            _ => root.join("worktree"),
        };
        let mut layout = Layout { root: root.to_owned(), worktree, common, locked: Vec::new() };
        layout.write(s)?;
        Ok(layout)
    }

    fn write(&mut self, s: &Snapshot) -> io::Result<()> {
        let shared = self.common.clone().unwrap_or_else(|| self.worktree.clone());
        fs::create_dir_all(&self.worktree)?;
        fs::create_dir_all(&shared)?;
        for (in_common, name) in &s.empty {
            let base = if *in_common { &shared } else { &self.worktree };
            // A file may have the place; then there is no such directory.
            let _ = fs::create_dir_all(base.join(OsStr::from_bytes(name)));
        }
        for e in &s.worktree {
            self.entry(&self.worktree.clone(), e)?;
        }
        for e in s.common.iter().flatten() {
            self.entry(&shared, e)?;
        }
        if let Some(lines) = &s.packed {
            fs::write(shared.join("packed-refs"), packed_refs(lines))?;
        }
        for dir in &self.locked {
            fs::set_permissions(dir, fs::Permissions::from_mode(0o000))?;
        }
        Ok(())
    }

    fn entry(&mut self, base: &Path, e: &Entry) -> io::Result<()> {
        let path = base.join(OsStr::from_bytes(&e.name));
        match &e.what {
            Loose::File(content) => write_file(&path, 0o644, content),
            Loose::Unreadable => write_file(&path, 0, b"1111111111111111111111111111111111111111\n"),
            Loose::Locked => {
                fs::create_dir_all(&path)?;
                // Nobody sees these two.
                write_file(&path.join("a"), 0o644, b"2222222222222222222222222222222222222222\n")?;
                write_file(&path.join("sub/b"), 0o644, b"3333333333333333333333333333333333333333\n")?;
                self.locked.push(path);
                Ok(())
            }
        }
    }
}

impl Drop for Layout {
    fn drop(&mut self) {
        for dir in &self.locked {
            let _ = fs::set_permissions(dir, fs::Permissions::from_mode(0o755));
        }
        let _ = fs::remove_dir_all(&self.root);
    }
}

/// Write a file anew; an empty directory in its place makes way, and a missing one is made.
fn write_file(path: &Path, mode: u32, content: &[u8]) -> io::Result<()> {
    let create = || fs::OpenOptions::new().write(true).create_new(true).mode(mode).open(path);
    let mut file = match create() {
        Ok(file) => file,
        Err(err) if err.kind() == io::ErrorKind::NotFound => {
            fs::create_dir_all(path.parent().expect("a file has a parent"))?;
            create()?
        }
        Err(_) => {
            remove_empty(path)?;
            create()?
        }
    };
    io::Write::write_all(&mut file, content)
}

/// Remove a directory that holds nothing but directories.
fn remove_empty(path: &Path) -> io::Result<()> {
    for inner in fs::read_dir(path)? {
        remove_empty(&inner?.path())?;
    }
    fs::remove_dir(path)
}

/// The text as git writes it, its header included.
pub fn packed_refs(lines: &[Packed]) -> Vec<u8> {
    let mut out = b"# pack-refs with: peeled fully-peeled sorted \n".to_vec();
    for line in lines {
        match line {
            Packed::Record { name, id, peeled } => {
                out.extend([&id[..], b" ", name, b"\n"].concat());
                if let Some(peeled) = peeled {
                    out.extend([b"^", &peeled[..], b"\n"].concat());
                }
            }
            Packed::Junk(line) => out.extend([&line[..], b"\n"].concat()),
        }
    }
    out
}
