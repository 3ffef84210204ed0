//! Real git, asked in the same directories where it has the same notion: a listing (`for-each-ref`), a full name followed
//! to its object (`rev-parse`; in bulk `cat-file --batch-check`, which resolves names alike) and well-formed names
//! (`check-ref-format --allow-onelevel`).
use std::{
    ffi::OsStr,
    fs,
    io::{self, Write},
    os::unix::{ffi::OsStrExt, process::ExitStatusExt},
    path::{Path, PathBuf},
    process::{Command, Output, Stdio},
};

use crate::{
    layout::{Layout, packed_refs},
    snapshot::{Bytes, Entry, Loose, Packed, Snapshot},
};

/// git, and objects that exist, since it leaves out references to others.
pub struct Git {
    home: PathBuf,
    pub ids: Vec<Bytes>,
}

impl Git {
    pub fn new(scratch: &Path) -> io::Result<Self> {
        let mut git = Git { home: scratch.to_owned(), ids: Vec::new() };
        let objects = git.objects();
        fs::create_dir_all(&objects)?;
        let repository = scratch.join("template");
        expect(git.command(None).args(["init", "--quiet", "--bare"]).arg(&repository))?;
        for i in 0..8 {
            let blob = scratch.join("blob");
            fs::write(&blob, format!("object {i}\n"))?;
            let out = expect(git.command(Some(&repository)).args(["hash-object", "-w"]).arg(blob))?;
            git.ids.push(out.stdout.trim_ascii().to_vec());
        }
        Ok(git)
    }

    fn objects(&self) -> PathBuf {
        self.home.join("objects")
    }

    fn command(&self, git_dir: Option<&Path>) -> Command {
        let mut c = Command::new("git");
        c.env_clear()
            .envs(std::env::var_os("PATH").map(|path| ("PATH", path)))
            .env("HOME", &self.home)
            .env("GIT_CONFIG_NOSYSTEM", "1")
            .env("GIT_OBJECT_DIRECTORY", self.objects())
            .envs(git_dir.map(|dir| ("GIT_DIR", dir)))
            .current_dir(&self.home)
            .stdin(Stdio::null());
        c
    }

    pub fn version(&self) -> io::Result<String> {
        let out = expect(self.command(None).arg("version"))?;
        Ok(String::from_utf8_lossy(&out.stdout).trim().to_owned())
    }

    /// Whether git writes packed-refs as the layouts do: some references and a tag's peeled id, packed by git.
    pub fn packs_alike(&self) -> io::Result<bool> {
        let repository = self.home.join("template");
        let blob = &self.ids[0];
        let tag = self.home.join("tag");
        let text = b"\ntype blob\ntag v\ntagger a <a> 0 +0000\n\nv\n";
        fs::write(&tag, [b"object ", &blob[..], text].concat())?;
        let git = || self.command(Some(&repository));
        let out = expect(git().args(["hash-object", "-t", "tag", "-w"]).arg(tag))?;
        let tag = out.stdout.trim_ascii().to_vec();
        let refs = [("refs/a/b", blob), ("refs/tags/v", &tag), ("refs/tags/w", blob)];
        for (name, id) in refs {
            expect(git().args(["update-ref", name]).arg(OsStr::from_bytes(id)))?;
        }
        expect(git().args(["pack-refs", "--all"]))?;
        let record = |(name, id): (&str, &Bytes)| Packed::Record {
            name: name.into(),
            id: id.clone(),
            peeled: (*id == tag).then(|| blob.clone()),
        };
        Ok(fs::read(repository.join("packed-refs"))? == packed_refs(&refs.map(record)))
    }

    pub fn well_formed(&self, name: &[u8]) -> io::Result<bool> {
        let mut c = self.command(None);
        let out = c.args(["check-ref-format", "--allow-onelevel"]).arg(OsStr::from_bytes(name)).output()?;
        Ok(out.status.success())
    }

    /// Full name, id and, for a symbolic reference, the last reference reached.
    pub fn list(&self, git_dir: &Path) -> io::Result<Vec<(Bytes, Bytes, Bytes)>> {
        let format = "--format=%(refname) %(objectname) %(symref)";
        let out = expect(self.command(Some(git_dir)).args(["for-each-ref", format]))?;
        let line = |line: &[u8]| {
            let mut fields = line.splitn(3, |b| *b == b' ').map(<[u8]>::to_vec);
            let mut field = || fields.next().unwrap_or_default();
            (field(), field(), field())
        };
        Ok(out.stdout.split(|b| *b == b'\n').filter(|l| !l.is_empty()).map(line).collect())
    }

    /// Names and ids that git offers under a namespace, not expanded, peeled ids left out; none if git crashes.
    pub fn offered(&self, git_dir: &Path, namespace: &[u8]) -> io::Result<Option<Vec<(Bytes, Bytes)>>> {
        let mut c = self.command(None);
        c.env("GIT_NAMESPACE", OsStr::from_bytes(namespace)).args(["upload-pack", "--advertise-refs"]).arg(git_dir);
        let out = c.output()?;
        if out.status.signal().is_some() {
            return Ok(None);
        }
        let out = out.stdout;
        let mut offered = Vec::new();
        let mut rest = &out[..];
        while let Some((digits, after)) = rest.split_at_checked(4) {
            let length = std::str::from_utf8(digits).ok().and_then(|d| usize::from_str_radix(d, 16).ok());
            let line = length.and_then(|n| after.get(..n.checked_sub(4)?));
            let Some(line) = line else { break };
            rest = &after[line.len()..];
            // The first line has capabilities after a NUL, the others end there.
            let line = line.strip_suffix(b"\n").unwrap_or(line);
            let line = line.split(|b| *b == 0).next().unwrap_or(line);
            if line.len() > 41 && !line.ends_with(b"^{}") {
                offered.push((line[41..].to_vec(), line[..40].to_vec()));
            }
        }
        Ok(Some(offered))
    }

    pub fn rev_parse(&self, git_dir: &Path, name: &[u8]) -> io::Result<Option<Bytes>> {
        let mut c = self.command(Some(git_dir));
        let out = c.args(["rev-parse", "--verify", "--quiet"]).arg(OsStr::from_bytes(name)).output()?;
        Ok(out.status.success().then(|| out.stdout.trim_ascii().to_vec()))
    }

    /// As `rev_parse`, for many names that hold no line end.
    pub fn resolve(&self, git_dir: &Path, names: &[Bytes]) -> io::Result<Vec<Option<Bytes>>> {
        let mut c = self.command(Some(git_dir));
        let mut child = c
            .args(["cat-file", "--batch-check=%(objectname)"])
            .stdin(Stdio::piped())
            .stdout(Stdio::piped())
            .stderr(Stdio::null())
            .spawn()?;
        // A few names fit into a pipe.
        child.stdin.take().expect("it is piped").write_all(&[&names.join(&b'\n')[..], b"\n"].concat())?;
        let out = child.wait_with_output()?;
        let answers: Vec<_> = out.stdout.split(|b| *b == b'\n').take(names.len()).collect();
        if !out.status.success() || answers.len() != names.len() {
            return Err(io::Error::other("git cat-file failed"));
        }
        Ok(answers.iter().map(|a| (!a.contains(&b' ')).then(|| a.to_vec())).collect())
    }
}

fn expect(c: &mut Command) -> io::Result<Output> {
    let out = c.output()?;
    if out.status.success() {
        return Ok(out);
    }
    let text = String::from_utf8_lossy(&out.stderr);
    Err(io::Error::other(format!("{c:?} ended with {}: {text}", out.status)))
}

/// Make a snapshot into one that git takes for a repository: objects that exist, a HEAD, a directory `refs`.
pub fn adapt(s: &mut Snapshot, ids: &[Bytes]) {
    let real = |id: &[u8]| ids[id.iter().map(|b| usize::from(*b)).sum::<usize>() % ids.len()].clone();
    for e in s.worktree.iter_mut().chain(s.common.iter_mut().flatten()) {
        if let Loose::File(content) = &mut e.what
            && content.len() >= 40
            && content[..40].iter().all(u8::is_ascii_hexdigit)
        {
            let id = real(&content[..40]);
            content[..40].copy_from_slice(&id);
        }
    }
    for line in s.packed.iter_mut().flatten() {
        if let Packed::Record { id, peeled, .. } = line {
            *id = real(id);
            *peeled = peeled.as_ref().map(|p| real(p));
        }
    }
    s.worktree.retain(|e| e.name != b"refs" && (e.name != b"HEAD" || is_head(&e.what)));
    s.common.iter_mut().for_each(|c| c.retain(|e| e.name != b"refs"));
    s.worktree.retain(|e| !e.name.starts_with(b"HEAD/"));
    if !s.worktree.iter().any(|e| e.name == b"HEAD") {
        s.worktree.push(Entry { name: b"HEAD".to_vec(), what: Loose::File(b"ref: refs/heads/a\n".to_vec()) });
    }
}

/// git takes no directory for a repository whose HEAD is anything else.
fn is_head(what: &Loose) -> bool {
    match what {
        Loose::File(content) => {
            content.starts_with(b"ref: refs/")
                || content.get(..40).is_some_and(|id| id.iter().all(u8::is_ascii_hexdigit))
        }
        _ => false,
    }
}

/// What git needs besides, which no block shows.
pub fn complete(layout: &Layout) -> io::Result<()> {
    if let Some(common) = &layout.common {
        fs::create_dir_all(common.join("refs"))?;
        fs::write(layout.worktree.join("commondir"), common.as_os_str().as_bytes())?;
    }
    fs::create_dir_all(layout.worktree.join("refs"))
}
