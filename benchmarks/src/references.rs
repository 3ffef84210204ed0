//! The references that are measured: the same ones as regions and as a git directory.
use crate::natural::Snapshot;
use harness::blocks::block;
use std::path::{Path, PathBuf};
use std::{env, fs, io, process};

struct Entry {
    name: String,
    content: String,
}

/// Ids under names that rise.
fn entries(n: usize, name: impl Fn(usize) -> String) -> impl Iterator<Item = Entry> {
    (0..n).map(move |k| Entry { name: name(k), content: format!("{:040x}", (k + 1) * 7919) })
}

fn topic(k: usize) -> String {
    format!("refs/heads/feature/topic-{k:06}")
}

/// A worktree's own names; a chain of symbolic references and branches; packed branches, of which some are loose too.
pub struct References {
    worktree: Vec<Entry>,
    common: Vec<Entry>,
    packed: Vec<Entry>,
}

impl References {
    /// So many in each region; in common at least the chain and two branches.
    pub fn new(n: usize) -> References {
        let branches = n.max(6) - 4;
        let chain = [("a", "chain/b"), ("b", "chain/c"), ("c", "chain/d"), ("d", "feature/topic-000000")];
        let symbolic = |(at, to)| Entry { name: format!("refs/heads/chain/{at}"), content: format!("ref: refs/heads/{to}") };
        References {
            worktree: entries(n, |k| format!("refs/bisect/good-{k:06}")).collect(),
            common: chain.into_iter().map(symbolic).chain(entries(branches, |k| topic(2 * k))).collect(),
            packed: entries(n, |k| topic(3 * k)).collect(),
        }
    }

    pub fn count(&self) -> usize {
        self.worktree.len() + self.common.len() + self.packed.len()
    }

    /// What is searched for: a loose name, one that is only packed since n is even, and one that is not there.
    pub fn sought(&self) -> [(&'static str, String); 3] {
        let last = 3 * (self.packed.len() - 1);
        [("find, loose", topic(2)), ("find, packed", topic(last)), ("find, not there", "feature/nowhere".into())]
    }
}

fn region(kind: u8, entries: &[Entry]) -> Vec<u8> {
    let end = if kind == 1 { "\n" } else { "" };
    entries.iter().flat_map(|e| block(kind, e.name.as_bytes(), format!("{}{end}", e.content).as_bytes())).collect()
}

/// A region of so many ids.
pub fn ids(kind: u8, n: usize) -> Vec<u8> {
    region(kind, &entries(n, topic).collect::<Vec<_>>())
}

pub struct Regions {
    worktree: Vec<u8>,
    common: Vec<u8>,
    packed: Vec<u8>,
}

impl Regions {
    pub fn new(r: &References) -> Regions {
        Regions { worktree: region(1, &r.worktree), common: region(1, &r.common), packed: region(4, &r.packed) }
    }

    pub fn snapshot(&self) -> Snapshot<'_> {
        Snapshot { worktree: &self.worktree, common: Some(&self.common), packed: &self.packed }
    }
}

/// A linked worktree's git directory and the common one, in memory where that is to be had; they go away with it.
pub struct Directory {
    root: PathBuf,
    pub worktree: PathBuf,
    pub common: PathBuf,
}

impl Directory {
    pub fn new(r: &References) -> io::Result<Directory> {
        let shm = Path::new("/dev/shm");
        let base = if shm.is_dir() { shm.to_owned() } else { env::temp_dir() };
        let root = base.join(format!("cosvint-benchmarks-{}", process::id()));
        let directory = Directory { worktree: root.join("worktree"), common: root.join("common"), root };
        directory.write(r)?;
        Ok(directory)
    }

    fn write(&self, r: &References) -> io::Result<()> {
        fs::create_dir_all(self.common.join("objects"))?;
        fs::create_dir_all(self.common.join("refs"))?;
        fs::write(self.common.join("config"), "[core]\n\trepositoryformatversion = 0\n\tbare = false\n")?;
        loose(&self.worktree, &r.worktree)?;
        loose(&self.common, &r.common)?;
        for dir in [&self.worktree, &self.common] {
            fs::write(dir.join("HEAD"), "ref: refs/heads/chain/a\n")?;
        }
        fs::write(self.worktree.join("commondir"), format!("{}\n", self.common.display()))?;
        fs::write(self.worktree.join("gitdir"), format!("{}/tree/.git\n", self.root.display()))?;
        fs::write(self.common.join("packed-refs"), packed(&r.packed))
    }
}

impl Drop for Directory {
    fn drop(&mut self) {
        let _ = fs::remove_dir_all(&self.root);
    }
}

fn loose(base: &Path, entries: &[Entry]) -> io::Result<()> {
    for e in entries {
        let path = base.join(&e.name);
        fs::create_dir_all(path.parent().expect("it has one"))?;
        fs::write(path, format!("{}\n", e.content))?;
    }
    Ok(())
}

fn packed(entries: &[Entry]) -> String {
    let lines = entries.iter().map(|e| format!("{} {}\n", e.content, e.name));
    ["# pack-refs with: peeled fully-peeled sorted \n".to_string()].into_iter().chain(lines).collect()
}
