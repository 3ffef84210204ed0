//! What the runs over proved claims share: batches until enough is asked, `replay` held against the Rust, and what a snapshot holds.
use std::{
    collections::{BTreeMap, BTreeSet},
    io,
    path::Path,
};

use crate::{
    blocks,
    compare::{self, Asked, Counts},
    oracle,
    parallel::{self, BATCHES_A_ROUND},
    replay::Replay,
    rng::Rng,
    shrink,
    snapshot::{Bytes, Loose, Snapshot, is_directory_of},
};

/// One of a claim's subjects, a snapshot or a pair, for so many comparisons of the run, but a round of batches at least.
pub const COMPARISONS_A_SUBJECT: u64 = 500;

/// What batches have asked.
pub trait Tally: Default + Send {
    /// Of snapshots, or of pairs.
    fn subjects(&self) -> u64;
    fn add(&mut self, more: Self);
}

/// Batches until the run has its subjects. `stream` keeps a claim's batches apart from all others of the seed.
pub fn rounds<T: Tally>(
    scratch: &Path,
    seed: u64,
    stream: u64,
    count: u64,
    batch: impl Fn(&Path, &mut Rng) -> io::Result<Result<T, String>> + Sync,
) -> io::Result<Result<T, String>> {
    let (mut all, mut first) = (T::default(), 0);
    while first == 0 || all.subjects() < count / COMPARISONS_A_SUBJECT {
        let done = parallel::round(first, |thread, number| {
            batch(&scratch.join(thread.to_string()), &mut Rng::new(seed, stream - number))
        })?;
        for more in done {
            match more {
                Ok(more) => all.add(more),
                Err(text) => return Ok(Err(text)),
            }
        }
        first += BATCHES_A_ROUND;
    }
    Ok(Ok(all))
}

/// Where `replay` gives the Rust's answers, a claim about these is one about its own. Else the first difference.
pub fn as_replay(replay: &Replay, all: &[(Snapshot, Vec<Asked>)]) -> io::Result<Result<(), String>> {
    let answers = replay.ask(all.iter().map(|(s, asked)| compare::questions(s, asked)).collect())?;
    let mut lines = answers.lines();
    for (s, asked) in all {
        if let Err(d) = compare::compare(s, asked, &mut lines, &mut Counts::default()) {
            return Ok(Err(shrink::show(&d)));
        }
    }
    Ok(Ok(()))
}

/// What worktree, common and packed hold under a name: kind and content.
pub type Blocks = [Option<(u8, Bytes)>; 3];

/// All named blocks.
pub fn held(s: &Snapshot) -> BTreeMap<Bytes, Blocks> {
    let r = blocks::regions(s);
    let mut held = BTreeMap::<_, Blocks>::new();
    for (i, region) in [Some(r.worktree), r.common, r.packed].into_iter().enumerate() {
        for b in region.unwrap_or_default().chunks(blocks::SIZE).filter(|b| matches!(b[0], 1 | 2 | 4)) {
            let (name, content) = blocks::parts(b);
            held.entry(name.to_vec()).or_default()[i] = Some((b[0], content.to_vec()));
        }
    }
    held
}

/// Held names, and targets of symbolic references.
pub fn mentioned(s: &Snapshot) -> BTreeSet<Bytes> {
    let held = held(s);
    let contents = held.values().flatten().flatten().map(|(_, content)| content);
    // An id is no target.
    let targets = contents.filter_map(|c| oracle::decoded(c)).filter(|target| !target.is_empty());
    targets.chain(held.keys().cloned()).collect()
}

/// Keep the blocks whose name passes, told which region it stands in (worktree, common, packed), and no walk or packed error.
pub fn retain(s: &mut Snapshot, mut keep: impl FnMut(usize, &Bytes) -> bool) {
    s.worktree.retain(|e| e.what != Loose::Locked && keep(0, &e.name));
    s.common.iter_mut().for_each(|c| c.retain(|e| e.what != Loose::Locked && keep(1, &e.name)));
    s.packed.iter_mut().for_each(|p| p.retain(|line| line.name().is_some_and(|name| keep(2, name))));
}

/// One is a directory of the other.
pub fn clash(a: &[u8], b: &[u8]) -> bool {
    is_directory_of(a, b) || is_directory_of(b, a)
}

/// No held name is a directory of another.
pub fn is_flat(held: &BTreeMap<Bytes, Blocks>) -> bool {
    held.keys().all(|n| (0..n.len()).all(|i| n[i] != b'/' || !held.contains_key(&n[..i])))
}
