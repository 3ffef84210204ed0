//! The same questions, asked as one would in Rust: iterators, slices' own comparisons and searches, early exits.
mod entries;
mod listing;
mod names;
mod search;

pub use entries::{Reference, Target};
pub use listing::list;
pub use names::{full_name, namespace, partial_name};
pub use search::{find, follow, Stop};

use entries::{is_damaged, name_of};
use names::{expansion, well_formed};

#[derive(Clone, Copy)]
pub struct Snapshot<'a> {
    pub worktree: &'a [u8],
    pub common: Option<&'a [u8]>,
    pub packed: &'a [u8],
}

/// A refusal's number, and of 6 to 8 the region, from 1, and the block.
#[derive(Debug)]
pub struct Refusal {
    pub number: u32,
    pub place: Option<(u64, u64)>,
}

impl From<u32> for Refusal {
    fn from(number: u32) -> Self {
        Refusal { number, place: None }
    }
}

fn sizes(s: &Snapshot) -> Result<(), u32> {
    let mut regions = [s.worktree, s.common.unwrap_or(&[]), s.packed].into_iter();
    if regions.clone().any(|r| r.len() % 512 != 0) {
        return Err(1);
    }
    if regions.any(|r| r.len() > 4096 * 512) { Err(2) } else { Ok(()) }
}

/// The first block of a region that is not fit for search.
fn flaw(region: &[u8], packed: bool) -> Option<(u32, u64)> {
    let mut before: Option<&[u8]> = None;
    for (b, k) in region.chunks_exact(512).zip(0..) {
        if is_damaged(b, packed) {
            return Some((6, k));
        }
        if b[0] == 3 || b[0] == 5 {
            return Some((7, k));
        }
        let name = name_of(b);
        if before.is_some_and(|p| p >= name) {
            return Some((8, k));
        }
        before = Some(name);
    }
    None
}

fn flaws(s: &Snapshot) -> Result<(), Refusal> {
    let regions = [(s.worktree, false), (s.common.unwrap_or(&[]), false), (s.packed, true)];
    let mut found = regions.into_iter().zip(1..).filter_map(|((r, packed), region)| Some((region, flaw(r, packed)?)));
    match found.next() {
        Some((region, (number, block))) => Err(Refusal { number, place: Some((region, block)) }),
        None => Ok(()),
    }
}

pub fn fitness(s: &Snapshot) -> Result<(), Refusal> {
    sizes(s)?;
    flaws(s)
}

/// The expansion of the namespace, where a search is not refused.
fn checked(s: &Snapshot, name: &[u8], namespace: Option<&[u8]>) -> Result<Vec<u8>, Refusal> {
    sizes(s)?;
    let mut names = [name].into_iter().chain(namespace);
    if names.clone().any(|n| n.len() > 250) {
        return Err(3.into());
    }
    if !names.all(well_formed) {
        return Err(4.into());
    }
    let e = expanded(namespace)?;
    flaws(s).map(|()| e)
}

/// The expansion, empty without a namespace, where it is not too long.
fn expanded(namespace: Option<&[u8]>) -> Result<Vec<u8>, u32> {
    let e = namespace.map(expansion).unwrap_or_default();
    if e.len() > 250 { Err(5) } else { Ok(e) }
}
