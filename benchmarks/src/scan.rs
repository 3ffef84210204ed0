//! The scan: fitness of one region, beside a plain read of the same bytes.
use crate::agree::regions;
use crate::measure::{best, heading, row, Ways};
use crate::natural::{self, Snapshot};
use crate::references::ids;
use harness::blocks::block;
use harness::record::ANSWER_SIZE;
use harness::{Calls, PROVED, TWIN};
use std::hint::black_box;

/// The sum of a region's words of eight bytes.
fn plain(region: &[u8]) -> u64 {
    let words = region.chunks_exact(8).map(|w| u64::from_le_bytes(w.try_into().unwrap()));
    words.fold(0, u64::wrapping_add)
}

fn measured(what: &str, s: &Snapshot) {
    let region = if s.packed.is_empty() { s.worktree } else { s.packed };
    let call = |way: &'static Calls| Box::new(move || (way.fitness)(&regions(black_box(s)), &mut [0; ANSWER_SIZE]).into());
    let ways: Ways<4> = [
        Some(call(&PROVED)),
        Some(call(&TWIN)),
        Some(Box::new(|| natural::fitness(black_box(s)).err().map_or(0, |r| r.number.into()))),
        Some(Box::new(move || plain(black_box(region)))),
    ];
    row(what, &best(200, &ways).map(|time| Some(region.len() as f64 / time?)));
}

/// Blocks whose names have all 250 bytes and differ only at their end, so that each is compared to it.
fn full(kind: u8, content: &[u8]) -> Vec<u8> {
    let name = |k: usize| format!("refs/heads/{}/{k:05}", "profile-".repeat(29) + "x");
    (0..4096).flat_map(|k| block(kind, name(k).as_bytes(), content)).collect()
}

pub fn measure() {
    heading("the scan of one region of 4,096 blocks, GB/s on one core", &["what", "proved", "twin", "natural", "plain read"]);
    measured("loose", &Snapshot { worktree: &ids(1, 4096), common: None, packed: &[] });
    measured("packed", &Snapshot { worktree: &[], common: None, packed: &ids(4, 4096) });
    let (whole, digits) = (full(1, &[b'x'; 250]), full(4, &[b'7'; 80]));
    measured("loose, full to the last byte", &Snapshot { worktree: &whole, common: None, packed: &[] });
    measured("packed, names of 250 bytes", &Snapshot { worktree: &[], common: None, packed: &digits });
}
