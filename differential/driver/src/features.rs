//! What snapshots have in them, counted so that a run can say so.
use gix_validate::reference::well_formed;

use crate::snapshot::{Bytes, Entry, Loose, Packed, Snapshot, is_directory_of};

type Feature = (&'static str, fn(&Snapshot) -> bool);

pub const FEATURES: [Feature; 18] = [
    ("a common directory", |s| s.common.is_some()),
    ("the worktree's directory inside the common one", |s| s.nested.is_some()),
    ("no packed-refs", |s| s.packed.is_none()),
    ("a file without permission", |s| loose(s).any(|e| e.what == Loose::Unreadable)),
    ("a directory without permission", |s| loose(s).any(|e| e.what == Loose::Locked)),
    ("a packed line that is no record", |s| packed(s).any(|line| line.name().is_none())),
    ("packed names out of order", |s| !rise(s)),
    ("a malformed file name", |s| loose(s).any(|e| !well_formed(&e.name))),
    ("a file that is a directory of a packed name", |s| {
        loose(s).any(|e| packed(s).filter_map(Packed::name).any(|n| is_directory_of(&e.name, n)))
    }),
    ("a malformed one of these", |s| {
        let clash = |e: &Entry| packed(s).filter_map(Packed::name).any(|n| is_directory_of(&e.name, n));
        loose(s).any(|e| !well_formed(&e.name) && clash(e))
    }),
    ("one name in worktree and common", |s| {
        s.worktree.iter().any(|e| s.common.iter().flatten().any(|c| c.name == e.name))
    }),
    ("one name loose and packed", |s| loose(s).any(|e| packed(s).filter_map(Packed::name).any(|n| *n == e.name))),
    ("a private name in worktree", |s| s.worktree.iter().any(|e| is_private(&e.name))),
    ("a private name in common", |s| s.common.iter().flatten().any(|e| is_private(&e.name))),
    ("a private name packed", |s| packed(s).filter_map(Packed::name).any(|n| is_private(n))),
    ("a name of 240 bytes or more", |s| {
        loose(s).map(|e| &e.name).chain(packed(s).filter_map(Packed::name)).any(|n| n.len() >= 240)
    }),
    ("more than 20 packed records", |s| packed(s).count() > 20),
    ("a peeled id", |s| packed(s).any(|line| matches!(line, Packed::Record { peeled: Some(_), .. }))),
];

fn loose(s: &Snapshot) -> impl Iterator<Item = &Entry> {
    s.worktree.iter().chain(s.common.iter().flatten())
}

fn packed(s: &Snapshot) -> impl Iterator<Item = &Packed> {
    s.packed.iter().flatten()
}

fn rise(s: &Snapshot) -> bool {
    let names: Vec<&Bytes> = packed(s).filter_map(Packed::name).collect();
    names.windows(2).all(|w| w[0] < w[1])
}

fn is_private(name: &[u8]) -> bool {
    [&b"refs/bisect/"[..], b"refs/worktree/", b"refs/rewritten/"].iter().any(|p| name.starts_with(p))
}
