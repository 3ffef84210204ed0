//! A snapshot as three regions of blocks, by document 01, "Blocks". Nothing here knows of directories.
use crate::snapshot::{Bytes, Entry, Loose, Packed, Snapshot};

/// Bytes of a block.
pub const SIZE: usize = 512;

pub struct Regions {
    pub worktree: Bytes,
    pub common: Option<Bytes>,
    pub packed: Option<Bytes>,
}

pub fn regions(s: &Snapshot) -> Regions {
    let mut common = s.common.clone();
    if let (Some(common), Some(worktree)) = (&mut common, &s.nested) {
        common.extend(s.worktree.iter().map(|e| Entry {
            name: [b"worktrees/", worktree.as_slice(), b"/", &e.name].concat(),
            what: e.what.clone(),
        }));
    }
    Regions {
        worktree: loose(&s.worktree),
        common: common.as_deref().map(loose),
        packed: s.packed.as_ref().map(|lines| lines.iter().flat_map(packed).collect()),
    }
}

/// Blocks in the order of names; a directory stands where its entries would.
fn loose(entries: &[Entry]) -> Bytes {
    let mut keyed: Vec<(Bytes, [u8; SIZE])> = entries
        .iter()
        .map(|e| match &e.what {
            Loose::File(content) => (e.name.clone(), block(1, &e.name, content)),
            Loose::Unreadable => (e.name.clone(), block(2, &e.name, b"")),
            Loose::Locked => ([&e.name[..], b"/"].concat(), block(3, b"", b"")),
        })
        .collect();
    keyed.sort();
    keyed.iter().flat_map(|(_, block)| *block).collect()
}

fn packed(line: &Packed) -> [u8; SIZE] {
    match line {
        Packed::Record { name, id, peeled } => {
            let ids = [&id[..], peeled.as_deref().unwrap_or(b"")].concat();
            block(4, name, &ids)
        }
        Packed::Junk(_) => block(5, b"", b""),
    }
}

fn block(kind: u8, name: &[u8], content: &[u8]) -> [u8; SIZE] {
    let mut b = [0; SIZE];
    b[0] = kind;
    b[1] = u8::try_from(name.len()).expect("names are short");
    b[2] = u8::try_from(content.len()).expect("contents are short");
    b[8..8 + name.len()].copy_from_slice(name);
    b[258..258 + content.len()].copy_from_slice(content);
    let sum: u32 = (1..).zip(&b[..508]).map(|(place, byte)| place * u32::from(*byte)).sum();
    b[508..].copy_from_slice(&sum.to_le_bytes());
    b
}

/// A block's name and content.
pub fn parts(b: &[u8]) -> (&[u8], &[u8]) {
    (&b[8..][..usize::from(b[1])], &b[258..][..usize::from(b[2])])
}

/// What `fit` answers, from the snapshot alone: the regions made here are never damaged.
pub fn fitness(s: &Snapshot) -> String {
    let r = regions(s);
    let named = [("worktree", Some(&r.worktree)), ("common", r.common.as_ref()), ("packed", r.packed.as_ref())];
    for (region, bytes) in named {
        let mut last: Option<&[u8]> = None;
        for (i, b) in bytes.into_iter().flat_map(|b| b.chunks(SIZE)).enumerate() {
            if b[0] == 3 || b[0] == 5 {
                return format!("refused 7 {region} {i}");
            }
            let (name, _) = parts(b);
            if last.is_some_and(|last| name <= last) {
                return format!("refused 8 {region} {i}");
            }
            last = Some(name);
        }
    }
    "fit".into()
}
