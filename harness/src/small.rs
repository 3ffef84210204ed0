//! Small snapshots made at random, mostly fit for search, and the names to ask them for.
use crate::blocks::{block, BLOCK};
use crate::dice::Dice;
use std::collections::{BTreeMap, BTreeSet};

pub const NAMES: [&str; 28] = [
    "HEAD", "FETCH_HEAD", "a", "b", "a/b", "refs/a", "refs/a/b", "refs/heads/a", "refs/heads/a/b", "refs/heads/b", "refs/heads/main",
    "refs/tags/a", "refs/tags/b", "refs/remotes/a", "refs/remotes/a/HEAD", "refs/remotes/o/b", "refs/notes/a", "refs/bisect/a",
    "refs/rewritten/b", "refs/worktree/a", "main-worktree/HEAD", "main-worktree/refs/heads/a", "worktrees/w/HEAD",
    "worktrees/w/refs/heads/a", "worktrees/w/refs/bisect/a", "worktrees/w", "refs/heads/HEAD", "heads/a",
];

/// A name that may stand in a region: plain, in a namespace, or malformed.
fn held(dice: &mut Dice, sound: bool) -> String {
    let name = dice.of(&NAMES);
    match dice.below(12) {
        0 | 1 => format!("refs/namespaces/n/{name}"),
        2 => format!("refs/namespaces/n/refs/namespaces/m/{name}"),
        3 if !sound => format!("{name}.lock"),
        _ => name.to_string(),
    }
}

fn content(dice: &mut Dice) -> String {
    let target = dice.of(&NAMES);
    match dice.below(16) {
        0 => format!("ref: {}\n", held(dice, true)),
        1 => "ref: refs/heads/.invalid".to_string(),
        2 => "ref: refs//x".to_string(),
        3 => format!("{:040x}a", 5),
        4 => String::new(),
        5 => format!("{:040X}z", 0xABCDEF),
        6..=12 => format!("ref:  {target}\r\n"),
        _ => format!("{:040x}\n", dice.bits()),
    }
}

fn entry(dice: &mut Dice, packed: bool, name: &[u8]) -> [u8; BLOCK] {
    match (packed, dice.below(20)) {
        (true, 0..=5) => block(4, name, format!("{:040x}{:040X}", dice.bits(), dice.bits()).as_bytes()),
        (true, _) => block(4, name, format!("{:040X}", dice.bits()).as_bytes()),
        (false, 0) => block(2, name, b""),
        _ => block(1, name, content(dice).as_bytes()),
    }
}

/// Sound blocks by names that rise, and where they are loose a chain of symbolic references, which may lead back.
pub fn sound(dice: &mut Dice, packed: bool) -> Vec<[u8; BLOCK]> {
    let names: BTreeSet<String> = (0..dice.below(14)).map(|_| held(dice, packed)).collect();
    let mut blocks = BTreeMap::new();
    for name in names {
        let b = entry(dice, packed, name.as_bytes());
        blocks.insert(name, b);
    }
    if !packed {
        let links = dice.below(8);
        let back = dice.percent(20);
        for k in 0..links {
            let name = format!("refs/c/{k}");
            let next = if back && k + 1 == links { 0 } else { k + 1 };
            blocks.insert(name.clone(), block(1, name.as_bytes(), format!("ref: refs/c/{next}").as_bytes()));
        }
    }
    blocks.into_values().collect()
}

/// A region, mostly fit for search: now and then an error entry, a damaged block or names that do not rise, and rarely a wrong size.
pub fn region(dice: &mut Dice, packed: bool) -> Vec<u8> {
    let mut r = sound(dice, packed);
    let k = dice.below(r.len().max(1));
    match dice.below(60) {
        0 => r.insert(k, block(if packed { 5 } else { 3 }, b"", b"")),
        1 if !r.is_empty() => r[k][300] ^= 1,
        2 => r.reverse(),
        _ => {}
    }
    let mut bytes = r.concat();
    match dice.below(400) {
        0 | 1 => bytes.push(0),
        2 => bytes.resize(4097 * BLOCK, 0),
        _ => {}
    }
    bytes
}

/// A name to search for.
pub fn sought(dice: &mut Dice) -> Vec<u8> {
    match dice.below(40) {
        0 => b"a..b".to_vec(),
        1 => vec![b'a'; 251],
        2 => vec![b'a'; 247],
        3 => b"nowhere".to_vec(),
        4..=6 => b"c/0".to_vec(),
        _ => dice.of(&NAMES).as_bytes().to_vec(),
    }
}

/// A namespace to search in, now and then refused 3, 4 or 5.
pub fn space(dice: &mut Dice) -> Vec<u8> {
    match dice.below(20) {
        0 => b"a..b".to_vec(),
        1 => ["component"; 12].join("/").into_bytes(),
        2 => vec![b'n'; 251],
        3..=9 => b"n/m".to_vec(),
        _ => b"n".to_vec(),
    }
}
