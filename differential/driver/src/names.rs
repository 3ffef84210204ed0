//! Generated names: few parts, so that equal names, clashes and cycles are frequent.
use crate::{
    rng::Rng,
    snapshot::{Bytes, LIMIT},
};

const PARTS: [&str; 24] = [
    "a", "a", "a", "b", "b", "b", "c", "x", "x", "o", "m", "HEAD", "HEAD", "refs", "heads", "tags", "A", "a-b", "a.b",
    "a0", "@", "\u{e9}", "w", "a.",
];
const BAD_PARTS: [&str; 20] = [
    "a.lock", ".a", "a..b", "a b", "a~", "a^", "a:", "a?", "a*", "a[", "a\\", "@{", "a@{b", "\u{1}", "\u{7f}", ".lock",
    "a.", "a\n", "..a", "a\t",
];
const SHARED: [&str; 12] = [
    "refs/heads/",
    "refs/heads/",
    "refs/heads/",
    "refs/tags/",
    "refs/tags/",
    "refs/remotes/",
    "refs/remotes/o/",
    "refs/notes/",
    "refs/",
    "refs/",
    "refs/heads/refs/",
    "refs/namespaces/",
];
const PRIVATE: [&str; 4] = ["refs/bisect/", "refs/bisect/", "refs/worktree/", "refs/rewritten/"];
const PSEUDO: [&str; 6] = ["HEAD", "HEAD", "FOO", "A", "_", "A_B"];
const ODD: [&str; 24] = [
    "tags/",
    "heads/",
    "remotes/",
    "remotes/o/",
    "tags/refs/heads/",
    "tags/refs/",
    "heads/refs/",
    "heads/refs/heads/",
    "remotes/refs/",
    "remotes/refs/heads/",
    "main-worktree/",
    "main-worktree/refs/heads/",
    "main-worktree/refs/bisect/",
    "main-worktree/refs/",
    "worktrees/w/",
    "worktrees/w/refs/heads/",
    "worktrees/w/refs/bisect/",
    "worktrees/w/refs/worktree/",
    "worktrees/v/refs/rewritten/",
    "worktrees/v/refs/",
    "worktrees/",
    "tags/worktrees/w/",
    "remotes/main-worktree/",
    "refs/refs/",
];

pub fn part(rng: &mut Rng) -> &'static [u8] {
    rng.pick(&PARTS).as_bytes()
}

pub fn bad_part(rng: &mut Rng) -> &'static [u8] {
    rng.pick(&BAD_PARTS).as_bytes()
}

fn parts(rng: &mut Rng) -> Bytes {
    let mut name = part(rng).to_vec();
    while rng.percent(25) {
        name.push(b'/');
        name.extend(part(rng));
    }
    name
}

/// A name of any region; well formed, or nearly always.
pub fn any(rng: &mut Rng) -> Bytes {
    let dir = match rng.below(20) {
        0..=9 => rng.pick(&SHARED),
        10..=12 => rng.pick(&PRIVATE),
        13..=15 => return rng.pick(&PSEUDO).into(),
        _ => match rng.pick(&ODD) {
            dir @ ("main-worktree/" | "worktrees/w/") => return [dir, rng.pick(&PSEUDO)].concat().into(),
            dir => dir,
        },
    };
    let mut name = [dir.as_bytes(), &parts(rng)].concat();
    if rng.percent(3) {
        // Near the limit, alone or with a namespace or a worktree in front.
        name.resize(200 + rng.below(LIMIT - 195), b'y');
    }
    name
}

/// A name that a loose region may hold, malformed ones among them.
pub fn held(rng: &mut Rng, expansion: &[u8]) -> Bytes {
    let mut name = any(rng);
    if rng.percent(7) {
        let slash = name.iter().rposition(|b| *b == b'/').map_or(0, |i| i + 1);
        name.truncate(slash);
        name.extend(bad_part(rng));
        if rng.percent(40) {
            name.push(b'/');
            name.extend(part(rng));
        }
    }
    inside(rng, expansion, name)
}

/// Put a name into the namespace, mostly; sometimes twice over.
pub fn inside(rng: &mut Rng, expansion: &[u8], name: Bytes) -> Bytes {
    if expansion.is_empty() {
        return name;
    }
    match rng.below(10) {
        0 => [expansion, expansion, &name].concat(),
        1..=7 => [expansion, &name].concat(),
        _ => name,
    }
}

/// A namespace, not expanded; now and then malformed or too long.
pub fn namespace(rng: &mut Rng) -> Bytes {
    match rng.below(40) {
        0 => bad_part(rng).to_vec(),
        1 => [b'n'].repeat([234, 235, 250, 251][rng.below(4)]),
        2 => b"n/n/n/n/n/n/n/n/n/n/n/n/n/n".to_vec(),
        3..=8 => b"n/m".to_vec(),
        9..=12 => b"refs/heads".to_vec(),
        _ => b"n".to_vec(),
    }
}

/// A name to ask for, made from one that is held.
pub fn asked(rng: &mut Rng, held: &[u8], expansion: &[u8]) -> Bytes {
    let mut name = held;
    while !expansion.is_empty() && name.starts_with(expansion) && rng.percent(85) {
        name = &name[expansion.len()..];
    }
    for before in [&b"main-worktree/"[..], b"worktrees/w/", b"worktrees/v/"] {
        name = name.strip_prefix(before).filter(|_| rng.percent(30)).unwrap_or(name);
    }
    match rng.below(22) {
        0..=7 => name.to_vec(),
        8 | 9 => after(name, 1),
        10..=12 => after(name, 2),
        13 => [b"main-worktree/", name].concat(),
        14 => [b"worktrees/w/", name].concat(),
        15 => [b"worktrees/v/", name].concat(),
        16 => [name, b"/", part(rng)].concat(),
        17 => name[..name.iter().rposition(|b| *b == b'/').unwrap_or(name.len())].to_vec(),
        18 => after(name.strip_suffix(b"/HEAD").unwrap_or(name), 2),
        19 => after(name, 3),
        20 => [name, rng.pick(&[".lock", "/", ".", "~", "/.a", "//a", "@{"]).as_bytes()].concat(),
        _ => any(rng),
    }
}

/// What follows the first `n` slashes, or the name.
fn after(name: &[u8], n: usize) -> Bytes {
    let mut rest = name;
    for _ in 0..n {
        match rest.iter().position(|b| *b == b'/') {
            Some(slash) => rest = &rest[slash + 1..],
            None => return name.to_vec(),
        }
    }
    rest.to_vec()
}

/// Bytes that are often equal to others, or begin them.
pub fn near(rng: &mut Rng, other: &[u8]) -> Bytes {
    match rng.below(4) {
        0 => other.to_vec(),
        1 => other[..rng.below(other.len() + 1)].to_vec(),
        2 => [other, &bytes(rng)].concat(),
        _ => bytes(rng),
    }
}

const TOKENS: [&str; 34] = [
    "refs/",
    "refs/",
    "heads/",
    "tags/",
    "remotes/",
    "notes/",
    "bisect/",
    "worktree/",
    "rewritten/",
    "main-worktree/",
    "worktrees/",
    "worktrees/",
    "w/",
    "HEAD",
    "HEAD",
    "A_B",
    "a",
    "a",
    "b",
    "/",
    ".",
    "..",
    "@",
    "@{",
    ".lock",
    "A",
    "_",
    "namespaces/",
    " ",
    "\u{e9}",
    "-",
    "refs/heads/",
    "refs/namespaces/n/",
    "Z9",
];

/// Any bytes, made of tokens that mean something.
pub fn bytes(rng: &mut Rng) -> Bytes {
    let mut out: Bytes = (0..rng.below(6)).flat_map(|_| rng.pick(&TOKENS).bytes()).collect();
    match rng.below(40) {
        0 => out.extend([b'y'].repeat(rng.below(2 * LIMIT))),
        1 => out.push(rng.below(256) as u8),
        2 if !out.is_empty() => {
            let at = rng.below(out.len());
            out[at] = rng.below(256) as u8;
        }
        _ => {}
    }
    out
}
