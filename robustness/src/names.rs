//! Names and namespaces: known ones, ones that a region holds, ones that are nearly right, and arbitrary bytes.
use crate::tally::Tally;
use harness::blocks::{name_of, BLOCK};
use harness::dice::Dice;
use harness::small;

/// The name of some block of a region, perhaps without what a search would put in front.
fn held(dice: &mut Dice, region: &[u8]) -> Vec<u8> {
    let count = region.len() / BLOCK;
    if count == 0 {
        return b"refs/heads/main".to_vec();
    }
    let name = name_of(&region[BLOCK * dice.below(count)..][..BLOCK]);
    let fronts: [&[u8]; 6] = [b"", b"refs/", b"refs/heads/", b"refs/tags/", b"refs/remotes/", b"refs/namespaces/n/"];
    name.strip_prefix(dice.of(&fronts)).unwrap_or(name).to_vec()
}

const FAULTS: [&[u8]; 16] =
    [b"..", b".lock", b"/", b"//", b"@{", b"@", b".", b"~", b"^", b":", b"\x7F", b"\0", b" ", b"*", b"\\", b"/.lock/"];

/// A name with one byte changed, left out or doubled, or with something wrong put in.
fn near(dice: &mut Dice, mut name: Vec<u8>) -> Vec<u8> {
    let at = dice.below(name.len().max(1));
    match dice.below(4) {
        _ if name.is_empty() => {}
        0 => name[at] = dice.byte(),
        1 => drop(name.remove(at)),
        2 => name.insert(at, name[at]),
        _ => drop(name.splice(at..at, dice.of(&FAULTS).iter().copied())),
    }
    name
}

/// Well-formed parts, up to so many bytes in all.
fn parts(dice: &mut Dice, front: &[u8], length: usize) -> Vec<u8> {
    let mut name = front.to_vec();
    while name.len() < length {
        let part = 1 + dice.below(40);
        name.extend((0..part).map(|_| b'a' + dice.below(26) as u8));
        name.push(b'/');
    }
    name.truncate(length);
    if name.ends_with(b"/") {
        name.pop();
        name.push(b'z');
    }
    name
}

fn arbitrary(dice: &mut Dice) -> Vec<u8> {
    let length = if dice.percent(30) { dice.below(301) } else { dice.below(9) };
    dice.bytes(length)
}

/// A name to ask for, in regions of which one is given.
pub fn name(dice: &mut Dice, region: &[u8], tally: &mut Tally) -> Vec<u8> {
    let (kind, name) = match dice.below(100) {
        0..=39 => ("known", small::sought(dice)),
        40..=69 => ("held by a region, or its end", held(dice, region)),
        70..=81 => {
            let right = if dice.percent(50) { small::sought(dice) } else { held(dice, region) };
            ("nearly right", near(dice, right))
        }
        82..=89 => {
            let front: [&[u8]; 4] = [b"", b"refs/heads/", b"refs/", b"worktrees/"];
            let (front, length) = (dice.of(&front), 240 + dice.below(21));
            ("well formed, 240 to 260 bytes", parts(dice, front, length))
        }
        _ => ("arbitrary bytes", arbitrary(dice)),
    };
    tally.fed("name", kind);
    name
}

/// A namespace, whether it counts or not.
pub fn namespace(dice: &mut Dice, tally: &mut Tally) -> Vec<u8> {
    let (kind, name) = match dice.below(100) {
        0..=79 => ("known", small::space(dice)),
        80..=84 => {
            let right = small::space(dice);
            ("nearly right", near(dice, right))
        }
        85..=89 => {
            let length = 228 + dice.below(10);
            ("one part whose expansion is about 250 bytes", vec![b'n'; length])
        }
        90..=94 => {
            let length = 1 + dice.below(256);
            ("well formed, up to 256 bytes", parts(dice, b"", length))
        }
        _ => ("arbitrary bytes", arbitrary(dice)),
    };
    tally.fed("namespace", kind);
    name
}
