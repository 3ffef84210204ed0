//! Regions: sound ones, sound ones with changes, and arbitrary bytes.
use crate::memory::Content;
use crate::tally::Tally;
use harness::blocks::{block, seal, BLOCK};
use harness::dice::Dice;
use harness::small;

pub const MOST_BLOCKS: usize = 4096;

/// The largest region that is ever fed.
pub const LARGEST: usize = (MOST_BLOCKS + 4) * BLOCK;

/// Where name, content, its ids and the sum begin or end.
const EDGES: [usize; 12] = [7, 257, 258, 259, 297, 298, 299, 337, 338, 507, 508, 511];

/// A place in a block, mostly in its header or near an edge.
fn place(dice: &mut Dice) -> usize {
    match dice.below(6) {
        0 => dice.below(4),
        1 => dice.below(8),
        2 => 8 + dice.below(24),
        3 => EDGES[dice.below(EDGES.len())],
        4 => 258 + dice.below(90),
        _ => dice.below(BLOCK),
    }
}

/// Changes up to four bytes, in single bits or at large, and puts the sums right or leaves them.
fn change(dice: &mut Dice, region: &mut [u8], sums: bool) {
    let count = region.len() / BLOCK;
    for _ in 0..count.min(1 + dice.below(4)) {
        let b = &mut region[BLOCK * dice.below(count)..][..BLOCK];
        let at = place(dice);
        b[at] = match dice.below(4) {
            0 => dice.byte(),
            1 => b[at].wrapping_add(1),
            2 => b"/.\0\n ~A9f"[dice.below(9)],
            _ => b[at] ^ (1 << dice.below(8)),
        };
        if sums {
            seal(b);
        }
    }
}

/// Arbitrary bytes in the shape of a block: some kind, some lengths, zeros behind, the sum right.
fn shaped(dice: &mut Dice) -> [u8; BLOCK] {
    let length = |dice: &mut Dice| if dice.percent(10) { 244 + dice.below(12) } else { dice.below(100) };
    let (name, content) = (length(dice), length(dice));
    let mut b = [0; BLOCK];
    b[0] = dice.below(7) as u8;
    b[1] = name as u8;
    b[2] = if dice.percent(40) { 40 * (1 + dice.below(2)) as u8 } else { content as u8 };
    dice.fill(&mut b[8..8 + name.min(250)]);
    let content = &mut b[258..258 + content.min(250)];
    match dice.below(3) {
        0 => dice.fill(content),
        1 => content.iter_mut().for_each(|c| *c = b"0123456789abcdefABCDEF"[dice.below(22)]),
        _ => content.iter_mut().zip(b"ref: refs/heads/\x7F\0\nabcdefghijklmnopqrstuvwxyz").for_each(|(c, s)| *c = *s),
    }
    seal(&mut b);
    b
}

/// Sound blocks with an error entry among them, or two blocks in the wrong order, or one twice.
fn disordered(dice: &mut Dice, packed: bool) -> Vec<u8> {
    let mut r = small::sound(dice, packed);
    let count = r.len();
    match dice.below(3) {
        0 => r.insert(dice.below(count + 1), block(if packed { 5 } else { 3 }, b"", b"")),
        1 if count > 0 => r.push(r[dice.below(count)]),
        _ if count > 0 => r.swap(dice.below(count), dice.below(count)),
        _ => {}
    }
    r.concat()
}

/// Sound blocks cut or made longer by less than a block.
fn wrong_size(dice: &mut Dice, packed: bool) -> Vec<u8> {
    let mut r = small::sound(dice, packed).concat();
    let part = 1 + dice.below(BLOCK - 1);
    let length = if r.is_empty() || dice.percent(50) { r.len() + part } else { r.len() - part };
    r.resize(length, dice.byte());
    r
}

fn arbitrary(dice: &mut Dice) -> Vec<u8> {
    let count = dice.below(6);
    dice.bytes(count * BLOCK)
}

fn large(dice: &mut Dice) -> (&'static str, Content) {
    match dice.below(3) {
        0 => ("4,096 blocks of what was there", Content::Whatever(MOST_BLOCKS * BLOCK)),
        1 => ("over 4,096 blocks, no whole number of them", Content::Whatever(LARGEST - 1 - dice.below(511))),
        _ => ("over 4,096 blocks", Content::Whatever(LARGEST - BLOCK * dice.below(4))),
    }
}

fn any(dice: &mut Dice, packed: bool) -> (&'static str, Vec<u8>) {
    match dice.below(100) {
        0..=24 => ("sound", small::sound(dice, packed).concat()),
        25..=49 => {
            let mut r = small::sound(dice, packed).concat();
            change(dice, &mut r, true);
            ("sound with bytes changed, sums put right", r)
        }
        50..=59 => {
            let mut r = small::sound(dice, packed).concat();
            change(dice, &mut r, false);
            ("sound with bytes changed, sums as they were", r)
        }
        60..=67 => ("arbitrary bytes, whole blocks", arbitrary(dice)),
        68..=77 => ("arbitrary bytes in a block's shape", (0..1 + dice.below(5)).flat_map(|_| shaped(dice)).collect()),
        78..=89 => ("sound but for an error entry or the order", disordered(dice, packed)),
        90..=93 => ("wrong size", wrong_size(dice, packed)),
        _ => ("empty", Vec::new()),
    }
}

/// A region: sound where the snapshot is to be fit for search, and rarely a large one.
pub fn region(dice: &mut Dice, packed: bool, fit: bool, tally: &mut Tally) -> Content {
    let (kind, content) = match dice.below(1000) {
        0 => large(dice),
        _ if fit => ("sound", Content::Bytes(small::sound(dice, packed).concat())),
        _ => {
            let (kind, bytes) = any(dice, packed);
            (kind, Content::Bytes(bytes))
        }
    };
    tally.fed("region", kind);
    content
}
