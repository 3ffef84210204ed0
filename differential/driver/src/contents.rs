//! Generated contents of loose files.
use crate::{
    names,
    rng::Rng,
    snapshot::{Bytes, LIMIT},
};

pub fn id(rng: &mut Rng) -> Bytes {
    let digits = if rng.percent(80) { b"0123456789abcdef" } else { b"0123456789aBCDeF" };
    (0..40).map(|_| digits[rng.below(16)]).collect()
}

/// What a file may hold besides a target of the snapshot.
pub fn odd_content(rng: &mut Rng) -> Bytes {
    let id = id(rng);
    match rng.below(26) {
        0 => b"".to_vec(),
        1 => b"ref:HEAD".to_vec(),
        2 => b"ref: ".to_vec(),
        3 => b"ref:   \n".to_vec(),
        4 => id[..39].to_vec(),
        5 => [&id[..], b"a"].concat(),
        6 => [&id[..], b"z"].concat(),
        7 => [&id[..39], b"g"].concat(),
        8..=10 => b"ref: refs/heads/.invalid\n".to_vec(),
        11 => b"ref: refs/heads/.invalid/a".to_vec(),
        12 => b"ref: main".to_vec(),
        13 => b"ref: refs/heads/a.lock".to_vec(),
        14 => b"ref: refs/heads/a b".to_vec(),
        15 => b"ref: HEAD ".to_vec(),
        16 => b"ref: @".to_vec(),
        17 => b"REF: HEAD".to_vec(),
        18 => b"ref:\tHEAD".to_vec(),
        19 => b" ref: HEAD".to_vec(),
        20 => [b"ref: ", &names::bytes(rng)[..]].concat(),
        21 => names::bytes(rng),
        22 => [b"\n", &id[..]].concat(),
        23 => (0..rng.below(LIMIT + 1)).map(|_| rng.below(256) as u8).collect(),
        24 => [b"ref: refs/heads/", &[b'y'].repeat(230)[..]].concat(),
        _ => [&id[..], b"\0"].concat(),
    }
}

/// A symbolic reference; `odd` in a hundred are more than the target and LF.
pub fn symbolic(rng: &mut Rng, target: &[u8], odd: usize) -> Bytes {
    if !rng.percent(odd) {
        return [b"ref: ", target, b"\n"].concat();
    }
    let before = rng.pick(&["ref: ", "ref: ", "ref: ", "ref:  ", "ref:    "]);
    let after = rng.pick(&["\n", "\n", "\n", "", "\r\n", "\0", "\0x", "\rx", "\nx y\n", " \n"]);
    let after = if after == " \n" && rng.percent(80) { "\n" } else { after };
    [before.as_bytes(), target, after.as_bytes()].concat()
}

/// An object reference, likewise.
pub fn object(rng: &mut Rng, odd: usize) -> Bytes {
    if !rng.percent(odd) {
        return [&id(rng)[..], b"\n"].concat();
    }
    let after = rng.pick(&["\n", "\n", "\n", "", "\r\n", "\0", "z", " x", "\nx"]);
    [&id(rng)[..], after.as_bytes()].concat()
}

/// A content that decodes, mostly.
pub fn good_content(rng: &mut Rng) -> Bytes {
    if rng.percent(40) {
        return object(rng, 100);
    }
    let target = names::any(rng);
    symbolic(rng, &target, 100)
}
