//! The text form of questions and answers, which `replay` reads and writes.
use crate::{
    blocks,
    snapshot::{Bytes, Question, Snapshot},
};

/// Lower-case hexadecimal; `-` is the empty string.
pub fn hex(bytes: &[u8]) -> String {
    if bytes.is_empty() {
        return "-".into();
    }
    let digit = |d: u8| char::from(b"0123456789abcdef"[usize::from(d)]);
    bytes.iter().flat_map(|b| [digit(b >> 4), digit(b & 15)]).collect()
}

/// As `hex`; `~` is the absent string.
pub fn hex_or_absent(bytes: Option<&Bytes>) -> String {
    bytes.map_or("~".into(), |b| hex(b))
}

/// The lines that set a snapshot.
pub fn setters(s: &Snapshot) -> String {
    let r = blocks::regions(s);
    format!(
        "worktree {}\ncommon {}\npacked {}\n",
        hex(&r.worktree),
        hex_or_absent(r.common.as_ref()),
        hex_or_absent(r.packed.as_ref())
    )
}

pub fn namespace(ns: Option<&Bytes>) -> String {
    format!("namespace {}\n", hex_or_absent(ns))
}

/// The question's line; `steps` is for a listing, `expansion` for a stripping.
pub fn question(q: &Question, steps: usize, expansion: &[u8]) -> String {
    match q {
        Question::Find(n) => format!("find {}", hex(n)),
        Question::Follow(n) => format!("follow {}", hex(n)),
        Question::List => format!("list {steps}"),
        Question::Category(n) => format!("category {}", hex(n)),
        Question::FullName { category, worktree, short } => {
            format!("fullname {category} {} {}", hex_or_absent(worktree.as_ref()), hex(short))
        }
        Question::Expand(n) => format!("expand {}", hex(n)),
        Question::Strip { name, .. } => format!("strip {} {}", hex(expansion), hex(name)),
        Question::Decode(c) => format!("decode {}", hex(c)),
        Question::Pseudo(n) => format!("pseudo {}", hex(n)),
        Question::Order(a, b) => format!("order {} {}", hex(a), hex(b)),
        Question::WellFormed(n) => format!("wellformed {}", hex(n)),
        Question::Complete(n) => format!("complete {}", hex(n)),
        Question::Fit => "fit".into(),
    }
}

/// The refusal number of an answer's line.
pub fn refusal(line: &str) -> Option<usize> {
    line.strip_prefix("refused ")?.split(' ').next()?.parse().ok()
}
