//! What benchmarks/ and robustness/ share: the library's calls, proved and as their twin in Rust; blocks and snapshots to ask about.
pub mod blocks;
pub mod calls;
pub mod dice;
pub mod record;
pub mod small;

mod proved;
mod twin;

pub use calls::{Calls, PROVED, TWIN};

/// The regions as the calls take them: where `has_common` is false common is absent, whatever is lent for it.
#[derive(Clone, Copy)]
pub struct Regions<'a> {
    pub worktree: &'a [u8],
    pub common: &'a [u8],
    pub has_common: bool,
    pub packed: &'a [u8],
}

/// A namespace: where it is not given, whatever is lent for it does not count.
#[derive(Clone, Copy)]
pub struct Space<'a> {
    pub name: &'a [u8],
    pub given: bool,
}

impl Space<'_> {
    pub const NONE: Space<'static> = Space { name: b"", given: false };
}
