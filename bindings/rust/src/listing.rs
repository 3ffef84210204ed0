//! Listing all references of a snapshot.
use crate::ffi::{self, STATE_SIZE};
use crate::{found, Error, Reference, Snapshot};
use std::iter::FusedIterator;

/// Where a listing stands: plain bytes, which may be stored and loaded again.
#[derive(Clone, Debug, PartialEq, Eq)]
pub struct State([u8; STATE_SIZE]);

impl State {
    /// How many bytes a state has.
    pub const SIZE: usize = STATE_SIZE;

    /// A state that was kept. Any bytes are a state (`include/cosvint.h` says which), so that none is refused.
    pub const fn from_bytes(bytes: [u8; STATE_SIZE]) -> Self {
        State(bytes)
    }

    /// The bytes to keep.
    pub const fn to_bytes(&self) -> [u8; STATE_SIZE] {
        self.0
    }
}

/// The entries of a snapshot, refused ones among them; by rising name, where the snapshot is fit for search.
///
/// An entry refused 6, 7 or 9 to 12 is an `Err`, and the listing goes on behind it. After the last entry it gives `None` for
/// ever. A step refused 1 or 2 does not move on, so that it would be refused for ever: the error is given once, then `None`.
/// That can only follow on [`Snapshot::resume`], since [`Snapshot::list`] checks the sizes.
#[derive(Clone, Debug)]
#[must_use = "a listing looks at nothing until it is stepped"]
pub struct Listing<'a> {
    snapshot: Snapshot<'a>,
    state: State,
    turned_away: bool,
}

impl<'a> Listing<'a> {
    pub(crate) const fn new(snapshot: Snapshot<'a>, state: State) -> Self {
        Listing { snapshot, state, turned_away: false }
    }

    /// Where the listing stands now, for [`Snapshot::resume`].
    pub const fn state(&self) -> &State {
        &self.state
    }
}

impl Iterator for Listing<'_> {
    type Item = Result<Reference, Error>;

    fn next(&mut self) -> Option<Self::Item> {
        if self.turned_away {
            return None;
        }
        let entry = found(&ffi::list_step(&self.snapshot, &mut self.state.0));
        self.turned_away = matches!(entry, Err(Error::NotWhole | Error::TooManyBlocks));
        entry.transpose()
    }
}

impl FusedIterator for Listing<'_> {}
