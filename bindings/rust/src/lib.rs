//! Git references read from a snapshot: which commit does a reference name?
//!
//! A snapshot is three regions of 512-byte blocks, the files that `snapshot GIT_DIR FOLDER` makes of a repository. They are
//! read by the proved functions of Cosvint, in the archive `libcapi.a`; this crate hands them slices and gives what they
//! answer as Rust values.
//!
//! ```
//! use cosvint::{Error, Snapshot};
//!
//! let snapshot = Snapshot::new(b"", None, b""); // the bytes of worktree.blk, common.blk and packed.blk
//! assert_eq!(snapshot.fitness(), Ok(()));
//! assert_eq!(snapshot.find("main", None), Ok(None));
//! assert_eq!(snapshot.follow("refs/heads/..", None), Err(Error::Malformed));
//! assert_eq!(snapshot.list(None)?.count(), 0);
//! # Ok::<(), Error>(())
//! ```
//!
//! For those who come from gix-ref:
//!
//! | gix-ref | here |
//! |---|---|
//! | `file::Store::at(git_dir, ..)` | [`Snapshot::new`] over bytes that were read beforehand |
//! | `Store::namespace` | the argument `namespace` of each call, not expanded |
//! | `Store::try_find(name)` | [`Snapshot::find`] |
//! | `Store::find(name)` | [`Snapshot::find`], and `None` is what the caller makes of it |
//! | `ReferenceExt::follow_to_object` | [`Snapshot::follow`], from a name |
//! | `Store::iter()?.all()?` | [`Snapshot::list`] |
//! | `Reference`, `Target`, `ObjectId` | [`Reference`], [`Target`], [`ObjectId`] |
//! | `FullName`, `PartialName`, `Namespace` | bytes; [`full_name`], [`partial_name`] and [`namespace`] check them |
//!
//! The calls keep nothing between them, so a snapshot may be read by any number of threads.
//!
//! # Panics
//!
//! A call panics if the archive answers what `include/cosvint.h` does not allow: then it is the archive of another release.
#![deny(missing_docs, unsafe_code, unsafe_op_in_unsafe_fn)]

#[cfg(not(target_arch = "x86_64"))]
compile_error!("libcapi.a is for x86-64 only");

mod error;
#[allow(unsafe_code)]
pub mod ffi;
mod listing;
mod reference;

use std::fmt;

pub use error::{Error, Place, Region};
use ffi::Answer;
pub use listing::{Listing, State};
pub use reference::{Name, ObjectId, Reference, Target};

/// The three regions of a snapshot, lent.
#[derive(Clone, Copy, PartialEq, Eq)]
pub struct Snapshot<'a> {
    /// What is in the worktree's own directory.
    pub worktree: &'a [u8],
    /// What all worktrees share. Where there is none, search reads the worktree region in its place; an empty one has no
    /// references.
    pub common: Option<&'a [u8]>,
    /// What was in packed-refs; empty where there was no such file.
    pub packed: &'a [u8],
}

/// Where following ends.
#[derive(Clone, Debug, PartialEq, Eq)]
pub struct Followed {
    /// The id that the name leads to.
    pub id: ObjectId,
    /// The last reference reached, whose target is the id.
    pub last: Reference,
}

impl<'a> Snapshot<'a> {
    /// A snapshot of these regions. Any bytes may be lent: each call says what is wrong with them.
    pub const fn new(worktree: &'a [u8], common: Option<&'a [u8]>, packed: &'a [u8]) -> Self {
        Snapshot { worktree, common, packed }
    }

    /// Is the snapshot fit for search? Refused 1, 2 and 6 to 8.
    pub fn fitness(&self) -> Result<(), Error> {
        accepted(&ffi::fitness(self))
    }

    /// Search for a partial name as git does: `main` finds `refs/heads/main`. `None` where it is not there; refused 1 to 12.
    pub fn find(&self, name: impl AsRef<[u8]>, namespace: Option<&[u8]>) -> Result<Option<Reference>, Error> {
        found(&ffi::find(self, name.as_ref(), namespace))
    }

    /// Search for a partial name and follow symbolic references to an id. `None` where the name is not there; refused 1 to 15,
    /// 13 to 15 with the last reference reached.
    pub fn follow(&self, name: impl AsRef<[u8]>, namespace: Option<&[u8]>) -> Result<Option<Followed>, Error> {
        let last = found(&ffi::follow(self, name.as_ref(), namespace))?;
        Ok(last.map(|last| match last.target {
            Target::Object(id) => Followed { id, last },
            Target::Symbolic(_) => ffi::foreign("ends following at a symbolic reference"),
        }))
    }

    /// List all references, or those in a namespace. Refused 1 to 5; each entry may be refused by itself.
    pub fn list(&self, namespace: Option<&[u8]>) -> Result<Listing<'a>, Error> {
        let mut state = [0; State::SIZE];
        accepted(&ffi::list_open(self, namespace, &mut state))?;
        Ok(self.resume(State::from_bytes(state)))
    }

    /// Go on with a listing from a state that was kept.
    pub const fn resume(&self, state: State) -> Listing<'a> {
        Listing::new(*self, state)
    }
}

/// The sizes of the regions, in bytes.
impl fmt::Debug for Snapshot<'_> {
    fn fmt(&self, f: &mut fmt::Formatter<'_>) -> fmt::Result {
        f.debug_struct("Snapshot")
            .field("worktree", &self.worktree.len())
            .field("common", &self.common.map(<[u8]>::len))
            .field("packed", &self.packed.len())
            .finish()
    }
}

/// May this be searched for? It must be well formed and at most 250 bytes: refused 3 and 4.
pub fn partial_name(name: impl AsRef<[u8]>) -> Result<(), Error> {
    accepted(&ffi::partial_name(name.as_ref()))
}

/// Is this a complete name of at most 250 bytes, as a symbolic target must be? Refused 3 and 4.
pub fn full_name(name: impl AsRef<[u8]>) -> Result<(), Error> {
    accepted(&ffi::full_name(name.as_ref()))
}

/// Is this a namespace whose expansion fits 250 bytes? Refused 3 to 5.
pub fn namespace(namespace: impl AsRef<[u8]>) -> Result<(), Error> {
    accepted(&ffi::namespace(namespace.as_ref()))
}

fn accepted(answer: &Answer) -> Result<(), Error> {
    match answer.number {
        ffi::DONE => Ok(()),
        _ => Err(Error::of(answer)),
    }
}

fn found(answer: &Answer) -> Result<Option<Reference>, Error> {
    match answer.number {
        ffi::DONE => Ok(Some(Reference::of(answer))),
        ffi::NOTHING => Ok(None),
        _ => Err(Error::of(answer)),
    }
}
