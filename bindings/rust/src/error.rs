//! Why a call, an entry of a listing or a following is refused.
use crate::ffi::{self, Answer};
use crate::Reference;
use std::fmt;

/// A refusal, with its number in document 01's table ([`Error::number`]).
///
/// With 1 to 5 nothing was looked up. With 6 to 8 the snapshot is not fit for search, while a listing goes on behind 6 and 7.
/// With 9 to 12 one reference can't be read. With 13 to 15 following stopped at the reference that is told.
#[derive(Clone, Debug, PartialEq, Eq)]
#[non_exhaustive]
pub enum Error {
    /// 1: a region's size is not a multiple of 512 bytes.
    NotWhole,
    /// 2: a region has more than 4,096 blocks, or 40 for the programs.
    TooManyBlocks,
    /// 3: a name or a namespace is longer than 250 bytes.
    TooLong,
    /// 4: a name or a namespace is not one that git allows: malformed, or not complete where a complete one is due.
    Malformed,
    /// 5: a namespace grows to more than 250 bytes where it is written out.
    ExpansionTooLong,
    /// 6: a block is damaged: its sum, its lengths or its kind are wrong. A listing does not tell the place.
    Damaged(Option<Place>),
    /// 7: a block says that a directory or packed-refs could not be read. A listing does not tell the place.
    ErrorBlock(Option<Place>),
    /// 8: a name is not above the one before it in its region. No listing gives this.
    OutOfOrder(Option<Place>),
    /// 9: a reference's file was there and could not be read.
    Unread,
    /// 10: a reference's file holds neither an id nor `ref: ` and a name.
    Unreadable,
    /// 11: a symbolic reference names something that is no reference's name.
    IncompleteTarget,
    /// 12: the repository keeps its references in another way (reftable): its target is `refs/heads/.invalid`.
    Unsupported,
    /// 13: a symbolic reference leads to a name that is not there; this is the last reference reached.
    TargetNotFound(Box<Reference>),
    /// 14: symbolic references lead back to a name that was passed; this is the last reference reached.
    Cycle(Box<Reference>),
    /// 15: a chain of symbolic references passes five names; this is the last reference reached.
    TooDeep(Box<Reference>),
}

/// A block of a region.
#[derive(Clone, Copy, Debug, PartialEq, Eq)]
pub struct Place {
    /// The region.
    pub region: Region,
    /// The block's number, from 0.
    pub block: u64,
}

/// A region of a snapshot.
#[derive(Clone, Copy, Debug, PartialEq, Eq)]
pub enum Region {
    /// What is in the worktree's own directory.
    Worktree,
    /// What all worktrees share.
    Common,
    /// What was in packed-refs.
    Packed,
}

/// What the numbers from 1 on mean, in the words of docs/REFUSALS.md.
const MEANINGS: [&str; 15] = [
    "a region's size is not a multiple of 512 bytes",
    "a region has more than 4,096 blocks, or 40 for the programs",
    "a name or a namespace is longer than 250 bytes",
    "a name or a namespace is not one that git allows",
    "a namespace grows to more than 250 bytes where it is written out",
    "a block is damaged: its sum, its lengths or its kind are wrong",
    "a block says that a directory or packed-refs could not be read",
    "a name is not above the one before it in its region",
    "a reference's file was there and could not be read",
    "a reference's file holds neither an id nor `ref: ` and a name",
    "a symbolic reference names something that is no reference's name",
    "the repository keeps its references in another way (reftable)",
    "a symbolic reference leads to a name that is not there",
    "symbolic references lead back to a name that was passed",
    "a chain of symbolic references passes five names",
];

impl Error {
    /// The refusal that an answer holds.
    pub(crate) fn of(answer: &Answer) -> Self {
        let last = || Box::new(Reference::of(answer));
        match answer.number {
            1 => Error::NotWhole,
            2 => Error::TooManyBlocks,
            3 => Error::TooLong,
            4 => Error::Malformed,
            5 => Error::ExpansionTooLong,
            6 => Error::Damaged(Place::of(answer)),
            7 => Error::ErrorBlock(Place::of(answer)),
            8 => Error::OutOfOrder(Place::of(answer)),
            9 => Error::Unread,
            10 => Error::Unreadable,
            11 => Error::IncompleteTarget,
            12 => Error::Unsupported,
            13 => Error::TargetNotFound(last()),
            14 => Error::Cycle(last()),
            15 => Error::TooDeep(last()),
            _ => ffi::foreign("answers an unknown number"),
        }
    }

    /// The number in document 01's table, 1 to 15.
    pub const fn number(&self) -> u32 {
        match self {
            Error::NotWhole => 1,
            Error::TooManyBlocks => 2,
            Error::TooLong => 3,
            Error::Malformed => 4,
            Error::ExpansionTooLong => 5,
            Error::Damaged(_) => 6,
            Error::ErrorBlock(_) => 7,
            Error::OutOfOrder(_) => 8,
            Error::Unread => 9,
            Error::Unreadable => 10,
            Error::IncompleteTarget => 11,
            Error::Unsupported => 12,
            Error::TargetNotFound(_) => 13,
            Error::Cycle(_) => 14,
            Error::TooDeep(_) => 15,
        }
    }

    /// What the number means.
    pub const fn meaning(&self) -> &'static str {
        MEANINGS[self.number() as usize - 1]
    }

    /// The block that is to blame: of 6 to 8, where they are not an entry of a listing.
    pub const fn place(&self) -> Option<Place> {
        match self {
            Error::Damaged(place) | Error::ErrorBlock(place) | Error::OutOfOrder(place) => *place,
            _ => None,
        }
    }

    /// The last reference reached: of 13 to 15.
    pub fn last(&self) -> Option<&Reference> {
        match self {
            Error::TargetNotFound(last) | Error::Cycle(last) | Error::TooDeep(last) => Some(last),
            _ => None,
        }
    }
}

impl std::error::Error for Error {}

/// The number, what it means, and the place or the last reference reached, where there is one.
impl fmt::Display for Error {
    fn fmt(&self, f: &mut fmt::Formatter<'_>) -> fmt::Result {
        write!(f, "refused {}: {}", self.number(), self.meaning())?;
        if let Some(place) = self.place() {
            write!(f, " ({place})")?;
        }
        match self.last() {
            Some(last) => write!(f, " (last reference reached: {})", last.name),
            None => Ok(()),
        }
    }
}

impl Place {
    fn of(answer: &Answer) -> Option<Self> {
        let region = match answer.region {
            0 => return None,
            ffi::WORKTREE => Region::Worktree,
            ffi::COMMON => Region::Common,
            ffi::PACKED => Region::Packed,
            _ => ffi::foreign("answers an unknown region"),
        };
        Some(Place { region, block: answer.block })
    }
}

impl fmt::Display for Place {
    fn fmt(&self, f: &mut fmt::Formatter<'_>) -> fmt::Result {
        write!(f, "{}, block {}", self.region, self.block)
    }
}

impl fmt::Display for Region {
    fn fmt(&self, f: &mut fmt::Formatter<'_>) -> fmt::Result {
        f.write_str(match self {
            Region::Worktree => "worktree",
            Region::Common => "common",
            Region::Packed => "packed",
        })
    }
}

#[cfg(test)]
mod tests {
    use super::*;

    /// The archive of another release.
    fn refuse(number: u32, region: u64) {
        let answer = Answer { region, ..Answer::numbered(number) };
        panic!("taken for {}", Error::of(&answer));
    }

    #[test]
    #[should_panic(expected = "libcapi.a answers an unknown number")]
    fn no_error_is_made_of_an_unknown_number() {
        refuse(16, 0);
    }

    #[test]
    #[should_panic(expected = "libcapi.a answers an unknown region")]
    fn no_place_is_made_of_an_unknown_region() {
        refuse(6, 4);
    }

    #[test]
    #[should_panic(expected = "libcapi.a gives no reference where one is due")]
    fn no_reference_is_made_of_none() {
        refuse(13, 0);
    }
}
