//! The calls of `include/cosvint.h`, which says what each promises and demands, and all the unsafe code of this crate.
//!
//! The `cosvint_` functions are for callers who keep the outputs themselves; others need nothing of this module.
//!
//! # Safety
//!
//! Each pointer must be valid for the size behind it, and not null even where that is 0; an output may not overlap any other
//! argument. Nothing else is asked: any bytes may be lent.
use crate::Snapshot;
use std::mem::offset_of;
use std::ptr;

/// Bytes of the longest name, namespace and expansion.
pub const LONGEST_NAME: usize = 250;
/// Digits of an object's id.
pub const ID_DIGITS: usize = 40;
/// Bytes of an answer.
pub const ANSWER_SIZE: usize = 636;
/// Bytes of a listing's state.
pub const STATE_SIZE: usize = 290;

/// Done: found, reached, fit, opened or accepted.
pub const DONE: u64 = 0;
/// Not there, or ended.
pub const NOTHING: u64 = 100;
/// An output is too short; nothing is written.
pub const TOO_SHORT: u64 = 101;

/// [`Answer::region`]: worktree.
pub const WORKTREE: u64 = 1;
/// [`Answer::region`]: common.
pub const COMMON: u64 = 2;
/// [`Answer::region`]: packed.
pub const PACKED: u64 = 3;

/// [`Answer::kind`]: no reference is here.
pub const NONE: u64 = 0;
/// [`Answer::kind`]: the target is an object.
pub const OBJECT: u64 = 1;
/// [`Answer::kind`]: the target is another reference.
pub const SYMBOLIC: u64 = 2;

/// The record that a call writes to `out`, its first [`ANSWER_SIZE`] bytes.
#[repr(C)]
#[derive(Clone, Debug, PartialEq, Eq)]
pub struct Answer {
    /// As answered by the call.
    pub number: u64,
    /// Of refusals 6 to 8, but for a listing's; else 0.
    pub region: u64,
    /// Of the same: the block's number from 0; else 0.
    pub block: u64,
    /// What the reference leads to.
    pub kind: u64,
    /// 1 where a peeled id is there.
    pub has_peeled: u64,
    /// Bytes of the name.
    pub name_length: u64,
    /// Bytes of a symbolic target, else 0.
    pub target_length: u64,
    /// Digits of an object target, else zeros.
    pub id: [u8; ID_DIGITS],
    /// Digits of the peeled id, else zeros.
    pub peeled: [u8; ID_DIGITS],
    /// The name, zeros behind it.
    pub name: [u8; LONGEST_NAME],
    /// The symbolic target, zeros behind it.
    pub target: [u8; LONGEST_NAME],
}

// The record has no gap, so that its bytes are those of the fields.
const _: () = assert!(offset_of!(Answer, target) + LONGEST_NAME == ANSWER_SIZE);

impl Answer {
    /// All zero but the number.
    pub(crate) const fn numbered(number: u32) -> Self {
        Answer {
            number: number as u64,
            region: 0,
            block: 0,
            kind: NONE,
            has_peeled: 0,
            name_length: 0,
            target_length: 0,
            id: [0; ID_DIGITS],
            peeled: [0; ID_DIGITS],
            name: [0; LONGEST_NAME],
            target: [0; LONGEST_NAME],
        }
    }
}

#[rustfmt::skip]
extern "C" {
    /// Search for a partial name: 0, 1 to 12, 100, 101.
    pub fn cosvint_find(
        worktree: *const u8, worktree_size: usize, common: *const u8, common_size: usize, has_common: bool,
        packed: *const u8, packed_size: usize, name: *const u8, name_length: usize,
        namespace: *const u8, namespace_length: usize, has_namespace: bool, out: *mut u8, out_size: usize,
    ) -> u32;

    /// Follow a partial name to an id: 0, 1 to 15, 100, 101.
    pub fn cosvint_follow(
        worktree: *const u8, worktree_size: usize, common: *const u8, common_size: usize, has_common: bool,
        packed: *const u8, packed_size: usize, name: *const u8, name_length: usize,
        namespace: *const u8, namespace_length: usize, has_namespace: bool, out: *mut u8, out_size: usize,
    ) -> u32;

    /// Is a snapshot fit for search? 0, 1, 2, 6 to 8, 101.
    pub fn cosvint_fitness(
        worktree: *const u8, worktree_size: usize, common: *const u8, common_size: usize, has_common: bool,
        packed: *const u8, packed_size: usize, out: *mut u8, out_size: usize,
    ) -> u32;

    /// Open a listing: 0, 1 to 5, 101.
    pub fn cosvint_list_open(
        worktree: *const u8, worktree_size: usize, common: *const u8, common_size: usize, has_common: bool,
        packed: *const u8, packed_size: usize, namespace: *const u8, namespace_length: usize, has_namespace: bool,
        state: *mut u8, state_size: usize,
    ) -> u32;

    /// One step of a listing: 0, 1, 2, 6, 7, 9 to 12, 100, 101.
    pub fn cosvint_list_step(
        worktree: *const u8, worktree_size: usize, common: *const u8, common_size: usize, has_common: bool,
        packed: *const u8, packed_size: usize, state: *mut u8, state_size: usize, out: *mut u8, out_size: usize,
    ) -> u32;

    /// Check a partial name: 0, 3, 4.
    pub fn cosvint_partial_name(name: *const u8, name_length: usize) -> u32;

    /// Check a full name: 0, 3, 4.
    pub fn cosvint_full_name(name: *const u8, name_length: usize) -> u32;

    /// Check a namespace: 0, 3 to 5.
    pub fn cosvint_namespace(namespace: *const u8, namespace_length: usize) -> u32;
}

/// The archive broke the promises of `include/cosvint.h`.
#[cold]
pub(crate) fn foreign(what: &str) -> ! {
    panic!("libcapi.a {what}: it is not the archive that this crate was made for")
}

/// The answer that a call wrote by means of a pointer to [`ANSWER_SIZE`] bytes.
fn answered(call: impl FnOnce(*mut u8) -> u32) -> Answer {
    let mut answer = Answer::numbered(TOO_SHORT as u32); // which stays where nothing is written
    let number = call(ptr::from_mut(&mut answer).cast());
    if u64::from(number) != answer.number {
        foreign("answers one number and writes another");
    }
    answer
}

/// What [`cosvint_find`] and [`cosvint_follow`] are.
#[rustfmt::skip]
pub type Search = unsafe extern "C" fn(*const u8, usize, *const u8, usize, bool, *const u8, usize,
    *const u8, usize, *const u8, usize, bool, *mut u8, usize) -> u32;

/// `call` is one of these two.
#[rustfmt::skip]
fn search(call: Search, s: &Snapshot<'_>, name: &[u8], namespace: Option<&[u8]>) -> Answer {
    let (w, c, p, e) = (s.worktree, s.common.unwrap_or(&[]), s.packed, namespace.unwrap_or(&[]));
    // SAFETY: the inputs are slices, so their pointers are not null and valid for the sizes beside them. `out` is valid for
    // ANSWER_SIZE bytes, in which any bytes are an Answer, and being of a local variable it overlaps no input.
    answered(|out| unsafe {
        call(w.as_ptr(), w.len(), c.as_ptr(), c.len(), s.common.is_some(), p.as_ptr(), p.len(),
            name.as_ptr(), name.len(), e.as_ptr(), e.len(), namespace.is_some(), out, ANSWER_SIZE)
    })
}

pub(crate) fn find(s: &Snapshot<'_>, name: &[u8], namespace: Option<&[u8]>) -> Answer {
    search(cosvint_find, s, name, namespace)
}

pub(crate) fn follow(s: &Snapshot<'_>, name: &[u8], namespace: Option<&[u8]>) -> Answer {
    search(cosvint_follow, s, name, namespace)
}

#[rustfmt::skip]
pub(crate) fn fitness(s: &Snapshot<'_>) -> Answer {
    let (w, c, p) = (s.worktree, s.common.unwrap_or(&[]), s.packed);
    // SAFETY: as in `search`.
    answered(|out| unsafe {
        cosvint_fitness(w.as_ptr(), w.len(), c.as_ptr(), c.len(), s.common.is_some(), p.as_ptr(), p.len(),
            out, ANSWER_SIZE)
    })
}

/// Where this answers another number than [`DONE`], the state is left as it was.
#[rustfmt::skip]
pub(crate) fn list_open(s: &Snapshot<'_>, namespace: Option<&[u8]>, state: &mut [u8; STATE_SIZE]) -> Answer {
    let (w, c, p, e) = (s.worktree, s.common.unwrap_or(&[]), s.packed, namespace.unwrap_or(&[]));
    // SAFETY: as in `search`; `state` is borrowed to be written to, so it is valid for its size and overlaps nothing.
    Answer::numbered(unsafe {
        cosvint_list_open(w.as_ptr(), w.len(), c.as_ptr(), c.len(), s.common.is_some(), p.as_ptr(), p.len(),
            e.as_ptr(), e.len(), namespace.is_some(), state.as_mut_ptr(), state.len())
    })
}

#[rustfmt::skip]
pub(crate) fn list_step(s: &Snapshot<'_>, state: &mut [u8; STATE_SIZE]) -> Answer {
    let (w, c, p) = (s.worktree, s.common.unwrap_or(&[]), s.packed);
    // SAFETY: as in `search` and in `list_open`.
    answered(|out| unsafe {
        cosvint_list_step(w.as_ptr(), w.len(), c.as_ptr(), c.len(), s.common.is_some(), p.as_ptr(), p.len(),
            state.as_mut_ptr(), state.len(), out, ANSWER_SIZE)
    })
}

pub(crate) fn partial_name(name: &[u8]) -> Answer {
    // SAFETY: a slice's pointer is not null and valid for its size.
    Answer::numbered(unsafe { cosvint_partial_name(name.as_ptr(), name.len()) })
}

pub(crate) fn full_name(name: &[u8]) -> Answer {
    // SAFETY: as in `partial_name`.
    Answer::numbered(unsafe { cosvint_full_name(name.as_ptr(), name.len()) })
}

pub(crate) fn namespace(namespace: &[u8]) -> Answer {
    // SAFETY: as in `partial_name`.
    Answer::numbered(unsafe { cosvint_namespace(namespace.as_ptr(), namespace.len()) })
}
