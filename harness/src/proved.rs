//! The proved code through the C boundary.
use crate::{Regions, Space};

/// The regions as seven arguments.
macro_rules! extern_calls {
    ($(fn $name:ident($($arg:ident: $type:ty),*);)*) => {
        extern "C" {
            $(fn $name(w: *const u8, wl: usize, c: *const u8, cl: usize, has_common: bool, p: *const u8, pl: usize,
                $($arg: $type),*) -> u32;)*
        }
    };
}

extern_calls! {
    fn cosvint_find(n: *const u8, nl: usize, e: *const u8, el: usize, has_namespace: bool, out: *mut u8, ol: usize);
    fn cosvint_follow(n: *const u8, nl: usize, e: *const u8, el: usize, has_namespace: bool, out: *mut u8, ol: usize);
    fn cosvint_fitness(out: *mut u8, ol: usize);
    fn cosvint_list_open(e: *const u8, el: usize, has_namespace: bool, state: *mut u8, sl: usize);
    fn cosvint_list_step(state: *mut u8, sl: usize, out: *mut u8, ol: usize);
}

extern "C" {
    fn cosvint_partial_name(n: *const u8, nl: usize) -> u32;
    fn cosvint_full_name(n: *const u8, nl: usize) -> u32;
    fn cosvint_namespace(e: *const u8, el: usize) -> u32;
}

/// A call over regions. SAFETY: what is lent are slices, so every pointer is good for its length and no output overlaps.
macro_rules! call {
    ($name:ident, $r:expr, $($arg:expr),*) => {
        unsafe {
            $name($r.worktree.as_ptr(), $r.worktree.len(), $r.common.as_ptr(), $r.common.len(), $r.has_common,
                $r.packed.as_ptr(), $r.packed.len(), $($arg),*)
        }
    };
}

pub fn find(r: &Regions, n: &[u8], e: &Space, out: &mut [u8]) -> u32 {
    call!(cosvint_find, r, n.as_ptr(), n.len(), e.name.as_ptr(), e.name.len(), e.given, out.as_mut_ptr(), out.len())
}

pub fn follow(r: &Regions, n: &[u8], e: &Space, out: &mut [u8]) -> u32 {
    call!(cosvint_follow, r, n.as_ptr(), n.len(), e.name.as_ptr(), e.name.len(), e.given, out.as_mut_ptr(), out.len())
}

pub fn fitness(r: &Regions, out: &mut [u8]) -> u32 {
    call!(cosvint_fitness, r, out.as_mut_ptr(), out.len())
}

pub fn list_open(r: &Regions, e: &Space, state: &mut [u8]) -> u32 {
    call!(cosvint_list_open, r, e.name.as_ptr(), e.name.len(), e.given, state.as_mut_ptr(), state.len())
}

pub fn list_step(r: &Regions, state: &mut [u8], out: &mut [u8]) -> u32 {
    call!(cosvint_list_step, r, state.as_mut_ptr(), state.len(), out.as_mut_ptr(), out.len())
}

pub fn partial_name(n: &[u8]) -> u32 {
    unsafe { cosvint_partial_name(n.as_ptr(), n.len()) }
}

pub fn full_name(n: &[u8]) -> u32 {
    unsafe { cosvint_full_name(n.as_ptr(), n.len()) }
}

pub fn namespace(e: &[u8]) -> u32 {
    unsafe { cosvint_namespace(e.as_ptr(), e.len()) }
}
