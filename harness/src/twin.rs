//! What build.rs makes of the sources of capi_c and of the crates below it.
#![allow(unused, clippy::all)]

include!(concat!(env!("OUT_DIR"), "/twin.rs"));

use crate::{Regions, Space};

pub fn find(r: &Regions, n: &[u8], e: &Space, out: &mut [u8]) -> u32 {
    cosvint_find(r.worktree, r.common, r.has_common, r.packed, n, e.name, e.given, out)
}

pub fn follow(r: &Regions, n: &[u8], e: &Space, out: &mut [u8]) -> u32 {
    cosvint_follow(r.worktree, r.common, r.has_common, r.packed, n, e.name, e.given, out)
}

pub fn fitness(r: &Regions, out: &mut [u8]) -> u32 {
    cosvint_fitness(r.worktree, r.common, r.has_common, r.packed, out)
}

pub fn list_open(r: &Regions, e: &Space, state: &mut [u8]) -> u32 {
    cosvint_list_open(r.worktree, r.common, r.has_common, r.packed, e.name, e.given, state)
}

pub fn list_step(r: &Regions, state: &mut [u8], out: &mut [u8]) -> u32 {
    cosvint_list_step(r.worktree, r.common, r.has_common, r.packed, state, out)
}

pub fn partial_name(n: &[u8]) -> u32 {
    cosvint_partial_name(n)
}

pub fn full_name(n: &[u8]) -> u32 {
    cosvint_full_name(n)
}

pub fn namespace(e: &[u8]) -> u32 {
    cosvint_namespace(e)
}
