//! The library's calls, as one table for each way to make them.
use crate::{proved, twin, Regions, Space};

/// Each answers its number; records and states are written into what is lent.
pub struct Calls {
    pub find: fn(&Regions, &[u8], &Space, &mut [u8]) -> u32,
    pub follow: fn(&Regions, &[u8], &Space, &mut [u8]) -> u32,
    pub fitness: fn(&Regions, &mut [u8]) -> u32,
    pub list_open: fn(&Regions, &Space, &mut [u8]) -> u32,
    pub list_step: fn(&Regions, &mut [u8], &mut [u8]) -> u32,
    pub partial_name: fn(&[u8]) -> u32,
    pub full_name: fn(&[u8]) -> u32,
    pub namespace: fn(&[u8]) -> u32,
}

/// The proved code, in the archive.
pub const PROVED: Calls = Calls {
    find: proved::find,
    follow: proved::follow,
    fitness: proved::fitness,
    list_open: proved::list_open,
    list_step: proved::list_step,
    partial_name: proved::partial_name,
    full_name: proved::full_name,
    namespace: proved::namespace,
};

/// The same algorithms in Rust, function by function.
pub const TWIN: Calls = Calls {
    find: twin::find,
    follow: twin::follow,
    fitness: twin::fitness,
    list_open: twin::list_open,
    list_step: twin::list_step,
    partial_name: twin::partial_name,
    full_name: twin::full_name,
    namespace: twin::namespace,
};
