//! The calls, what each may answer, and how it is made.
use harness::{Calls, Regions, Space};

#[derive(Clone, Copy, PartialEq, Eq, PartialOrd, Ord, Debug)]
pub enum Call {
    Find,
    Follow,
    Fitness,
    ListOpen,
    ListStep,
    PartialName,
    FullName,
    Namespace,
}

use Call::*;

/// What a call is given, outputs apart.
pub struct Given<'a> {
    pub regions: Regions<'a>,
    pub name: &'a [u8],
    pub space: Space<'a>,
}

impl Call {
    pub const ALL: [Call; 8] = [Find, Follow, Fitness, ListOpen, ListStep, PartialName, FullName, Namespace];

    pub fn word(self) -> &'static str {
        match self {
            Find => "find",
            Follow => "follow",
            Fitness => "fitness",
            ListOpen => "list_open",
            ListStep => "list_step",
            PartialName => "partial_name",
            FullName => "full_name",
            Namespace => "namespace",
        }
    }

    /// The numbers that it may answer.
    pub fn numbers(self) -> &'static [u32] {
        match self {
            Find => &[0, 1, 2, 3, 4, 5, 6, 7, 8, 9, 10, 11, 12, 100, 101],
            Follow => &[0, 1, 2, 3, 4, 5, 6, 7, 8, 9, 10, 11, 12, 13, 14, 15, 100, 101],
            Fitness => &[0, 1, 2, 6, 7, 8, 101],
            ListOpen => &[0, 1, 2, 3, 4, 5, 101],
            ListStep => &[0, 1, 2, 6, 7, 9, 10, 11, 12, 100, 101],
            PartialName | FullName => &[0, 3, 4],
            Namespace => &[0, 3, 4, 5],
        }
    }

    pub fn has_out(self) -> bool {
        matches!(self, Find | Follow | Fitness | ListStep)
    }

    pub fn has_state(self) -> bool {
        matches!(self, ListOpen | ListStep)
    }

    pub fn make(self, way: &Calls, g: &Given, state: &mut [u8], out: &mut [u8]) -> u32 {
        match self {
            Find => (way.find)(&g.regions, g.name, &g.space, out),
            Follow => (way.follow)(&g.regions, g.name, &g.space, out),
            Fitness => (way.fitness)(&g.regions, out),
            ListOpen => (way.list_open)(&g.regions, &g.space, state),
            ListStep => (way.list_step)(&g.regions, state, out),
            PartialName => (way.partial_name)(g.name),
            FullName => (way.full_name)(g.name),
            Namespace => (way.namespace)(g.name),
        }
    }
}
