//! The checks of names. Those of gix-ref are left out: they come from a stand-in for gix-validate, which is our own.
use crate::disc::Readers;
use crate::measure::{answers, best, times_heading, times_row, Way, Ways};
use crate::natural;
use harness::{PROVED, TWIN};
use std::ffi::CStr;
use std::hint::black_box;

/// Names as they occur, and near misses; each is a full name or none by everybody's rules.
const FULL: [&CStr; 8] = [
    c"HEAD", c"refs/heads/main", c"refs/remotes/origin/HEAD", c"refs/tags/v1.2.3-rc.1", c"refs/heads/feature/topic-000002",
    c"refs/heads/a..b", c"refs/heads/team/project/some-rather-long-branch-name.lock", c"refs/heads/with space",
];

const SPACES: [&CStr; 4] = [c"n", c"team/project", c"a/b/c/d", c"bad..one"];

type Check = fn(&[u8]) -> u32;

/// How many of the names pass.
fn passed(names: &[&CStr], passes: impl Fn(&CStr) -> bool) -> u64 {
    names.iter().filter(|n| passes(black_box(n))).count() as u64
}

fn row(what: &str, names: &[&CStr], checks: [Check; 3], libgit2: Option<&dyn Fn(&CStr) -> bool>) {
    let [p, t, n] = checks.map(|check| Some(Box::new(move || passed(names, |n| check(n.to_bytes()) == 0)) as Way));
    let g = libgit2.map(|valid| Box::new(move || passed(names, valid)) as Way);
    let ways: Ways = [p, t, n, None, g];
    let passed: Vec<u64> = answers(&ways).into_iter().flatten().collect();
    assert!(passed.iter().all(|n| *n == passed[0]), "{what}: {passed:?} pass");
    times_row(what, names.len() as f64, &best(100, &ways));
}

fn number(checked: Result<(), u32>) -> u32 {
    checked.err().unwrap_or(0)
}

pub fn measure(readers: &Readers) {
    times_heading("names, ns each");
    row("partial name", &FULL, [PROVED.partial_name, TWIN.partial_name, |n| number(natural::partial_name(n))], None);
    let valid = readers.libgit2().map(|git| move |n: &CStr| git.is_valid(n));
    let valid = valid.as_ref().map(|v| v as &dyn Fn(&CStr) -> bool);
    row("full name", &FULL, [PROVED.full_name, TWIN.full_name, |n| number(natural::full_name(n))], valid);
    row("namespace", &SPACES, [PROVED.namespace, TWIN.namespace, |n| number(natural::namespace(n))], None);
}
