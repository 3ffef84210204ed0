//! Each name of a listing sought whole. That search gives what the listing showed is proved of the reader
//! (crates/claims/specs/ListSearch.antt); here it is tested of the Rust, and of `replay`.
use std::{collections::BTreeMap, io, path::Path};

use gix_ref::{bstr::ByteSlice, log as inside};
use gix_validate::reference::well_formed;

use crate::{
    blocks,
    claims::{self, Blocks, held, is_flat},
    compare::{self, Asked, Counts, Difference},
    generate::{self, Style},
    replay::Replay,
    rng::Rng,
    shrink,
    snapshot::{Bytes, Case, Group, Question, Snapshot},
};

const STYLE: Style = Style { blocks: 8, names: 0, namespaces: 0, odd: 100 };
const SNAPSHOTS_A_BATCH: u64 = 26;
/// The runs over pairs count down from the largest number, these from here.
const STREAM: u64 = u64::MAX / 2;

#[derive(Default)]
struct Tally {
    snapshots: u64,
    names: u64,
    refused: u64,
    /// Generated, but against the premises.
    thrown_away: u64,
}

impl claims::Tally for Tally {
    fn subjects(&self) -> u64 {
        self.snapshots
    }

    fn add(&mut self, more: Self) {
        self.snapshots += more.snapshots;
        self.names += more.names;
        self.refused += more.refused;
        self.thrown_away += more.thrown_away;
    }
}

/// Ask about all snapshots; gives the report's line, or the first difference.
pub fn run(scratch: &Path, replay: &Replay, seed: u64, count: u64) -> io::Result<Result<String, String>> {
    let all = claims::rounds(scratch, seed, STREAM, count, |dir, rng| batch(dir, replay, rng))?;
    Ok(all.map(|Tally { snapshots, names, refused, thrown_away }| {
        let counts = format!("{snapshots} snapshots, {names} listed names sought, {refused} of them refused");
        format!("list and search: {counts}, all alike ({thrown_away} snapshots thrown away)")
    }))
}

fn batch(dir: &Path, replay: &Replay, rng: &mut Rng) -> io::Result<Result<Tally, String>> {
    let (mut tally, mut all) = (Tally::default(), Vec::new());
    while tally.snapshots < SNAPSHOTS_A_BATCH {
        let mut s = generate::case(rng, STYLE).snapshot;
        clean(rng, &mut s);
        let Some(asked) = questions(&s) else {
            tally.thrown_away += 1;
            continue;
        };
        let case = Case { snapshot: s, groups: vec![asked] };
        let asked = compare::ask_rust(dir, &case, &mut Counts::default())?;
        if let Some(d) = unlike(&case.snapshot, &asked) {
            return Ok(Err(shrink::show(&d)));
        }
        tally.snapshots += 1;
        tally.names += asked.len() as u64 - 1;
        tally.refused += asked[1..].iter().filter(|a| a.expected.lines[0].starts_with("refused")).count() as u64;
        all.push((case.snapshot, asked));
    }
    Ok(claims::as_replay(replay, &all)?.map(|()| tally))
}

/// Leave out, mostly, what is against the premises: a generated snapshot seldom meets them all.
fn clean(rng: &mut Rng, s: &mut Snapshot) {
    let (alone, mut kept) = (s.common.is_none(), Vec::<Bytes>::new());
    claims::retain(s, |region, name| {
        let may_stand = match region {
            0 => alone || is_private(name),
            1 => true,
            _ => may_be_packed(name),
        };
        let keeps = may_stand && !kept.iter().any(|other| claims::clash(other, name)) || rng.percent(1);
        kept.extend(keeps.then(|| name.clone()));
        keeps
    });
}

fn is_private(name: &[u8]) -> bool {
    inside::category_and_short_name(name.as_bstr()).is_some_and(|(category, _)| category.is_worktree_private())
}

fn may_be_packed(name: &[u8]) -> bool {
    name.starts_with(b"refs/") && !name.starts_with(b"refs/worktree/")
}

/// The premises (document 02, §14), read off the blocks.
fn may_be_sought(s: &Snapshot) -> bool {
    let held = held(s);
    let may = |name: &Bytes, [worktree, _, packed]: &Blocks| {
        (packed.is_none() || may_be_packed(name)) && (s.common.is_none() || worktree.is_none() || is_private(name))
    };
    blocks::fitness(s) == "fit" && is_flat(&held) && held.iter().all(|(name, blocks)| may(name, blocks))
}

/// The names of the blocks that a listing hands out, in its order: a refused entry's answer has none.
fn listed(s: &Snapshot) -> Vec<Bytes> {
    let shown = |name: &Bytes, [worktree, common, packed]: &Blocks| {
        let file = worktree.is_some() || common.is_some() && !is_private(name);
        packed.is_some() || file && name.starts_with(b"refs/") && well_formed(name)
    };
    let held: BTreeMap<Bytes, Blocks> = held(s);
    held.into_iter().filter(|(name, blocks)| shown(name, blocks)).map(|(name, _)| name).collect()
}

/// What is asked of a snapshot that meets the premises: the listing, and then each name of it.
pub fn questions(s: &Snapshot) -> Option<Group> {
    let names = may_be_sought(s).then(|| listed(s))?;
    let questions = [Question::List].into_iter().chain(names.into_iter().map(Question::Find)).collect();
    Some(Group { namespace: None, questions })
}

/// Of the answers to these: the first name that search answers otherwise than the listing did, or a listing of other names.
pub fn unlike(s: &Snapshot, asked: &[Asked]) -> Option<Difference> {
    let (listing, sought) = asked.split_first()?;
    let lines = &listing.expected.lines;
    let differs = |(i, a): &(usize, &Asked)| lines.get(*i).map(|l| found(l)) != a.expected.lines.first().cloned();
    let (question, rust) = match sought.iter().enumerate().find(differs) {
        Some((i, a)) => {
            let [listed, sought] =
                [lines.get(i), a.expected.lines.first()].map(|l| l.map_or("nothing", String::as_str));
            (a.question.clone(), vec![format!("listed: {listed}"), format!("sought: {sought}")])
        }
        None if lines.get(sought.len()).is_some_and(|l| l == "ended") => return None,
        None => (Question::List, lines.clone()),
    };
    Some(Difference { snapshot: s.clone(), namespace: None, question, rust, replay: Vec::new() })
}

/// A listing's line as search would say it.
fn found(line: &str) -> String {
    line.strip_prefix("ref ").map_or_else(|| line.to_owned(), |rest| format!("found {rest}"))
}
