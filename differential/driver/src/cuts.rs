//! Pairs of snapshots related by a cut, asked the same. That the answers are alike is proved of the reader, without a
//! namespace and in one (crates/claims/specs/Demand3.antt); here it is tested of the Rust, and of `replay`.
use std::{collections::BTreeSet, io, path::Path, slice};

use gix_validate::reference::well_formed;

use crate::{
    blocks,
    claims::{self, Blocks, held, is_flat, mentioned},
    compare::{self, Asked, Counts, Difference},
    names,
    pairs::{self, Pair},
    replay::Replay,
    rng::Rng,
    shrink,
    snapshot::{Bytes, Case, Group, Question, Snapshot},
};

/// Every second one is in a namespace.
const PAIRS_A_BATCH: u64 = 26;
/// The run's own batches count up from 0, these down from here.
const STREAM: u64 = u64::MAX;

#[derive(Default)]
struct Tally {
    pairs: u64,
    in_namespace: u64,
    answers: u64,
    /// Generated, but against the premises.
    thrown_away: u64,
}

impl claims::Tally for Tally {
    fn subjects(&self) -> u64 {
        self.pairs
    }

    fn add(&mut self, more: Self) {
        self.pairs += more.pairs;
        self.in_namespace += more.in_namespace;
        self.answers += more.answers;
        self.thrown_away += more.thrown_away;
    }
}

/// Ask about all pairs; gives the report's line, or the first difference.
pub fn run(scratch: &Path, replay: &Replay, seed: u64, count: u64) -> io::Result<Result<String, String>> {
    let all = claims::rounds(scratch, seed, STREAM, count, |dir, rng| batch(dir, replay, rng))?;
    Ok(all.map(|Tally { pairs, in_namespace, answers, thrown_away }| {
        let counts = format!("{pairs} pairs, {in_namespace} in a namespace, {answers} answers compared");
        format!("cuts: {counts}, all alike ({thrown_away} pairs thrown away)")
    }))
}

fn batch(dir: &Path, replay: &Replay, rng: &mut Rng) -> io::Result<Result<Tally, String>> {
    let (mut tally, mut all) = (Tally::default(), Vec::new());
    while tally.pairs < PAIRS_A_BATCH {
        let pair = pairs::pair(rng, tally.pairs % 2 == 1);
        if !is_cut(&pair) {
            tally.thrown_away += 1;
            continue;
        }
        let questions = questions(rng, &pair);
        let asked = ask(dir, &pair, &questions)?;
        if let Some(at) = unlike(&asked) {
            return show(dir, pair, &questions[at]).map(Err);
        }
        tally.pairs += 1;
        tally.in_namespace += u64::from(pair.namespace.is_some());
        tally.answers += questions.len() as u64;
        all.extend(pair.sides.into_iter().zip(asked));
    }
    Ok(claims::as_replay(replay, &all)?.map(|()| tally))
}

/// The listing, and following of names held and led to, of held ones stripped and shortened, and of others.
fn questions(rng: &mut Rng, p: &Pair) -> Vec<Question> {
    // Both sides mention the same names.
    let mut asked = mentioned(&p.sides[0]);
    asked.extend([b"HEAD".to_vec(), names::any(rng), names::any(rng), names::bytes(rng)]);
    for name in held(&p.sides[0]).into_keys() {
        let rest = name.strip_prefix(&p.expansion[..]).unwrap_or(&name);
        // A file `o/HEAD` may also be found as `o`.
        for name in [rest, rest.strip_suffix(b"/HEAD").unwrap_or(rest)] {
            let parts: Vec<&[u8]> = name.split(|b| *b == b'/').collect();
            asked.extend([1, 2].map(|n| parts[parts.len().saturating_sub(n)..].join(&b'/')));
        }
        asked.insert(rest.to_vec());
        asked.extend(rng.percent(30).then(|| names::asked(rng, &name, &p.expansion)));
    }
    [Question::List].into_iter().chain(asked.into_iter().map(Question::Follow)).collect()
}

/// The Rust's answers on each side.
fn ask(dir: &Path, p: &Pair, questions: &[Question]) -> io::Result<[Vec<Asked>; 2]> {
    let side = |s: &Snapshot| {
        let groups = vec![Group { namespace: p.namespace.clone(), questions: questions.to_vec() }];
        compare::ask_rust(dir, &Case { snapshot: s.clone(), groups }, &mut Counts::default())
    };
    Ok([side(&p.sides[0])?, side(&p.sides[1])?])
}

/// The first question that is not answered alike.
fn unlike([a, b]: &[Vec<Asked>; 2]) -> Option<usize> {
    let compared = |a: &Asked| a.expected.lines.iter().map(|l| compared(l)).collect::<Vec<_>>();
    a.iter().zip(b).position(|(a, b)| compared(a) != compared(b))
}

/// What demand 3 compares of an answer's line: neither a peeled id nor the last reference reached.
fn compared(line: &str) -> String {
    let words = if line.starts_with("ref ") { 4 } else { 2 };
    line.split(' ').take(words).collect::<Vec<_>>().join(" ")
}

/// Both sides for a reader, without the names that the difference does not need.
fn show(dir: &Path, mut p: Pair, q: &Question) -> io::Result<String> {
    for name in p.sides.iter().flat_map(|s| held(s).into_keys()).collect::<BTreeSet<_>>() {
        let mut smaller = p.clone();
        for s in &mut smaller.sides {
            s.worktree.retain(|e| e.name != name);
            s.common.iter_mut().for_each(|c| c.retain(|e| e.name != name));
            s.packed.iter_mut().for_each(|p| p.retain(|line| line.name() != Some(&name)));
            s.empty.clear();
        }
        if unlike(&ask(dir, &smaller, slice::from_ref(q))?).is_some() {
            p = smaller;
        }
    }
    let asked = ask(dir, &p, slice::from_ref(q))?;
    let side = |(snapshot, asked): (Snapshot, Vec<Asked>)| {
        let (namespace, rust) = (p.namespace.clone(), asked[0].expected.lines.clone());
        shrink::show(&Difference { snapshot, namespace, question: q.clone(), rust, replay: Vec::new() })
    };
    Ok(p.sides.clone().into_iter().zip(asked).map(side).collect::<Vec<_>>().join("cut differently\n"))
}

/// The premises (document 01, "Two snapshots compared", and document 02, §13), read off the blocks.
fn is_cut(p: &Pair) -> bool {
    let [a, b] = p.sides.each_ref().map(held);
    let twice = [&p.expansion[..], &p.expansion].concat();
    let once = |n: &Bytes| twice.is_empty() || !n.starts_with(&twice);
    p.sides.iter().all(|s| blocks::fitness(s) == "fit")
        && p.sides[0].common.is_some() == p.sides[1].common.is_some()
        && [&a, &b].iter().all(|h| is_flat(h) && h.keys().all(once))
        && a.keys().chain(b.keys()).all(|n| a.get(n) == b.get(n) || may_differ(p, n, a.get(n), b.get(n)))
        // Nothing would be shown by two that are the same.
        && a != b
}

fn may_differ(p: &Pair, name: &[u8], a: Option<&Blocks>, b: Option<&Blocks>) -> bool {
    let (Some(rest), Some(a), Some(b)) = (name.strip_prefix(&p.expansion[..]), a, b) else { return false };
    let shared = usize::from(p.sides[0].common.is_some());
    let private = ["refs/bisect/", "refs/worktree/", "refs/rewritten/"];
    well_formed(rest)
        && rest.starts_with(b"refs/")
        && !private.iter().any(|dir| rest.starts_with(dir.as_bytes()))
        && !rest.strip_prefix(b"refs/remotes/").is_some_and(|rest| rest.ends_with(b"/HEAD"))
        && held_id(a, shared).is_some_and(|id| held_id(b, shared) == Some(id))
        // Where search reads common, the worktree may have the name as well.
        && (shared == 0 || a[0] == b[0])
}

/// The id that a name holds: in its loose file, or packed.
fn held_id(blocks: &Blocks, shared: usize) -> Option<Bytes> {
    let digits = match (&blocks[shared], &blocks[2]) {
        (Some((1, content)), _) if !content.get(40).is_some_and(u8::is_ascii_hexdigit) => content.get(..40)?,
        (None, Some((4, ids))) => ids.get(..40)?,
        _ => return None,
    };
    digits.iter().all(u8::is_ascii_hexdigit).then(|| digits.to_ascii_lowercase())
}
