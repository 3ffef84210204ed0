//! All three ways must give the same answers, whole records, on small snapshots made at random.
use crate::natural::{self, Reference, Refusal, Snapshot, Stop, Target};
use harness::blocks::{seal, BLOCK};
use harness::dice::Dice;
use harness::record::{self, Record, ANSWER_SIZE, NOTHING, STATE_SIZE};
use harness::{small, Calls, Regions, Space, PROVED, TWIN};
use std::collections::BTreeMap;

/// A reference as the calls write it.
fn of_reference(number: u32, r: &Reference) -> Record {
    match &r.target {
        Target::Id(id) => record::object(number, &r.name, id, r.peeled.as_ref()),
        Target::Name(n) => record::symbolic(number, &r.name, n),
    }
}

fn of_refusal(r: &Refusal) -> Record {
    match r.place {
        Some((region, block)) => record::unfit(r.number, region, block),
        None => record::bare(r.number),
    }
}

fn of_found(found: Result<Option<Reference>, Refusal>) -> Record {
    match found {
        Ok(Some(r)) => of_reference(0, &r),
        Ok(None) => record::bare(NOTHING),
        Err(refusal) => of_refusal(&refusal),
    }
}

fn of_followed(followed: Result<Option<Reference>, Stop>) -> Record {
    match followed {
        Err(Stop::At(number, r)) => of_reference(number, &r),
        Err(Stop::Refused(refusal)) => of_refusal(&refusal),
        Ok(found) => of_found(Ok(found)),
    }
}

/// The record that a call writes, whose number is the one that it answers.
fn written(call: impl FnOnce(&mut [u8]) -> u32) -> Record {
    let mut out = [0xA5; ANSWER_SIZE];
    let number = call(&mut out);
    assert_eq!(u64::from(number), record::at(&out, record::NUMBER), "the number answered and the one in the record");
    out
}

/// Stops the program where the answers differ; else their number.
fn same(what: impl Fn() -> String, [p, t, n]: [Record; 3]) -> u32 {
    if p != t || p != n {
        let [p, t, n] = [p, t, n].map(|r| record::shown(&r));
        eprintln!("they differ for {}\nproved  {p}\ntwin    {t}\nnatural {n}", what());
        std::process::exit(1);
    }
    record::at(&p, record::NUMBER) as u32
}

/// How often each number was answered.
#[derive(Default)]
struct Counts(BTreeMap<u32, usize>);

impl Counts {
    fn add(&mut self, number: u32) {
        *self.0.entry(number).or_default() += 1;
    }

    fn tell(&self, what: &str) {
        let all: usize = self.0.values().sum();
        let each: Vec<String> = self.0.iter().map(|(k, n)| format!("{k}: {n}")).collect();
        println!("{what}: {all} answers, all three agree ({})", each.join(", "));
    }
}

pub fn regions<'a>(s: &Snapshot<'a>) -> Regions<'a> {
    Regions { worktree: s.worktree, common: s.common.unwrap_or(&[]), has_common: s.common.is_some(), packed: s.packed }
}

fn space(namespace: Option<&[u8]>) -> Space<'_> {
    Space { name: namespace.unwrap_or(&[]), given: namespace.is_some() }
}

/// Regions with one byte changed, with the sum put right or not.
fn changed(packed: bool, q: &mut [u8], counts: &mut Counts) {
    let mut dice = Dice::new(99);
    for _ in 0..100_000 {
        let i = dice.below(q.len());
        let k = i / BLOCK * BLOCK;
        let old = q[k..k + BLOCK].to_vec();
        q[i] = dice.byte();
        if dice.percent(50) {
            seal(&mut q[k..k + BLOCK]);
        }
        let (worktree, packed) = if packed { (&[][..], &*q) } else { (&*q, &[][..]) };
        let s = &Snapshot { worktree, common: None, packed };
        let natural = natural::fitness(s).map_or_else(|refusal| of_refusal(&refusal), |()| record::bare(0));
        let [p, t] = [&PROVED, &TWIN].map(|way| written(|out| (way.fitness)(&regions(s), out)));
        counts.add(same(|| format!("fitness with byte {i} changed"), [p, t, natural]));
        q[k..k + BLOCK].copy_from_slice(&old);
    }
}

fn searches(s: &Snapshot, dice: &mut Dice, finds: &mut Counts, follows: &mut Counts) {
    let name = &small::sought(dice)[..];
    let namespace = dice.percent(30).then(|| small::space(dice));
    let namespace = namespace.as_deref();
    let (r, e) = (&regions(s), &space(namespace));
    let what = || format!("{} in {namespace:?}", String::from_utf8_lossy(name));
    let [p, t] = [&PROVED, &TWIN].map(|way| written(|out| (way.find)(r, name, e, out)));
    finds.add(same(what, [p, t, of_found(natural::find(s, name, namespace))]));
    let [p, t] = [&PROVED, &TWIN].map(|way| written(|out| (way.follow)(r, name, e, out)));
    follows.add(same(what, [p, t, of_followed(natural::follow(s, name, namespace))]));
}

/// The answers of a whole listing, or of its opening where that is refused; and the state that is left.
pub fn listed(way: &Calls, r: &Regions, e: &Space) -> (Vec<Record>, [u8; STATE_SIZE]) {
    let mut state = [0xA5; STATE_SIZE];
    let opened = (way.list_open)(r, e, &mut state);
    if opened != 0 {
        return (vec![record::bare(opened)], state);
    }
    let step = || written(|out| (way.list_step)(r, &mut state, out));
    let mut answers: Vec<Record> = std::iter::repeat_with(step).take_while(|a| *a != record::bare(NOTHING)).collect();
    answers.push(record::bare(NOTHING));
    (answers, state)
}

fn naturally_listed(s: &Snapshot, namespace: Option<&[u8]>) -> Vec<Record> {
    let listing = match natural::list(s, namespace) {
        Ok(listing) => listing,
        Err(number) => return vec![record::bare(number)],
    };
    let each = |a: Result<Reference, u32>| a.map_or_else(record::bare, |r| of_reference(0, &r));
    listing.map(each).chain([record::bare(NOTHING)]).collect()
}

fn listings(s: &Snapshot, dice: &mut Dice, counts: &mut Counts) {
    let namespace = dice.percent(40).then(|| small::space(dice));
    let namespace = namespace.as_deref();
    let [(p, p_state), (t, t_state)] = [&PROVED, &TWIN].map(|way| listed(way, &regions(s), &space(namespace)));
    let n = naturally_listed(s, namespace);
    assert!(p.len() == t.len() && p.len() == n.len() && p_state == t_state, "listings of other lengths, or that leave other states");
    for (k, ((p, t), n)) in p.into_iter().zip(t).zip(n).enumerate() {
        counts.add(same(|| format!("entry {k} of a listing in {namespace:?}"), [p, t, n]));
    }
}

fn names(dice: &mut Dice, counts: &mut Counts) {
    let mut name = if dice.percent(50) { small::sought(dice) } else { small::space(dice) };
    let at = dice.below(name.len());
    if dice.percent(50) {
        name[at] = dice.byte();
    }
    let natural = [natural::partial_name(&name), natural::full_name(&name), natural::namespace(&name)];
    let numbers = |way: &Calls| [(way.partial_name)(&name), (way.full_name)(&name), (way.namespace)(&name)];
    for ((p, t), n) in numbers(&PROVED).into_iter().zip(numbers(&TWIN)).zip(natural) {
        let what = || format!("the name {:?}", String::from_utf8_lossy(&name));
        counts.add(same(what, [p, t, n.err().unwrap_or(0)].map(record::bare)));
    }
}

pub fn all() {
    let mut dice = Dice::new(7);
    let mut counts: [Counts; 5] = Default::default();
    let [fits, finds, follows, lists, checks] = &mut counts;
    changed(false, &mut crate::references::ids(1, 16), fits);
    changed(true, &mut crate::references::ids(4, 16), fits);
    for _ in 0..10_000 {
        let (worktree, common, packed) = (small::region(&mut dice, false), small::region(&mut dice, false), small::region(&mut dice, true));
        let s = &Snapshot { worktree: &worktree, common: dice.percent(75).then_some(&common), packed: &packed };
        (0..10).for_each(|_| searches(s, &mut dice, finds, follows));
        (0..4).for_each(|_| listings(s, &mut dice, lists));
        (0..10).for_each(|_| names(&mut dice, checks));
    }
    for (what, counts) in ["fitness", "find", "follow", "list", "names"].into_iter().zip(&counts) {
        counts.tell(what);
    }
}
