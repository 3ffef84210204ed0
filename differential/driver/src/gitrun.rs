//! The run against git.
use std::{collections::BTreeMap, io, path::Path, slice};

use crate::{
    corners,
    generate::{self, Style},
    git::{self, Git},
    gititems::{full_names, list_items, names_items, namespace_items, search_items},
    gitrules::{CHECK, Item, LIST, OFFER, RULES, SEARCH, Way},
    layout::Layout,
    names,
    parallel::{self, BATCHES_A_ROUND},
    replay::Replay,
    rng::Rng,
    shrink,
    snapshot::{Case, Snapshot},
};

const CASES_A_BATCH: usize = 20;
const STYLE: Style = Style { blocks: 12, names: 16, namespaces: 30, odd: 10 };

#[derive(Default)]
struct Counts {
    /// By question: agreed, and differed by a rule.
    agreed: BTreeMap<&'static str, u64>,
    ruled: BTreeMap<(&'static str, usize), u64>,
    failures: Vec<String>,
}

impl Counts {
    fn total(&self) -> u64 {
        self.agreed.values().sum::<u64>() + self.ruled.values().sum::<u64>()
    }

    fn add(&mut self, o: Counts) {
        o.agreed.into_iter().for_each(|(k, n)| *self.agreed.entry(k).or_default() += n);
        o.ruled.into_iter().for_each(|(k, n)| *self.ruled.entry(k).or_default() += n);
        self.failures.extend(o.failures);
    }
}

pub fn run(scratch: &Path, replay: &Replay, seed: u64, count: u64) -> io::Result<bool> {
    let git = Git::new(scratch)?;
    println!("{}, seed {seed}", git.version()?);
    let mut failures = smallest(&scratch.join("smallest"), &git, replay)?;
    if !git.packs_alike()? {
        failures.push("packed-refs: git writes it otherwise than it is laid out here".into());
    }
    let mut counts = Counts { failures, ..Counts::default() };
    let mut first = 0;
    while counts.total() < count && counts.failures.is_empty() {
        let done = parallel::round(first, |thread, number| {
            batch(&scratch.join(thread.to_string()), &git, replay, &mut Rng::new(seed, number))
        })?;
        done.into_iter().for_each(|more| counts.add(more));
        first += BATCHES_A_ROUND;
    }
    Ok(report(&counts))
}

fn batch(dir: &Path, git: &Git, replay: &Replay, rng: &mut Rng) -> io::Result<Counts> {
    let mut counts = Counts::default();
    for _ in 0..CASES_A_BATCH {
        let mut case = generate::case(rng, STYLE);
        if case.snapshot.fit() {
            git::adapt(&mut case.snapshot, &git.ids);
            one(dir, git, replay, &case, rng, &mut counts)?;
        }
    }
    Ok(counts)
}

fn one(dir: &Path, git: &Git, replay: &Replay, case: &Case, rng: &mut Rng, counts: &mut Counts) -> io::Result<()> {
    let s = &case.snapshot;
    let layout = Layout::new(dir, s)?;
    git::complete(&layout)?;
    let names = (0..3).map(|_| names::bytes(rng)).filter(|n| !n.contains(&0)).collect();
    let mut items = names_items(git, replay, names)?;
    items.extend(search_items(git, replay, &layout, s, &full_names(case))?);
    items.extend(list_items(git, replay, &layout, s)?);
    for namespace in case.groups.iter().filter_map(|g| g.namespace.as_ref()) {
        items.extend(namespace_items(git, replay, &layout, s, namespace)?);
    }
    for item in items {
        if item.ours == item.git {
            *counts.agreed.entry(item.question).or_default() += 1;
            continue;
        }
        match Way::new(s, &item).explain(&item) {
            Some(rule) => *counts.ruled.entry((item.question, rule)).or_default() += 1,
            None => counts.failures.push(show(s, &item)),
        }
    }
    Ok(())
}

fn show(s: &Snapshot, item: &Item) -> String {
    format!(
        "{} `{}`: ours {}, git {}\n{}",
        item.question,
        item.name.escape_ascii(),
        item.ours,
        item.git,
        shrink::show_snapshot(s)
    )
}

/// For each rule its smallest input, as in docs/DIFFERENCES.md, and the question in which it shows.
const SMALLEST: [(&str, &[&str], &str, &str); RULES.len()] = [
    ("leading dash", &[], CHECK, "-a"),
    ("dangling", &["w:refs/a=ref: refs/b"], LIST, "refs/a"),
    ("shared in worktree", &["w:refs/heads/a=#1", "c:"], LIST, "refs/heads/a"),
    ("packed HEAD", &["p:HEAD=#1"], LIST, "HEAD"),
    ("contents", &["w:refs/a=ref:refs/b", "w:refs/b=#1"], SEARCH, "refs/a"),
    ("worktree names", &["w:refs/heads/a=#1"], SEARCH, "main-worktree/refs/heads/a"),
    ("packed private", &["p:refs/worktree/a=#1"], SEARCH, "refs/worktree/a"),
    ("as it stands", &["w:refs/a=ref: tags/b", "w:tags/b=#1"], SEARCH, "refs/a"),
    ("candidates", &["w:tags/refs/a=#1"], SEARCH, "refs/a"),
    ("crash", &["w:NHEAD=ref: refs/a", "w:refs/a=#1"], OFFER, "refs/namespaces/n/"),
    ("malformed", &["w:Nrefs/a b=#1"], OFFER, "refs/namespaces/n/refs/a b"),
    ("namespace", &["w:Ntags/a=#1"], OFFER, "refs/namespaces/n/tags/a"),
    ("seeks on", &["w:HEAD=ref: refs/a", "w:refs/tags/HEAD=#1"], SEARCH, "HEAD"),
];

/// Show each rule on its smallest input; gives those that do not differ there, or by another rule.
fn smallest(dir: &Path, git: &Git, replay: &Replay) -> io::Result<Vec<String>> {
    let mut wrong = Vec::new();
    for (rule, held, question, name) in SMALLEST {
        let mut s = corners::snapshot(held);
        git::adapt(&mut s, &git.ids);
        let layout = Layout::new(dir, &s)?;
        git::complete(&layout)?;
        let name = name.as_bytes().to_vec();
        let items = match question {
            CHECK => names_items(git, replay, vec![name.clone()])?,
            LIST => list_items(git, replay, &layout, &s)?,
            OFFER => namespace_items(git, replay, &layout, &s, &b"n".to_vec())?,
            _ => search_items(git, replay, &layout, &s, slice::from_ref(&name))?,
        };
        let item = items.iter().find(|i| i.question == question && i.name == name);
        let explained = item.filter(|i| i.ours != i.git).and_then(|i| Way::new(&s, i).explain(i));
        if explained.map(|place| RULES[place].name) != Some(rule) {
            wrong.push(format!("{rule}: not shown by its smallest input\n{}", shrink::show_snapshot(&s)));
        }
    }
    Ok(wrong)
}

fn report(c: &Counts) -> bool {
    println!("agreed:");
    for (question, n) in &c.agreed {
        println!("  {question:18} {n}");
    }
    println!("known differences:");
    for ((question, rule), n) in &c.ruled {
        println!("  {question:18} {:18} {n}", RULES[*rule].name);
    }
    for rule in &RULES {
        println!("  {:18} {}", rule.name, rule.text);
    }
    for f in &c.failures {
        println!("DIFFERENCE {f}");
    }
    println!("{} comparisons, {} differences on no list", c.total(), c.failures.len());
    c.failures.is_empty()
}
