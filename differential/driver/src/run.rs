//! The run against the supplied Rust.
use std::{io, path::Path, time::Instant};

use crate::{
    agree,
    compare::{self, Counts, Difference},
    corners, cuts,
    generate::{self, Style},
    parallel::{self, BATCHES_A_ROUND},
    replay::Replay,
    report,
    rng::Rng,
    shrink,
    snapshot::Case,
};

const CASES_A_BATCH: usize = 100;
const STYLE: Style = Style { blocks: 12, names: 16, namespaces: 45, odd: 100 };
/// Every eighth batch. `replay` takes 40 blocks a region.
const LARGE: Style = Style { blocks: 18, names: 24, ..STYLE };
/// Differences that are made small and shown.
const SHOWN: usize = 3;

pub fn run(scratch: &Path, replay: &Replay, seed: u64, count: u64) -> io::Result<bool> {
    let started = Instant::now();
    let corners = corners::run(&scratch.join("corner"), replay)?;
    match &corners {
        Ok(number) => println!("{number} cases written by hand, answered on both sides as they say"),
        Err(text) => println!("DIFFERENCE in a case written by hand\n  {text}"),
    }
    let cuts = cuts::run(scratch, replay, seed, count)?;
    match &cuts {
        Ok(line) => println!("{line}"),
        Err(text) => println!("DIFFERENCE among the cuts\n{text}"),
    }
    let agree = agree::run(scratch, replay, seed, count)?;
    match &agree {
        Ok(line) => println!("{line}"),
        Err(text) => println!("DIFFERENCE between list and search\n{text}"),
    }
    let (mut counts, mut differences) = (Counts::default(), Vec::new());
    let mut first = 0;
    while counts.total() < count && differences.is_empty() {
        let done = parallel::round(first, |thread, number| {
            let style = if number % 8 == 7 { LARGE } else { STYLE };
            batch(&scratch.join(thread.to_string()), replay, &mut Rng::new(seed, number), style)
        })?;
        for (more, difference) in done {
            counts.add(&more);
            differences.extend(difference);
        }
        first += BATCHES_A_ROUND;
    }
    for d in differences.iter().take(SHOWN) {
        let small = shrink::shrink(&scratch.join("shrink"), replay, d.clone());
        println!("DIFFERENCE\n{}", shrink::show(&small));
    }
    let covered = report::print(&counts, seed, count, started.elapsed());
    println!("{} differences", differences.len());
    Ok(differences.is_empty() && covered && corners.is_ok() && cuts.is_ok() && agree.is_ok())
}

/// Ask both about all cases of a batch; the comparison ends with the first difference.
fn batch(dir: &Path, replay: &Replay, rng: &mut Rng, style: Style) -> io::Result<(Counts, Option<Difference>)> {
    let mut cases: Vec<Case> = (0..CASES_A_BATCH).map(|_| generate::case(rng, style)).collect();
    let sought: Vec<usize> = cases.iter_mut().map(seek_listed).collect();
    let mut counts = Counts::default();
    let asked = cases.iter().map(|c| compare::ask_rust(dir, c, &mut counts)).collect::<io::Result<Vec<_>>>()?;
    let questions: String = cases.iter().zip(&asked).map(|(c, a)| compare::questions(&c.snapshot, a)).collect();
    let answers = replay.ask(questions)?;
    let mut lines = answers.lines();
    for ((case, asked), sought) in cases.iter().zip(&asked).zip(sought) {
        if let Err(d) = compare::compare(&case.snapshot, asked, &mut lines, &mut counts) {
            return Ok((counts, Some(*d)));
        }
        counts.sought += u64::from(sought > 0);
        if let Some(d) = agree::unlike(&case.snapshot, &asked[asked.len() - sought..]) {
            return Ok((counts, Some(d)));
        }
    }
    match lines.next() {
        None => Ok((counts, None)),
        Some(line) => Err(io::Error::other(format!("after the last answer: {line:?}"))),
    }
}

/// Where list and search are to agree, each listed name is sought too; gives the number of questions.
fn seek_listed(case: &mut Case) -> usize {
    let group = agree::questions(&case.snapshot);
    let added = group.as_ref().map_or(0, |group| group.questions.len());
    case.groups.extend(group);
    added
}
