//! What a run has reached.
use std::time::Duration;

use crate::{compare::Counts, features::FEATURES, snapshot::Question};

/// A run of this many comparisons must reach each of 9 to 15 this often.
const FULL: u64 = 1_000_000;
const OFTEN: u64 = 1_000;

/// Print the counts; says whether a full run has reached every number often enough.
pub fn print(c: &Counts, seed: u64, count: u64, took: Duration) -> bool {
    let seconds = took.as_secs_f64();
    let Counts { snapshots, fit, sought, .. } = c;
    println!("seed {seed}, {snapshots} snapshots, {fit} of them fit for search, {seconds:.0} s");
    println!("of {sought} snapshots each listed name was sought\n");
    row("question", ["compared", "in namespace", "absent"], "refusals");
    for (kind, name) in Question::KINDS.iter().enumerate().filter(|(k, _)| c.compared[*k] > 0) {
        let numbers = [c.compared[kind], c.in_namespace[kind], c.absent[kind]];
        row(name, numbers.map(|n| n.to_string()), &refusals(&c.refused[kind]));
    }
    let sums = [c.total(), c.in_namespace.iter().sum(), c.absent.iter().sum()];
    let rate = format!("{:.0} comparisons a second", c.total() as f64 / seconds);
    row("all", sums.map(|n| n.to_string()), &rate);
    print_features(c);
    print_apart(c);
    covered(c, count)
}

fn row(name: &str, numbers: [impl AsRef<str>; 3], rest: &str) {
    let [a, b, c] = numbers;
    println!("{name:10} {:>9} {:>13} {:>9}  {rest}", a.as_ref(), b.as_ref(), c.as_ref());
}

fn refusals(of: &[u64]) -> String {
    let some = of.iter().enumerate().filter(|(_, n)| **n > 0);
    some.map(|(number, n)| format!("{number}: {n}")).collect::<Vec<_>>().join(", ")
}

fn print_features(c: &Counts) {
    println!("\nsnapshots with");
    for ((name, _), n) in FEATURES.iter().zip(c.features) {
        println!("  {name:48} {n:>7}");
    }
    println!();
}

/// What the table does not say.
fn print_apart(c: &Counts) {
    println!("steps of listings compared: {}", c.steps);
    println!("demand 2's exception met, and compared all the same: {}", c.into_peeled);
    println!("besides, by document 01 alone (3, 5, 7, 8 and fitness): {}", c.document);
    println!("besides, by the stand-in for gix-validate (well formed, complete): {}", c.stand_in);
    println!("left out, where the Rust does not tell 3 from 4: {}", c.left_out);
}

fn covered(c: &Counts, count: u64) -> bool {
    let of: Vec<String> = (9..=15).map(|n| format!("{n}: {}", c.reached(n))).collect();
    println!("refusals of search, following and listing together: {}", of.join(", "));
    let short: Vec<usize> = (9..=15).filter(|n| count >= FULL && c.reached(*n) < OFTEN).collect();
    if !short.is_empty() {
        println!("FAILED: reached fewer than {OFTEN} times: {short:?}");
    }
    short.is_empty()
}
