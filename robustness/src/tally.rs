//! How often each call gave each number, and how much of what was fed.
use crate::call::Call;
use std::collections::BTreeMap;

/// Every number that a call can give.
const NUMBERS: [u32; 18] = [0, 1, 2, 3, 4, 5, 6, 7, 8, 9, 10, 11, 12, 13, 14, 15, 100, 101];

#[derive(Default)]
pub struct Tally {
    answers: BTreeMap<(Call, u32), u64>,
    fed: BTreeMap<(&'static str, &'static str), u64>,
}

impl Tally {
    pub fn answer(&mut self, call: Call, number: u32) {
        *self.answers.entry((call, number)).or_default() += 1;
    }

    pub fn fed(&mut self, what: &'static str, kind: &'static str) {
        *self.fed.entry((what, kind)).or_default() += 1;
    }

    fn given(&self, call: Call, number: u32) -> u64 {
        self.answers.get(&(call, number)).copied().unwrap_or(0)
    }

    /// The numbers that a call may give and did not.
    fn missed(&self) -> Vec<String> {
        let due = Call::ALL.iter().flat_map(|call| call.numbers().iter().map(move |n| (*call, *n)));
        due.filter(|(call, n)| self.given(*call, *n) == 0).map(|(call, n)| format!("{} {n}", call.word())).collect()
    }

    pub fn print(&self) {
        print!("{:>6}", "number");
        Call::ALL.iter().for_each(|call| print!("{:>14}", call.word()));
        println!();
        for n in NUMBERS {
            print!("{n:>6}");
            Call::ALL.iter().for_each(|call| match call.numbers().contains(&n) {
                true => print!("{:>14}", self.given(*call, n)),
                false => print!("{:>14}", "-"),
            });
            println!();
        }
        let sums: BTreeMap<&str, u64> = self.fed.iter().fold(BTreeMap::new(), |mut sums, ((what, _), n)| {
            *sums.entry(*what).or_default() += n;
            sums
        });
        for ((what, kind), n) in &self.fed {
            println!("fed {:>5.1}% {what}: {kind} ({n})", 100.0 * *n as f64 / sums[what] as f64);
        }
    }

    /// Whether every number of every call was reached.
    pub fn complete(&self) -> bool {
        let missed = self.missed();
        if !missed.is_empty() {
            println!("never given: {}", missed.join(", "));
        }
        missed.is_empty()
    }
}
