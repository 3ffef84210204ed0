//! Arbitrary inputs through the C boundary: is nothing touched but what may be, and does the twin answer the same? See docs/ROBUSTNESS.md.
mod call;
mod check;
mod fault;
mod lent;
mod memory;
mod names;
mod outputs;
mod regions;
mod shape;
mod tally;
mod valgrind;

use call::Call;
use harness::dice::Dice;
use harness::PROVED;
use lent::{Inputs, Outputs};
use std::process::ExitCode;
use std::time::Instant;
use tally::Tally;

/// How many calls are made of one snapshot.
const CALLS: u64 = 12;

/// Which call is next: the listing's step and the searches most often.
fn choose(dice: &mut Dice) -> Call {
    match dice.below(100) {
        0..=26 => Call::Find,
        27..=51 => Call::Follow,
        52..=58 => Call::Fitness,
        59..=64 => Call::ListOpen,
        65..=90 => Call::ListStep,
        91..=93 => Call::PartialName,
        94..=96 => Call::FullName,
        _ => Call::Namespace,
    }
}

fn run(seed: u64, count: u64) -> bool {
    let (mut inputs, mut outputs) = (Inputs::new(), Outputs::new());
    let (mut tally, mut dice) = (Tally::default(), Dice::new(seed));
    for case in 0..count {
        if case % CALLS == 0 {
            inputs.put_regions(&mut dice, &mut tally);
        }
        let call = choose(&mut dice);
        inputs.put_names(&mut dice, call, &mut tally);
        outputs.put(&mut dice, call, &mut tally);
        let given = inputs.given();
        let twin = check::expected(&given, &outputs, call);
        fault::at(case, call);
        let number = call.make(&PROVED, &given, outputs.state.lent(), outputs.out.lent());
        if let Err(why) = check::check(&given, &mut outputs, call, number, &twin) {
            eprintln!("case {case}: cosvint_{}: {why}", call.word());
            check::explain(&given, &mut outputs, call, &twin);
            return false;
        }
        tally.answer(call, number);
    }
    tally.print();
    tally.complete()
}

fn number(word: Option<String>, default: u64) -> u64 {
    word.map_or(default, |w| w.parse().unwrap_or_else(|_| panic!("not a number: {w}")))
}

fn main() -> ExitCode {
    let mut words = std::env::args().skip(1);
    let (seed, count) = (number(words.next(), 1), number(words.next(), 5_000_000));
    fault::tell();
    let how = if valgrind::is_running() { ", under valgrind" } else { "" };
    println!("seed {seed}, {count} calls{how}");
    let start = Instant::now();
    if !run(seed, count) {
        println!("failed: seed {seed}, {count} calls{how}");
        return ExitCode::FAILURE;
    }
    println!("all as the twin answers, nothing touched that may not be; {} seconds", start.elapsed().as_secs());
    ExitCode::SUCCESS
}
