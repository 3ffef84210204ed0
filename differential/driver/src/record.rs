//! A sample of questions with the supplied Rust's answers, for readers that have no Rust at hand.
use std::{
    fs::{self, File},
    io::{self, Write},
    path::Path,
};

use crate::{
    compare::{self, Asked, Counts},
    generate::{self, Style},
    oracle::By,
    rng::Rng,
    snapshot::{Case, Question},
    text,
};

/// The two files, made before root is given up.
pub struct Output {
    questions: File,
    answers: File,
}

impl Output {
    pub fn create(dir: &Path) -> io::Result<Self> {
        fs::create_dir_all(dir)?;
        Ok(Output { questions: File::create(dir.join("questions"))?, answers: File::create(dir.join("answers"))? })
    }
}

/// Small snapshots, since a block is a thousand digits; now and then room for a long chain.
fn style(rng: &mut Rng) -> Style {
    Style { blocks: if rng.percent(25) { 8 } else { 3 }, names: 14, namespaces: 45, odd: 100 }
}

const START: &str = "worktree -\ncommon ~\npacked ~\nnamespace ~\n";

/// Write about `limit` bytes; false if a kind of question or a number is missing.
pub fn record(scratch: &Path, seed: u64, limit: usize, mut out: Output) -> io::Result<bool> {
    let mut rng = Rng::new(seed, u64::MAX);
    let (mut questions, mut answers) = (START.to_owned(), String::new());
    let mut counts = Counts::default();
    loop {
        let style = style(&mut rng);
        let case = generate::case(&mut rng, style);
        let asked = sample(compare::ask_rust(&scratch.join("record"), &case, &mut counts)?);
        let (q, a) = lines(&case, &asked);
        if questions.len() + answers.len() + q.len() + a.len() > limit {
            break;
        }
        if case.snapshot.fit() && worth(&asked) && (has_rare(&asked) || rng.percent(40)) {
            questions += &q;
            answers += &a;
        }
    }
    out.questions.write_all(questions.as_bytes())?;
    out.answers.write_all(answers.as_bytes())?;
    Ok(complete(&questions, &answers))
}

/// Only what the Rust itself answers, without listings, whose positions it does not have; each question once.
fn sample(asked: Vec<Asked>) -> Vec<Asked> {
    let mut out: Vec<Asked> = Vec::new();
    for a in asked {
        let new = !out.iter().any(|o| o.line == a.line && o.namespace == a.namespace);
        if a.expected.by == By::Rust && a.question != Question::List && new {
            out.push(a);
        }
    }
    out
}

/// Half of the searches or more find something or are refused.
fn worth(asked: &[Asked]) -> bool {
    let searches = asked.iter().filter(|a| a.question.kind() < 2);
    let found = searches.clone().filter(|a| a.expected.lines[0] != "absent").count();
    2 * found >= searches.count()
}

/// Some answer is one of the rarer refusals.
fn has_rare(asked: &[Asked]) -> bool {
    asked.iter().any(|a| matches!(text::refusal(&a.expected.lines[0]), Some(9 | 12 | 14 | 15)))
}

fn lines(case: &Case, asked: &[Asked]) -> (String, String) {
    let questions = compare::questions(&case.snapshot, asked);
    let questions = questions.strip_suffix("mark\n").expect("it ends so").to_owned();
    let answers = asked.iter().map(|a| a.expected.lines[0].clone() + "\n").collect();
    (questions, answers)
}

/// Every kind of question that the Rust answers, and each of 4 and 9 to 15.
fn complete(questions: &str, answers: &str) -> bool {
    let kinds = Question::KINDS[..10].iter().filter(|k| **k != "list");
    let asked = |kind: &str| questions.lines().any(|l| l.split(' ').next() == Some(kind));
    let reached = |n: usize| answers.lines().any(|l| text::refusal(l) == Some(n));
    let missing: Vec<String> = kinds
        .filter(|k| !asked(k))
        .map(ToString::to_string)
        .chain([4, 9, 10, 11, 12, 13, 14, 15].into_iter().filter(|n| !reached(*n)).map(|n| n.to_string()))
        .collect();
    println!("{} questions answered, {} bytes in all", answers.lines().count(), questions.len() + answers.len());
    if !missing.is_empty() {
        println!("missing: {}", missing.join(", "));
    }
    missing.is_empty()
}
